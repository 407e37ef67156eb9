"""The package for JavaScript: its files, the licences of what is inside, and the tar that `npm install` takes."""
import base64
import gzip
import json

from launching.common import Fault
from releasing.common import TOP, committed, version, write_tar
from releasing.notices import licences

from .joining import with_joined
from .module import OF_PAGE, WHOLE
from .sections import HEAD

NAME = "legumeyet"
LEFT_OUT = ("module/", "tests/", "example.js", "intl-example.js")
LOCALES = TOP / "books/world-locales.txt"
LOCALES_TEXT = "// The tags of the locales of the world's book, in order.\nexport default {tags};\n"
INSIDE_TEXT = "// The files of the package in base64, by gzip.\n{texts}"


def stamped_manifest(text, homepage):
    """package.json, with the version of packages, in the form that npm takes: what follows a `+` says that a file was changed."""
    manifest = json.loads(text)
    manifest["version"] = version()
    if homepage:
        manifest["homepage"] = homepage
    return json.dumps(manifest, indent=2, ensure_ascii=False).encode() + b"\n"


def packed(data):
    """A file in a text: base64 of what gzip makes of it, the same each time."""
    return base64.b64encode(gzip.compress(data, 9, mtime=0)).decode()


def files_of(modules, homepage=None):
    """The files of the package, by their paths. The modules are in a folder."""
    files = with_joined({name: data for name, data in committed("js").items() if not name.startswith(LEFT_OUT)})
    files["package.json"] = stamped_manifest(files["package.json"], homepage)
    for name in (WHOLE, OF_PAGE):
        files[name] = (modules / name).read_bytes()
        if not files[name].startswith(HEAD):
            raise Fault(f"{modules / name} is no WebAssembly module")
    files["world.json"] = (TOP / "books/world.json").read_bytes()
    inside = {"module": files[WHOLE], "world": files["world.json"]}
    texts = "".join(f'export const {name} = "{packed(data)}";\n' for name, data in inside.items())
    files["files.js"] = INSIDE_TEXT.format(texts=texts).encode()
    files["locales.js"] = LOCALES_TEXT.format(tags=json.dumps(LOCALES.read_text(encoding="ascii").split(), indent=1)).encode()
    return {**files, **licences()}


def write_package(path, files):
    """Writes the tar of the files, as npm has it."""
    write_tar(path, "package", files)
