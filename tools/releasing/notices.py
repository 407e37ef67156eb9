"""What of the kit is inside the library and the command, and the notices that go with their copies."""
import functools
import pathlib
import re

from launching import kit, sources
from launching.common import NO_KIT, RT, Fault

from .common import TOP

FOLDER, LIST = "LICENSES", "INSIDE.md"
INSIDE = {"legumeyet_c": "library", "legumeyet": "command"}
PAGE = """\
# What is inside

The library and the command of Legumeyet are compiled of its own crates, under `LICENSE`, of the tables of CLDR, under `LICENSE-Unicode`, and of the
crates of the Rattle kit, here {kit}, that are listed below. Many of those are ports of Rust crates. Where the kit has a port under two
licences, it is here under the MIT licence. In a package the files that are named, the kit's own, are in folders beside this page.

| Crate of the kit | Inside | What it says of itself | Files |
|---|---|---|---|
{rows}
"""


@functools.lru_cache
def kit_folder():
    """The folder of the kit, or None where it is not installed."""
    try:
        return pathlib.Path(kit.folder())
    except Fault:
        return None


def below(name):
    """The crates that one uses, of the repository or of the kit."""
    if name in sources.listed():
        return ["std", *sources.listed()[name]]
    text = (kit_folder() / f"rlibs/{name}.rlib/format").read_text(encoding="utf-8")
    return re.findall(r"^dep (\S+)$", text, re.M)


def inside(top):
    """The crates of the kit below a crate."""
    found, left = set(), [top]
    while left:
        name = left.pop()
        if name not in found:
            found.add(name)
            left += below(name)
    return found - set(sources.listed())


def texts_of(name):
    """The licences of a crate of the kit, by their files: of a choice of two that of MIT."""
    files = sorted((kit_folder() / "rattle" / name).glob("LICENSE*"))
    if any(it.name == "LICENSE-MIT" for it in files):
        files = [it for it in files if it.name != "LICENSE-APACHE"]
    return {it.name: it.read_bytes() for it in files}


def words_of(name):
    """What the README of a crate of the kit says of where it is from."""
    path = kit_folder() / "rattle" / name / "README.md"
    text = " ".join(path.read_text(encoding="utf-8").split()) if path.is_file() else ""
    found = re.search(r"Rust crate `(\w+)` ([\d.]*\d)(?: \(([^),;`]*)[^)]*\))?", text)
    if found:
        return f"after the Rust crate {found[1]} {found[2]}{f', {found[3].strip()}' if found[3] else ''}"
    return "after a Rust crate" if texts_of(name) else "of the kit's own"


def made():
    """The files of LICENSES as the kit has them, by name."""
    parts = {name: inside(top) for top, name in INSIDE.items()}
    files, rows = {}, []
    for name in sorted(set().union(*parts.values())):
        texts = texts_of(name)
        files.update({f"{name}/{file}": text for file, text in texts.items()})
        where = " and ".join(it for it in INSIDE.values() if name in parts[it])
        named = ", ".join(f"`{name}/{file}`" for file in texts) or "the kit has none"
        rows.append(f"| `{name}` | {where} | {words_of(name)} | {named} |")
    files[LIST] = PAGE.format(rows="\n".join(rows), kit=kit.name()).encode()
    return files


def check():
    """Raises a Fault where the list is not as the kit has it, or there is no kit. Says so where the list is that of another kit."""
    ours = (TOP / FOLDER / LIST).read_bytes()
    if f"here {kit.name()}, ".encode() not in ours:
        print(f"not looked at: {FOLDER}/{LIST} is the list of another kit than {kit.name()}")
    elif ours != made()[LIST]:
        raise Fault(f"{FOLDER}/{LIST} is not as the kit has it: tools/notices --write makes it")


def write():
    """Writes the list again. Raises a Fault without the kit."""
    if kit_folder() is None:
        raise Fault(NO_KIT)
    (TOP / FOLDER / LIST).write_bytes(made()[LIST])


def below_folder(folder):
    """The files of a folder, by their paths from it."""
    return {str(it.relative_to(folder)): it.read_bytes() for it in sorted(folder.rglob("*")) if it.is_file()}


def licences(library=None):
    """The licences of what is inside, by their names: that of the code, that of CLDR's data, of which the world's book is made, and those of
    the crates of the kit, with the list of them, in a folder. These are the kit's own; without the kit they are those that tools/build_c put
    beside a library."""
    files = {path.name: path.read_bytes() for path in (TOP / "LICENSE", TOP / "books/LICENSE-Unicode")}
    beside = pathlib.Path(library or TOP, FOLDER)
    texts = made() if kit_folder() is not None else below_folder(beside)
    if len(texts) < 2:
        raise Fault(f"the command {RT} of the Rattle kit is not on the PATH: its crates' licences are missing")
    return {**files, **{f"{FOLDER}/{name}": text for name, text in texts.items()}}
