"""The version of what is released, the commit that it is made of, tars, and commands that end in one line."""
import contextlib
import functools
import gzip
import io
import os
import pathlib
import re
import subprocess
import sysconfig
import tarfile

from launching.common import COMMAND, TOP, Fault

from .commands import first_lacking, lacking
from .machines import X86

TOP = pathlib.Path(TOP)
HEADER = TOP / "include/legumeyet.h"


def need(*commands):
    """Raises a Fault where one of the commands is not there. So what takes minutes is not begun."""
    lack = first_lacking(*commands)
    if lack:
        raise Fault(lack)


def fault_in(said):
    """The line of what a command said that tells why it failed: the first error, as compilers and linkers have it, or else the last line."""
    lines = said.strip().decode(errors="replace").splitlines() or ["it said nothing"]
    return next((it for it in lines if re.search(r"\berror:|\berror adding symbols|undefined reference", it)), lines[-1])


def said_by(*words, **how):
    """What a command says in its one line. Raises a Fault with the line that tells why where it fails."""
    words = [str(word) for word in words]
    try:
        ran = subprocess.run(words, cwd=TOP, stdin=subprocess.DEVNULL, stdout=subprocess.PIPE, stderr=subprocess.PIPE, check=False, **how)
    except FileNotFoundError:
        raise Fault(lacking(words[0])) from None
    if ran.returncode:
        why, name = fault_in(ran.stderr.strip() or ran.stdout), os.path.basename(words[0])
        raise Fault(why if why.startswith(f"{name}: ") else f"{name} failed: {why}")
    return ran.stdout.decode().strip()


def python_headers():
    """The folder of the headers of this Python. Raises a Fault where they are not installed."""
    include = sysconfig.get_paths()["include"]
    if not os.path.isfile(f"{include}/Python.h"):
        raise Fault(f"{include} has no Python.h: the headers of this Python are not installed; Debian has its own in the package python3-dev")
    return include


@functools.lru_cache
def commit(form):
    """What the last commit has, in a form of `git log`."""
    return said_by("git", "log", "-1", f"--format={form}")


@functools.lru_cache
def is_changed():
    """Whether a file of the commit was changed since."""
    return bool(said_by("git", "status", "--porcelain", "--untracked-files=no"))


@functools.lru_cache
def header_version():
    """The version of the header for C, with its minor number, as `1.0`."""
    text = HEADER.read_text(encoding="utf-8")
    return ".".join(re.search(rf"^#define LEGUMEYET_{name} (\d+)$", text, re.M)[1] for name in ("VERSION", "MINOR"))


@functools.lru_cache
def version():
    """The version of packages: that of the header, and how many commits there are up to this one. So each commit on another has a higher
    version. Where files were changed since, `+changed` is added."""
    return f"{header_version()}.{said_by('git', 'rev-list', '--count', 'HEAD')}{'+changed' if is_changed() else ''}"


def stamped(text):
    """The text of pyproject.toml or Cargo.toml, with the version of packages in place of its own, whose first number has to agree."""
    own = re.search(r'^version = "(\d+)[\d.]*"$', text, re.M)
    if not own or own[1] != header_version().partition(".")[0]:
        raise Fault(f"a version of the packages for Python and Rust is not that of {HEADER.relative_to(TOP)}")
    return f'{text[:own.start()]}version = "{version()}"{text[own.end():]}'


def committed(folder):
    """The files of the repository below a folder, by their paths from it. What git does not know is left out."""
    listed = said_by("git", "ls-files", "-z", "--", folder).split("\0")
    return {os.path.relpath(path, folder): (TOP / path).read_bytes() for path in listed if path}


def newest_glibc(file, machine):
    """The newest version of glibc that a program or a library asks for, as `2.34`."""
    named = said_by(machine.tool("objdump"), "-T", file)
    return max(re.findall(r"\bGLIBC_(\d+\.\d+)", named), key=lambda it: [int(number) for number in it.split(".")])


def program_of(named):
    """The path of the program that a word names, or of the proved command. Raises a Fault where it is not built of the sources as they are."""
    if named is None:
        return said_by(TOP / "locale_numbers", "--built", COMMAND)
    if not os.path.isfile(named):
        raise Fault(f"{named} is no file")
    return os.path.abspath(named)


def library_of(named, folder, archive=None, machine=X86):
    """The folder that a word names, or one with the library as tools/build_c makes it, of the archive of the proved crate or of another."""
    if named is not None:
        if not os.path.isfile(f"{named}/liblegumeyet.a"):
            raise Fault(f"{named} has no liblegumeyet.a: it is no folder of tools/build_c")
        return os.path.abspath(named)
    words = [*(["--archive", os.path.abspath(archive)] if archive else []), *([] if machine is X86 else [f"--{machine.debian}"])]
    made = folder / f"library-{machine.debian}"
    ran = subprocess.run([TOP / "tools/build_c", *words, made], stdin=subprocess.DEVNULL, check=False)
    if ran.returncode:
        raise Fault("tools/build_c made no library")
    return str(made)


@contextlib.contextmanager
def whole(path):
    """The path of a file beside its place, which is put there where all went well, and else removed: so there is never half of it."""
    part = f"{path}.{os.getpid()}.part"
    try:
        yield part
        os.replace(part, path)
    finally:
        if os.path.lexists(part):
            os.remove(part)


def compressed(data):
    """Bytes as gzip has them, without a time and a name."""
    raw = io.BytesIO()
    with gzip.GzipFile(filename="", mode="wb", compresslevel=9, fileobj=raw, mtime=0) as file:
        file.write(data)
    return raw.getvalue()


def write_tar(path, root, files):
    """Writes a tar of files, each by its name with its bytes, or with the name that a link leads to, below a folder of it."""
    raw, when = io.BytesIO(), int(commit("%ct"))
    with tarfile.open(fileobj=raw, mode="w", format=tarfile.USTAR_FORMAT) as tar:
        for name, data in sorted(files.items()):
            it = tarfile.TarInfo(f"{root}/{name}")
            it.mtime, it.mode = when, 0o644
            if isinstance(data, str):
                it.type, it.linkname, it.mode = tarfile.SYMTYPE, data, 0o777
                data = b""
            it.size = len(data)
            tar.addfile(it, io.BytesIO(data))
    path.write_bytes(compressed(raw.getvalue()))
