"""Runs a program under tools/refuse.c, which refuses what is wished and counts."""
import os
import typing

from testing import TOP, run

# The counts of the last run, by what they count.
COUNTS = ("memory", "read", "write")


class Ended(typing.NamedTuple):
    """How a run ended: its status, what it wrote, and how often it asked for what."""

    status: int
    output: bytes
    error: bytes
    asked: dict

    def __str__(self):
        return f"status {self.status}, {shown(self.output)}, {shown(self.error)}"


def shown(text):
    """Bytes, cut where they are many."""
    return repr(text) if len(text) <= 90 else f"{text[:60]!r}.. of {len(text)} bytes"


def compile_c(name, output, *words):
    """Compiles a C file of tools/."""
    run("cc", "-O2", "-Wall", *words, "-o", output, TOP / "tools" / name)


def compile_shim(folder):
    """Compiles the shim as `refuse.so` of a folder."""
    compile_c("refuse.c", f"{folder}/refuse.so", "-shared", "-fPIC")


def enter(folder):
    """Goes to a folder of this process below the one of the shim. The shim is named from there, since a blank or a colon in
    its name would cut it in two."""
    own = f"{folder}/{os.getpid()}"
    os.makedirs(own, exist_ok=True)
    os.chdir(own)


def read(path):
    with open(path, "rb") as file:
        return file.read()


def run_again(program, words, **wishes):
    """Runs a program with these words on the file `given`, in the folder of this process."""
    environment = {"LD_PRELOAD": "../refuse.so", "REFUSE_TELL": "told", **{name: str(wish) for name, wish in wishes.items()}}
    put = os.O_WRONLY | os.O_CREAT | os.O_TRUNC
    files = [(os.POSIX_SPAWN_OPEN, 0, "given", os.O_RDONLY, 0)]
    files += [(os.POSIX_SPAWN_OPEN, number, name, put, 0o600) for number, name in ((1, "output"), (2, "error"))]
    with open("told", "wb"):
        pass
    child = os.posix_spawn(program, [program, *words], environment, file_actions=files)
    status = os.waitstatus_to_exitcode(os.waitpid(child, 0)[1])
    told = [int(count) for count in read("told").split()] or [0, 0, 0]
    return Ended(status, read("output"), read("error"), dict(zip(COUNTS, told)))
