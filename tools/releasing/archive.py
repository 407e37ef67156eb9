"""The static library of the proved crate legumeyet_c, for every processor of a machine."""
import os
import subprocess
import sys

from launching import building, kit, sources
from launching.common import TOP, Fault, out_of, read_text, write_whole

from .machines import X86

CRATE = "legumeyet_c"
# What a build proved, so that the one for the next machine only compiles: a proof is of no machine.
PROVED = f"{out_of(CRATE)}/proved"


def path_of(machine):
    """The path of the library for a machine."""
    folder = out_of(CRATE) if machine is X86 else f"{out_of(CRATE)}/{machine.debian}"
    return f"{folder}/lib{CRATE}.a"


def rlib(crate):
    """The folder of a library of this repository, as it was built."""
    return f"{out_of(crate)}/rlib/{crate}.rlib"


def are_of_gate():
    """Whether `rt ci` built the libraries below the crate, of sources that nobody has touched since it began."""
    start = sources.start_of_gate()
    built = [rlib(it) for it in sources.below(CRATE)]
    is_new = all(os.path.isfile(f"{it}/format") and os.stat(it).st_mtime_ns >= start for it in built)
    return is_new and all(max(modified, changed) < start for _, _, _, modified, changed in sources.state(CRATE))


def command(toolchain, machine):
    """What proves and builds the crate for every processor of a machine, over the libraries below it: `rt lib` has no word for a processor."""
    words = ["--crate-name", CRATE, "--crate-type", "staticlib", "src/lib.rt", "--links", f"{CRATE}="]
    words += ["--target", machine.target, "--cpu", machine.processor]
    for name in ["std", *sources.listed()[CRATE]]:
        words += ["--extern", f"{name}={rlib(name) if name in sources.listed() else f'{kit.folder()}/rlibs/{name}.rlib'}"]
    for folder in [f"{kit.folder()}/rlibs", *[os.path.dirname(rlib(it)) for it in sources.below(CRATE)]]:
        words += ["-L", f"dependency={folder}"]
    words += ["--antt-project", f"{kit.folder()}/rattle/logic/antt-project.json", "--logic-built", f"{kit.folder()}/logic_built"]
    words += ["--incremental", PROVED]
    words += ["--jobs", "2", "--toolchain", str(toolchain or f"{kit.folder()}/toolchain"), "-o", path_of(machine)]
    return [f"{kit.folder()}/bin/rattle", "build", *words]


def key(machine):
    """What tells of which sources, and for which processor, a file is made."""
    return f"{sources.key(CRATE, sources.checksums(CRATE))} {machine.processor}\n"


def is_made(path, machine=X86):
    """Whether a file was made of the sources as they are."""
    return os.path.isfile(path) and read_text(f"{path}.sources") == key(machine)


def note_made(path, machine=X86):
    """Notes that a file is made of the sources as they are."""
    write_whole(f"{path}.sources", key(machine))


def build(toolchain=None, machine=X86):
    """Proves and builds the crate, and first the libraries below it where that is needed; by the kit's tools, or by those of a folder."""
    kit.folder()
    if not are_of_gate():
        building.build_libraries(CRATE)
    words, before = command(toolchain, machine), sources.state(CRATE)
    os.makedirs(os.path.dirname(path_of(machine)), exist_ok=True)
    ran = subprocess.run(words, cwd=f"{TOP}/crates/{CRATE}", stdin=subprocess.DEVNULL, stdout=sys.stderr, check=False)
    if ran.returncode or sources.state(CRATE) != before:
        raise Fault(f"{CRATE} was not built" if ran.returncode else "a source was touched while the build went on: call it again")
    note_made(path_of(machine), machine)


def proved(machine=X86):
    """The path of the library, proved and built where it is not built of the sources as they are."""
    if not is_made(path_of(machine), machine):
        build(machine=machine)
    return path_of(machine)
