"""Which sources a program is made of, and whether a program that is there was built of them as they are now.

A build records the checksums of the sources that it read and that of the program. The program is fresh where both are
those of now: times count for nothing there, so a checkout of other sources is seen, and so is the way back.
`rt ci` leaves a program without a record. It is taken where no source was touched since that run began.
"""
import functools
import hashlib
import json
import os

from .common import TOP, Fault, of_top, program_of, read_text, write_whole

# The folders of a crate's sources. What else a crate has, as must-fail and mistakes, is not part of what is built.
PARTS = ("src", "specs", "proofs")


@functools.lru_cache(maxsize=None)
def listed():
    """Each crate of crates.txt with the names that it uses."""
    found = {}
    with open(f"{TOP}/crates.txt", encoding="utf-8", errors="surrogateescape") as lines:
        for line in lines:
            name, colon, names = line.partition("#")[0].partition(":")
            if colon and name.split():
                found[name.split()[0]] = names.split()
    return found


def is_library(crate):
    """Whether a crate is a library that other crates can use: no program, no library for C and no crate of tests."""
    with open(f"{TOP}/crates.txt", encoding="utf-8", errors="surrogateescape") as lines:
        is_for_c = any(it.partition("#")[0].partition(":")[0].split() == [crate, "staticlib"] for it in lines)
    return os.path.isfile(f"{TOP}/crates/{crate}/src/lib.rt") and not is_for_c and not crate.endswith("_tests")


def used_by(crate):
    """The names that a crate uses."""
    if crate not in listed():
        raise Fault(f"crates.txt has no line of {crate}")
    return listed()[crate]


def below(crate, found=None, above=()):
    """The repository's libraries below a crate, each after those that it uses."""
    found = {} if found is None else found
    for name in used_by(crate):
        if name in (crate, *above):
            raise Fault(f"crates.txt: {name} uses itself")
        if name in listed() and name not in found:
            below(name, found, (crate, *above))
            found[name] = True
    return list(found)


def whole(*crates):
    """These crates and the repository's libraries below them, each once."""
    return list(dict.fromkeys(name for crate in crates for name in [*below(crate), crate]))


def paths(crate):
    """The folders and files of a crate's sources, in order."""
    for part in PARTS:
        for folder, folders, names in os.walk(f"{TOP}/crates/{crate}/{part}"):
            folders.sort()
            yield folder
            yield from (f"{folder}/{name}" for name in sorted(names))


def lines(crate):
    """How many lines the sources of a crate have."""
    total = 0
    for path in paths(crate):
        if os.path.isfile(path):
            with open(path, "rb") as source:
                total += source.read().count(b"\n")
    return total


@functools.lru_cache(maxsize=None)
def checksum(crate):
    """The checksum of a crate's line in crates.txt and of its sources, as they were when it was first asked for."""
    found = hashlib.sha256(" ".join(used_by(crate)).encode(errors="surrogateescape"))
    for path in paths(crate):
        if os.path.isfile(path):
            with open(path, "rb") as source:
                found.update(f"\n{of_top(path)}\n".encode(errors="surrogateescape"))
                found.update(hashlib.sha256(source.read()).digest())
    return found.hexdigest()


def checksums(*crates):
    """The checksum of each of these crates and of each library below them, by name."""
    return {name: checksum(name) for name in whole(*crates)}


def look_anew():
    """Forgets what was read of crates.txt and of sources."""
    listed.cache_clear()
    checksum.cache_clear()


def key(crate, sums):
    """One checksum over a crate and all below it."""
    return hashlib.sha256("\n".join(f"{name} {sums[name]}" for name in sorted(whole(crate))).encode()).hexdigest()


def state(*crates):
    """What tells that a source was touched, also where its text is as before: identity, size and times of each."""
    found = []
    for path in [f"{TOP}/crates.txt", *[path for name in whole(*crates) for path in paths(name)]]:
        it = os.lstat(path)
        found.append((path, it.st_ino, it.st_size, it.st_mtime_ns, it.st_ctime_ns))
    return found


def sum_of_file(path):
    """The checksum of a file, or an empty text where it can't be read."""
    try:
        with open(path, "rb") as file:
            return hashlib.sha256(file.read()).hexdigest()
    except OSError:
        return ""


def record_of(name):
    """Where the sources are recorded that a program was built of."""
    return f"{program_of(name)}.json"


def mark_of(name):
    """Where the script finds what it saw when the program was last seen to be built of its sources."""
    return f"{program_of(name)}.fresh"


def record(name, sums):
    """Records of which sources the program that is there was built."""
    said = {"program": sum_of_file(program_of(name)), "sources": {it: sums[it] for it in whole(name)}}
    write_whole(record_of(name), json.dumps(said, indent=1))


def recorded(name):
    """The checksums of the sources that a program was built of, or None where they are not known."""
    try:
        said = json.loads(read_text(record_of(name)))
        return dict(said["sources"].items()) if said["program"] == sum_of_file(program_of(name)) else None
    except (ValueError, KeyError, TypeError, AttributeError, RecursionError):
        return None


def start_of_gate():
    """When `rt ci` last began in this checkout, in nanoseconds, or 0: it opens a lock file each time."""
    git = f"{TOP}/.git"
    if os.path.isfile(git):
        git = os.path.join(TOP, read_text(git).strip()[len("gitdir: ") :])
    try:
        return os.stat(f"{git}/rt-ci.lock").st_mtime_ns
    except OSError:
        return 0


def is_of_gate(name):
    """Whether `rt ci` built the program, of sources that nobody has touched since it began."""
    start = start_of_gate()
    if os.stat(program_of(name)).st_mtime_ns < start:
        return False
    return all(max(modified, changed) < start for _, _, _, modified, changed in state(name))


def why_not_fresh(name):
    """None where the program is built of the sources as they are; else why it is not, in words."""
    if not os.access(program_of(name), os.X_OK):
        return "nothing is proved yet" if not os.path.lexists(program_of(name)) else f"{name} can't be started"
    sums, built = checksums(name), recorded(name)
    if built is None and is_of_gate(name):
        built = sums
        try:
            record(name, sums)
        except OSError:
            pass
    if built == sums:
        return None
    if built is None:
        return f"it is not known of which sources {name} was built"
    changed = [it for it in sums if built.get(it) != sums[it]] or ["crates.txt"]
    more = f" and {len(changed) - 1} more" if len(changed) > 1 else ""
    return f"the proved program is older than the sources of {changed[0]}{more}"


def proved_program(name, seen=""):
    """The path of a program where it is fresh, and else None and why. What the script saw of the tree is then kept, so that
    it starts the program by itself next time."""
    why = why_not_fresh(name)
    if why is None and seen:
        try:
            write_whole(mark_of(name), f"{seen}\n")
        except OSError:
            pass
    return (None, why) if why else (program_of(name), None)
