"""Proves and builds the libraries below a crate, several at a time, and the programs.

Each is built in a room of its own: a tree with its sources as they stand then, those of the libraries below it and what
was built of them. A run of rt locks each library below the one that it builds, so in one tree two would wait for each
other. What is built comes back by one rename. The library with the longest chain above it goes first, with four jobs;
the others run beside it, with two jobs each, and give way to it. Rooms lie in the program's folder out/, so nothing is
copied from one file system to another.
"""
import contextlib
import errno
import fcntl
import json
import os
import shutil
import subprocess
import time
from concurrent.futures import FIRST_COMPLETED, ThreadPoolExecutor, wait

from . import sources
from .common import COMMAND, MINUTES, NO_KIT, OUT, PROGRAMS, RT, TOP, Fault, make_out, out_of, program_of, read_text, say, write_whole
from .guard import Guard
from .trial import SHORT_CALLS

ROOMS = f"{OUT}/rooms"
MEMORY_OF_A_JOB = 1_500_000_000
JOBS_OF_THE_FIRST = 4
JOBS_OF_ANOTHER = 2
# So many seconds of work count as what the shares say, before what was built does.
TRUSTED = 600
# Each 64-bit processor of the family runs what is compiled for this one. A program only for newer ones has their level in it, to say so.
EVERY_CPU, LEVEL = "x86-64", b"x86-64-v2"
# Where the seconds are that the last build of each crate took, beside other work; and those of a line, where none are known.
TOOK, OF_A_LINE = f"{OUT}/took.json", 0.05


@contextlib.contextmanager
def one_at_a_time():
    """Waits until no other build works in this tree. The system ends the lock with its holder."""
    held = os.open(f"{TOP}/crates", os.O_RDONLY)
    try:
        try:
            fcntl.flock(held, fcntl.LOCK_EX | fcntl.LOCK_NB)
        except BlockingIOError:
            say("another build works in this tree; waiting until it ends")
            fcntl.flock(held, fcntl.LOCK_EX)
        yield
    finally:
        os.close(held)


def made_of(crate):
    """Where the checksum is of all that a library was built of."""
    return f"{out_of(crate)}/rlib/sources"


def is_built(crate, sums):
    """Whether the library was built of the sources as they are now."""
    stamp = f"{out_of(crate)}/rlib/stamp"
    return os.path.isfile(stamp) and read_text(made_of(crate)) == sources.key(crate, sums)


def took():
    """The seconds that the last build of each crate took, those that are known."""
    try:
        return {crate: float(seconds) for crate, seconds in json.loads(read_text(TOOK)).items()}
    except (AttributeError, TypeError, ValueError):
        return {}


def shares(crates):
    """The seconds of each crate, those of its last build or else by its lines."""
    lines, seconds = {crate: sources.lines(crate) or 1 for crate in crates}, took()
    known = [crate for crate in crates if crate in seconds]
    rate = sum(seconds[it] for it in known) / sum(lines[it] for it in known) if known else OF_A_LINE
    return {crate: seconds.get(crate) or lines[crate] * rate for crate in crates}


def weights(crates, share):
    """The work of each crate and of the longest chain of crates above it."""
    weight = {}
    for crate in reversed(crates):
        above = [weight[it] for it in crates if crate in sources.listed()[it]]
        weight[crate] = share[crate] + max(above, default=0)
    return weight


def link_or_copy(source, to):
    """Gives a file a second name, or copies it. rt removes such a file before it makes it again."""
    try:
        os.link(source, to)
    except OSError:
        shutil.copy2(source, to)


def link_what_stays(source, to):
    """Gives a file of kept work a second name where rt replaces such files and changes none, as what was proved; else copies it."""
    (link_or_copy if source.endswith(".oantt") else shutil.copy2)(source, to)


def furnish(room, crate):
    """Puts into a room what the build of a crate reads, and what was built of it before: rt knows by its sources what still holds."""
    os.makedirs(f"{room}/crates")
    with open(f"{room}/crates.txt", "w", encoding="utf-8") as written:
        for name in [*sources.below(crate), crate]:
            written.write(f"{name}: {' '.join(sources.listed()[name])}\n")
            for part in sources.PARTS:
                if os.path.isdir(f"{TOP}/crates/{name}/{part}"):
                    shutil.copytree(f"{TOP}/crates/{name}/{part}", f"{room}/crates/{name}/{part}")
            made = f"{TOP}/crates/{name}/out/rlib"
            if os.path.isdir(made):
                shutil.copytree(made, f"{room}/crates/{name}/out/rlib", copy_function=link_or_copy)
    kept = f"{TOP}/crates/{crate}/out/incremental"
    if os.path.isdir(kept):
        shutil.copytree(kept, f"{room}/crates/{crate}/out/incremental", copy_function=link_what_stays)


def bring(source, target, old):
    """Puts what was built into its place by one rename; what was there before goes to `old` first. Over two file systems it is
    copied beside its place before."""
    if os.path.lexists(target):
        clear(target, old)
    move(source, target)


def clear(target, old):
    """Renames what was built before, or removes it, its stamp first: what is left without one is not taken for a library."""
    try:
        os.rename(target, old)
    except OSError as error:
        if error.errno != errno.EXDEV:
            raise
        if os.path.isdir(target):
            with contextlib.suppress(FileNotFoundError):
                os.remove(f"{target}/stamp")
            shutil.rmtree(target)
        else:
            os.remove(target)


def move(source, target):
    """Renames a file or folder, over file systems too; the target is whole or not there."""
    try:
        os.rename(source, target)
    except OSError as error:
        if error.errno != errno.EXDEV:
            raise
        part = f"{target}.part"
        shutil.rmtree(part, ignore_errors=True)
        if os.path.isdir(source):
            shutil.copytree(source, part)
        else:
            shutil.copy2(source, part)
        os.rename(part, target)


def words_of_rt(crate, jobs):
    """The command that builds a crate. A program is run on a short call; the command for people, which is packaged, is compiled for
    every processor."""
    if crate not in PROGRAMS:
        return [RT, "lib", "--jobs", str(jobs)]
    words, everywhere = SHORT_CALLS[crate], ["--cpu", EVERY_CPU] if crate == COMMAND else []
    return [RT, "run", "--jobs", str(jobs), *everywhere, *(["--", *words] if words else [])]


def build(crate, jobs, sums, guard):
    """Builds one crate in a room. Returns what went wrong, or None."""
    room, out = f"{ROOMS}/{crate}", out_of(crate)
    furnish(room, crate)
    folder = f"{room}/crates/{crate}"
    words = ["nice", "-n", "0" if jobs >= JOBS_OF_THE_FIRST else "10", *words_of_rt(crate, jobs)]
    ran = subprocess.run(guard.words(*words), cwd=folder, stdin=subprocess.DEVNULL, stdout=subprocess.PIPE, stderr=subprocess.STDOUT, check=False)
    os.makedirs(out, exist_ok=True)
    with open(f"{out}/build.log", "wb") as log:
        log.write(ran.stdout)
    made = [crate, f"{crate}.stamp"] if crate in PROGRAMS else ["rlib"]
    if ran.returncode or not os.path.exists(f"{folder}/out/{made[0]}"):
        return f"{crate} was not built: crates/{crate}/out/build.log says why{disk_is_full()}"
    if crate not in PROGRAMS:
        with open(f"{folder}/out/rlib/sources", "w", encoding="utf-8") as written:
            written.write(sources.key(crate, sums))
    # what the next check of the crate begins with is more than half of all: it is kept where somebody works on the crate
    is_worked_on = any(os.path.lexists(f"{out}/{it}") for it in (made[0], "incremental"))
    for part in [*made, *["incremental"] * is_worked_on]:
        if os.path.lexists(f"{folder}/out/{part}"):
            bring(f"{folder}/out/{part}", f"{out}/{part}", f"{room}/old-{part}")
    shutil.rmtree(room, ignore_errors=True)
    return None


def disk_is_full():
    """What to add to a fault where the disk has little room."""
    free = shutil.disk_usage(OUT).free >> 20
    return f"; the disk has {free} MB free" if free < 2000 else ""


def most_jobs():
    """How many jobs may run at a time: two a processor, since a job waits now and then, as many as memory holds."""
    with open("/proc/meminfo", encoding="utf-8") as table:
        free = next(int(line.split()[1]) * 1024 for line in table if line.startswith("MemAvailable:"))
    return max(JOBS_OF_THE_FIRST, min(2 * len(os.sched_getaffinity(0)), free // MEMORY_OF_A_JOB))


class Plan:
    """Which crate is built next, and about how long all of them take, by the share of each."""

    def __init__(self, crates):
        self.share = shares(crates)
        self.weight, self.most = weights(crates, self.share), most_jobs()

    def next(self, left, running, done):
        """The crates that can begin, with their jobs. `left` and `running` have the jobs of each by name."""
        found = {}
        for crate in sorted(left, key=lambda it: -self.weight[it]):
            is_first = self.weight[crate] == max(self.weight[it] for it in [*left, *running])
            jobs = JOBS_OF_THE_FIRST if is_first else JOBS_OF_ANOTHER
            is_ready = not any(it in self.share and it not in done for it in sources.listed()[crate])
            if is_ready and jobs + sum([*running.values(), *found.values()]) <= self.most:
                found[crate] = jobs
        return found

    def seconds_left(self, done, running, ages, pace):
        """How long the rest takes, where each crate takes its share times `pace`: the same plan without the work. `ages` are
        the seconds that the running crates have had."""
        ends = {it: max(self.share[it] * pace - ages[it], 0.1 * self.share[it] * pace) for it in running}
        done, running, now = set(done), dict(running), 0
        left = [it for it in self.share if it not in done and it not in running]
        while left or running:
            for crate, jobs in self.next(left, running, done).items():
                left.remove(crate)
                running[crate], ends[crate] = jobs, now + self.share[crate] * pace
            ended = min(running, key=lambda it: ends[it])
            now = ends[ended]
            del running[ended]
            done.add(ended)
        return now


class Progress:
    """How far a build is."""

    def __init__(self, plan):
        self.plan, self.start = plan, time.monotonic()
        self.begun, self.running, self.done = {}, {}, {}

    def begins(self, crate, jobs):
        """Notes that a crate is begun."""
        self.begun[crate], self.running[crate] = time.monotonic(), jobs

    def seconds_left(self):
        """How long the rest takes, by what the crates that are built took."""
        taken, planned = sum(self.done.values()), sum(self.plan.share[it] for it in self.done)
        pace = (taken + TRUSTED) / (planned + TRUSTED)
        ages = {it: time.monotonic() - self.begun[it] for it in self.running}
        return self.plan.seconds_left(self.done, self.running, ages, pace)

    def fails(self, crate):
        """Notes that a crate can't be built."""
        del self.running[crate], self.plan.share[crate]

    def ends(self, crate):
        """Says that a crate is built, and about how many minutes the rest takes; notes how long it took."""
        self.done[crate] = time.monotonic() - self.begun[crate]
        del self.running[crate]
        with contextlib.suppress(OSError):
            write_whole(TOOK, json.dumps({**took(), crate: round(self.done[crate], 1)}))
        spent, left = (time.monotonic() - self.start) / 60, self.seconds_left() / 60
        say(f"built {len(self.done)} of {len(self.plan.share)}: {crate}; {spent:.0f} minutes so far, about {left:.0f} to go")


def build_all(crates, sums, guard, done):
    """Builds the crates, each once those below it are built, and puts them into `done`. Raises a Fault where one goes wrong: of a
    library once those under way have ended, of a program, which no other crate needs, once all others are built."""
    plan, faults = Plan(crates), []
    progress, left, under_way = Progress(plan), list(crates), {}
    with ThreadPoolExecutor(plan.most) as pool:
        while left or under_way:
            for crate, jobs in plan.next(left, progress.running, done).items():
                left.remove(crate)
                progress.begins(crate, jobs)
                under_way[pool.submit(build, crate, jobs, sums, guard)] = crate
            # (not for ever: a signal that comes just before the wait would be seen only at its end)
            for ended in wait(under_way, timeout=1, return_when=FIRST_COMPLETED).done:
                crate = under_way.pop(ended)
                if ended.result():
                    faults.append(ended.result())
                    progress.fails(crate)
                    left = left if crate in PROGRAMS else []
                    if left or under_way:
                        say(f"{crate} was not built; waiting for the others")
                else:
                    done.add(crate)
                    progress.ends(crate)
    if faults:
        raise Fault(faults[0])


def build_crates(tops, programs, libraries=()):
    """Builds the libraries below these crates, and those of them that are named, where they are not built of the sources as they are,
    and the programs, and records of which sources each program is."""
    sources.look_anew()
    before, sums = sources.state(*tops), sources.checksums(*tops)
    make_out()
    shutil.rmtree(ROOMS, ignore_errors=True)
    used = {name for it in tops for name in sources.below(it)}
    wanted, done = [it for it in sources.whole(*tops) if (it in used or it in libraries) and not is_built(it, sums)], set()
    try:
        with Guard(ROOMS) as guard:
            build_all([*wanted, *programs], sums, guard, done)
    finally:
        is_untouched = sources.state(*tops) == before
        for name in programs:
            if is_untouched and name in done:
                sources.record(name, sums)
    if not is_untouched:
        raise Fault("a source was touched while the build went on, so it is not known what was built: call --build again")


def needs_level(program):
    """Whether a program runs only on newer processors, as the one that `rt ci` builds."""
    with open(program, "rb") as file:
        return LEVEL in file.read()


def build_programs():
    """Proves and builds the programs, where that is needed: the command too where it does not run on every processor."""
    if shutil.which(RT) is None:
        raise Fault(NO_KIT)
    with one_at_a_time():
        sources.look_anew()
        programs = [name for name in PROGRAMS if sources.why_not_fresh(name) or name == COMMAND and needs_level(program_of(name))]
        if not programs:
            say("both programs are proved and built, and no source has changed since")
            return
        make_out()
        start = time.monotonic()
        say(f"proving and building {' and '.join(programs)}; a whole build takes {MINUTES}")
        build_crates(programs, programs)
        say(f"proved and built {' and '.join(program_of(it)[len(TOP) + 1:] for it in programs)}, in {(time.monotonic() - start) / 60:.0f} minutes")


def build_libraries(*crates, with_them=False):
    """Proves and builds the libraries below crates, and those of the crates that are libraries too where that is asked for."""
    with one_at_a_time():
        build_crates(crates, [], [it for it in crates if with_them and sources.is_library(it)])
