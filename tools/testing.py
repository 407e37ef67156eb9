"""What the scripts that test share. Each is a `unittest` module: `SCRIPT -k NAME` runs a part, and `--help` lists what else it takes."""
import argparse
import atexit
import contextlib
import functools
import os
import pathlib
import shlex
import signal
import subprocess
import sys
import tempfile
import unittest
from concurrent.futures import ProcessPoolExecutor

TOP = pathlib.Path(__file__).resolve().parent.parent
# What the example of each language writes.
EXAMPLE = "1.234.567,891\n12,34,567.891\n١٬٢٣٤٬٥٦٧٫٨٩١\n".encode()
# So many seconds a command has at most: the longest takes some minutes on a busy machine.
BOUND = 3600
WIDTH = 400  # of a line of what a command said


def jobs():
    """How many processes work at a time: RT_JOBS, one a processor at most."""
    processors, said = len(os.sched_getaffinity(0)), os.environ.get("RT_JOBS", "")
    return min(int(said), processors) if said.isdecimal() and int(said) else processors


def environment(**more):
    """The environment of a command with these too, and without what an earlier one left for make, and PROGRAM, which makefiles of PostgreSQL make."""
    own = {name: value for name, value in os.environ.items() if name not in ("MAKEFLAGS", "MAKELEVEL", "MFLAGS", "PROGRAM")}
    return {**own, **{name: str(value) for name, value in more.items()}}


def run(*words, stdin=b"", **how):
    """The standard output of a command. Where it fails, so does the test, with what was said last."""
    words = [str(word) for word in words]
    ran = subprocess.run(words, **{"input": stdin, "capture_output": True, "timeout": BOUND, "check": False, **how})
    if ran.returncode:
        said = (ran.stderr.strip() or ran.stdout).decode(errors="replace").splitlines()[-12:]
        raise AssertionError("\n    ".join([f"{shlex.join(words[:6])[:WIDTH]} ended with status {ran.returncode}", *(line[:WIDTH] for line in said)]))
    return ran.stdout


def need(*names):
    """Sees to it that tools are there, by tools/need. Where one is missing, the test fails by its name."""
    ran = subprocess.run((TOP / "tools/need", *names), stdin=subprocess.DEVNULL, stdout=subprocess.DEVNULL, stderr=subprocess.PIPE, encoding="utf-8", check=False)
    if ran.returncode:
        raise AssertionError("; ".join(ran.stderr.splitlines()))


@functools.lru_cache(None)
def program(name):
    """The path of the program that is tried: what the variable PROGRAM says, else the proved one of ./locale_numbers, which says why there is none."""
    built = (TOP / "locale_numbers", "--built", name)
    said = os.environ.get("PROGRAM") or subprocess.run(built, stdin=subprocess.DEVNULL, stdout=subprocess.PIPE, check=True, encoding="utf-8").stdout
    return os.path.abspath(said.rstrip("\n"))


@functools.lru_cache(None)
def script_folder(prefix="of tests "):
    """A folder that goes with the script."""
    place = tempfile.TemporaryDirectory(prefix=prefix)
    atexit.register(place.cleanup)
    return pathlib.Path(place.name)


@functools.lru_cache(None)
def library(*words):
    """The folder of the library for C that the variable LIBRARY names. Without one, and with words for tools/build_c, it is made, which may take minutes."""
    named = None if words else os.environ.get("LIBRARY")
    made = pathlib.Path(script_folder() / f"library{''.join(words)}" if named is None else named).resolve()
    if named is None:
        subprocess.run([TOP / "tools/build_c", *words, made], stdin=subprocess.DEVNULL, check=True)
    if not (made / "liblegumeyet.a").is_file():
        raise AssertionError(f"{made} has no liblegumeyet.a: it is no folder of tools/build_c")
    return made


def close_input():
    """Closes standard input, of a process that starts, where it is not closed already."""
    with contextlib.suppress(OSError):
        os.close(0)


def close_output():
    """Closes standard output, of a process that starts."""
    os.close(1)


class Rows(unittest.TestCase):
    """Tests whose rows are subtests: each that fails is named, and the others are tried too."""

    def row(self, name, found, expected):
        """A row: what is found has to be what is expected. Of long texts what is told begins shortly before they differ."""
        with self.subTest(name):
            if found != expected:
                texts = repr(found), repr(expected)
                start = max(0, len(os.path.commonprefix(texts)) - 200)
                self.fail(", and not ".join(f"{'..' * (start > 0)}{it[start : start + 800]}" for it in texts))

    def folder(self):
        """The path of a folder that goes with the test."""
        place = tempfile.TemporaryDirectory(prefix=f"{self._testMethodName} ".replace("_", " "))
        self.addCleanup(place.cleanup)
        return place.name


class Told(str):
    """The name of a test, or of its row, that another process tried."""

    failureException = None

    def shortDescription(self):
        """None but the name."""


def usual_signals():
    """Has signals do what they do in a call from a terminal: what a shell starts in the background ignores an interrupt."""
    signal.pthread_sigmask(signal.SIG_SETMASK, ())
    for number in (signal.SIGTERM, signal.SIGINT, signal.SIGHUP):
        signal.signal(number, signal.SIG_DFL)


def outcome(test):
    """What goes wrong in a test, and what is left out: each with the name of the row."""
    result = unittest.TestResult()
    test(result)
    return [[(Told(it), said) for it, said in some] for some in (result.failures, result.errors, result.skipped)]


class SideBySide(unittest.TestSuite):
    """Tests that are run several at a time, each in a process of its own, after the `setUpClass` of all."""

    def __init__(self, tests, count):
        super().__init__(tests)
        self.count = count

    def set_up(self, tests, result):
        """Calls `setUpClass` of each class once, and returns the tests of those where it went well."""
        ready = []
        for kind in dict.fromkeys(map(type, tests)):
            try:
                kind.setUpClass()
                ready.append(kind)
            except Exception:
                result.addError(Told(f"setUpClass ({kind.__name__})"), sys.exc_info())
        return [it for it in tests if type(it) in ready]

    def run(self, result, debug=False):
        """Runs them, and adds what is told of each."""
        tests = self.set_up([test for some in self for test in some], result)
        with ProcessPoolExecutor(self.count, initializer=usual_signals) as pool:
            for test, told in zip(tests, pool.map(outcome, tests)):
                result.startTest(test)
                for kept, found in zip((result.failures, result.errors, result.skipped), told):
                    kept += found
                if not any(told):
                    result.addSuccess(test)
                result.stopTest(test)
                if result.failfast and (told[0] or told[1]):
                    pool.shutdown(cancel_futures=True)
                    break
        return result


def side_by_side(_loader, tests, _pattern):
    """Has `unittest` run the tests of a script so, which wait more than they work, where it is that script's `load_tests`."""
    return SideBySide(tests, 8)


def one_a_processor(_loader, tests, _pattern):
    """The same of tests that work."""
    return SideBySide(tests, jobs())


class Variable(argparse.Action):
    """An option whose value the tests find in a variable of the environment, as that of --library in LIBRARY."""

    def __call__(self, _words, _said, value, _option=None):
        os.environ[self.dest.upper()] = value


def parser(head):
    """What takes the words of a script, whose head is its help. Other options than its own are those of `unittest`."""
    words = argparse.ArgumentParser(description=head, formatter_class=argparse.RawDescriptionHelpFormatter, epilog="Other options are those of unittest, as -v.")
    words.add_argument("-k", metavar="PATTERN", action="append", help="tries only what has PATTERN in its name")
    return words


def main(words, kinds, usual):
    """Runs the tests of a script that takes the names of classes: `kinds` has that of each NAME, and those of the usual ones are run without a NAME."""
    words.add_argument("name", nargs="*", metavar="NAME", help=f"{', '.join(kinds)}; without one {', '.join(usual)}")
    said, others = words.parse_known_args()
    if not set(said.name) <= set(kinds):
        words.error(f"NAME is one of {', '.join(kinds)}")
    run_tests([f"*.{kinds[name]}.*{it}*" for name in said.name or usual for it in said.k or [""]], others)


def run_tests(patterns, others):
    """Runs the tests of a script that these patterns choose, or all, under other words of `unittest`, says what is left out of them, and ends the script."""
    result = unittest.main(argv=[sys.argv[0], *others, *(f"-k{it}" for it in patterns or ())], exit=False).result
    for test, why in result.skipped:
        print(f"left out: {test}: {why}", file=sys.stderr)
    if not result.testsRun and not result.errors:
        sys.exit("no test has such a name")
    sys.exit(not result.wasSuccessful())
