"""Places, words to the user, and faults that end in one line."""
import contextlib
import os
import re
import shutil
import signal

TOP = os.path.dirname(os.path.dirname(os.path.dirname(os.path.realpath(__file__))))
# The program of lines, and the command for people.
LINES, COMMAND = "locale_numbers_program", "legumeyet"
PROGRAMS = (LINES, COMMAND)
RT = os.environ.get("RT") or "rt"
MINUTES = "30 to 60 minutes on four processors"
NO_KIT = f"the command {RT} of the Rattle kit is not on the PATH; README.md, Install, has what needs no kit"

FAILED, USAGE, OUTPUT, CUT_SHORT = 1, 2, 5, 7
# What ends a call.
SIGNALS = (signal.SIGTERM, signal.SIGINT, signal.SIGHUP)


class Fault(Exception):
    """Ends the launcher with one line and a status."""

    def __init__(self, text, status=FAILED):
        super().__init__(text)
        self.status = status


def out_of(name):
    """The folder of what is built of a crate."""
    return f"{TOP}/crates/{name}/out"


def program_of(name):
    """The path of a program."""
    return f"{out_of(name)}/{name}"


# Where builds work.
OUT = out_of(LINES)


def tell(said):
    """Writes bytes to standard error, where there is one that takes them."""
    try:
        os.write(2, said)
    except OSError:
        pass


def say(text):
    """Writes one line to standard error."""
    tell(f"locale_numbers: {' '.join(str(text).split())}\n".encode(errors="backslashreplace"))


def write_all(output):
    """Writes bytes to standard output."""
    done = 0
    while done < len(output):
        done += os.write(1, output[done:])


def fill_closed_ends():
    """Gives a closed standard input, output or error the null device here, for reading where it is written to and the other way
    round, so that its use fails. A program started by exec meets it closed again."""
    for end, way in enumerate((os.O_WRONLY, os.O_RDONLY, os.O_WRONLY)):
        try:
            os.fstat(end)
        except OSError:
            os.open(os.devnull, way)


def of_top(path):
    """The path as seen from the top of the repository."""
    return os.path.relpath(path, TOP)


def make_out(name=LINES):
    """Makes the folder of what is built."""
    try:
        os.makedirs(out_of(name), exist_ok=True)
    except OSError as error:
        raise Fault(f"{of_top(out_of(name))} can't be written: {error.strerror}") from None


def fault_of(error):
    """The line of an error of the system. Of two files it names the one that was to be written; of a copy of many files, which has an
    error each, it is that of the first."""
    if isinstance(error, shutil.Error):
        source, _, why = error.args[0][0]
        return Fault(f"{of_top(source)} was not copied: " + re.sub(r"^\[Errno \d+\] |: '.*", "", str(why)))
    file = error.filename2 or error.filename
    named = f"{file}: " if file else ""
    return Fault(f"{named}{error.strerror or error}")


@contextlib.contextmanager
def signals_wait():
    """Has the signals that end a call wait until the end of this."""
    masked = signal.pthread_sigmask(signal.SIG_BLOCK, SIGNALS)
    try:
        yield
    finally:
        signal.pthread_sigmask(signal.SIG_SETMASK, masked)


def write_whole(path, text):
    """Writes a file beside its place and renames it, so that there is never half of it, nor a signal leaves the other."""
    part = f"{path}.{os.getpid()}.part"
    with signals_wait():
        try:
            with open(part, "w", encoding="utf-8") as file:
                file.write(text)
            os.replace(part, path)
        finally:
            if os.path.lexists(part):
                os.remove(part)


def read_text(path):
    """The text of a file, or an empty one where there is none."""
    try:
        with open(path, encoding="utf-8") as file:
            return file.read()
    except (OSError, ValueError):
        return ""
