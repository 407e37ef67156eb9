"""How the scripts of this folder end: a fault and an interrupt are one line on standard error and a status."""
import os
import signal
import sys

from cldr import Fault

FAULTY, BAD_WORDS = 1, 2
SIGNALS = (signal.SIGINT, signal.SIGTERM, signal.SIGHUP)


class BadWords(Fault):
    """What is wrong with the words of a command."""


class Interrupted(Exception):
    """A signal ends the script; its number is the argument."""


def interrupt(number, _):
    """Ends the script after what has to be done at its end, which further signals don't disturb."""
    for it in SIGNALS:
        signal.signal(it, signal.SIG_IGN)
    raise Interrupted(number)


def say(name, text):
    """Writes one line to standard error, where there is one."""
    try:
        os.write(2, f"{name}: {' '.join(str(text).split())}\n".encode(errors="backslashreplace"))
    except OSError:
        pass


def print_lines(lines):
    """Prints lines. Raises OSError where standard output is closed, full, or read no longer."""
    text = "".join(f"{line}\n" for line in lines).encode(errors="backslashreplace")
    while text:
        text = text[os.write(1, text) :]


def status_of(name, main, faulty):
    """The status of a script that is run: that which `main` answers, and `faulty` after a fault."""
    try:
        status = main()
        if sys.stdout is not None:
            sys.stdout.flush()
        return status
    except BadWords as fault:
        say(name, fault)
        return BAD_WORDS
    except Fault as fault:
        say(name, fault)
    except BrokenPipeError:
        pass
    except OSError as fault:
        say(name, f"{fault.filename or 'standard output'} can't be used: {fault.strerror}")
    except Interrupted as fault:
        say(name, f"ended by {signal.Signals(fault.args[0]).name}")
        return 128 + fault.args[0]
    return faulty


def end(name, main, faulty=FAULTY):
    """Runs a script and ends with its status."""
    for it in SIGNALS:
        if signal.getsignal(it) != signal.SIG_IGN:
            signal.signal(it, interrupt)
    status = status_of(name, main, faulty)
    # What standard output did not take is given up.
    sys.stdout = None
    sys.exit(status)
