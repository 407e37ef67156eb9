#!/usr/bin/env python3
"""Does what ./locale_numbers asks for where a proved program is not simply started.

usage: tools/launch.py SEEN WORD..

SEEN is what the script saw of the sources and the program that the words are for; tools/help.txt says what the words are.
"""
# First of all, and by the module that takes no time: the system ends this process at a signal, at once and without a traceback. The
# script had an interrupt wait until here, where it could. While there is a guard, it ends what was started too.
import _signal

if _signal.getsignal(_signal.SIGINT) == _signal.default_int_handler:
    _signal.signal(_signal.SIGINT, _signal.SIG_DFL)
_signal.pthread_sigmask(_signal.SIG_UNBLOCK, [_signal.SIGINT])

import os
import sys

# Python is started with no path but its own, whatever the environment says.
sys.path.append(os.path.dirname(os.path.realpath(__file__)))

try:
    for name in ("answering", "building", "cldr_book", "sources", "words"):
        __import__(f"launching.{name}")
except (EOFError, ValueError):
    # what Python keeps of a module was cut short on a full disk, which it does not see: it goes, and is not read again in this call
    import shutil

    sys.pycache_prefix, sys.dont_write_bytecode = os.devnull, True
    shutil.rmtree(os.path.join(os.path.dirname(os.path.realpath(__file__)), "launching/__pycache__"), ignore_errors=True)
from launching import answering, building, cldr_book, sources
from launching.common import COMMAND, FAILED, LINES, OUTPUT, Fault, fault_of, fill_closed_ends, say, write_all
from launching.words import read_words


def print_built(name):
    """Prints the path of a proved program."""
    program, why = sources.proved_program(name)
    if not program:
        raise Fault(f"{why}: ./locale_numbers --build proves and builds it")
    try:
        write_all(os.fsencode(program) + b"\n")
    except OSError as error:
        raise Fault(f"standard output: {error.strerror}", OUTPUT) from None
    return 0


def do(seen, words):
    """Does what the words ask for, and returns the status."""
    said = read_words(words)
    if said.has("build"):
        building.build_programs()
        return 0
    if said.has("built"):
        return print_built(said.others[0] if said.others else LINES)
    book = cldr_book.book_of(said.options["cldr"]) if said.has("cldr") else None
    others = said.words_for_programs(book)
    name = COMMAND if any(word.startswith("-") for word in others) else LINES
    if said.has("try"):
        return answering.try_program(name, others, said.jobs())
    if said.has("jobs"):
        return answering.answer(name, others, seen, said.jobs())
    if said.options:
        return answering.call_again(others)
    return answering.answer(name, others, seen)


def main(seen="", *words):
    """Does it, and ends each fault in one line."""
    fill_closed_ends()
    try:
        return do(seen, words)
    except Fault as fault:
        say(fault)
        return fault.status
    except OSError as error:
        say(fault_of(error))
        return FAILED


if __name__ == "__main__":
    # (at once: at the end of Python threads that still wait may fail)
    os._exit(main(*sys.argv[1:]))
