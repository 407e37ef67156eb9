"""Answers by a program: the proved one, or one of a trial build."""
import os
import signal

from . import jobs, sources, trial
from .common import OUTPUT, TOP, Fault, tell, write_all


def start(program, words, name):
    """Starts the program in this process's place, by its name alone, since a path may be no UTF-8. Python ignores two signals,
    which the program would inherit."""
    for number in (signal.SIGPIPE, signal.SIGXFSZ):
        signal.signal(number, signal.SIG_DFL)
    os.execv(program, [name, *words])


def begin(program, words, name, count):
    """Has the program do it, in this process's place, or so many of it side by side. Returns the status."""
    if count == 1:
        return start(program, words, name)
    # (what is open here alone has another name there)
    return jobs.answer(program.replace("/proc/self/", f"/proc/{os.getpid()}/"), name, words, count)


def call_again(words):
    """Starts ./locale_numbers in this process's place, with words that are all a program's."""
    start(f"{TOP}/locale_numbers", words, "locale_numbers")


def answer(name, words, seen, count=1):
    """Has the proved program do it, or so many of it, or else those of a trial build. Returns the status."""
    before = sources.state(name)
    program, why = sources.proved_program(name, seen)
    return begin(program, words, name, count) if program else answer_by_trial(name, words, why, before, count)


def answer_by_trial(name, words, why, before, count=1):
    """Has a trial build do it, where it can be started, else `rt try`, once. Returns the status."""
    program = trial.trial_program(name, why, before)
    if program:
        return begin(program, words, name, count)
    status, output, faults = trial.answer_by_rt(name, words)
    tell(faults)
    try:
        write_all(output)
    except OSError as error:
        raise Fault(f"standard output: {error.strerror}", OUTPUT) from None
    return status


def try_program(name, words, count):
    """Has a trial build do it that is asked for."""
    return answer_by_trial(name, words, "nothing of this is proved", sources.state(name), count)
