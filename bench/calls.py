#!/usr/bin/env python3
"""Counts the instructions of a call from C, by its kind, with valgrind's callgrind.

usage: bench/calls.py [--functions KIND] [LIBRARY [COUNT]]

The calls are those of bench/c/calls.c: by formatters of the world's book, `-k` of one that is kept, `-s` shared; what each writes is printed beside
it. `open-k` and `open` open a formatter of a book that is open; `first`, `first-short` and `first-amount` open one of a tag alone and write its
first text, `first-book` opens the world's book before, and `text-a` is by one of a tag alone. A call costs the difference between a run of 2 * COUNT calls and one of COUNT, over COUNT, without the loop around it. With --functions it prints in which functions the instructions
of a call are, each without those that it calls. Without LIBRARY, a folder as tools/build_c leaves it, it is made of the proved crate. It needs
valgrind and a C compiler.
"""
import argparse
import os
import shutil
import subprocess
import sys
import tempfile

from instructions import TOP, by_function, counted

MADE = f"{TOP}/bench/made"
# What opens a formatter of the world's book each time is called a few times.
FEW = {"first-book": 2, "first": 20, "first-short": 20, "first-amount": 20}
# The functions of the loop.
LOOP = ("main", "call", "write_number")


def built(library):
    """The path of the program of calls over a library."""
    if not library:
        library = f"{MADE}/c"
        subprocess.run([f"{TOP}/tools/build_c", library], check=True)
    os.makedirs(MADE, exist_ok=True)
    made = f"{MADE}/calls"
    words = [os.environ.get("CC") or "cc", "-O2", f"-I{library}", "-o", made, f"{TOP}/bench/c/calls.c", f"{library}/liblegumeyet.a"]
    subprocess.run(words, check=True)
    return made


def kinds_of(made):
    """The kinds of calls."""
    return subprocess.run([made], stdout=subprocess.PIPE, check=True, encoding="utf-8").stdout.split()


def a_call(made, kind, count, folder):
    """The instructions of a call, what it writes, and those of each function."""
    times = FEW.get(kind, count)
    twice, text = counted([made, kind, str(2 * times)], [], folder)
    functions = by_function(f"{folder}/callgrind.out")
    once, _ = counted([made, kind, str(times)], [], folder)
    functions.subtract(by_function(f"{folder}/callgrind.out"))
    around = sum(functions.pop(it, 0) for it in LOOP)
    return (twice - once - around) / times, text.decode().rstrip("\n"), [(it / times, name) for name, it in functions.most_common() if it >= times]


def main():
    """Prints a row a kind, or the functions of one."""
    asked = argparse.ArgumentParser(description=__doc__, formatter_class=argparse.RawDescriptionHelpFormatter)
    asked.add_argument("--functions", metavar="KIND")
    asked.add_argument("library", metavar="LIBRARY", nargs="?", default="")
    asked.add_argument("count", metavar="COUNT", nargs="?", type=int, default=1000)
    said = asked.parse_args()
    if shutil.which("valgrind") is None:
        print("bench: valgrind is needed", file=sys.stderr)
        return 1
    made = built(said.library)
    with tempfile.TemporaryDirectory() as folder:
        for kind in [said.functions] if said.functions else kinds_of(made):
            instructions, text, functions = a_call(made, kind, said.count, folder)
            print(f"{kind:<16}{instructions:>12,.0f}  {text}", flush=True)
            for its, name in functions if said.functions else []:
                print(f"{its:>10,.0f}  {name}")
    return 0


if __name__ == "__main__":
    sys.exit(main())
