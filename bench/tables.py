#!/usr/bin/env python3
"""Writes the amounts of the same tables by one run and by `./locale_numbers --jobs`, and compares the bytes; and answers request lines of them.

usage: bench/tables.py [RECORDS]

Each row is a kind of table: what is in quotes in it, how many MB it has, the seconds of one run by the clock, its records a second of processor
over such request lines of one tag, and the speed of 1, 2 and as many jobs as there are processors over that of the one run, each the best of
three. The tables are seeded. The status is 1 where bytes differ.
"""
import filecmp
import os
import random
import subprocess
import sys

TOP = os.path.dirname(os.path.dirname(os.path.realpath(__file__)))
MADE = f"{TOP}/bench/made"
# What is around and in the fields of a record: article, amount, note.
KINDS = {
    "nothing": "tea {0},{1},{0}\n", "one field": '"tea, {0}",{1},{0}\n', "all fields": '"tea {0}","{1}","{0}"\n',
    "line feeds": '"tea\n{0}",{1},{0}\n', "tabs between": "tea {0}\t{1}\t{0}\n",
}
LINE = "de\tplain\tauto\tkeep\t-\t{1}\n"
TURNS = 3


def make(path, record, count):
    """Makes a table of so many records."""
    numbers = random.Random(1)
    with open(path, "w", encoding="ascii") as table:
        for _ in range(count):
            table.write(record.format(numbers.randrange(10**6), f"{numbers.randrange(10**9) / 100:.2f}"))


def spent(words, table, written):
    """The least seconds of some runs, by the clock and of processor."""
    clocks, processors = [], []
    for _ in range(TURNS):
        with open(table, "rb") as given, open(written, "wb") as taken:
            start = os.times()
            subprocess.run(words, stdin=given, stdout=taken, check=True)
            end = os.times()
        clocks.append(end.elapsed - start.elapsed)
        processors.append(end.children_user + end.children_system - start.children_user - start.children_system)
    return min(clocks), min(processors)


def main(count):
    """Prints the rows."""
    asked = subprocess.run([f"{TOP}/locale_numbers", "--built", "legumeyet"], stdin=subprocess.DEVNULL, stdout=subprocess.PIPE, check=False)
    if asked.returncode:
        return 1
    os.makedirs(MADE, exist_ok=True)
    program = os.fsdecode(asked.stdout.rstrip(b"\n"))
    table, alone, several = (f"{MADE}/table.{it}" for it in ("csv", "alone", "jobs"))
    make(table, LINE, count)
    _, lines = spent([program, "--lines"], table, alone)
    counts = sorted({1, 2, len(os.sched_getaffinity(0))})
    print(f"{'in quotes':>14}{'MB':>6}{'one run':>9}{'of lines':>9}", *(f"{f'{it} jobs':>7}" for it in counts))
    for kind, record in KINDS.items():
        make(table, record, count)
        words = ["--tag", "de", "--field", "2", "--delimiter", "tab" if "\t" in record else ","]
        first, processor = spent([program, *words], table, alone)
        print(f"{kind:>14}{os.path.getsize(table) / 1e6:>6.0f}{first:>9.2f}{lines / processor:>9.2f}", end="", flush=True)
        for jobs in counts:
            clock, _ = spent([f"{TOP}/locale_numbers", "--jobs", str(jobs), *words], table, several)
            if not filecmp.cmp(alone, several, shallow=False):
                print(" DIFFERENT")
                return 1
            print(f"{first / clock:>8.2f}", end="", flush=True)
        print()
    return 0


if __name__ == "__main__":
    sys.exit(main(int(sys.argv[1]) if len(sys.argv) > 1 else 5_000_000))
