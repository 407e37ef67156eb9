#!/usr/bin/env python3
"""Counts the instructions that a line of a percent or of an amount costs, beside a plain line of the same numbers, and beside ICU4C; and times
such lines beside `Intl.NumberFormat` of Node.

usage: bench/units.py [COUNT]

Each row is a form in German, over books/world.json: its instructions a line, over those of a plain line, those of ICU4C's formatter for the same
lines (books/icu_peer.cpp), and the one over the other; then the processor time of Node's for the same lines over the time here, each without
its start. A line costs what a second half of the lines adds. `read-` is the same texts read back, exactly. The lines are seeded. The last line says
what a start takes with the book, and what the program holds then. It needs valgrind; a peer that is not there has no figures.
"""
import os
import shutil
import subprocess
import sys
import tempfile

from instructions import TOP, a_line, counted, icu, lines_of, program

BOOK = f"{TOP}/books/world.json"
FORMS = ("percent", "currency-EUR", "code-EUR", "accounting-EUR")
NODE = [os.environ.get("NODE") or "node", f"{TOP}/books/node_peer.js"]
TURNS = 5


def asked(form, numbers):
    """The lines that ask for a form of these numbers, or to read these texts."""
    return [f"de\t{form}\tauto\tkeep\t-\t{it}" for it in numbers]


def spent(words, lines):
    """The least processor time of some runs over these lines."""
    best = None
    for _ in range(TURNS):
        with tempfile.TemporaryFile() as given:
            given.write("".join(it + "\n" for it in lines).encode())
            given.seek(0)
            child = subprocess.Popen(words, stdin=given, stdout=subprocess.DEVNULL)
            _, status, used = os.wait4(child.pid, 0)
        if status != 0:
            sys.exit(f"{words[0]}: status {status}")
        time = used.ru_utime + used.ru_stime
        best = time if best is None else min(best, time)
    return best


def a_time(words, lines):
    """The processor time of these lines, without the start and without the first use of a formatter."""
    return spent(words, lines * 20) - spent(words, lines[:1])


def held(words):
    """The memory, in MB, that a program holds once it has read its book."""
    child = subprocess.Popen(words, stdin=subprocess.PIPE, stdout=subprocess.PIPE)
    child.stdin.write(f"{asked('plain', ['1'])[0]}\n".encode())
    child.stdin.flush()
    child.stdout.readline()
    with open(f"/proc/{child.pid}/status", encoding="ascii") as status:
        found = next(int(line.split()[1]) for line in status if line.startswith("VmHWM:"))
    child.stdin.close()
    child.wait()
    return found / 1024


def texts_of(words, lines):
    """What the program writes for these lines."""
    ran = subprocess.run(words, input="".join(it + "\n" for it in lines).encode(), stdout=subprocess.PIPE, check=True)
    return [it.split("\t")[1] for it in ran.stdout.decode().splitlines()]


def row(name, words, lines, plain, peers, folder):
    """Prints the row of a form, whose peers are ICU4C and Node, each where it is there and has the form."""
    here, (there, node) = a_line(words, lines, folder), peers
    cells = [f"{name:<24}{here:>10,.0f}{here / plain:>8.2f}"]
    its = a_line(there, lines, folder) if there else None
    cells.append(f"{its:>10,.0f}{its / here:>8.2f}" if its else f"{'':>18}")
    cells.append(f"{a_time(node, lines) / a_time(words, lines):>8.2f}" if node else "")
    print("".join(cells), flush=True)


def main(count="2000"):
    """Prints a row a form."""
    if shutil.which("valgrind") is None:
        print("bench: valgrind is needed", file=sys.stderr)
        return 1
    words, numbers = [program(), BOOK, "64"], [it.rpartition("\t")[2] for it in lines_of("plain", 2 * int(count), ["de"])]
    peers = icu(), NODE if shutil.which(NODE[0]) else None
    with tempfile.TemporaryDirectory() as folder:
        plain = a_line(words, asked("plain", numbers), folder)
        print(f"{'':<24}{'here':>10}{'plain':>8}{'ICU4C':>10}{'ratio':>8}{'Node':>8}")
        row("plain", words, asked("plain", numbers), plain, peers, folder)
        for form in FORMS:
            row(form, words, asked(form, numbers), plain, peers, folder)
        for form in FORMS:
            texts = texts_of(words, asked(form, numbers))
            row(f"read-{form}", words, asked(f"read-{form}", texts), plain, (None, None), folder)
        start, _ = counted(words, [], folder)
    print(f"a start takes {start:,} instructions and {1000 * spent(words, []):.0f} ms, and the program then holds {held(words):.1f} MB")
    return 0


if __name__ == "__main__":
    sys.exit(main(*sys.argv[1:]))
