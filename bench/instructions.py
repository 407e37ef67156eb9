#!/usr/bin/env python3
"""Counts the instructions that a line costs, by its kind, and those of a start, with valgrind's callgrind, beside those of ICU4C.

usage: bench/instructions.py [--functions KIND] [BOOK [COUNT [SEED]]]

A line costs the difference between a run over 2 * COUNT lines and one over the first COUNT of them, over COUNT: so the start and
the first use of each formatter cost nothing here. Counts do not swing, as times do, by other work on the machine. BOOK is the sample book where
none is named; with one of `books/make-cldr` the lines of twenty locales are of twenty locales, and with units there are percents and amounts.
The lines are seeded: numbers of 1 to 18 digits, a third of them with a point within, a tenth with a minus. It prints a row a kind: the
instructions here, those of ICU4C's program (books/icu_peer.cpp) for the same lines, where it can be built and has the form, and the one over the
other. With --functions it prints in which functions the instructions of a line of this kind are, each without those that it calls. The status is 1
where valgrind or the program is not there.
"""
import argparse
import collections
import os
import random
import re
import shutil
import subprocess
import sys
import tempfile

TOP = os.path.dirname(os.path.dirname(os.path.realpath(__file__)))
LOCALES = "en de fr it es pt nl sv da fi pl cs hu tr el uk id vi ja ko".split()


def program():
    """The path of the program."""
    if os.environ.get("LOCALE_NUMBERS"):
        return os.path.abspath(os.environ["LOCALE_NUMBERS"])
    asked = subprocess.run([f"{TOP}/locale_numbers", "--built"], stdin=subprocess.DEVNULL, stdout=subprocess.PIPE, check=False)
    if asked.returncode:
        sys.exit(1)
    return os.fsdecode(asked.stdout.rstrip(b"\n"))


# The kinds whose lines ask for English by a form and a rounding of their own, which ICU4C's program does not have.
ROUNDED = {"rounded": "-2,half-even,1", "significant": "s3-3,half-even"}


def number(chance, most):
    """A number of 1 to `most` digits, one in three with a point within, one in ten with a minus."""
    digits = str(chance.randrange(1, 10)) + "".join(str(chance.randrange(10)) for _ in range(chance.randrange(most)))
    cut = chance.randrange(1, len(digits)) if len(digits) > 1 and chance.randrange(3) == 0 else len(digits)
    return "-" * (chance.randrange(10) == 0) + digits[:cut] + ("." + digits[cut:] if cut < len(digits) else "")


def lines_of(kind, count, locales, seed=1):
    """Seeded lines of a kind."""
    chance = random.Random(seed)
    if kind.endswith(" digits"):
        size = int(kind.split()[0])
        return ["en\tplain\tauto\tkeep\t-\t" + "".join(str(chance.randrange(1, 10)) for _ in range(size)) for _ in range(count)]
    numbers = [number(chance, 18) for _ in range(count)]
    if kind == "whole":
        return ["en\tplain\tauto\tkeep\t-\t" + it.replace(".", "") for it in numbers]
    if kind in ROUNDED:
        return [f"en\tplain\tauto\tkeep\t{ROUNDED[kind]}\t{it}" for it in numbers]
    if kind == "locales in turn":
        return [f"{locales[at % len(locales)]}\tplain\tauto\tkeep\t-\t{it}" for at, it in enumerate(numbers)]
    if kind == "sign and rounding":
        return [f"en\tplain\tauto\talways\t-2,half-even,1\t{it}" for it in numbers]
    return [f"en\t{kind}\tauto\tkeep\t-\t{it}" for it in numbers]


def by_function(path):
    """The instructions of each function in a file of callgrind's, without those of what it calls."""
    names, counts, name, is_call = {}, collections.Counter(), "", False
    with open(path, encoding="utf-8", errors="replace") as file:
        for line in file:
            if line.startswith("fn="):
                number_of, _, given = line[3:].rstrip("\n").partition(" ")
                name = names.setdefault(number_of, given)
            elif line.startswith("cfn="):
                number_of, _, given = line[4:].rstrip("\n").partition(" ")
                names.setdefault(number_of, given)
            elif line.startswith("calls="):
                is_call = True
            elif line[:1] in tuple("0123456789+-*") and not is_call:
                counts[name] += int(line.split()[1])
            elif line[:1] in tuple("0123456789+-*"):
                is_call = False
    return counts


def functions(words, lines, folder):
    """The functions of a line in the second half of these, with their instructions, those that have most first."""
    half, out = len(lines) // 2, f"{folder}/callgrind.out"
    counted(words, lines, folder)
    counts = by_function(out)
    counted(words, lines[:half], folder)
    counts.subtract(by_function(out))
    return [(count / (len(lines) - half), name) for name, count in counts.most_common() if count >= len(lines) - half]


def counted(words, lines, folder):
    """The instructions of one run over these lines, and what it writes."""
    out = f"{folder}/callgrind.out"
    done = subprocess.run(
        ["valgrind", "--tool=callgrind", f"--callgrind-out-file={out}", *words],
        input="".join(it + "\n" for it in lines).encode(), stdout=subprocess.PIPE, stderr=subprocess.PIPE, check=True)
    with open(out, encoding="utf-8") as file:
        return int(re.search(r"^(?:summary|totals): (\d+)", file.read(), re.MULTILINE)[1]), done.stdout


def a_line(words, lines, folder):
    """The instructions of a line in the second half of these."""
    half = len(lines) // 2
    return (counted(words, lines, folder)[0] - counted(words, lines[:half], folder)[0]) / (len(lines) - half)


def icu():
    """The command of ICU4C's formatter, or None."""
    ran = subprocess.run([f"{TOP}/books/build-icu", "icu_peer"], stdout=subprocess.PIPE, stderr=subprocess.DEVNULL, encoding="utf-8", check=False)
    return None if ran.returncode else [ran.stdout.strip()]


def row(name, words, peer, lines, folder):
    """Prints the row of a kind."""
    here, there = a_line(words, lines, folder), a_line(peer, lines, folder) if peer else None
    print(f"{name:<20}{here:>12,.0f}" + (f"{there:>14,.0f}{there / here:>8.2f}" if there else ""), flush=True)


def rows(words, peer, count, seed, locales, folder, has_units):
    """Prints a row a kind."""
    start, _ = counted(words, [], folder)
    print(f"{'':<20}{'here':>12}{'ICU4C':>14}{'ratio':>8}\n{'start':<20}{start:>12,}")
    for size in [1, 4, 8, 12, 16, 17, 32, 47, 48, 64, 512, 32768]:
        row(f"{size} digits", words, peer, lines_of(f"{size} digits", max(2 * count * 16 // max(size, 16), 8), locales, seed), folder)
    for kind in ["plain", "whole", "locales in turn", "short", "long", "sign and rounding", *ROUNDED, *(["percent", "currency-EUR"] if has_units else [])]:
        row(kind, words, None if kind in ROUNDED else peer, lines_of(kind, 2 * count, locales, seed), folder)
    _, answers = counted(words, lines_of("plain", 2 * count, locales, seed), folder)
    texts = [it.split("\t")[1] for it in answers.decode().splitlines()]
    typed = [it.rpartition("\t")[2] for it in lines_of("plain", 2 * count, locales, seed)]
    for said, form, given in (("read", "read", texts), ("read-lenient", "read-lenient", texts), ("typed", "read-lenient", typed)):
        row(said, words, peer, [f"en\t{form}\tauto\tkeep\t-\t{it}" for it in given], folder)


def main():
    """Prints a row a kind, or the functions of one."""
    asked = argparse.ArgumentParser(description=__doc__, formatter_class=argparse.RawDescriptionHelpFormatter)
    asked.add_argument("--functions", metavar="KIND")
    asked.add_argument("book", metavar="BOOK", nargs="?", default="")
    asked.add_argument("count", metavar="COUNT", nargs="?", type=int, default=2000)
    asked.add_argument("seed", metavar="SEED", nargs="?", type=int, default=1)
    said = asked.parse_args()
    if shutil.which("valgrind") is None:
        print("bench: valgrind is needed", file=sys.stderr)
        return 1
    words = [program(), *([os.path.abspath(said.book), "32"] if said.book else [])]
    locales = LOCALES if said.book else ["en", "ar-EG"]
    with tempfile.TemporaryDirectory() as folder:
        if said.functions:
            lines = lines_of(said.functions, 2 * said.count, locales, said.seed)
            for instructions, name in functions(words, lines, folder):
                print(f"{instructions:>10,.0f}  {name}")
        else:
            has_units = bool(said.book) and b"ok" in counted(words, ["en\tpercent\tauto\tkeep\t-\t1"], folder)[1]
            rows(words, icu(), said.count, said.seed, locales, folder, has_units)
    return 0


if __name__ == "__main__":
    sys.exit(main())
