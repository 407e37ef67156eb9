#!/bin/sh
# What a line costs by its form, and lines of twenty tags in turn: ratios of processor time in one run.
# Prints for each form its time over that of the plain lines of the same numbers; for `read` the texts are those that the plain
# lines wrote. Then, with 32 formatters kept, the time of lines of twenty tags in turn: where all write Latin digits, over that of
# the same numbers under one of them; where they write three systems of digits, over that of the same lines sorted by tag.
# usage: bench/forms.sh [LINES]
set -eu
top=$(CDPATH='' cd -- "$(dirname -- "$0")/.." && pwd)
made=$top/bench/made
command -v python3 >/dev/null || {
    echo "bench: python3 is needed" >&2
    exit 1
}
mkdir -p "$made"
built=${LOCALE_NUMBERS:-$("$top/locale_numbers" --built)}

python3 - "$built" "$made" "${1:-300000}" <<'PYTHON'
import os, random, subprocess, sys

program, made, count = sys.argv[1], sys.argv[2], int(sys.argv[3])
chance = random.Random(7)
BOOK = '''[[["en","","latn","-","","+","",".",",",3,3,1],["ar-EG","","arab","-","","+","","٫","٬",3,3,1]],
[["latn","0123456789"],["arab","٠١٢٣٤٥٦٧٨٩"],["thai","๐๑๒๓๔๕๖๗๘๙"]],
[["en",[["one","i = 1 and v = 0"],["other",""]]]],
[["en","",[[3,3,[["other",["","K"]]]],[6,6,[["other",["","M"]]]]],null]],
[["en","",[[3,3,[["other",["","-thousands"]]]],[6,6,[["other",["","-millions"]]]]],null]]]'''


def write(name, lines):
    with open(f"{made}/forms-{name}.txt", "w", encoding="utf-8") as given:
        given.write("\n".join(lines) + "\n")


def run(name):
    """The processor time of one run over these lines."""
    with open(f"{made}/forms-{name}.txt", "rb") as given, open(f"{made}/forms-{name}.out", "wb") as answers:
        child = subprocess.Popen([program, f"{made}/forms-book.json", "32"], stdin=given, stdout=answers)
        _, status, used = os.wait4(child.pid, 0)
    if status != 0:
        sys.exit(f"{name}: status {status}")
    return used.ru_utime + used.ru_stime


def lines_of(form, texts):
    return [f"en\t{form}\tauto\tkeep\t-\t{text}" for text in texts]


def number():
    sign = chance.choice(["", "", "-"])
    return f"{sign}{chance.randrange(10 ** chance.randrange(1, 9))}" + chance.choice(["", "", f".{chance.randrange(100)}"])


with open(f"{made}/forms-book.json", "w", encoding="utf-8") as book:
    book.write(BOOK)
numbers = [number() for _ in range(count)]
ends = ["", "-u-nu-latn", "-u-nu-arab", "-u-nu-thai"] + [f"-u-rg-{region}zzzz" for region in ["gb", "us", "de", "fr", "it", "es"]]
tags = [language + end for language in ["en", "ar-EG"] for end in ends]
turns = [f"{tags[i % 20]}\tplain\tauto\tkeep\t-\t{text}" for i, text in enumerate(numbers)]
write("plain", lines_of("plain", numbers))
run("plain")
with open(f"{made}/forms-plain.out", encoding="utf-8") as answers:
    write("read", lines_of("read", [answer.split("\t")[1].rstrip("\n") for answer in answers]))
write("short", lines_of("short", numbers))
write("long", lines_of("long", numbers))
write("in-turn", turns)
write("by-tag", sorted(turns, key=lambda line: line.split("\t")[0]))
regions = "gb us de fr it es pt pl se no dk fi at be ch cz hu ie lu nl".split()
write("alike", [f"en-u-rg-{regions[i % 20]}zzzz\tplain\tauto\tkeep\t-\t{text}" for i, text in enumerate(numbers)])
write("one-tag", [f"en-u-rg-{regions[0]}zzzz\tplain\tauto\tkeep\t-\t{text}" for text in numbers])
kinds = ["plain", "read", "short", "long", "one-tag", "alike", "by-tag", "in-turn"]
best = {kind: run(kind) for kind in kinds}
for _ in range(10):
    for kind in kinds:
        best[kind] = min(best[kind], run(kind))
for kind in ["read", "short", "long"]:
    print(f"{kind:<20}{best[kind] / best['plain']:>8.2f}")
print(f"{'20 tags':<20}{best['alike'] / best['one-tag']:>8.2f}")
print(f"{'20 tags, 3 systems':<20}{best['in-turn'] / best['by-tag']:>8.2f}")
PYTHON
