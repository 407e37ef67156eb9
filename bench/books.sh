#!/bin/sh
# What a book costs an entry, as its entries grow more, and what a book of all locales costs.
# Each run reads a seeded book and no line. Prints times and memory of one run; nothing here is asserted.
# usage: bench/books.sh [SYMBOLS..]
set -eu
top=$(CDPATH='' cd -- "$(dirname -- "$0")/.." && pwd)
made=$top/bench/made
command -v python3 >/dev/null || {
    echo "bench: python3 is needed" >&2
    exit 1
}
program=${LOCALE_NUMBERS:-$("$top/locale_numbers" --built)}
mkdir -p "$made"
[ $# -gt 0 ] || set -- 1000 2000 5500
for count in 0 "$@"; do
    python3 "$top/bench/make_book.py" "$count" >"$made/book-$count.json"
done

python3 - "$program" "$made" "$@" <<'PYTHON'
import json, os, subprocess, sys

program, made = sys.argv[1:3]
counts = [int(word) for word in sys.argv[3:]]
LINE = b"en-x-foo\tread\tauto\tkeep\t-\t-\n"


def time_of(book):
    """The least processor time, in seconds, of five runs that read a book and no line."""
    times = []
    for _ in range(5):
        child = subprocess.Popen([program, book], stdin=subprocess.DEVNULL, stdout=subprocess.DEVNULL)
        _, status, used = os.wait4(child.pid, 0)
        if status != 0:
            sys.exit(f"{book}: status {status}")
        times.append(used.ru_utime + used.ru_stime)
    return min(times)


def memory_of(book):
    """The most memory, in MB, that a run held until its first answer."""
    child = subprocess.Popen([program, book], stdin=subprocess.PIPE, stdout=subprocess.PIPE)
    child.stdin.write(LINE)
    child.stdin.flush()
    child.stdout.readline()
    with open(f"/proc/{child.pid}/status", encoding="ascii") as status:
        held = next(int(line.split()[1]) for line in status if line.startswith("VmHWM:"))
    child.communicate()
    return held / 1024


def measured(count):
    """Entries, size in MB, time and memory of the book with so many entries of symbols."""
    book = f"{made}/book-{count}.json"
    with open(book, encoding="utf-8") as text:
        entries = sum(map(len, json.load(text)))
    return entries, os.path.getsize(book) / 1e6, time_of(book), memory_of(book)


few, _, least_time, least_memory = measured(0)
first = None
print(f"{'symbols':>8}{'entries':>9}{'MB':>6}{'seconds':>9}{'memory MB':>11}{'cost an entry':>15}{'memory an entry':>17}")
for count in counts:
    entries, size, time, memory = measured(count)
    costs = (time - least_time) / (entries - few), (memory - least_memory) / (entries - few)
    first = first or costs
    print(f"{count:>8}{entries:>9}{size:>6.2f}{time:>9.3f}{memory:>11.1f}{costs[0] / first[0]:>15.2f}{costs[1] / first[1]:>17.2f}")
PYTHON
