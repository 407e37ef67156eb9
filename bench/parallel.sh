#!/bin/sh
# Answers the same lines by one run, by ./locale_numbers --jobs and, where it is installed, by GNU parallel, each with 1, 2 and as
# many jobs as there are processors. It compares the bytes with those of the one run, and prints lines a second over those of the
# one run. GNU parallel starts the program once a block, and a BOOK is read once a block too, so blocks are of 16 MB.
# usage: bench/parallel.sh [LINES [BOOK]]
set -eu
top=$(CDPATH='' cd -- "$(dirname -- "$0")/.." && pwd)
made=$top/bench/made
lines=${1:-10000000}
book=${2:+$(readlink -f -- "$2")}
command -v python3 >/dev/null || {
    echo "bench: python3 is needed" >&2
    exit 1
}
built=${LOCALE_NUMBERS:-$("$top/locale_numbers" --built)}
mkdir -p "$made"
input=$made/lines-$lines-12.txt
if [ ! -f "$input" ]; then
    python3 "$top/bench/make_lines.py" "$lines" 1 12 >"$input.part"
    mv "$input.part" "$input"
fi

python3 - "$input" "$made" "$top" "$built" ${book:+"$book"} <<'PYTHON'
import filecmp, os, shutil, subprocess, sys, time

source, made, top, *program = sys.argv[1:]
WAYS = {"--jobs": lambda jobs: [f"{top}/locale_numbers", "--jobs", jobs, *program[1:]]}
if shutil.which("parallel"):
    WAYS["parallel"] = lambda jobs: ["parallel", "--pipe", "--keep-order", "--block", "16M", "--jobs", jobs, "--quote", *program]


def wall(command, name):
    """The least time by the clock of three runs."""
    best = None
    for _ in range(3):
        with open(source, "rb") as given, open(f"{made}/{name}.out", "wb") as taken:
            start = time.monotonic()
            subprocess.run(command, stdin=given, stdout=taken, check=True)
            spent = time.monotonic() - start
        best = spent if best is None else min(best, spent)
    return best


alone = wall(program, "alone")
print(f"{'way':>10}{'jobs':>6}{'speed':>8}  bytes")
print(f"{'one run':>10}{'none':>6}{1:>8.2f}")
processors = len(os.sched_getaffinity(0))
for way, command in WAYS.items():
    for jobs in sorted({1, 2, processors}):
        spent = wall(command(str(jobs)), "jobs")
        same = filecmp.cmp(f"{made}/alone.out", f"{made}/jobs.out", shallow=False)
        print(f"{way:>10}{jobs:>6}{alone / spent:>8.2f}  {'the same' if same else 'DIFFERENT'}")
        if not same:
            sys.exit(1)
PYTHON
