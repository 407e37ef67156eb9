#!/bin/sh
# What a tag of many variants or attributes costs a piece, as the pieces grow more.
# Prints ratios of one run: each cost a piece over that of the fewest pieces in the same order.
# usage: bench/tags.sh [COUNT..]
set -eu
top=$(CDPATH='' cd -- "$(dirname -- "$0")/.." && pwd)
made=$top/bench/made
command -v python3 >/dev/null || {
    echo "bench: python3 is needed" >&2
    exit 1
}
built=${LOCALE_NUMBERS:-$("$top/locale_numbers" --built)}
mkdir -p "$made"
[ $# -gt 0 ] || set -- 50000 100000 200000 400000
for kind in variants attributes; do
    for order in rising falling shuffled; do
        for count in "$@"; do
            python3 "$top/bench/make_tag.py" "$count" "$kind" "$order" >"$made/tag-$kind-$order-$count.txt"
        done
    done
done

python3 - "$built" "$made" "$@" <<'PYTHON'
import os, subprocess, sys

program, made = sys.argv[1:3]
counts = [int(word) for word in sys.argv[3:]]


def spent(source):
    """The least processor time of three runs."""
    best = None
    for _ in range(3):
        with open(source, "rb") as given:
            child = subprocess.Popen([program], stdin=given, stdout=subprocess.DEVNULL)
            _, status, used = os.wait4(child.pid, 0)
        if status != 0:
            sys.exit(f"{source}: status {status}")
        time = used.ru_utime + used.ru_stime
        best = time if best is None else min(best, time)
    return best


print(f"{'kind':<12}{'order':<10}" + "".join(f"{count:>10}" for count in counts))
for kind in ["variants", "attributes"]:
    for order in ["rising", "falling", "shuffled"]:
        costs = [spent(f"{made}/tag-{kind}-{order}-{count}.txt") / count for count in counts]
        print(f"{kind:<12}{order:<10}" + "".join(f"{cost / costs[0]:>10.2f}" for cost in costs))
PYTHON
