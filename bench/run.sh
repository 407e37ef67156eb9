#!/bin/sh
# Compares the program with `cat` and with a small program of its own kind, on the same seeded lines.
# Prints ratios of one run; a bare time says more of the machine than of the program.
# usage: bench/run.sh [LINES [LONGEST]]
set -eu
top=$(CDPATH='' cd -- "$(dirname -- "$0")/.." && pwd)
made=$top/bench/made
lines=${1:-1000000}
longest=${2:-12}
for needed in python3 rustc; do
    command -v "$needed" >/dev/null || {
        echo "bench: $needed is needed" >&2
        exit 1
    }
done
built=${LOCALE_NUMBERS:-$("$top/locale_numbers" --built)}
mkdir -p "$made"
input=$made/lines-$lines-$longest.txt
if [ ! -f "$input" ]; then
    python3 "$top/bench/make_lines.py" "$lines" 1 "$longest" >"$input.part"
    mv "$input.part" "$input"
fi
rustc -O --edition 2021 -o "$made/plain" "$top/bench/plain/main.rs"

python3 - "$input" "$made" "$built" <<'PYTHON'
import filecmp, os, subprocess, sys, time

source, made, program = sys.argv[1:]
plain = f"{made}/plain"
size = os.path.getsize(source)
with open(source, "rb") as given:
    count = sum(1 for _ in given)


def run(command, name):
    """The least processor and wall time of five runs."""
    best = None
    for _ in range(5):
        with open(source, "rb") as given, open(f"{made}/{name}.out", "wb") as taken:
            start = time.monotonic()
            child = subprocess.Popen(command, stdin=given, stdout=taken)
            _, status, used = os.wait4(child.pid, 0)
            wall = time.monotonic() - start
        if status != 0:
            sys.exit(f"{name}: status {status}")
        spent = used.ru_utime + used.ru_stime
        best = (spent, wall) if best is None else (min(best[0], spent), min(best[1], wall))
    return best


def memory(command, share):
    """The most memory, in MB, that a program held for this share of the lines: it is asked once it has taken them, while it waits for more."""
    left = int(count * share)
    with open(source, "rb") as given:
        child = subprocess.Popen(command, stdin=subprocess.PIPE, stdout=subprocess.DEVNULL)
        for line in given:
            if left == 0:
                break
            left -= 1
            child.stdin.write(line)
        child.stdin.flush()
        time.sleep(0.3)
        with open(f"/proc/{child.pid}/status") as status:
            held = next(int(line.split()[1]) for line in status if line.startswith("VmHWM:"))
        child.stdin.close()
        child.wait()
    return held / 1024


cat_time = run(["cat"], "cat")
plain_time = run([plain], "plain")
our_time = run([program], "ours")
same = filecmp.cmp(f"{made}/plain.out", f"{made}/ours.out", shallow=False)
print(f"input             {size / 1e6:.1f} MB, {count} lines")
print(f"answers           {'the same bytes' if same else 'DIFFERENT'}")
print(f"processor, plain  {our_time[0] / plain_time[0]:.2f} times the small program")
print(f"processor, cat    {our_time[0] / max(cat_time[0], 1e-3):.1f} times cat")
print(f"wall, plain       {our_time[1] / plain_time[1]:.2f} times the small program")
print(f"memory            {memory([program], 1):.1f} MB at most, {memory([program], 0.1):.1f} MB for a tenth of the lines")
print(f"memory, plain     {memory([plain], 1):.1f} MB at most")
sys.exit(0 if same else 1)
PYTHON
