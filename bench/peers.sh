#!/bin/sh
# Compares the program with a small program over ICU4C on the same seeded lines, under a book of all locales.
# Prints ratios of one run: above 1 the program is the faster one, or holds less. Starting and reading the book are taken off the
# time; where what is left is not four times that, it ends and asks for more LINES.
# usage: bench/peers.sh [BOOK [LINES]]
# Without BOOK one is made of CLDR's data, or of ICU's own where unicode-cldr-core is not installed.
set -eu
top=$(CDPATH='' cd -- "$(dirname -- "$0")/.." && pwd)
made=$top/bench/made
book=${1:-}
lines=${2:-300000}
command -v python3 >/dev/null || {
    echo "bench: python3 is needed" >&2
    exit 1
}
program=${LOCALE_NUMBERS:-$("$top/locale_numbers" --built)}
mkdir -p "$made"
if [ -z "$book" ]; then
    book=$made/book.json
    if [ -d /usr/share/unicode/cldr/common ]; then
        "$top/books/make-cldr" "$book"
    else
        "$top/books/icu-to-cldr" "$made/common"
        "$top/books/make-cldr" --from "$made/common" "$book"
    fi
fi
peer=$("$top/books/build-icu" icu_peer)

python3 - "$book" "$lines" "$made" "$program" "$peer" <<'PYTHON'
import decimal, os, random, subprocess, sys, time

book, count, made, program, peer = sys.argv[1:]
count = int(count)
ONE = ["de"]
TWENTY = "en de fr es it pt ru pl ar-EG hi bn fa ja ko zh th sw tr he de-CH".split()
COMMANDS = {"here": [program, book, "64"], "there": [peer]}


def digits(rng, least, most):
    """A whole number of so many digits, for one of four with a fraction, without a zero that could be left out."""
    text = rng.choice("123456789") + "".join(rng.choice("0123456789") for _ in range(rng.randint(least, most) - 1))
    if rng.random() < 0.25:
        text += "." + rng.choice("0123456789") + rng.choice("123456789")
    return rng.choice(["", "", "", "-"]) + text


def write(name, form, tags, least, most):
    """The file of the lines of a row: for the form read, the texts that the program writes for such numbers."""
    rng = random.Random(name)
    path = f"{made}/peers-{name.replace(' ', '-').replace(',', '')}-{count}.txt"
    asked = [rng.choice(tags) for _ in range(count)]
    given = [digits(rng, least, most) for _ in asked]
    if form == "read":
        plain = "".join(f"{tag}\tplain\tauto\tkeep\t-\t{number}\n" for tag, number in zip(asked, given))
        ran = subprocess.run(COMMANDS["here"], input=plain.encode(), stdout=subprocess.PIPE, check=True)
        given = [line.split("\t")[1] for line in ran.stdout.decode().split("\n")[:-1]]
    with open(path, "w", encoding="utf-8") as out:
        out.writelines(f"{tag}\t{form}\tauto\tkeep\t-\t{text}\n" for tag, text in zip(asked, given))
    return path


def spent(command, source, taken=os.devnull):
    """The least processor time of three runs."""
    best = None
    for _ in range(3):
        with open(source, "rb") as given, open(taken, "wb") as out:
            child = subprocess.Popen(command, stdin=given, stdout=out)
            _, status, used = os.wait4(child.pid, 0)
        if status != 0:
            sys.exit(f"{command[0]}: status {status}")
        time = used.ru_utime + used.ru_stime
        best = time if best is None else min(best, time)
    return best


def held(command, source):
    """The most memory in MB: it is asked once the program has taken all lines, while it waits for more."""
    with open(source, "rb") as given:
        child = subprocess.Popen(command, stdin=subprocess.PIPE, stdout=subprocess.DEVNULL)
        child.stdin.write(given.read())
        child.stdin.flush()
        time.sleep(0.3)
        with open(f"/proc/{child.pid}/status") as status:
            found = next(int(line.split()[1]) for line in status if line.startswith("VmHWM:"))
        child.stdin.close()
        child.wait()
    return found / 1024


def answers(path, form):
    """Each answer's first word and its text; of a number that was read its value, however it is spelled."""
    with open(path, "rb") as given:
        found = [line.split(b"\t")[:2] for line in given.read().split(b"\n")[:-1]]
    if form == "read":
        return [(word, decimal.Decimal(text.decode()) if word == b"ok" else text) for word, text in found]
    return found


def left_of(name, source):
    """The least processor time of a program over these lines, without its start; it has to be well above the start."""
    left = spent(COMMANDS[name], source, f"{made}/peers.{name}") - start[name]
    if left < 4 * start[name]:
        sys.exit(f"bench: too few lines for a ratio: {name} takes {start[name]:.3f} s to start and {max(left, 0):.3f} s for {count} lines; give more LINES")
    return left


start = {name: spent(command, os.devnull) for name, command in COMMANDS.items()}
print(f"{'lines':<42}{'speed':>8}{'memory':>8}{'here MB':>9}{'there MB':>10}{'same':>11}")
for name, form, tags, least, most in [
    ("plain, 1 to 8 digits, one locale", "plain", ONE, 1, 8),
    ("plain, 1 to 8 digits, twenty locales", "plain", TWENTY, 1, 8),
    ("plain, 100 to 200 digits, one locale", "plain", ONE, 100, 200),
    ("plain, 100 to 200 digits, twenty locales", "plain", TWENTY, 100, 200),
    ("short, 1 to 14 digits, one locale", "short", ONE, 1, 14),
    ("short, 1 to 14 digits, twenty locales", "short", TWENTY, 1, 14),
    ("read, 1 to 8 digits, one locale", "read", ONE, 1, 8),
    ("read, 1 to 8 digits, twenty locales", "read", TWENTY, 1, 8),
]:
    source = write(name, form, tags, least, most)
    took = {it: left_of(it, source) for it in COMMANDS}
    memory = {it: held(command, source) for it, command in COMMANDS.items()}
    here, there = answers(f"{made}/peers.here", form), answers(f"{made}/peers.there", form)
    same = sum(a == b for a, b in zip(here, there)) / count
    print(
        f"{name:<42}{took['there'] / took['here']:>8.2f}{memory['there'] / memory['here']:>8.2f}"
        f"{memory['here']:>9.1f}{memory['there']:>10.1f}{100 * same:>10.2f}%"
    )
    if not any(line[0] == b"ok" for line in here):
        sys.exit(f"{program}: no line was answered by ok")
print(f"reading the book and starting took as long as {start['here'] / took['here'] * count:.0f} lines of the last row")
PYTHON
