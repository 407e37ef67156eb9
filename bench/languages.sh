#!/bin/sh
# Times a call that writes a number in German from C beside `Intl.NumberFormat` of Node, for 1, 7 and 18 digits; and beside calls for one a number
# among a thousand that one call writes, of texts, integers and doubles; and from Python beside Babel a call
# that writes one, one that reads it back, and one that writes many of a list and of a row in memory, by the number. Prints nanoseconds and the one
# over the other: below 1 this library is faster. It needs a C compiler, the headers of Python, node and python3, and of Debian's packages
# python3-babel.
# usage: bench/languages.sh [LIBRARY [TURNS]]
# Without LIBRARY, a folder as tools/build_c leaves it, it is made of the proved crate.
set -eu
top=$(CDPATH='' cd -- "$(dirname -- "$0")/.." && pwd)
here=$top/bench/languages made=$top/bench/made
library=${1:-$made/c} turns=${2:-25}
python=/usr/bin/python3
for needed in "${CC:-cc}" node "$python"; do
    command -v "$needed" >/dev/null || {
        echo "bench: $needed is needed" >&2
        exit 1
    }
done
"$python" -c "import babel" 2>/dev/null || {
    echo "bench: Babel is needed: apt-get install python3-babel" >&2
    exit 1
}
mkdir -p "$made"
[ $# -gt 0 ] || "$top/tools/build_c" "$library"
[ -f "$library/liblegumeyet.a" ] || {
    echo "bench: $library has no library: tools/build_c $library makes it" >&2
    exit 1
}
set -- 1 7 18
"${CC:-cc}" -O2 -D_GNU_SOURCE "-I$library" -o "$made/languages" "$here/main.c" "$library/liblegumeyet.a"
"$made/languages" "$turns" "$@" >"$made/c.txt"
node "$here/intl.js" "$turns" "$@" >"$made/intl.txt"
echo "digits       C    Intl  ratio   texts ratio  integers ratio  doubles ratio"
for count in "$@"; do
    echo "$count"
done | paste -d ' ' - "$made/c.txt" "$made/intl.txt" | while read -r count c ct texts tr integers ir doubles dr intl it; do
    [ "$ct" = "$it" ] || echo "bench: the texts differ: $ct $it" >&2
    awk -v n="$count" -v c="$c" -v i="$intl" -v t="$texts $tr $integers $ir $doubles $dr" \
        'BEGIN { split(t, k); printf "%6d %7.0f %7.0f  %5.2f %7.0f  %4.2f %9.0f  %4.2f %8.0f  %4.2f\n", n, c, i, c / i, k[1], k[2], k[3], k[4], k[5], k[6] }'
done
wheel=$("$top/tools/build_wheel" --library "$library" "$made/wheels")
rm -rf "$made/python"
"$python" -m zipfile -e "$wheel" "$made/python"
PYTHONPATH=$made/python:${PYTHONPATH:-} "$python" "$here/peers.py" "$turns" "$@"
