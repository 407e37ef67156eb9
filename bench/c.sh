#!/bin/sh
# Times the library for C beside ICU4C's calls for C, in one run, for 1 to 18 digits: given as text and as integers, in short form, and
# read back; as text and in short form also by formatters of a kept book, and as text by a shared one of these. Prints the one over the
# other: below 1 this library is faster.
# It needs a C compiler and libicu-dev.
# usage: bench/c.sh [LIBRARY [TURNS]]
# Without LIBRARY, a folder as tools/build_c leaves it, it is made of the proved crate.
set -eu
top=$(CDPATH='' cd -- "$(dirname -- "$0")/.." && pwd)
made=$top/bench/made
library=${1:-$made/c}
command -v "${CC:-cc}" >/dev/null || {
    echo "bench: ${CC:-cc} is needed" >&2
    exit 1
}
[ -e /usr/include/unicode/unumberformatter.h ] || [ -n "${CPATH:-}" ] || {
    echo "bench: ICU's headers are needed: apt-get install libicu-dev" >&2
    exit 1
}
mkdir -p "$made"
[ $# -gt 0 ] || "$top/tools/build_c" "$library"
[ -f "$library/liblegumeyet.a" ] || {
    echo "bench: $library has no library: tools/build_c $library makes it" >&2
    exit 1
}
cat >"$made/english.json" <<'BOOK'
[[["en","","latn","-","","+","",".",",",3,3,1]],[["latn","0123456789"]],[["en",[["one","i = 1 and v = 0"]]]],
[["en","",[[3,3,[["other",["","K"]]]],[6,6,[["other",["","M"]]]],[9,9,[["other",["","B"]]]],[12,12,[["other",["","T"]]]]],null]],[]]
BOOK
"${CC:-cc}" -O2 -D_GNU_SOURCE "-I$library" -o "$made/c-beside-icu" "$top/bench/c/main.c" "$library/liblegumeyet.a" -licui18n -licuuc
exec "$made/c-beside-icu" "$made/english.json" "${2:-15}"
