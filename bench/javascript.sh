#!/bin/sh
# Times calls of the package for JavaScript beside those of `Intl.NumberFormat`, in one run of Node for each locale: for 1, 7 and 18 digits nanoseconds
# and the one over the other; below 1 this package is faster. Then how long it takes from the import to the first text, with all files and with the
# module of a page, and how large the files are.
# It needs node, and esbuild for the size of a page.
# usage: bench/javascript.sh [PACKAGE [TURNS]]
# Without PACKAGE, the folder legumeyet that tools/build_js leaves, it is made.
set -eu
top=$(CDPATH='' cd -- "$(dirname -- "$0")/.." && pwd)
here=$top/bench/javascript made=$top/bench/made
turns=${2:-25}
command -v node >/dev/null || {
    echo "bench: node is needed" >&2
    exit 1
}
[ $# -gt 0 ] || "$top/tools/build_js" "$made/js" >/dev/null
package=${1:-$made/js/legumeyet}
[ -f "$package/legumeyet.wasm" ] || {
    echo "bench: $package has no package: it is the folder legumeyet that tools/build_js leaves" >&2
    exit 1
}
package=$(cd "$package" && pwd)
node --version
echo "locale digits call            here    Intl  ratio"
for locale in en fr ar-EG mr; do
    node "$here/calls.js" "$package" "$turns" "$locale" 1 7 18
done
mkdir -p "$made"
node "$package/make-page.js" en de >"$made/page.wasm"
for module in "" "$made/page.wasm"; do
    for _ in 1 2 3 4 5 6 7 8 9 10 11; do
        node "$here/start.js" "$package" ${module:+"$module"}
    done | sort -n | awk -v of="${module:+, that of a page}" '{ ms[NR] = $1; other[NR] = $2; if (NR == 1 || $3 < least) least = $3 }
        END { printf "start%s, milliseconds: least %.0f, middle %.0f; Intl %.0f, %.0f; of the processor at the least %.0f\n", of, ms[1], ms[6], other[1], other[6], least }'
done
echo "bytes       plain     gzip   brotli"
node "$here/sizes.js" "$package"
