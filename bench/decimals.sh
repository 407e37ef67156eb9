#!/bin/sh
# Reads, rounds and prints decimals of up to 65536 digits. Prints what a digit costs, and how that compares with its cost at
# 1024 digits: near 100% where the cost is linear. With a commit, it then builds one program over the crates as they are and
# as they were at that commit, runs the two in turns, and prints the one over the other. It works on copies of the crates,
# and proves and builds what is not there yet.
# usage: bench/decimals.sh [COMMIT]     (6dccef3 kept a digit to a byte)
set -eu
top=$(CDPATH='' cd -- "$(dirname -- "$0")/.." && pwd)
made=${TMPDIR:-/tmp}/fixed_decimal_bench      # outside the repository: a check of all crates reads every .rt file below it
. "$top/bench/copies.sh"
copy_crates "$made" fixed_decimal
run_program "$made" fixed_decimal_bench "$top/bench/decimals/main.rt.txt" anyhow fixed_decimal writeable
[ $# -gt 0 ] || exit 0

in_turns "$1" fixed_decimal_unsigned beside "$top/bench/decimals/beside.rt.txt" anyhow fixed_decimal_unsigned writeable
# the least of five runs each
awk 'function keep(table) { if (!($1 in table) || $2 < table[$1]) table[$1] = $2 }
    FNR == NR { if (!($1 in old)) order[++count] = $1; keep(old); next }
    { keep(new) }
    END {
        printf "%-16s %12s %12s %8s\n", "picoseconds", "before", "now", "ratio"
        for (i = 1; i <= count; i++) {
            name = order[i]
            printf "%-16s %12d %12d %8.2f\n", name, old[name], new[name], new[name] / old[name]
            if (name ~ /^short/) { was += old[name]; is += new[name] }
        }
        printf "%-16s %12d %12d %8.2f\n", "short, all", was, is, is / was
    }' "$made/before.times" "$made/now.times"
