#!/bin/sh
# Times small texts beside byte loops for the same calls, in one run, and prints the one over the other. With a commit, it then
# builds one program, which reads and prints tags of three subtags, over the crates as they are and as they were at that
# commit, runs the two in turns, and prints the one over the other. It works on copies of the crates, and proves and builds what
# is not there yet.
# usage: bench/texts.sh [COMMIT]     (e9d7478^ went through small texts byte by byte)
set -eu
top=$(CDPATH='' cd -- "$(dirname -- "$0")/.." && pwd)
made=${TMPDIR:-/tmp}/tinystr_bench      # outside the repository: a check of all crates reads every .rt file below it
. "$top/bench/copies.sh"
copy_crates "$made" tinystr
run_program "$made" tinystr_bench "$top/bench/texts/main.rt.txt" anyhow tinystr
[ $# -gt 0 ] || exit 0

in_turns "$1" icu_locale_core_langid tags "$top/bench/texts/tags.rt.txt" anyhow icu_locale_core_langid writeable
# the least of five runs each
awk 'function keep(table) { if (!($1 in table) || $2 < table[$1]) table[$1] = $2 }
    FNR == NR { if (!($1 in old)) order[++count] = $1; keep(old); next }
    { keep(new) }
    END {
        printf "%-16s %12s %12s %8s\n", "picoseconds", "before", "now", "ratio"
        for (i = 1; i <= count; i++) printf "%-16s %12d %12d %8.2f\n", order[i], old[order[i]], new[order[i]], new[order[i]] / old[order[i]]
    }' "$made/before.times" "$made/now.times"
