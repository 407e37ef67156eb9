# What decimals.sh and texts.sh share, which read this file: programs over copies of the crates, as they are or as they were at a commit.
# `top` is the repository, `made` the folder of the copies, which keeps what is built.
# shellcheck shell=sh
: "${top:?}" "${made:?}"
rt=${RT:-rt}
for needed in python3 "$rt"; do
    command -v "$needed" >/dev/null || {
        echo "bench: $needed is needed" >&2
        exit 1
    }
done

# copy_crates FOLDER CRATE [COMMIT]: the sources of a crate and of those below it, no others, and their lines of crates.txt.
copy_crates() {
    mkdir -p "$1/crates"
    if [ "${3-}" ]; then
        (cd "$top" && git show "$3:crates.txt") >"$made/commit.list"
    else
        cp "$top/crates.txt" "$made/commit.list"
    fi
    "$top/bench/below.py" "$made/commit.list" "$2" >"$1/crates.txt"
    cut -d: -f1 "$1/crates.txt" | while read -r crate; do
        rm -rf "$1/crates/$crate/src" "$1/crates/$crate/specs" "$1/crates/$crate/proofs"
        if [ "${3-}" ]; then
            (cd "$top" && git archive "$3" "crates/$crate") | tar -x -C "$1"
        else
            cp -au "$top/crates/$crate" "$1/crates/"
        fi
    done
}

# run_program FOLDER NAME SOURCE CRATE..: a program over these crates, which is proved, built and run.
run_program() {
    folder=$1/crates/$2 source=$3
    echo "$2: $(shift 3 && echo "$@")" >>"$1/crates.txt"
    mkdir -p "$folder/src"
    cp "$source" "$folder/src/main.rt"
    (cd "$folder" && "$rt" run)
}

# in_turns COMMIT CRATE NAME SOURCE CRATE..: builds a program over a crate as it is and as it was, and runs the two in turns.
in_turns() {
    commit=$1 crate=$2 name=$3
    shift 2
    copy_crates "$made/now" "$crate"
    copy_crates "$made/before" "$crate" "$commit"
    for way in now before; do
        run_program "$made/$way" "$@" >/dev/null
        : >"$made/$way.times"
    done
    for _ in 1 2 3 4 5; do
        for way in before now; do
            "$made/$way/crates/$name/out/$name" >>"$made/$way.times"
        done
    done
}
