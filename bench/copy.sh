# For `.`: copies the crates that a bench stands on, with its program bench/NAME.txt as the crate NAME_bench, and goes there.
here=$(cd "$(dirname "$0")/.." && pwd) || exit 1
copy=$(mktemp -d) || exit 1
trap 'rm -rf "$copy"' EXIT

# go_to_copy NAME CRATES_LINE CRATE..: the crate NAME_bench with this line of crates.txt, over these crates
go_to_copy() {
    bench=$copy/crates/$1_bench
    mkdir -p "$bench/src" && cp "$here/HANDLES" "$copy" && cp "$here/bench/$1.txt" "$bench/src/main.rt" || exit 1
    echo "$2" > "$copy/crates.txt"
    shift 2
    for crate in "$@"; do
        mkdir "$copy/crates/$crate"
        cp -r "$here/crates/$crate/src" "$here/crates/$crate/specs" "$here/crates/$crate/proofs" "$copy/crates/$crate" || exit 1
        grep "^$crate[ :]" "$here/crates.txt" >> "$copy/crates.txt"
    done
    cd "$bench" || exit 1
}

# time_proved NAME: proves and builds the program in its copy, and times it three times
time_proved() {
    rt run > build.log 2>&1 || { tail -n 5 build.log; exit 1; }
    for run in 1 2 3; do time -p "out/$1_bench"; done
}
