#!/usr/bin/env bash
# How long the program takes for the load, for many cubes, for many notes, and for the greatest machine; beside 40 million
# instructions of bench/loop.ce, by which the times of two machines can be compared.
here=$(cd "$(dirname "$0")/.." && pwd) || exit 1
"$here/ce" --serial < "$here/bench/loop.ce" > /dev/null || exit 1
made=$(mktemp -d) || exit 1
trap 'rm -rf "$made"' EXIT
ce=$here/out/ce

notes='image notes asm
li s0, 4000
li a0, 7
li a7, 14
again: ecall
addi s0, s0, -1
bne s0, zero, again
li a7, 13
ecall
end'
{ echo "machine 0"; echo "user a"; yes 'getcube 0
freecube' | head -n 100000; } > "$made/cubes"
{ echo "machine 2"; echo "$notes"; echo "user a"; echo "getcube 2"
  for pid in 0 1 2 3 4 5; do for node in 0 1 2 3; do echo "spawn notes $node $pid"; done; done
  echo "spawn notes 0 6"; echo "run 100"; } > "$made/notes"
{ echo "machine 6"; echo "image notes hex"; echo "00700893 00000073"; echo end; echo "user a"; echo "getcube 6"
  for node in $(seq 0 63); do for pid in 0 1 2 3 4 5 6 7; do echo "spawn notes $node $pid"; done; done
  echo "run 512"; } > "$made/greatest"

timed() { # timed NAME TIMES WORD.. < SCRIPT
    name=$1 times=$2
    shift 2
    cat > "$made/script"
    echo "$name, $times times:"
    time -p for _ in $(seq "$times"); do "$ce" "$@" --serial < "$made/script" > /dev/null; done
}
timed "4 million instructions" 10 < "$here/bench/loop.ce"
timed "the load" 50 --load 0 < /dev/null
for script in cubes notes greatest; do timed "$script" 1 < "$made/$script"; done
