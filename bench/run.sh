#!/usr/bin/env bash
# How fast instructions run: 40 runs of a loop that its turn's end stops after 4,000,000 instructions.
here=$(cd "$(dirname "$0")/.." && pwd) || exit 1
"$here/ce" --serial < "$here/bench/loop.ce" > /dev/null || exit 1
time -p sh -c 'i=0; while [ $i -lt 40 ]; do "$0" --serial < "$1" > /dev/null; i=$((i + 1)); done' \
    "$here/out/ce" "$here/bench/loop.ce"
