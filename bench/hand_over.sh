#!/usr/bin/env bash
# How long a hand-over takes in a node's box and its mailbox: the program rk_hand_over is proved and built, and makes 1,000,000
# and 2,000,000 hand-overs, five times each. The difference of the least user times is that of a million. Both open a node for
# each 262,136 hand-overs, since a process has no more than 32,768 windows.
here=$(cd "$(dirname "$0")/.." && pwd) || exit 1
cd "$here/crates/rk_hand_over" || exit 1
log=$(mktemp) || exit 1
trap 'rm -f "$log"' EXIT
rt run -- 1 > "$log" 2>&1 || { tail -n 5 "$log"; exit 1; }
for run in 1 2 3 4 5; do
    for count in 1000000 2000000; do
        time -p out/rk_hand_over "$count" || exit 1
    done
done
