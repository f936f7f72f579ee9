#!/usr/bin/env bash
# Measures a graph that is live beside one that is not, on one thread: the instructions an item through a `publishOn`, over the queue of the
# edge and over a link (between 10,000 and 110,000 items, by valgrind).
# First build crates/test_live (rt run makes crates/test_live/out/test_live).
#
# usage: bench/live.sh
set -euo pipefail
cd "$(dirname "$0")/.."
program=${PROGRAM:-crates/test_live/out/test_live}
log=$(mktemp)
trap 'rm -f "$log"' EXIT

# The instructions of one run over so many items.
instructions() {
    valgrind --tool=callgrind --callgrind-out-file=/dev/null "$program" "$1" "$2" >/dev/null 2>"$log"
    awk '/Collected/ { print $4 }' "$log"
}

for way in queue link; do
    few=$(instructions "$way" 10000)
    many=$(instructions "$way" 110000)
    printf '%-6s %6d instructions an item\n' "$way" $(((many - few) / 100000))
done
