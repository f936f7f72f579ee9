#!/bin/sh
# Nanoseconds an event that a report of all rules takes, over traces in memory, by the number of events and of subscribers.
# The least of five runs counts. First build crates/bench_parts (rt run makes crates/bench_parts/out/bench_parts).
set -eu
cd "$(dirname "$0")/.."
program=crates/bench_parts/out/bench_parts

printf '%10s %12s %14s\n' events subscribers 'ns an event'
for size in '100000 4' '1000000 1' '1000000 4' '1000000 16' '4000000 4'; do
    # The two words are two arguments of the program.
    set -- $size
    for _ in 1 2 3 4 5; do
        "$program" tck "$1" "$2" 2>&1 >/dev/null
    done | sort -n | head -1 | awk '{ printf "%10d %12d %14.1f\n", $4, $7, $1 / $4 }'
done
