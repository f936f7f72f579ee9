#!/bin/sh
# Nanoseconds an event that a trace takes as text: to take the bytes in from a file, to read them as a trace, and to judge it
# by all rules. The text is that of bench/million_events.sh, of four subscribers.
# The least of five runs counts, for each part. First build crates/bench_parts (rt run makes
# crates/bench_parts/out/bench_parts).
set -eu
cd "$(dirname "$0")/.."
program=crates/bench_parts/out/bench_parts
folder=$(mktemp -d)
trap 'rm -r "$folder"' EXIT

printf '%10s %12s %12s %12s %12s\n' events 'taken in' read judged 'ns an event'
for events in 100000 1000000; do
    sh bench/million_events.sh "$events" > "$folder/trace"
    : > "$folder/times"
    for _ in 1 2 3 4 5; do
        answer=$("$program" tck read < "$folder/trace" 2>> "$folder/times")
        if [ "$answer" != "$events events, 0 rules broken" ]; then
            echo "unexpected answer: $answer" >&2
            exit 1
        fi
    done
    awk -v n="$events" '
        NR == 1 || $1 < taken { taken = $1 }
        NR == 1 || $6 < read { read = $6 }
        NR == 1 || $11 < judged { judged = $11 }
        END { printf "%10d %12.1f %12.1f %12.1f %12.1f\n", n, taken / n, read / n, judged / n, (taken + read + judged) / n }
    ' "$folder/times"
done
