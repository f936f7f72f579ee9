#!/usr/bin/env bash
# Times the first path on the built program: a range through plain operators, pumped to its end. For each expression and
# each number of items of the range it prints the least of five runs in milliseconds, with what an empty script takes
# beside it, and the nanoseconds for each item of the range, the empty run taken off. All demand is given at once, but in
# the last row, where each item is asked for and pumped by itself.
set -euo pipefail

rsx=$(cd "$(dirname "${BASH_SOURCE[0]}")/.." && pwd)/rsx

# The expression over a range of so many items, all asked for at once.
script() {
    printf 'subscribe %s\nrequest 0 %d\npump 4294967295\ncount 0\n' "$1" "$2"
}

# The same, asked for one at a time.
one_at_a_time() {
    printf 'subscribe %s\n' "$1"
    awk -v n="$2" 'BEGIN { for (i = 0; i < n; i++) print "request 0 1\npump 100" }'
    printf 'count 0\n'
}

# The least time of five runs over a file, in nanoseconds.
least() {
    local best=0 begin end
    for _ in 1 2 3 4 5; do
        begin=$(date +%s%N)
        "$program" run <"$1" >"$answers"
        end=$(date +%s%N)
        if ((best == 0 || end - begin < best)); then
            best=$((end - begin))
        fi
    done
    echo "$best"
}

input=$(mktemp) answers=$(mktemp)
trap 'rm -f "$input" "$answers"' EXIT

# The launcher builds the program where that is needed; the runs below are timed without it.
"$rsx" run <"$input" >"$answers"
program=$(dirname "$rsx")/crates/rsx_app/out/rsx_app
empty=$(least "$input")

# Runs the script in the input, whose last answer has to be this count, and prints its row.
row() {
    local name=$1 items=$2 count=$3 time
    time=$(least "$input")
    if [[ $(tail -1 "$answers") != "count $count" ]]; then
        echo "unexpected answers:" >&2
        tail -3 "$answers" >&2
        exit 1
    fi
    awk -v m="$name" -v n="$items" -v t="$time" -v e="$empty" \
        'BEGIN { printf "%-34s %10d %12.2f %12.2f %14.1f\n", m, n, t / 1e6, e / 1e6, (t - e) / n }'
}

printf '%-34s %10s %12s %12s %14s\n' expression items 'run in ms' 'empty in ms' 'ns an item'
for items in 10000 100000 1000000; do
    script "(map double (range 1 $items))" "$items" >"$input"
    row 'map double' "$items" "$items"
done
items=1000000
script "(filter even (map double (range 1 $items)))" "$items" >"$input"
row 'filter even (map double)' "$items" "$items"
script "(buffer 10 (range 1 $items))" "$items" >"$input"
row 'buffer 10' "$items" "$((items / 10))"
script "(take $items (scan add 0 (range 1 $items)))" "$items" >"$input"
row 'take (scan add)' "$items" "$items"
script "(distinct same (range 1 $items))" "$items" >"$input"
row 'distinct same' "$items" "$items"
one_at_a_time "(map double (range 1 100000))" 100000 >"$input"
row 'map double, one at a time' 100000 100000
