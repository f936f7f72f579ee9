#!/bin/sh
# Nanoseconds a signal over a link whose queue has room for 64, between two threads, beside plain Rust.
#
# usage: bench/link.sh PROGRAM [COUNT]
# PROGRAM is the built crates/bench_parts. Each figure is the best of forty short runs, less the best run of no
# signal, so that a busy machine disturbs it little.
set -eu
program=$1
count=${2:-400000}
here=$(dirname "$0")
baseline=$(mktemp -d)/baseline
rustc -O -C target-cpu=native -o "$baseline" "$here/baseline.rs"

# the time of one run, in nanoseconds
time_of() {
    start=$(date +%s%N)
    "$@" > /dev/null
    end=$(date +%s%N)
    echo $((end - start))
}

# the least time of forty runs
best_of() {
    best=
    for _ in $(seq 40); do
        now=$(time_of "$@")
        if [ -z "$best" ] || [ "$now" -lt "$best" ]; then best=$now; fi
    done
    echo "$best"
}

# prints what a signal takes by this program with these words, under the name that stands first
measure() {
    name=$1
    shift
    none=$(best_of "$@" $mode 0)
    all=$(best_of "$@" $mode "$signals")
    awk -v m=$mode -v n="$name" -v t=$((all - none)) -v c="$signals" 'BEGIN { printf "%-9s %-18s %7.1f ns a signal\n", m, n, t / c }'
}

for mode in batches single lockstep; do
    signals=$count
    if [ $mode = lockstep ]; then signals=$((count / 20)); fi
    measure "$(basename "$program")" "$program" link
    measure baseline "$baseline"
done
