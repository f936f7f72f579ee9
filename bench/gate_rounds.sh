#!/bin/sh
# Nanoseconds of processor time for one round of enter, add, mark and leave by one thread, beside the same three atomic steps in plain Rust.
# First build crates/bench_parts (rt run makes crates/bench_parts/out/bench_parts). The least of nine runs counts.
set -eu
cd "$(dirname "$0")/.."
rounds=${1:-10000000}
rustc -O -o "${TMPDIR:-/tmp}/gate_baseline" bench/gate_rounds/baseline.rs

measure() {
    name=$1
    shift
    least=
    for _ in 1 2 3 4 5 6 7 8 9; do
        seconds=$({ echo "$rounds" | env time -f %U "$@" >/dev/null; } 2>&1)
        least=$(printf '%s\n%s\n' "$seconds" "${least:-$seconds}" | sort -g | head -1)
    done
    awk -v s="$least" -v n="$rounds" -v name="$name" 'BEGIN { printf "%s: %.1f ns a round\n", name, s * 1e9 / n }'
}

measure 'rsx_gate' crates/bench_parts/out/bench_parts gate "$rounds"
measure 'plain Rust' "${TMPDIR:-/tmp}/gate_baseline"
