#!/usr/bin/env bash
# Measures graphs through the library, without a script: for each case and for 64-bit integers and the demonstration's
# items, the instructions an item (between 10,000 and 110,000 items, where valgrind is installed) and the nanoseconds an
# item (the least of many runs), and at the end the peak memory of runs of 10,000 to 10,000,000 items.
# Beside the first paths, where rustc is installed, the instructions an item of bench/nodes.rs: the same in plain Rust.
# First build crates/test_random (rt run makes crates/test_random/out/test_random); the cases are described at the head of
# its src/timed.rt.
#
# usage: bench/graph.sh [ROUNDS]
set -euo pipefail
cd "$(dirname "$0")/.."
program=${PROGRAM:-crates/test_random/out/test_random}
rounds=${1:-40}
budget=65536
log=$(mktemp)
folder=$(mktemp -d)
trap 'rm -rf "$log" "$folder"' EXIT

# The instructions of one run over so many items.
instructions() {
    valgrind --tool=callgrind --callgrind-out-file=/dev/null "$program" "$1" "$2" "$3" "$budget" 1 >/dev/null 2>"$log"
    awk '/Collected/ { print $4 }' "$log"
}

# The instructions an item.
per_item() {
    if ! command -v valgrind >/dev/null; then
        echo '-'
        return
    fi
    local few many
    few=$(instructions "$1" "$2" 10000)
    many=$(instructions "$1" "$2" 110000)
    echo $(((many - few) / 100000))
}

# The least nanoseconds an item of many runs.
nanoseconds() {
    "$program" "$1" "$2" 100000 "$budget" "$rounds" 2>&1 >/dev/null | awk '{ printf "%.1f", $1 / 100000 }'
}

printf '%-8s %14s %14s %14s %14s\n' case 'numbers, instr' 'numbers, ns' 'values, instr' 'values, ns'
for case in range map filter half single buffer scan keys3 keys concat merge zip latest publish window group groups flat fan1 fan8 fan64 fanmap beside among fed fedbeside serial1 serial8 serialidle; do
    printf '%-8s %14s %14s %14s %14s\n' "$case" "$(per_item numbers "$case")" "$(nanoseconds numbers "$case")" \
        "$(per_item values "$case")" "$(nanoseconds values "$case")"
done

# The instructions of `rsx run` over the same: the second line is asked for at once.
app=crates/rsx_app/out/rsx_app
if [[ -x $app ]] && command -v valgrind >/dev/null; then
    script() {
        printf 'subscribe (filter even (map double (range 1 %d)))\nrequest 0 %d\npump 4294967295\ncount 0\n' "$1" "$1"
    }
    for count in 10000 110000; do
        script "$count" | valgrind --tool=callgrind --callgrind-out-file=/dev/null "$app" run >/dev/null 2>"$log"
        awk '/Collected/ { print $4 }' "$log"
    done | awk 'NR == 1 { few = $1 } NR == 2 { printf "rsx run, filter: %d instructions an item\n", ($1 - few) / 100000 }'
fi

# The same paths in plain Rust.
if command -v rustc >/dev/null && command -v valgrind >/dev/null; then
    rustc -O -o "$folder/nodes" bench/nodes.rs
    for case in range map filter half single; do
        for count in 10000 110000; do
            valgrind --tool=callgrind --callgrind-out-file=/dev/null "$folder/nodes" "$case" "$count" 1 >/dev/null 2>"$log"
            awk '/Collected/ { print $4 }' "$log"
        done | awk -v name="$case" 'NR == 1 { few = $1 } NR == 2 { printf "by hand, %s: %d instructions", name, ($1 - few) / 100000 }'
        "$folder/nodes" "$case" 100000 "$rounds" 2>&1 >/dev/null | awk '{ printf ", %.1f ns\n", $1 / 100000 }'
    done
fi

printf '%10s %16s\n' items 'peak memory, KiB'
for count in 10000 100000 1000000 10000000; do
    /usr/bin/env python3 - "$program" "$count" "$budget" <<'PY'
import resource, subprocess, sys
program, count, budget = sys.argv[1:]
subprocess.run([program, "numbers", "filter", count, budget, "1"], stdout=subprocess.DEVNULL, stderr=subprocess.DEVNULL, check=True)
print("%10s %16d" % (count, resource.getrusage(resource.RUSAGE_CHILDREN).ru_maxrss))
PY
done
