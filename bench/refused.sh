#!/usr/bin/env bash
# Refuses growths of memory to the built programs, and looks at what they do. Nothing is proved by it: it tests what the contracts say of
# want of memory, with the programs as they are built.
#
# 1. Calls of a graph (`test_random` with a word): the Nth growth is refused, for each N. What the graph owes, what was asked, what nodes
#    recorded and how leaves joined has to be as before the refused call, and the same call has to answer then as in a run without it.
# 2. `rsx run`, `scratch`, `tck` and `live` over the files of examples/: for each N the program has to end with status 0, or with 4 for want
#    of memory, and what it wrote before the first refusal has to be what it writes without it. Which growth of `live` is the Nth is up to
#    its threads.
# 3. Items through `map`, `filter` and `publishOn` (`test_random` with five words): each growth after the first 100 items is refused, and 10,000 more have
#    to arrive.
#
# It takes the programs from where `rt run` builds them, crates/NAME/out/NAME, or from the folder PROGRAMS.
# usage: bench/refused.sh [PROGRAMS]
# The last line says 'N runs, M wrong'; the status is 0 where M is 0.
set -uo pipefail
cd "$(dirname "${BASH_SOURCE[0]}")/.." || exit 2

program() { if [[ -n ${programs:-} ]]; then echo "$programs/$1"; else echo "crates/$1/out/$1"; fi; }
programs=${1:-}
room=$(mktemp -d) || exit 2
trap 'rm -rf "$room"' EXIT
gcc -O2 -shared -fPIC -o "$room/refuse.so" bench/refuse.c -ldl || exit 2

runs=0 wrong=0

# Runs a program with these settings of the allocator, its input from a file, and counts the growths.
run() {
    local setting=$1 input=$2
    shift 2
    timeout 60 env "$setting" GROWTHS="$room/growths" LD_PRELOAD="$room/refuse.so" "$@" <"$input" >"$room/out" 2>"$room/said"
    status=$?
    ((runs++))
}

complain() {
    ((wrong++))
    echo "$1" >&2
    head -3 "$room/said" >&2
}

# 1
calls=$(program test_random)
if [[ -x $calls ]]; then
    run REFUSE=0 /dev/null "$calls" memory
    growths=$(cat "$room/growths")
    cp "$room/out" "$room/expected"
    own=0
    for ((n = 1; n <= growths; n++)); do
        run "REFUSE=$n" /dev/null "$calls" memory
        if ((status == 0)) && cmp -s "$room/out" "$room/expected"; then
            continue
        fi
        # A growth of the test itself ends it.
        if ((status == 1)) && ! grep -qE 'refused|changed|end|for ever' "$room/said"; then
            ((own++))
        else
            complain "growth $n of the calls of a graph: status $status"
        fi
    done
    echo "calls of a graph: $growths growths refused, one in each run, $own of them to the test itself"
else
    echo "calls of a graph: $calls isn't built" >&2
fi

# 2
rsx=$(program rsx_app)
if [[ -x $rsx ]]; then
    for input in examples/*.rsx examples/*.trace examples/*.expressions; do
        [[ -f $input ]] || continue
        case $input in
            */live.rsx) modes=live ;;
            *.rsx) modes='run scratch' ;;
            *) modes=tck ;;
        esac
        for mode in $modes; do
            run REFUSE=0 "$input" "$rsx" "$mode"
            ((status == 0)) || continue
            growths=$(cat "$room/growths")
            cp "$room/out" "$room/expected"
            # Of a long run every tenth growth or so is enough.
            step=$((growths / 200 + 1))
            for ((n = 1; n <= growths; n += step)); do
                run "REFUSE=$n" "$input" "$rsx" "$mode"
                if ((status != 0 && status != 4)); then
                    complain "growth $n of rsx $mode < $input: status $status"
                elif ((status == 4)) && ! cmp -s -n "$(stat -c %s "$room/out")" "$room/out" "$room/expected" && ! grep -q 'G8' "$room/out"; then
                    complain "growth $n of rsx $mode < $input: other lines"
                fi
            done
            echo "rsx $mode < $input: $growths growths, one in $step refused, each in a run of its own"
        done
    done
else
    echo "rsx: $rsx isn't built" >&2
fi

# 3
if [[ -x $calls ]]; then
    for items in numbers values; do
        for name in map filter publish; do
            run REFUSE=0 /dev/null "$calls" "$items" "$name" 100 64 1
            first=$(cat "$room/growths")
            run "REFUSE_BEHIND=$first" /dev/null "$calls" "$items" "$name" 10100 64 1
            if ((status == 0)) && grep -q '^10100 items' "$room/out"; then
                echo "$name over $items: 10,100 items arrived, no growth after the first 100"
            else
                complain "$name over $items: status $status, $(cat "$room/out")"
            fi
        done
    done
else
    echo "items through operators: $calls isn't built" >&2
fi

echo "$runs runs, $wrong wrong"
((wrong == 0))
