#!/usr/bin/env bash
# How deep calls go from a line of a script to its answer, in the compiled program: for each script the longest chain of calls below
# the one that takes the line in, and its length, as valgrind's callgrind finds it. Calls of the C library and of the allocator are
# left out. What calls itself for each level of a tree is counted as often as the tree is deep.
# First build the program (./rsx run < SCRIPT).
#
# usage: bench/frames.sh [SCRIPT..]
set -euo pipefail
cd "$(dirname "$0")/.."
program=${PROGRAM:-crates/rsx_app/out/rsx_app}
scripts=("$@")
if [[ ${#scripts[@]} -eq 0 ]]; then
    for script in examples/*.rsx; do
        [[ $script == examples/live.rsx ]] || scripts+=("$script")
    done
fi
log=$(mktemp)
trap 'rm -f "$log"' EXIT

for script in "${scripts[@]}"; do
    valgrind --tool=callgrind --separate-callers=64 --callgrind-out-file="$log" "$program" run <"$script" >/dev/null 2>&1 || true
    python3 - "$log" "$script" <<'CHAINS'
import re, sys

TAKES_A_LINE = "rsx_drive::state::Run::take_in"


def parts(name):
    """The function and its callers, the nearest first; a quote inside angle brackets belongs to a name."""
    found, depth, word = [], 0, ""
    for letter in name:
        depth += (letter == "<") - (letter == ">")
        if letter == "'" and depth == 0:
            found.append(word)
            word = ""
        else:
            word += letter
    return [it for it in found + [word] if not it.isdigit()]


longest = []
for line in open(sys.argv[1], errors="replace"):
    named = re.match(r"c?fn=\(\d+\) (.*)$", line.rstrip("\n"))
    if named is None:
        continue
    chain = parts(named.group(1))
    at = next((at for at, name in enumerate(chain) if name.startswith(TAKES_A_LINE)), None)
    if at is not None:
        below = [name for name in chain[:at] if "::" in name]
        longest = max(longest, below, key=len)
print(f"{sys.argv[2]}: {len(longest)} calls")
for name in reversed(longest):
    print("   ", re.sub(r"::<.*", "", name))
CHAINS
done
