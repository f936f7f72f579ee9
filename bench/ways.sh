#!/usr/bin/env bash
# Counts the crates of crates.txt and the ways down through it, from crate to crate: from each crate one that ends
# there, and those of each crate of this repository that its line names. `rt` walks every way, again and again, so their
# number is what the list costs beside the proofs. Then it says which lines, and which single names on a line, cost
# most: by how much the ways would be fewer without them (without a line its crate's name is gone from the other lines
# too).
# Usage: bench/ways.sh [LIST]. Exit status 1 says that there are too many crates or ways, 2 that the list can't be read.
set -uo pipefail

list=${1:-$(dirname "${BASH_SOURCE[0]}")/../crates.txt}
python3 - "$list" <<'COUNT'
import re, sys

MOST_CRATES, MOST_WAYS, SHOWN = 55, 120_000, 6
try:
    rows = [row.partition("#")[0].partition(":") for row in open(sys.argv[1])]
except OSError as error:
    print(error, file=sys.stderr)
    sys.exit(2)
uses = {head.split()[0]: re.findall(r"[^\s,]+", names) for head, _, names in rows if head.strip()}
uses = {name: [it for it in names if it in uses] for name, names in uses.items()}

# Each crate after those that it names.
order = []


def visit(name, above=()):
    if name in above:
        print(f"{name} names itself, by {' '.join(above)}", file=sys.stderr)
        sys.exit(2)
    if name not in order:
        for it in uses[name]:
            visit(it, (*above, name))
        order.append(name)


for name in uses:
    visit(name)
# The ways down from each crate, and those that lead to it from any crate, from itself too.
down, up = {}, dict.fromkeys(uses, 1)
for name in order:
    down[name] = 1 + sum(down[it] for it in uses[name])
for name in reversed(order):
    for it in uses[name]:
        up[it] += up[name]
ways = sum(down.values())
print(f"{len(uses)} crates (at most {MOST_CRATES}), {ways:,} ways (at most {MOST_WAYS:,})")
lines = [(up[it] * down[it], it) for it in uses]
names = [(up[name] * down[it], f"{name}: {it}") for name in uses for it in uses[name]]
for what, falls in ("line", lines), ("name on a line", names):
    print(f"without this {what} there would be fewer, by")
    for fall, it in sorted(falls, key=lambda it: (-it[0], it[1]))[:SHOWN]:
        print(f"{fall:12,}  {it}")
sys.exit(len(uses) > MOST_CRATES or ways > MOST_WAYS)
COUNT
