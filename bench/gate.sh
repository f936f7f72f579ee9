#!/usr/bin/env bash
# Runs the gate, `rt ci`, from nothing and prints what each of its own steps cost in processor seconds: for each crate its proof, its tests, its first
# must-fail edit (which checks the whole crate again) and the mean of its further edits, the sum of all, and what `rt` itself took.
# Usage: bench/gate.sh [LOG [NAME..]]. The gate's own output goes to LOG (standard error where none is given), the table to standard output, most dear
# first, and behind it what the program stands on: the proofs of all those crates, and the longest chain of them, each of which waits for the one before it.
# With names of crates it measures these and the crates that they stand on, which isn't the gate.
# Processor time grows with the load of the machine, by up to a half: say the load beside a figure.
set -uo pipefail

root=$(cd "$(dirname "${BASH_SOURCE[0]}")/.." && pwd) || exit 2
log=${1:-/dev/stderr}
shift || true
kit=$(dirname "$(rt doc)") || exit 2
room=$(mktemp -d) || exit 2
trap 'rm -rf "$room"' EXIT

# A copy of the toolchain's folder, all links but for the two files of `rt` and the prover, which is called through a clock.
mkdir "$room/bin"
for it in "$kit"/*; do [[ $(basename "$it") == bin ]] || ln -s "$it" "$room/"; done
for it in "$kit"/bin/*; do ln -s "$it" "$room/bin/"; done
rm "$room/bin/rt" "$room/bin/rtlib.py" "$room/bin/rattle"
cp "$kit/bin/rt" "$kit/bin/rtlib.py" "$room/bin/"
cat >"$room/bin/rattle" <<CLOCK
#!/usr/bin/env python3
import os, resource, subprocess, sys
words = sys.argv[1:]
status = subprocess.call(["$kit/bin/rattle", *words], close_fds=False)
used = resource.getrusage(resource.RUSAGE_CHILDREN)
if "--crate-name" in words:
    kind = "edit" if os.path.basename(os.getcwd()).startswith("rt-edit-") else "tests" if "--test" in words else "proof"
    with open("$room/steps", "a") as it:
        it.write(f"{words[words.index('--crate-name') + 1]} {kind} {used.ru_utime + used.ru_stime:.2f}\\n")
if status < 0:
    os.kill(os.getpid(), -status)
sys.exit(status)
CLOCK
chmod +x "$room/bin/rattle"
cat >>"$room/bin/rtlib.py" <<CLOCK

import atexit, resource
_own = os.getpid()
def _count():
    if os.getpid() == _own:
        used = resource.getrusage(resource.RUSAGE_SELF)
        with open("$room/rt", "w") as it:
            it.write(f"{used.ru_utime + used.ru_stime:.0f}")
atexit.register(_count)
CLOCK

cd "$root" || exit 2
begun=$(date +%s)
"$room/bin/rt" ci "$@" >"$log" 2>&1
status=$?
ended=$(date +%s)

python3 - "$room/steps" "$((ended - begun))" "$(cat "$room/rt" 2>/dev/null)" <<'TABLE'
import collections, functools, sys
crates = collections.defaultdict(lambda: {"proof": 0.0, "tests": 0.0, "edits": []})
for line in open(sys.argv[1]):
    name, kind, used = line.split()
    if kind == "edit":
        crates[name]["edits"].append(float(used))
    else:
        crates[name][kind] += float(used)
rows = []
for name, it in crates.items():
    first, further = it["edits"][:1], it["edits"][1:]
    rows.append((it["proof"] + it["tests"] + sum(it["edits"]), name, it["proof"], it["tests"], sum(first), sum(further) / max(len(further), 1), len(it["edits"])))
form = "{:20} {:>8} {:>8} {:>11} {:>13} {:>7} {:>8}"
print(form.format("crate", "proof", "tests", "first edit", "further edit", "checks", "in all"))
for whole, name, proof, tests, first, mean, count in sorted(rows, reverse=True):
    print(form.format(name, f"{proof:.0f}", f"{tests:.0f}", f"{first:.0f}", f"{mean:.1f}", count, f"{whole:.0f}"))
print(f"all: {sum(it[0] for it in rows):.0f} s of processor time, of it proofs {sum(it[2] for it in rows):.0f}, tests {sum(it[3] for it in rows):.0f}, edits {sum(it[0] - it[2] - it[3] for it in rows):.0f}; rt itself {sys.argv[3] or '?'} s; {sys.argv[2]} s by the clock")
uses = {head.split()[0]: names.replace(",", " ").split() for head, _, names in (row.partition("#")[0].partition(":") for row in open("crates.txt")) if head.strip()}


@functools.cache
def chain(name):
    """The dearest chain of crates that ends with this one: its processor seconds, and the crates from the lowest up."""
    cost, below = max((chain(it) for it in uses[name] if it in uses), default=(0.0, ()))
    return cost + crates[name]["proof"], (*below, name)


@functools.cache
def stands_on(name):
    return {name}.union(*(stands_on(it) for it in uses[name] if it in uses))


app = "rsx_app"
if crates[app]["proof"]:
    cost, names = chain(app)
    print(f"{app} and what it stands on: proofs {sum(crates[it]['proof'] for it in stands_on(app)):.0f} s; the longest chain of them {cost:.0f} s: {' '.join(names)}")
TABLE
echo "the gate ended with status $status"
exit "$status"
