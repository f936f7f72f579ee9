#!/usr/bin/env bash
# Runs each example and compares what it writes and how it ends with what is stored: its answers in NAME.answers, that of
# live.rsx by `rsx live`, by `rsx scratch` in NAME.scratch where that file is there, and in NAME.fault the line on standard error of an example that
# ends with status 1, and in NAME.hint the line that `--explain` adds there. A trace NAME.trace has its report, by `rsx tck`, in
# NAME.report, and by `rsx tck --explain` in NAME.explained where that file is there. Then it looks at what the launcher hands
# through.
set -uo pipefail

here=$(cd "$(dirname "$(readlink -f "${BASH_SOURCE[0]}")")" && pwd)
rsx=$here/../rsx
room=$(mktemp -d)
trap 'rm -rf "$room"' EXIT
failed=0

# Says whether a thing is as it should be: a name, and a command that tells.
expect() {
    if "${@:2}"; then
        echo "$1: as stored"
    else
        echo "$1: differs" >&2
        failed=1
    fi
}

# Whether the program ends with this status, given the rest of the words and its standard input.
ends_with() {
    "$rsx" "${@:2}" >"$room/written" 2>"$room/said"
    local status=$?
    ((status == $1)) || echo "status $status in place of $1" >&2
    ((status == $1))
}

# Whether a script writes the answers of that file in this mode, and ends as it should.
answers() {
    local fault=${1%.rsx}.fault status=1
    if [[ ! -f $fault ]]; then
        fault=/dev/null status=0
    fi
    ends_with "$status" "$2" <"$1" && diff "$room/written" "$3" && diff "$room/said" "$fault"
}

# Whether a script in this mode and its answers are among the rows that the gate compares.
is_row() {
    local fault=${1%.rsx}.fault
    [[ -f $fault && $2 == run ]] || fault=/dev/null
    [[ $(<"$here/../crates/test_scripts/stdout") == *"$(echo "$2" && cat "$1" && echo answers && cat "$3" "$fault")"* ]]
}

# Whether the script that goes live, and its answers, are what the gate runs the program on.
is_run_by_the_gate() {
    diff "$here/live.rsx" "$here/../crates/rsx_app/stdin" && diff "$here/live.answers" "$here/../crates/rsx_app/stdout"
}

# Whether a script that can't be read ends so where lines are explained: one line more on standard error.
explains() {
    ends_with 1 run --explain <"$1" && diff "$room/written" "${1%.rsx}.answers" &&
        diff "$room/said" <(cat "${1%.rsx}.fault" "${1%.rsx}.hint")
}

# Whether a trace has this report, in which broken rules are explained.
is_explained() {
    ends_with 0 tck --explain <"$1" && diff "$room/written" "$2" && diff "$room/said" /dev/null
}

# Whether a script writes the same answers where it is recorded, and the judge finds no broken rule in the trace.
is_recorded() {
    local status=1
    [[ -f ${1%.rsx}.fault ]] || status=0
    ends_with "$status" run --trace "$room/trace" <"$1" && diff "$room/written" "${1%.rsx}.answers" &&
        ends_with 0 tck <"$room/trace" && (($(wc -l <"$room/written") == 43)) && ! grep broken "$room/written"
}

# Whether a run whose trace can't be written ends as one whose answers can't.
full_trace() {
    ends_with 3 run --trace /dev/full <"$here/first.rsx" && diff "$room/said" <(echo 'rsx: read or write fault')
}

# Whether the sentences of the rules, of which there are 43, are those of the table in CONFORMANCE.
same_sentences() {
    local sentence count=0
    while read -r sentence; do
        grep -qF "| $sentence |" "$here/../docs/CONFORMANCE.md" || return
        ((count += 1))
    done < <(grep -oE '"[^"]+\."' "$here/../crates/rsx_tck/src/sentence.rt" | tr -d '"')
    ((count == 43))
}

# Whether the program ends for want of memory where it may have 32 MiB, and has written what it had answered by then.
ends_without_memory() (
    ulimit -v 32768
    printf 'subscribe (range 1 1000000)\nsubscribe (range 1 1000000)\n' >"$room/large"
    printf 'request 0 1000000\nrequest 1 1000000\npump 4294967295\n' >>"$room/large"
    ends_with 4 run <"$room/large" && diff "$room/written" <(printf 'sub 0\nsub 1\nok\nok\n') &&
        diff "$room/said" <(echo 'rsx: out of memory')
)

# Whether the program ends with a write fault where its output is closed, and where it is a full device.
closed_output() {
    "$rsx" tck <"$here/completes_twice.trace" >&- 2>"$room/said"
    (($? == 3)) && diff "$room/said" <(echo 'rsx: read or write fault')
}
full_device() {
    "$rsx" tck <"$here/completes_twice.trace" >/dev/full 2>"$room/said"
    (($? == 3)) && diff "$room/said" <(echo 'rsx: read or write fault')
}

# Whether a trial, before any proof, writes what the program does, and ends as it does.
trial() {
    ends_with 1 --trial run <"$here/unreadable.rsx" && diff "$room/written" "$here/unreadable.answers" &&
        diff <(tail -n +2 "$room/said") "$here/unreadable.fault"
}

# Proves and builds the program where that is needed, so that what follows only runs it.
"$rsx" run </dev/null || exit

for script in "$here"/*.rsx; do
    name=$(basename "$script" .rsx)
    [[ $name == live ]] && continue
    expect "$name" answers "$script" run "${script%.rsx}.answers"
    expect "$name among the rows" is_row "$script" run "${script%.rsx}.answers"
    expect "$name, recorded" is_recorded "$script"
    if [[ -f ${script%.rsx}.scratch ]]; then
        expect "$name by scratch" answers "$script" scratch "${script%.rsx}.scratch"
        expect "$name by scratch among the rows" is_row "$script" scratch "${script%.rsx}.scratch"
    fi
done
expect 'live' answers "$here/live.rsx" live "$here/live.answers"
expect 'live, as the gate runs it' is_run_by_the_gate
expect 'live, a command of a graph that is not' ends_with 1 live <<<close
expect 'live, a command that is not known while it is' ends_with 1 live <<<$'live 1\npump 1'
for trace in "$here"/*.trace; do
    name=$(basename "$trace" .trace)
    expect "$name" answers "$trace" tck "${trace%.trace}.report"
    expect "$name among the rows" is_row "$trace" tck "${trace%.trace}.report"
    if [[ -f ${trace%.trace}.explained ]]; then
        expect "$name, explained" is_explained "$trace" "${trace%.trace}.explained"
    fi
done
expect 'a line that is explained' explains "$here/unreadable.rsx"
expect 'the sentences of the rules' same_sentences
expect 'a command line without a mode' ends_with 2 </dev/null
expect 'a command line that asks for help' ends_with 2 --help </dev/null
expect 'an argument that is no text' ends_with 2 run $'\xff' </dev/null
expect 'help of a mode' ends_with 2 tck --help </dev/null
expect 'a trace that is cut off' ends_with 1 tck <<<$'trace 1\nsubscribe 0'
expect 'a trace of bytes that are no text' ends_with 1 tck <<<$'trace 1\nnext \xff\nend'
expect 'a closed output' closed_output
expect 'a full device' full_device
expect 'a trace on a full device' full_trace
expect 'a trace in no folder' ends_with 3 run --trace "$room/none/trace" </dev/null
expect 'want of memory' ends_without_memory
ln -s "$rsx" "$room/linked"
expect 'a trial' trial
expect 'the launcher by a symlink, from another folder' \
    diff <(cd / && "$room/linked" run <"$here/first.rsx") "$here/first.answers"
exit $failed
