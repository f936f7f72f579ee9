#!/usr/bin/env bash
# Runs the program `rsx`: its arguments, standard input, output and exit status are handed through.
#
#   ./rsx run < SCRIPT           the proved program; where it isn't built for these sources yet, it is built first
#   ./rsx --trial run < SCRIPT   the program before any proof, in some minutes
#
# README.md says how long each took where it was measured.
#
# The proved build. The toolchain's `rt ci` proves the program and all crates that it stands on, in a copy that has no
# other crate and no edit that has to be refused: side by side, as many as there are processors and memory allows, those
# with the longest chain of crates behind them first. As it goes on, the launcher says how many are proved and for how
# long it has been running, and names a crate that fails, with the path of its log, below crates/rsx_app/out/logs.
#
# After an interrupt, the next call goes on from there: a crate that was proved is not proved again, one in the middle
# begins anew. `rt ci` keeps each crate beside the toolchain as soon as it is proved, and takes there what the gate
# proved. Where the folder above the toolchain can't be written, that is in rsx/ of the caller's cache folder. With less
# than 5 GB free on the disk, nothing is kept. Under crates/*/out only the program is left. A later call looks whether
# the sources are still the same, and starts it at once.
#
# The trial. `rt try` compiles the program with checks and runs it. It keeps nothing, so each trial compiles anew (for
# many scripts, `rt try --cases FOLDER -- run` in crates/rsx_app compiles once). Standard input is read to its end
# first, and may have 64 MiB. Output comes when the program has ended. There is no answer where that is more than 1 MiB,
# where the run takes an hour, or where an argument is no text.
#
# Exit status 5 says that the program could not be built, or that a trial gave no answer. An interrupt ends all of it.
set -uo pipefail

app=rsx_app
root=$(dirname "$(readlink -f "${BASH_SOURCE[0]}")") || exit 5
crate=$root/crates/$app
program=$crate/out/$app
stamp=$program.sources
logs=$crate/out/logs

say() {
    echo "rsx: $*" >&2
}

# The lines of crates.txt for the program and the crates that it stands on.
listed() {
    awk -v top="$app" '
        function visit(name,    uses, count, at) {
            if (!(name in line) || name in seen) return
            seen[name]
            print line[name]
            count = split(substr(line[name], index(line[name], ":") + 1), uses, /[ \t,]+/)
            for (at = 1; at <= count; at++) visit(uses[at])
        }
        { sub(/#.*/, ""); if (split($0, word, /[ \t:]+/) && word[1] != "") line[word[1]] = $0 }
        END { visit(top) }
    ' "$root/crates.txt"
}

# One hash of all sources in that copy of the repository: the lines above, and each crate's code, definitions, proofs.
sources() (
    cd "$1" || exit 5
    places=(HANDLES)
    for name in "${names[@]}"; do places+=("crates/$name"/{src,specs,proofs}); done
    {
        listed
        find "${places[@]}" -type f -print0 2>/dev/null | LC_ALL=C sort -z | xargs -0 sha256sum
    } | sha256sum
)

# A folder of this call's own, and the command that it waits for: both end with it, however it ends. That command has a
# session of its own, so that Ctrl-C reaches it by the launcher alone, and once.
room='' work=''
leave() {
    if [[ -n $work ]]; then
        kill "$work" 2>/dev/null && wait "$work" 2>/dev/null
    fi
    [[ -z $room ]] || rm -rf "$room"
}
prepare() {
    if ! command -v rt >/dev/null; then
        say "the program isn't built, and the toolchain's command rt isn't on the PATH"
        exit 5
    fi
    trap 'trap "" HUP INT TERM; leave' EXIT
    trap 'exit 129' HUP
    trap 'exit 130' INT
    trap 'exit 143' TERM
    room=$(mktemp -d) || exit 5
}

# Runs the program before any proof, on these arguments. What `rt try` says of a run that ended is left out.
try() {
    prepare
    say 'a trial: nothing of this program is proved (it is compiled first: some two and a half minutes of processor time, longer on a busy machine)'
    cat >"$room/stdin" 2>/dev/null
    if (($(wc -c <"$room/stdin") > 64 << 20)); then
        say 'a trial takes at most 64 MiB of standard input'
        exit 5
    fi
    (cd "$crate" && exec setsid rt try --seconds 3600 -- "$@") <"$room/stdin" 2>"$room/said" &
    work=$!
    wait "$work"
    local status=$?
    work=''
    if [[ $(tail -n 1 "$room/said") != run=ended\ * ]]; then
        cat "$room/said" >&2
        say 'the trial gave no answer'
        exit 5
    fi
    grep -avE '^(interpreter|checked|races): |^run=ended ' "$room/said" >&2
    exit "$status"
}

# The command `rt` of the toolchain, or, where the folder above the toolchain can't be written, of a folder of links to
# it: `rt ci` keeps what it proved beside the folder of the toolchain that it is run from.
toolchain() {
    local kit links it
    kit=$(dirname "$(rt doc)") || return
    if [[ ! -w $(dirname "$kit") ]]; then
        links=${XDG_CACHE_HOME:-${HOME-}/.cache}/rsx/toolchain
        mkdir -p "$links/bin" || return
        for it in "$kit"/* "$kit"/bin/*; do
            it=${it#"$kit"/}
            case $it in
                bin) ;;
                bin/rt | bin/rtlib.py) cp -p "$kit/$it" "$links/$it" ;;
                *) [[ $links/$it -ef $kit/$it ]] || ln -sfn "$kit/$it" "$links/$it" ;;
            esac || return
        done
        kit=$links
    fi
    echo "$kit/bin/rt"
}

# Says what is new in what `rt ci` has said: how many crates are proved, and which one isn't, with its own log.
known=0 told=0
declare -A failed=()
tell() {
    local name proved
    proved=$(grep -cE '^rt: [a-z0-9_]+ (proved$|is kept: )' "$room/said")
    if ((proved != known || SECONDS - told >= 60)); then
        say "$proved of ${#names[@]} crates are proved ($((SECONDS / 60)) min)"
        known=$proved told=$SECONDS
    fi
    while read -r name; do
        [[ -z ${failed[$name]-} ]] || continue
        failed[$name]=1
        mkdir -p "$logs"
        sed "s|$room/copy|$root|g" "$room/said" |
            awk -v name="$name" '$0 == "== " name { on = 1 } on; $0 == "rt: " name " NOT PROVED" { exit }' \
                >"$logs/$name"
        # (with no part of its own, it was refused before its proof)
        [[ -s $logs/$name ]] || cp "$room/said" "$logs/$name"
        say "$name is not proved: $logs/$name"
    done < <(sed -nE 's/^rt: ([a-z0-9_]+) NOT PROVED$/\1/p' "$room/said")
}

# Proves and builds the program.
build() {
    prepare
    local rt name it status parts=()
    rt=$(toolchain) && mkdir -p "$room/copy/crates" "$room/copy/.git" "$crate/out" && rm -rf "$logs" || exit 5
    listed >"$room/copy/crates.txt"
    for name in "${names[@]}"; do
        for it in "$root/crates/$name"/*; do
            it=${it#"$root"/}
            [[ $it == */out || $it == */must-fail ]] || parts+=("$it")
        done
    done
    [[ ! -f $root/HANDLES ]] || parts+=(HANDLES)
    (cd "$root" && cp -r --parents -t "$room/copy" "${parts[@]}") || exit 5
    say "proving and building the program, ${#names[@]} crates (after an interrupt, the next call goes on from there)"
    : >"$room/said"
    (cd "$room/copy" && exec setsid "$rt" ci) >"$room/said" 2>&1 </dev/null &
    work=$!
    while kill -0 "$work" 2>/dev/null; do
        sleep 1
        tell
    done
    wait "$work"
    status=$?
    work=''
    if ((status)); then
        mkdir -p "$logs"
        sed "s|$room/copy|$root|g" "$room/said" >"$logs/all"
        grep '^rt: FAILED: ' "$logs/all" >&2 || tail -n 20 "$logs/all" >&2
        say "the program could not be built: $logs/all"
        exit 5
    fi
    grep '^rt: note: ' "$room/said" >&2
    cp "$room/copy/crates/$app/out/$app" "$program.new" && mv -f "$program.new" "$program" || exit 5
    sources "$room/copy" >"$stamp"
    trap - EXIT HUP INT TERM
    leave
}

mapfile -t names < <(listed | sed 's/^[ \t]*//; s/[ \t:].*//')
if [[ ${1-} == --trial ]]; then
    try "${@:2}"
fi
if [[ ! -x $program || ! -f $stamp || $(<"$stamp") != "$(sources "$root")" ]]; then
    build
fi
exec "$program" "$@"
