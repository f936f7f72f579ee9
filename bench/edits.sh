#!/usr/bin/env bash
# Tries the wrong bodies that the gate doesn't try: the edits crates/NAME/edits/*.edit, each of which the prover has to refuse. (The gate, `rt ci`, tries those
# in crates/NAME/must-fail/.) Whoever changes a crate runs this for it.
# Usage: bench/edits.sh [--since COMMIT] [NAME..]
#   NAME..          tries the edits of these crates; without names, those of all crates that have a folder edits/
#   --since COMMIT  of these crates, takes only those with a file that differs from that commit, or that it doesn't have
# It works on a copy in a temporary folder, so nothing here is changed and the checkout may be worked in meanwhile. There `rt must-fail` begins with the
# libraries that `rt check` built of the crates below, in this checkout, and proves the rest: so run `rt check` in a crate first. A toolchain that keeps what
# it proved beside itself takes it from there too, and doesn't try an edit again whose crate and whose crates below are as they were then.
# It prints what each edit came to, and last 'N refused, M not refused, K bad or not tried'. The status is 0 where all were refused, 1 where one was not,
# and 2 where it could not begin.
set -uo pipefail

root=$(cd "$(dirname "${BASH_SOURCE[0]}")/.." && pwd) || exit 2
cd "$root" || exit 2

stop() { echo "edits.sh: $1" >&2; exit 2; }

# The crates that have such a folder with an edit in it, one a line.
with_edits() { for it in crates/*/edits/*.edit; do [[ -f $it ]] && basename "$(dirname "$(dirname "$it")")"; done | sort -u; }

# The crates with a file that differs from the commit, or that it doesn't have.
changed_since() {
  { git diff --name-only --no-renames "$1" -- crates && git ls-files --others --exclude-standard -- crates; } | sed -n 's|^crates/\([^/]*\)/.*|\1|p' | sort -u
}

since=
names=()
while (($#)); do
  case $1 in
    --since) [[ -n ${2:-} ]] || stop "--since wants a commit"; since=$2; shift 2 ;;
    -h | --help) sed -n '2,/^set /{/^set /d;s/^# \{0,1\}//;p}' "${BASH_SOURCE[0]}"; exit 0 ;;
    -*) stop "unknown option $1 (--help says more)" ;;
    *) names+=("$1"); shift ;;
  esac
done
for name in ${names[@]+"${names[@]}"}; do
  compgen -G "crates/$name/edits/*.edit" >/dev/null || stop "there is no crates/$name/edits/*.edit"
done
((${#names[@]})) || mapfile -t names < <(with_edits)
if [[ -n $since ]]; then
  git rev-parse -q --verify "$since^{commit}" >/dev/null || stop "$since is no commit here"
  mapfile -t names < <(printf '%s\n' ${names[@]+"${names[@]}"} | grep -Fx -f <(changed_since "$since"))
fi

room=$(mktemp -d) || exit 2
running=
clean_up() {
  trap '' INT TERM
  [[ -z $running ]] || kill "$running" 2>/dev/null
  wait
  rm -rf "$room" || { sleep 2; rm -rf "$room"; }
}
trap clean_up EXIT
trap 'exit 130' INT
trap 'exit 143' TERM
total=0
if ((${#names[@]})); then
  # Sources alone: what was proved of them is found by `rt`, wherever it was kept.
  tar --anchored --no-wildcards-match-slash --exclude='crates/*/out' -cf - crates.txt HANDLES crates | tar -xf - -C "$room" || stop "the crates could not be copied"
  # Libraries that are built: links to their files, which `rt` replaces and never writes to.
  for it in crates/*/out/rlib; do
    [[ -d $it ]] && mkdir -p "$room/${it%/rlib}" && { cp -al "$it" "$room/$it" 2>/dev/null || cp -a "$it" "$room/$it"; }
  done
  for name in "${names[@]}"; do
    rm -rf "$room/crates/$name/must-fail"
    mv "$room/crates/$name/edits" "$room/crates/$name/must-fail" || exit 2
    ((total += $(find "$room/crates/$name/must-fail" -name '*.edit' | wc -l)))
  done
  echo "edits.sh: $total edits of ${names[*]}"
  # In the background, so that a signal ends it at once. What is proved of the crates below is left out.
  : >"$room/said"
  (cd "$room" && exec rt must-fail "${names[@]}") >"$room/said" 2>&1 &
  running=$!
  tail -n +1 -f -s 0.2 --pid="$running" "$room/said" | grep --line-buffered -E '^rt: |error|logic=not-proved' &
  wait "$running"
  running=
  wait
fi

# How many edits came to what these words say.
count() { grep -c "^rt: must-fail [^ ]*\.edit: $1" "$room/said" 2>/dev/null || true; }
refused=$(count 'refused, as it must be')
missed=$(count 'NOT REFUSED')
refused=${refused:-0} missed=${missed:-0}
echo "$refused refused, $missed not refused, $((total - refused - missed)) bad or not tried"
((refused == total))
