#!/usr/bin/env bash
# Measures the gate on the last commit, in a clean clone that is removed at the end.
#
# usage: bench/gate.sh whole       one run of `rt ci --anew`: its wall time and its processor time
#        bench/gate.sh by-crate    processor time crate by crate, lowest first: its proof, its tests and its edits
#
# Processor time is user and system time of all processes. The clone lies in $TMPDIR, or else in /tmp, and takes some GB.
# It needs rt, git and awk, ends by itself, and takes an hour or two: nothing else of weight should run meanwhile.
#
# `whole` takes nothing from earlier runs: `--anew` proves and tries all.
# `by-crate` times `rt lib` (of a program `rt run`), then `rt test`, which proves the tests over that and runs them, then
# `rt must-fail --anew`. `rt lib` itself begins with what a check has kept in any other copy on this machine, and no word
# turns that off. So measure where no other copy is built (`rm -rf crates/*/out` in each). A crate whose proof was not begun from
# nothing is marked by a star.
set -euo pipefail

root=$(cd "$(dirname "$0")/.." && pwd)
case "${1:-}" in
    whole | by-crate) ;;
    *) echo "usage: bench/gate.sh whole | by-crate" >&2; exit 1 ;;
esac
if ! command -v rt > /dev/null; then
    echo "bench/gate.sh: needs the Rattle kit (the command rt on the PATH)" >&2
    exit 1
fi

work=$(mktemp -d)
trap 'rm -rf "$work"' EXIT
trap 'exit 1' HUP INT TERM
git clone -q "$root" "$work/clone"
cd "$work/clone"

# Runs a command with its output in $work/log, and puts wall and processor time in seconds into $wall and $used.
measure() {
    local TIMEFORMAT='%R %U %S' user system status=0
    { time "$@" > "$work/log" 2>&1 < "${input:-/dev/null}"; } 2> "$work/times" || status=$?
    read -r wall user system < "$work/times"
    used=$(awk "BEGIN { print $user + $system }")
    return $status
}

minutes() { awk "BEGIN { printf \"%.1f\", ($*) / 60 }"; }

fail() {
    tail -20 "$work/log" >&2
    echo "bench/gate.sh: $1 failed" >&2
    exit 1
}

# The crates of crates.txt, each behind those that it uses.
crates() {
    sed 's/#.*//; s/:/ /' crates.txt | awk '
        NF { names[++n] = $1; for (i = 2; i <= NF; i++) uses[$1] = uses[$1] " " $i; known[$1] = 1 }
        function put(name,   i, all, count) {
            if (!known[name] || done[name]++) return
            count = split(uses[name], all, " ")
            for (i = 1; i <= count; i++) put(all[i])
            print name
        }
        END { for (k = 1; k <= n; k++) put(names[k]) }'
}

# Proves and builds one crate.
build() {
    if [ -e src/main.rt ]; then
        local words=()
        [ ! -e args ] || mapfile -t words < args
        input=stdin
        [ -e stdin ] || input=/dev/null
        measure rt run -- "${words[@]}"
    else
        input=/dev/null
        measure rt lib
    fi
}

echo "machine: $(nproc) processors, $(sed -n 's/^model name[^:]*: //p' /proc/cpuinfo | head -1)"
echo "kit: $(rt version)"
echo "commit: $(git rev-parse --short HEAD)"

if [ "$1" = whole ]; then
    measure rt ci --anew || fail "rt ci"
    tail -1 "$work/log"
    echo "wall time: $(minutes "$wall") minutes"
    echo "processor time: $(minutes "$used") minutes"
    exit 0
fi

echo
printf '%-18s %9s %9s %9s   processor minutes\n' crate proof tests edits
proofs=0 tests=0 edits=0
for name in $(crates); do
    cd "$work/clone/crates/$name"
    build || fail "the proof of $name"
    proof=$used mark=
    if grep -q "^rt: $name: begins with what a check kept" "$work/log"; then mark='*'; fi
    input=/dev/null
    measure rt test || fail "the tests of $name"
    test=$used
    edit=0
    if [ -d must-fail ]; then
        measure rt must-fail "$name" --anew || fail "the edits of $name"
        edit=$used
    fi
    printf '%-18s %9s %9s %9s   %s\n' "$name" "$(minutes "$proof")" "$(minutes "$test")" "$(minutes "$edit")" "$mark"
    proofs="$proofs + $proof" tests="$tests + $test" edits="$edits + $edit"
done
printf '%-18s %9s %9s %9s\n' all "$(minutes "$proofs")" "$(minutes "$tests")" "$(minutes "$edits")"
