#!/bin/sh
# Lets one allocation after another of a run fail, and says how each run has ended.
#
# usage: bench/memory.sh [FROM [TO]]     which allocations fail, 1 to 99 if left out
#
# The run is `array sim` on the smallest script. Where the allocation of this number fails, the run must end as `memory`, with
# exit number 11 and nothing printed. Where it takes fewer, it must end as done, with its report; the script then ends.
# It needs rt, and takes about half a minute for each allocation. The status is 0 where each run ended so.
set -eu

from=${1:-1}
to=${2:-99}
root=$(cd "$(dirname "$0")/.." && pwd)
work=$(mktemp -d)
trap 'rm -rf "$work"' EXIT
trap 'exit 1' HUP INT TERM

number=$from
while [ "$number" -le "$to" ]; do
    (cd "$root/crates/array" && rt try --fail-alloc "$number" -- sim < "$root/examples/first.script") > "$work/told" 2>&1 || true
    if grep -q '^report 1$' "$work/told" && grep -q 'status=0' "$work/told"; then
        echo "$number: done, since the run takes fewer allocations"
        exit 0
    elif grep -q '^array: memory$' "$work/told" && grep -q 'status=11' "$work/told" && ! grep -q '^report 1$' "$work/told"; then
        echo "$number: memory"
    else
        echo "$number: otherwise:"
        cat "$work/told"
        exit 1
    fi
    number=$((number + 1))
done
