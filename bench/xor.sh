#!/bin/sh
# Measures raid_xor against a straight loop in C, and says whether it stays within 1.5 times the C loop's time.
#
# usage: bench/xor.sh [RUNS]     RUNS: how often each program is timed, 9 if left out
#
# It builds two programs in a temporary folder, which is removed at the end: one in Rattle over copies of raid_xor and the
# crates below it, and one in C by clang -O3. Both add up the same 48 blocks of 64 bytes, 3 KiB, again and again, write the sum
# over one of the blocks after each round, and print the last sum, which must be the same. `xor_into` adds each block to a sum
# that goes on through all rounds, and `sum_of` makes each round's sum afresh.
#
# A time is processor time (user and system). The two programs run by turns, RUNS times each; the least is taken, and the least
# of 0 rounds is subtracted. The number of rounds is doubled until the C loop takes a second. The status is 0 where both ratios
# are within 1.5, else 1.
# It needs rt, clang and awk. The first build proves the crates, which takes minutes.
set -eu

runs=${1:-9}
root=$(cd "$(dirname "$0")/.." && pwd)
work=$(mktemp -d)
trap 'rm -rf "$work"' EXIT
trap 'exit 1' HUP INT TERM

# A crate and those that it stands on by crates.txt, one a line.
with_lower() {
    echo "$1"
    # shellcheck disable=SC2013
    for lower in $(sed -n "s/^$1: *//p" "$root/crates.txt"); do
        if [ -d "$root/crates/$lower" ]; then with_lower "$lower"; fi
    done
}

mkdir -p "$work/crates/xor_rounds/src"
cp "$root/HANDLES" "$work/"
for crate in $(with_lower raid_xor | sort -u); do
    mkdir "$work/crates/$crate"
    cp -R "$root/crates/$crate/src" "$root/crates/$crate/specs" "$root/crates/$crate/proofs" "$work/crates/$crate/"
    grep "^$crate:" "$root/crates.txt" >> "$work/crates.txt"
done
echo "xor_rounds: raid_base raid_xor" >> "$work/crates.txt"

cat > "$work/crates/xor_rounds/src/main.rt" << 'PROGRAM'
//! Adds up the same blocks again and again, and prints what comes out.
#![tactic(auto)]

use raid_base::Cell;
use raid_xor::{sum_of, xor_into};
use std::process::ExitCode;
use std::{env, io};

const COUNT: usize = 48;

/// The blocks at first: each has bytes of its own, all alike.
fn cells() -> [Cell; COUNT] {
    let mut cells = [Cell::default(); COUNT];
    for index in 0..COUNT {
        cells[index].bytes = [5 * index as u8 + 1; 64];
    }
    cells
}

/// In each round all blocks are added to the sum, one after another, and one of them becomes the sum.
fn add_each(rounds: u64) -> [u8; 64] {
    let mut cells = cells();
    let mut sum = [0; 64];
    for round in 0..rounds {
        for cell in &cells {
            xor_into(&mut sum, &cell.bytes);
        }
        cells[(round % 48) as usize].bytes = sum;
    }
    sum
}

/// In each round the sum is that of all blocks, and one of them becomes it.
fn add_all(rounds: u64) -> [u8; 64] {
    let mut cells = cells();
    let mut sum = [0; 64];
    for round in 0..rounds {
        sum = sum_of(&cells);
        cells[(round % 48) as usize].bytes = sum;
    }
    sum
}

/// The words behind the program's name.
fn words(rt: &HostRuntime) -> Option<Vec<String>> {
    let mut words = Vec::new(rt.alloc());
    for word in env::args(rt).ok()?.skip(1) {
        words.push(word).ok()?;
    }
    Some(words)
}

fn print(rt: &HostRuntime, sum: &[u8; 64]) -> io::Result<()> {
    for byte in sum {
        print!(rt; "{byte:02x}")?;
    }
    println!(rt; "")
}

fn run(rt: &HostRuntime) -> Option<[u8; 64]> {
    let words = words(rt)?;
    let [name, rounds] = words.as_slice() else {
        return None;
    };
    let rounds = rounds.parse::<u64>().ok()?;
    match name.as_str() {
        "xor_into" => Some(add_each(rounds)),
        "sum_of" => Some(add_all(rounds)),
        _ => None,
    }
}

fn main(rt: HostRuntime) -> ExitCode {
    match run(&rt) {
        Some(sum) if print(&rt, &sum).is_ok() => ExitCode::SUCCESS,
        _ => ExitCode::FAILURE,
    }
}
PROGRAM

cat > "$work/xor.c" << 'PROGRAM'
#include <stdint.h>
#include <stdio.h>
#include <stdlib.h>
#include <string.h>

enum { COUNT = 48 };

struct cell {
    uint8_t bytes[64];
    uint16_t lost;
};

static void xor_into(uint8_t *restrict to, const uint8_t *restrict from)
{
    for (int i = 0; i < 64; i++)
        to[i] ^= from[i];
}

int main(int argc, char **argv)
{
    static struct cell cells[COUNT];
    uint8_t sum[64] = {0};
    if (argc != 3)
        return 1;
    int afresh = strcmp(argv[1], "sum_of") == 0;
    uint64_t rounds = strtoull(argv[2], 0, 10);
    for (int k = 0; k < COUNT; k++)
        memset(cells[k].bytes, 5 * k + 1, 64);
    for (uint64_t round = 0; round < rounds; round++) {
        if (afresh)
            memset(sum, 0, 64);
        for (int k = 0; k < COUNT; k++)
            xor_into(sum, cells[k].bytes);
        memcpy(cells[round % COUNT].bytes, sum, 64);
    }
    for (int i = 0; i < 64; i++)
        printf("%02x", sum[i]);
    puts("");
    return 0;
}
PROGRAM

in_c="$work/xor"
in_rattle="$work/crates/xor_rounds/out/xor_rounds"
clang -O3 -o "$in_c" "$work/xor.c"
if ! (cd "$work/crates/xor_rounds" && rt run -- xor_into 0 > "$work/build.log" 2>&1); then
    tail -n 30 "$work/build.log" >&2
    exit 1
fi

# The processor seconds of one run of these words.
seconds() {
    {
        "$@" > /dev/null
        times
    } | awk 'NR == 2 { split($1 " " $2, t, /[ms ]+/); printf "%.3f\n", 60 * t[1] + t[2] + 60 * t[3] + t[4] }'
}

# One line a run: both programs by turns, for this many rounds and for none.
both_by_turns() {
    count=$runs
    while [ "$count" -gt 0 ]; do
        echo "$(seconds "$in_c" "$1" "$2") $(seconds "$in_rattle" "$1" "$2") $(seconds "$in_c" "$1" 0) $(seconds "$in_rattle" "$1" 0)"
        count=$((count - 1))
    done
}

# The least of each column, and what comes of it.
compare() {
    awk -v name="$1" -v rounds="$2" '
        { for (k = 1; k <= 4; k++) if (NR == 1 || $k < least[k]) least[k] = $k }
        END {
            c = least[1] - least[3]
            rattle = least[2] - least[4]
            ratio = rattle / c
            verdict = ratio <= 1.5 ? "within" : "not within"
            printf "%s, %d rounds of 48 blocks: C %.3f s, Rattle %.3f s, ratio %.2f: %s 1.5\n", name, rounds, c, rattle, ratio, verdict
            exit ratio > 1.5
        }'
}

status=0
for name in xor_into sum_of; do
    rounds=1048576
    while awk -v s="$(seconds "$in_c" "$name" "$rounds")" 'BEGIN { exit s >= 1 }'; do
        rounds=$((2 * rounds))
    done
    if [ "$("$in_c" "$name" "$((rounds + 7))")" != "$("$in_rattle" "$name" "$((rounds + 7))")" ]; then
        echo "$name: the two sums differ" >&2
        exit 1
    fi
    both_by_turns "$name" "$rounds" | compare "$name" "$rounds" || status=1
done
exit "$status"
