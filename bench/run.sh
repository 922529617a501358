#!/bin/sh
# Measures `run` of the built program against `sim`, or plays small random scripts with both.
#
# usage: bench/run.sh time [RUNS]             RUNS: how often each script is run, 5 if left out, at most 100
#        bench/run.sh compare [COUNT [SEED]]  COUNT: how many scripts, 2000 if left out, at most 100000; SEED: 1 if left out
#
# `time` plays scripts in which each of 2, 4, 8 and 16 hosts has 2,000 jobs on rows of its own, by turns with `run` and with
# `sim`, and prints the least wall time of each and their ratio.
# `compare` runs a script of up to five hosts with reads, writes, stops, recoveries, and a loss with its fit and rebuild, in one
# of the two modes, and then plays it with the turns of the printed report. Both must print the same bytes. The first script
# that differs is kept, its path is printed, and the status is 1. One seed makes the same scripts each time.
#
# It needs the built program (./array builds it) and python3. It ends by itself: a play that takes more than a minute is an
# error. $PROGRAM, if set, is the program's path.
set -eu

root=$(cd "$(dirname "$0")/.." && pwd)
program=${PROGRAM:-"$root/crates/array/out/array"}
case "${1:-}" in
    time | compare) ;;
    *) echo "usage: bench/run.sh time [RUNS] | compare [COUNT [SEED]]" >&2; exit 1 ;;
esac
if [ ! -x "$program" ]; then
    echo "bench/run.sh: build the program first: ./array sim < examples/first.script" >&2
    exit 1
fi
exec python3 - "$program" "$@" <<'PYTHON'
import os, random, subprocess, sys, tempfile, time

program, what, numbers = sys.argv[1], sys.argv[2], [int(word) for word in sys.argv[3:]]

def play(word, text):
    """Wall time, exit number and printed bytes of one play."""
    begin = time.perf_counter()
    try:
        done = subprocess.run([program, word], input=text.encode(), stdout=subprocess.PIPE, stderr=subprocess.PIPE, timeout=60)
    except subprocess.TimeoutExpired:
        return 60.0, None, b""
    return time.perf_counter() - begin, done.returncode, done.stdout

def keep(text, why):
    """Keeps a script that stays behind, and ends with an error."""
    handle, path = tempfile.mkstemp(suffix=".script")
    with os.fdopen(handle, "w") as file:
        file.write(text)
    sys.exit("bench/run.sh: %s: %s" % (why, path))

def with_turns(lines, printed):
    """The script of these lines, with the turns of a report."""
    turns = [line for line in printed.decode().split("\n") if line.startswith("turn ")]
    return "\n".join(lines + turns + ["end"]) + "\n"

def large(hosts, mode):
    """Each host writes and reads blocks of four rows of its own."""
    lines = ["raid 1", "devices 8", "rows %d" % (4 * hosts), "mode " + mode, "patience 64", "tries 1"]
    lines.append("object a " + " ".join(str(row) for row in range(4 * hosts)))
    for host in range(hosts):
        lines.append("host %d" % host)
        for job in range(2000):
            block = 28 * host + job % 28
            lines.append("read a %d 1" % block if job % 2 else "write a %d %02x" % (block, job % 256))
    return lines

def small_job(draw, rows, blocks):
    """A job of a host: a read, a write or a recovery, now and then with a stop."""
    first = draw.randrange(blocks)
    count = draw.randint(1, min(4, blocks - first))
    kind = draw.randrange(8)
    if kind < 3:
        job = "read a %d %d" % (first, count)
    elif kind < 7:
        job = "write a %d %s" % (first, " ".join("%02x" % draw.randrange(256) for _ in range(count)))
    else:
        job = "recover %d" % draw.randrange(rows)
    return "quit %d %s" % (draw.randint(1, 14), job) if draw.randrange(10) == 0 else job

def small(draw):
    """A script of few rows and up to five hosts, whose first may lose, fit and rebuild a device."""
    devices, rows = draw.randint(3, 6), draw.randint(1, 3)
    blocks = rows * (devices - 1)
    lines = ["raid 1", "devices %d" % devices, "rows %d" % rows, "mode " + draw.choice(["lock", "order"])]
    lines += ["patience %d" % draw.choice([0, 3, 1000]), "tries %d" % draw.randint(1, 6)]
    lines.append("object a " + " ".join(str(row) for row in draw.sample(range(rows), rows)))
    if draw.randrange(2):
        bay = draw.randrange(devices)
        lines += ["host 0"] + ["%s %d" % (word, bay) for word in ("lose", "fit", "rebuild")[:draw.randint(1, 3)]]
        lines += [small_job(draw, rows, blocks) for _ in range(draw.randrange(3))]
    for host in sorted(draw.sample(range(1, 16), draw.randint(1, 4))):
        lines.append("host %d" % host)
        lines += [small_job(draw, rows, blocks) for _ in range(draw.randint(1, 6))]
    return lines

def check(lines):
    """Runs a script, plays it with the turns that came of it, and gives both times and the number of turns."""
    text = "\n".join(lines + ["end"]) + "\n"
    ran, status, printed = play("run", text)
    if status != 0:
        keep(text, "a run did not end as done")
    again = with_turns(lines, printed)
    played, status, reprinted = play("sim", again)
    if status != 0 or printed != reprinted:
        keep(again, "sim prints another report than the run")
    return ran, played, again.count("\nturn ")

def measure(runs):
    print("processors: %d, of which this process may use %d" % (os.cpu_count(), len(os.sched_getaffinity(0))))
    print("%-22s %9s %9s %9s %7s" % ("hosts", "requests", "run, ms", "sim, ms", "ratio"))
    for mode in ("order", "lock"):
        for hosts in (2, 4, 8, 16):
            lines, least_run, least_sim = large(hosts, mode), float("inf"), float("inf")
            text = "\n".join(lines + ["end"]) + "\n"
            _, _, turns = check(lines)
            for _ in range(runs):
                for word in ("run", "sim"):
                    took, status, _ = play(word, text)
                    if status != 0:
                        keep(text, "%s did not end as done" % word)
                    if word == "run":
                        least_run = min(least_run, took)
                    else:
                        least_sim = min(least_sim, took)
            name = "%d, mode %s" % (hosts, mode)
            print("%-22s %9d %9.1f %9.1f %7.2f" % (name, turns, 1000 * least_run, 1000 * least_sim, least_run / least_sim), flush=True)

def compare(count, seed):
    draw, turns = random.Random(seed), 0
    for _ in range(count):
        turns += check(small(draw))[2]
    print("%d runs with %d requests, each simulated to the same report" % (count, turns))

if what == "time":
    measure(min(100, max(1, numbers[0] if numbers else 5)))
else:
    compare(min(100000, max(1, numbers[0] if numbers else 2000)), numbers[1] if len(numbers) > 1 else 1)
PYTHON
