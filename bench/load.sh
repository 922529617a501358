#!/bin/sh
# Measures plays of the built program: loads of 250, 500, 1000 and 1500 jobs, a script of 3.2 MB with 16 hosts and 200,000 turn
# lines, the same under stamps, and a script of 16 MiB that is little more than turn lines.
#
# usage: bench/load.sh [RUNS [OTHER]]
#
# RUNS: how often each play is timed, 5 if left out. OTHER: another build of the program, by its path. Then the two play by
# turns, must print the same bytes, and the last column is the time of this build by that of the other.
#
# For each play it prints the requests, the least processor time (user and system) of all runs, requests a second, and the
# greatest memory that the program had. The report goes through a pipe. `load 1000` is run twice and must print the same bytes.
# It needs the built program (./array builds it) and python3. It ends by itself; five runs take some seconds.
set -eu

root=$(cd "$(dirname "$0")/.." && pwd)
program="$root/crates/array/out/array"
if [ ! -x "$program" ]; then
    echo "bench/load.sh: build the program first: ./array sim < examples/first.script" >&2
    exit 1
fi
exec python3 - "$program" "${1:-5}" "${2:-}" <<'PYTHON'
import hashlib, os, sys, tempfile

programs = [path for path in (sys.argv[1], sys.argv[3]) if path]
runs = int(sys.argv[2])

def turns_script(mode):
    """Sixteen hosts write and read blocks of their own; the turns go round the hosts."""
    lines = ["raid 1", "devices 8", "rows 64", "mode " + mode, "patience 64", "tries 1"]
    lines.append("object a " + " ".join(str(row) for row in range(64)))
    for host in range(16):
        lines.append("host %d" % host)
        for job in range(1980):
            block = 28 * host + job % 28
            lines.append("read a %d 1" % block if job % 2 else "write a %d %02x" % (block, job % 256))
    lines += ["turn %d %d" % ((turn - 1) % 16, turn) for turn in range(1, 200001)]
    return "\n".join(lines + ["end"]) + "\n"

def long_script():
    """One host with one job, and turns up to 16 MiB."""
    head = "raid 1\ndevices 3\nrows 1\nmode lock\npatience 1\ntries 1\nobject a 0\nhost 0\nread a 0 1\n"
    turn = "turn 0 1\n"
    return head + turn * ((2 ** 24 - len(head) - 4) // len(turn)) + "end\n"

def play(program, words, text):
    """Processor time, greatest memory in MiB, and what one play has printed."""
    read, write = os.pipe()
    child = os.fork()
    if child == 0:
        os.dup2(os.open(text, os.O_RDONLY), 0)
        os.dup2(write, 1)
        os.close(read)
        os.execv(program, [program] + words)
    os.close(write)
    with os.fdopen(read, "rb") as output:
        printed = output.read()
    _, status, used = os.wait4(child, 0)
    if status != 0:
        sys.exit("bench/load.sh: a play has ended with status %d" % status)
    return used.ru_utime + used.ru_stime, used.ru_maxrss / 1024, printed

def requests_in(printed):
    """The number of requests that a report or a summary names."""
    for line in printed.split(b"\n"):
        if line.startswith((b"requests ", b"turns ")):
            return int(line.split()[1])

def measure(name, words, text):
    """Plays by turns with each program, and prints a line."""
    least, memory, sums = [float("inf")] * len(programs), 0, set()
    for _ in range(runs):
        for at, program in enumerate(programs):
            time, most, printed = play(program, words, text)
            least[at] = min(least[at], time)
            memory = max(memory, most) if at == 0 else memory
            sums.add(hashlib.sha256(printed).digest())
            requests = requests_in(printed)
    if len(sums) != 1:
        sys.exit("bench/load.sh: %s: not the same bytes each time" % name)
    ratio = "%8.2f" % (least[0] / least[1]) if len(programs) > 1 else ""
    print("%-22s %9d %9.1f %11.0f %12.0f %s" % (name, requests, 1000 * least[0], requests / max(least[0], 1e-9), memory, ratio), flush=True)

with tempfile.TemporaryDirectory() as folder:
    def script(name, text):
        path = os.path.join(folder, name)
        with open(path, "w") as file:
            file.write(text)
        return path

    print("%-22s %9s %9s %11s %12s %s" % ("play", "requests", "time, ms", "requests/s", "memory, MiB", "  by other" if len(programs) > 1 else ""))
    first, again = (play(programs[0], ["load", "1000"], os.devnull)[2] for _ in range(2))
    if first != again:
        sys.exit("bench/load.sh: load 1000 does not print the same bytes twice")
    for n in (250, 500, 1000, 1500):
        measure("load %d" % n, ["load", str(n)], os.devnull)
    measure("200,000 turns, locks", ["sim"], script("lock", turns_script("lock")))
    measure("200,000 turns, stamps", ["sim"], script("order", turns_script("order")))
    measure("16 MiB of turn lines", ["sim"], script("long", long_script()))
PYTHON
