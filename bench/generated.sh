#!/bin/sh
# Runs generated programs: bench/generated.sh [SEED [MANY]], by itself 2,000 from seed 1. Each runs in rounds by several
# values of lanes, chunk and line, with 1, 2 and 4 threads, which must give the same bytes and status; with RAW and FULL in
# order written before each loop it must give those of `alter plain`. What `alter plain` prints is compared with gcc
# wherever C says what comes: in every second program, where it does not trap. It needs python3 and gcc. ALTER names
# another program to run.
command -v python3 >/dev/null || {
    echo "bench/generated.sh: python3 is not here" >&2
    exit 1
}
top=$(cd "$(dirname "$0")/.." && pwd) || exit 1
PYTHONDONTWRITEBYTECODE=1 PYTHONPATH=$top/bench exec python3 - "$top" "${1:-1}" "${2:-2000}" <<'PY'
import random, re, subprocess, sys, tempfile
from measure import built, need
from programs import program

top, first, many = sys.argv[1], int(sys.argv[2]), int(sys.argv[3])
need("bench/generated.sh", "gcc")
alter = built(top)
folder = tempfile.TemporaryDirectory()
LANES, CHUNKS, LINES = (1, 3, 4), (1, 2, 16), (1, 2, 16)
HEAD = """#include <stdio.h>
#include <stdlib.h>
static long numbers[] = {7, 8, -3, 40};
#define input(i) numbers[i]
static long min(long a, long b) { return a < b ? a : b; }
static long max(long a, long b) { return a > b ? a : b; }
"""


def write(name, text):
    with open(f"{folder.name}/{name}", "w") as file:
        file.write(text)
    return f"{folder.name}/{name}"


def told(command, text, *options):
    """The status and the bytes of a call."""
    call = [alter, command, write("p.c", text), numbers, *map(str, options)]
    done = subprocess.run(call, capture_output=True, timeout=100)
    if done.returncode not in (0, 3):
        sys.exit(f"bench/generated.sh: seed {seed}: {done.stderr.decode()}")
    return done.returncode, done.stdout, done.stderr


def is_as_c(text, plain):
    """Whether the gcc build prints the same."""
    name = f"{folder.name}/p"
    subprocess.run(["gcc", "-w", "-O0", "-fwrapv", "-o", name, write("q.c", HEAD + text)], check=True)
    return subprocess.run([name], capture_output=True).stdout == plain


def annotated(text, policy):
    """With this policy in order on each loop, and its reductions as they are."""
    return re.sub(r"#pragma alter( \w+ \w+)?", f"#pragma alter {policy} InOrder", text)


numbers = write("n.txt", "7 8 -3 40")
as_c = runs = traps = 0
others = []
for seed in range(first, first + many):
    text = program(seed, seed % 2 == 0)
    choice = random.Random(seed)
    options = "--lanes", choice.choice(LANES), "--chunk", choice.choice(CHUNKS), "--line", choice.choice(LINES)
    plain = told("plain", text)
    traps += plain[0] == 3
    if seed % 2 == 0 and plain[0] == 0:
        as_c += 1
        if not is_as_c(text, plain[1]):
            others.append(f"{seed}: not as C")
    if len({told("run", text, *options, "--threads", threads) for threads in (1, 2, 4)}) != 1:
        others.append(f"{seed}: the threads change it")
    for policy in ("RAW", "FULL"):
        if told("run", annotated(text, policy), *options) != plain:
            others.append(f"{seed}: {policy} in order is not plain")
    runs += 5
for other in others:
    print(f"seed {other}")
print(f"{runs} runs in rounds of {many} programs, {traps} of which trap; {as_c} beside gcc; {len(others)} differ")
sys.exit(len(others) != 0)
PY
