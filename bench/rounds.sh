#!/bin/sh
# Measures rounds of 4, 24 and 64 chunks of 1, 16 and 1,024 iterations, each two stores to words of its own, on 1, 2
# and 4 threads: what a round takes more than the same loop plain, in microseconds of the user and of the clock; and the
# same of rounds of chunks that do nothing, which is little more than a round beside its chunks. Then rounds of 5 ms and
# more on 1, 2 and 4 threads, beside a spin of pure arithmetic on 1 and 4 threads in the same run. Each figure is the
# least of five runs by turns (RUNS: of so many). It needs python3 and gcc. ALTER names another program to measure.
command -v python3 >/dev/null || {
    echo "bench/rounds.sh: python3 is not here" >&2
    exit 1
}
top=$(cd "$(dirname "$0")/.." && pwd) || exit 1
PYTHONDONTWRITEBYTECODE=1 PYTHONPATH=$top/bench exec python3 - "$top" <<'PY'
import sys, tempfile
from measure import AMPLE, Least, built, need, spins

top = sys.argv[1]
need("bench/rounds.sh", "gcc")
alter = built(top)
folder = tempfile.TemporaryDirectory()
LANES, CHUNKS, THREADS = (4, 24, 64), (1, 16, 1024), (1, 2, 4)


def source(name, trips, body):
    path = f"{folder.name}/{name}.c"
    with open(path, "w") as file:
        file.write(f"""long a[{trips}], b[{trips}];
int main(void) {{
#pragma alter RAW OutOfOrder
  for (long i = 0; i < {trips}; i++) {{ {body} }}
  printf("%ld\\n", a[{trips - 1}]);
}}
""")
    return path


def rounds(path, lanes, chunk, threads):
    options = ["--lanes", str(lanes), "--chunk", str(chunk), "--threads", str(threads)]
    return [alter, "run", path, *options, *AMPLE], None


def more(times, way, count):
    return 1e6 * (times[way] - times["plain"]) / count


def small(name, chunk, trips, body):
    """Rounds of small chunks, over the same loop plain."""
    path = source(f"{name}{chunk}", trips, body)
    ways = {"plain": ([alter, "plain", path, *AMPLE], None)}
    for lanes in LANES:
        for threads in THREADS:
            ways[lanes, threads] = rounds(path, lanes, chunk, threads)
    least = Least(ways)
    for lanes in LANES:
        count = -(-trips // chunk // lanes)
        told = [f"{threads} threads: user {more(least.user, (lanes, threads), count):.1f}, "
                f"clock {more(least.clock, (lanes, threads), count):.1f}" for threads in THREADS]
        times = least.user[lanes, 1] / least.user["plain"]
        print(f"{lanes} {name} chunks of {chunk}: a round over plain, us: {'; '.join(told)}; "
              f"{times:.2f} times plain on one", flush=True)


small("empty", 1, 64 * 300, "")
for chunk in CHUNKS:
    small("storing", chunk, 64 * chunk * (6 if chunk > 16 else 300), "a[i] = i; b[i] = i + 1;")

for lanes in (4, 24, 64):
    for chunk in (1, 16):
        work = 100000 // chunk
        path = source(f"large{lanes}-{chunk}", 2 * lanes * chunk,
                      f"long s = i; for (long j = 0; j < {work}; j++) s = s * 3 + j; a[i] = s;")
        ways = {threads: rounds(path, lanes, chunk, threads) for threads in THREADS}
        least = Least({**ways, **spins(folder.name)})
        gains = [least.clock[1] / least.clock[threads] for threads in (2, 4)]
        spin = least.clock["spin 1"] / least.clock["spin 4"]
        print(f"2 rounds of {lanes} chunks of {chunk}, {1e3 * least.clock[1] / 2:.0f} ms each: gain on 2 threads "
              f"{gains[0]:.2f}, on 4 {gains[1]:.2f}; the spin's on 4 {spin:.2f}; {gains[1] / spin:.2f} of it",
              flush=True)
PY
