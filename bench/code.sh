#!/bin/sh
# Measures how long `alter plain` takes on the nine programs of bench/nine, beside Lua 5.4 and Python 3 on the same work.
# Each is the least user time of five runs, one after the other in turn; told are alter's seconds, how many times as long
# the others take, and its peak of memory. All must print the same. It needs python3; without lua5.4 that column is left
# out.
# bench/code.sh, or bench/code.sh NAME.. for some of the nine.
command -v python3 >/dev/null || {
    echo "bench/code.sh: no python3" >&2
    exit 1
}
top=$(cd "$(dirname "$0")/.." && pwd) || exit 1
"$top/alter" check "$top/examples/p1.c" >/dev/null || exit $?
exec python3 - "$top" "$@" <<'PY'
import math, os, shutil, subprocess, sys
top, names = sys.argv[1], sys.argv[2:]
nine = f"{top}/bench/nine"
names = names or sorted(it[:-2] for it in os.listdir(nine) if it.endswith(".c"))
lua = shutil.which("lua5.4")
ample = ["--steps", "1000000000", "--iter-steps", "1000000000"]

def run(words):
    """Its seconds of the user, its peak of memory in MiB, and what it prints."""
    child = subprocess.Popen(words, stdout=subprocess.PIPE)
    out = child.stdout.read()
    _, status, used = os.wait4(child.pid, 0)
    child.returncode = status
    if status:
        sys.exit(f"bench/code.sh: {words} failed")
    return used.ru_utime, used.ru_maxrss / 1024, out

def ways(name):
    source = f"{nine}/{name}.c"
    yield "plain", [f"{top}/alter", "plain", source, *ample]
    if lua:
        yield "lua", [lua, f"{nine}/{name}.lua"]
    yield "python", [sys.executable, f"{nine}/{name}.py"]

logs = {}
for name in names:
    least, printed, peak = {}, {}, 0
    for _ in range(5):
        for way, words in ways(name):
            seconds, memory, out = run(words)
            if way == "plain":
                peak = max(peak, memory)
            printed[way] = out
            least[way] = min(seconds, least.get(way, seconds))
    if len(set(printed.values())) != 1:
        sys.exit(f"bench/code.sh: {name} does not print the same everywhere")
    told = [f"{way} takes {seconds / least['plain']:.2f} times as long" for way, seconds in least.items() if way != "plain"]
    for way, seconds in least.items():
        if way != "plain":
            logs.setdefault(way, []).append(math.log(seconds / least["plain"]))
    print(f"{name}: {least['plain']:.2f} s in {peak:.0f} MiB; " + ", ".join(told), flush=True)
for way, some in logs.items():
    print(f"mean: {way} takes {math.exp(sum(some) / len(some)):.2f} times as long")
PY
