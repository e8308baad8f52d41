#!/bin/sh
# Measures how fast `alter plain` runs three of the examples, each a hundred times, beside gcc -O0 and Python on the
# same loops. For each it prints alter's steps a second, and how many times as long alter takes as each of the other two,
# the start of a program left out; times are the processor's. It needs gcc and python3.
for tool in gcc python3; do
    command -v "$tool" >/dev/null || {
        echo "bench/plain.sh: no $tool" >&2
        exit 1
    }
done
top=$(cd "$(dirname "$0")/.." && pwd) || exit 1
folder=$(mktemp -d) || exit 1
trap 'rm -rf "$folder"' EXIT
"$top/alter" check "$top/examples/p1.c" >/dev/null || exit $?

cat >"$folder/main.c" <<'C'
#include <stdio.h>
#include <time.h>
int job(void);
long max(long a, long b) { return a > b ? a : b; }
int main(void) {
    struct timespec a, b;
    int times = 200;
    clock_gettime(CLOCK_PROCESS_CPUTIME_ID, &a);
    for (int i = 0; i < times; i++) job();
    clock_gettime(CLOCK_PROCESS_CPUTIME_ID, &b);
    fprintf(stderr, "%.9f\n", ((b.tv_sec - a.tv_sec) + (b.tv_nsec - a.tv_nsec) / 1e9) / times);
    return 0;
}
C
cat >"$folder/main.py" <<'PY'
import importlib, sys, time
job = importlib.import_module(sys.argv[1]).job
begin = time.process_time()
for _ in range(5):
    job()
print("%.9f" % ((time.process_time() - begin) / 5), file=sys.stderr)
PY

# seconds WORD..: the least time of the user that a command takes in five runs
seconds() {
    python3 - "$@" <<'PY'
import os, subprocess, sys
def used():
    child = subprocess.Popen(sys.argv[1:], stdout=subprocess.DEVNULL)
    _, status, usage = os.wait4(child.pid, 0)
    child.returncode = status
    if status:
        sys.exit(1)
    return usage.ru_utime
print("%.9f" % min(used() for _ in range(5)))
PY
}

empty=$folder/empty.c
echo 'int main(void) {}' >"$empty"
for name in collatz matrix sieve; do
    source=$top/examples/$name.c
    grep -v '^#pragma' "$source" >"$folder/$name.c"
    {
        sed 's/\bint main(/int job(/' "$folder/$name.c"
        echo 'int main(void) { for (int k = 0; k < 100; k++) job(); }'
    } >"$folder/$name.often.c"
    steps=$("$top/alter" trace "$folder/$name.often.c" --steps 1000000000 | awk '/^loops/ { print $NF }')
    started=$(seconds "$top/alter" plain "$empty")
    whole=$(seconds "$top/alter" plain "$folder/$name.often.c" --steps 1000000000)
    {
        echo 'long max(long, long);'
        sed 's/\bint\b/long/g; s/\blong main(/int job(/' "$folder/$name.c"
    } >"$folder/$name.job.c"
    gcc -O0 -fwrapv -w -o "$folder/$name" "$folder/main.c" "$folder/$name.job.c" || exit $?
    compiled=$("$folder/$name" 2>&1 >/dev/null)
    python=$(cd "$folder" && PYTHONDONTWRITEBYTECODE=1 PYTHONPATH="$top/bench/python" python3 main.py "$name" 2>&1 >/dev/null)
    awk -v name="$name" -v steps="$steps" -v whole="$whole" -v started="$started" -v compiled="$compiled" -v python="$python" 'BEGIN {
        time = whole - started
        printf "%s: %d steps, %.0f a second; gcc -O0: %.0f times as fast; Python: %.1f times as fast\n", name, steps, steps / time, time / 100 / compiled, time / 100 / python
    }'
done
