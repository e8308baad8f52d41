#!/bin/sh
# Measures how long `alter infer` takes for the first annotated loop of examples/p15.c, beside the same runs one after
# another: for each candidate of its table `alter run` of the program with that annotation on the loop and none on the
# others, and `alter plain`. All run with --threads 1. Told are the least times of five turns and how many times as long
# the runs take one after another; of them the start of the program and its front end are left out but once. It needs
# python3.
command -v python3 >/dev/null || {
    echo "bench/infer.sh: no python3" >&2
    exit 1
}
top=$(cd "$(dirname "$0")/.." && pwd) || exit 1
"$top/alter" check "$top/examples/p1.c" >/dev/null || exit $?
exec python3 - "$top" <<'PY'
import os, subprocess, sys, tempfile, time
top = sys.argv[1]
alter, numbers = f"{top}/alter", f"{top}/examples/n.txt"
text = open(f"{top}/examples/p15.c").read()

def run(*words):
    """How long a command takes, and what it prints."""
    begin = time.perf_counter()
    done = subprocess.run(words, stdout=subprocess.PIPE, check=True)
    return time.perf_counter() - begin, done.stdout.decode()

def with_first(annotation):
    """The program with this annotation on its first annotated loop, and with none on the others."""
    lines, left = [], [annotation]
    for line in text.splitlines(keepends=True):
        if line.startswith("#pragma alter"):
            line = f"#pragma alter {left.pop()}\n" if left else ""
        lines.append(line)
    return "".join(lines)

search = [alter, "infer", f"{top}/examples/p15.c", numbers, "--threads", "1"]
table = run(*search)[1].splitlines()
tried = [row.split(": ", 1)[1].rsplit(": ", 1)[0] for row in table if row.startswith("candidate ")]
with tempfile.TemporaryDirectory() as folder:
    jobs = [[alter, "plain", f"{top}/examples/p15.c", numbers, "--threads", "1"]]
    for k, annotation in enumerate(tried):
        source = f"{folder}/{k}.c"
        open(source, "w").write(with_first(annotation))
        jobs.append([alter, "run", source, numbers, "--threads", "1"])
    least = {}
    for _ in range(5):
        start = min(run(alter, "check", f"{top}/examples/p15.c")[0] for _ in range(5))
        side = run(*search)[0]
        after = sum(run(*job)[0] - start for job in jobs) + start
        least["side"] = min(side, least.get("side", side))
        least["after"] = min(after, least.get("after", after))
print(f"infer: {len(tried)} candidates and the plain run in {least['side']:.2f} s; one after another: "
      f"{least['after']:.2f} s, {least['after'] / least['side']:.2f} times as long, on {os.cpu_count()} processors")
PY
