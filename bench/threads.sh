#!/bin/sh
# Measures what worker threads gain: independent loops of bench/nine with 4 threads against 1 and against `plain`, and
# beside them the same sources with OpenMP (gcc -O1) on 1 and 4 threads and a spin of pure arithmetic on 1 and 4; a
# small loop that is executed 2,000 times; the first loop of examples/p15.c with 100,000 points; `demo 1 100000` beside
# `plain` of the same program and input, at the defaults; and the peak of memory for n, 2n and 4n objects. Times are the
# least of five runs by turns (RUNS: of so many), on the clock. It needs python3 and gcc. ALTER names another program to
# measure.
command -v python3 >/dev/null || {
    echo "bench/threads.sh: python3 is not here" >&2
    exit 1
}
top=$(cd "$(dirname "$0")/.." && pwd) || exit 1
PYTHONDONTWRITEBYTECODE=1 PYTHONPATH=$top/bench exec python3 - "$top" <<'PY'
import re, sys, tempfile
from measure import AMPLE, Least, Run, built, compile_c, need, spins

top = sys.argv[1]
need("bench/threads.sh", "gcc")
alter = built(top)
folder = tempfile.TemporaryDirectory()


def written(name, text):
    path = f"{folder.name}/{name}.c"
    with open(path, "w") as file:
        file.write(text)
    return path


def twin(name, text):
    """The same loops with OpenMP, whole numbers of 64 bits."""
    reds = re.compile(r"reduce\((\S+): ([^)]*)\)")
    text = re.sub(r"#pragma alter \w+ \w+(.*)",
                  lambda it: "#pragma omp parallel for schedule(dynamic)" + reds.sub(r"reduction(\1: \2)", it[1]), text)
    text = re.sub(r"\bint\b", "long", text).replace("long main(", "int main(")
    text = "#define printf(...) printf_of(__VA_ARGS__)\n" + text.replace("%d", "%ld")
    head = "#include <stdio.h>\n#include <stdlib.h>\nstatic int printf_of(const char *, ...);\n"
    tail = """
#undef printf
#include <stdarg.h>
static int printf_of(const char *form, ...) {
    va_list all;
    va_start(all, form);
    int count = vprintf(form, all);
    va_end(all);
    return count;
}
"""
    return compile_c(head + text + tail, f"{folder.name}/{name}.omp", "-O1", "-fwrapv", "-fopenmp")


def loops(name, text, options):
    """One program of independent loops by all ways."""
    path = written(name, text)
    ways = {"plain": ([alter, "plain", path, *AMPLE], None)}
    for threads in (1, 4):
        ways[threads] = [alter, "run", path, *options, "--threads", str(threads), *AMPLE], None
        ways[f"omp {threads}"] = [twin(name, text)], threads
    least = Least({**ways, **spins(folder.name)})
    if len({least.out[way] for way in ways}) != 1:
        sys.exit(f"bench/threads.sh: {name} does not print the same everywhere")
    plain, one, four = (least.clock[way] for way in ("plain", 1, 4))
    omp, spin = (least.clock[f"{way} 1"] / least.clock[f"{way} 4"] for way in ("omp", "spin"))
    print(f"{name} {' '.join(options)}: plain {plain:.2f} s, 1 thread {one:.2f}, 4 threads {four:.2f}; gain of 4 "
          f"against 1 {one / four:.2f}, against plain {plain / four:.2f}; OpenMP's gain {omp:.2f}, the spin's "
          f"{spin:.2f}; {one / four / spin:.2f} of it", flush=True)


def text_of(path):
    with open(f"{top}/{path}") as file:
        return file.read()


def first_loop():
    """The first annotated loop of p15.c with 100,000 points, once."""
    text = text_of("examples/p15.c").replace("1000", "100000").replace("step < 2", "step < 1")
    return re.sub(r"#pragma alter WAW OutOfOrder reduce\(\+: used\).*?\n    }\n", "", text, flags=re.S)


# A loop that is executed often, with little to do each time.
OFTEN = """#include <stdio.h>
int a[64];
int main(void) {
  for (int k = 0; k < 2000; k++) {
#pragma alter RAW OutOfOrder
    for (int i = 0; i < 64; i++) { a[i] = i + k; }
  }
  printf("%d\\n", a[63]);
  return 0;
}
"""


def demo():
    """`demo 1 100000`, which has the defaults of `run`, beside its program plain."""
    numbers, x = [], 1
    for _ in range(100000):
        x = (x * 1103515245 + 12345) % 2147483648
        numbers.append(str(x // 65536))
    path = written("demo", """long hist[16];
int main(void) {
  long n = inputs();
  long s = 0;
#pragma alter RAW OutOfOrder reduce(+: s)
  for (long i = 0; i < n; i++) {
    hist[input(i) % 16] += 1;
    s += input(i);
  }
  for (long k = 0; k < 16; k++) printf("%ld ", hist[k]);
  printf("%ld\\n", s);
  return 0;
}
""")
    given = written("numbers", " ".join(numbers) + "\n")
    ways = {"plain": ([alter, "plain", path, given, *AMPLE], None), "demo": ([alter, "demo", "1", "100000"], None)}
    for threads in (1, 4):
        ways[threads] = [alter, "run", path, given, "--threads", str(threads), *AMPLE], None
    least = Least(ways)
    if not least.out["demo"].startswith(least.out["plain"]):
        sys.exit("bench/threads.sh: demo does not print what plain does")
    plain = least.clock["plain"]
    told = [f"run on {threads} {least.clock[threads] / plain:.2f} times" for threads in (1, 4)]
    demo = least.clock["demo"] / plain
    print(f"demo 1 100000: plain {plain:.2f} s; demo {demo:.2f} times; {', '.join(told)}", flush=True)


def memory():
    """The peak for n, 2n and 4n objects of two words, made in rounds."""
    told = []
    for n in (100000, 200000, 400000):
        path = written(f"objects{n}", f"""struct node {{ long v; struct node *next; }};
struct node *kept[{n}];
int main(void) {{
#pragma alter RAW OutOfOrder
  for (long i = 0; i < {n}; i++) {{
    kept[i] = calloc(1, sizeof(struct node));
    kept[i]->v = i;
  }}
  printf("%ld\\n", kept[{n - 1}]->v);
}}
""")
        told.append(f"{n} objects {Run([alter, 'run', path, *AMPLE]).peak:.0f} MiB")
    print("peak of memory: " + ", ".join(told), flush=True)


loops("par_mandel", text_of("bench/nine/par_mandel.c"), ["--chunk", "1", "--lanes", "64"])
loops("readset_matmul", text_of("bench/nine/readset_matmul.c"), ["--chunk", "1", "--lanes", "24"])
loops("small_iters", text_of("bench/nine/small_iters.c"), [])
loops("small_iters", text_of("bench/nine/small_iters.c"), ["--chunk", "1024", "--lanes", "24"])
loops("often", OFTEN, [])
loops("p15", first_loop(), [])
loops("p15", first_loop(), ["--chunk", "256", "--lanes", "24"])
demo()
memory()
PY
