"""What the scripts of this folder measure with: least times of interleaved runs, and a spin of pure arithmetic."""
import os, shutil, subprocess, sys, time

RUNS = int(os.environ.get("RUNS", "5"))
AMPLE = ["--steps", "1000000000", "--iter-steps", "1000000000"]

SPIN = r"""
#include <pthread.h>
#include <stdio.h>
#include <stdlib.h>
static long each;
static void *spin(void *from) {
    unsigned long x = (unsigned long)(size_t)from;
    for (long i = 0; i < each; i++) x = x * 6364136223846793005UL + 1442695040888963407UL;
    return (void *)(size_t)x;
}
int main(int count, char **words) {
    long threads = atol(words[1]), sum = 0;
    pthread_t all[64];
    each = atol(words[2]) / threads;
    for (long k = 0; k < threads; k++) pthread_create(&all[k], 0, spin, (void *)k);
    for (long k = 0; k < threads; k++) {
        void *x;
        pthread_join(all[k], &x);
        sum += (long)(size_t)x;
    }
    printf("%ld\n", sum == 0);
    return count == 0;
}
"""


def need(script, *tools):
    """Ends the script where a tool is missing."""
    for tool in tools:
        if not shutil.which(tool):
            sys.exit(f"{script}: {tool} is not here")


def built(top):
    """The program that is measured: ALTER, or that of this repository, which `./alter` builds."""
    alter = os.environ.get("ALTER", f"{top}/alter")
    if subprocess.run([alter, "check", f"{top}/examples/p1.c"], stdout=subprocess.DEVNULL).returncode:
        sys.exit(f"{alter} does not run")
    return alter


class Run:
    """A run of a program: its seconds on the clock and of the user, its peak of memory in MiB, and what it prints."""

    def __init__(self, words, threads=None):
        threads = {"OMP_NUM_THREADS": str(threads)} if threads else {}
        begin = time.perf_counter()
        child = subprocess.Popen(words, stdout=subprocess.PIPE, env={**os.environ, **threads})
        self.out = child.stdout.read()
        _, status, used = os.wait4(child.pid, 0)
        self.clock = time.perf_counter() - begin
        child.returncode = status
        if status:
            sys.exit(f"{words} failed")
        self.user, self.peak = used.ru_utime, used.ru_maxrss / 1024


class Least:
    """Of each way to run something the least of its runs, by turns."""

    def __init__(self, ways, runs=RUNS):
        self.clock, self.user, self.peak, self.out = {}, {}, {}, {}
        for _ in range(runs):
            for name, (words, threads) in ways.items():
                run = Run(words, threads)
                self.clock[name] = min(run.clock, self.clock.get(name, run.clock))
                self.user[name] = min(run.user, self.user.get(name, run.user))
                self.peak[name] = max(run.peak, self.peak.get(name, run.peak))
                self.out[name] = run.out


def compile_c(text, path, *flags):
    """Compiles a C program."""
    with open(f"{path}.c", "w") as file:
        file.write(text)
    if subprocess.run(["gcc", "-w", *flags, "-o", path, f"{path}.c"]).returncode:
        sys.exit(f"gcc does not compile {path}.c")
    return path


def spins(folder):
    """The ways of a spin on one thread and on four."""
    spin = compile_c(SPIN, f"{folder}/spin", "-O1", "-pthread")
    return {f"spin {n}": ([spin, str(n), "1000000000"], None) for n in (1, 4)}
