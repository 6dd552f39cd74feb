#!/usr/bin/env python3
"""Measures a run over repositories of 1,000 to 8,000 recipes of about 4 KiB, outside the gate.

    bench/repository.py PROGRAM

A line each: the recipes, the bytes, the seconds (of the clock, best of three), the seconds of the processor, how often the bytes fit
into the memory that was used, and the ratio to the line before. `read` stops at a fault of the first recipe, so all files are listed and
read and nothing is parsed; `whole` parses all of them and chooses a version. These runs have one processor.

Then 7,000 recipes of about 6 KB, and ten of them, on one, two and four processors, up to the refusal of an unknown root: all are read
and parsed, and no graph is looked for.
"""
import os
import resource
import subprocess
import sys
import tempfile
import time

ROWS = "".join('    version("1.%d.0", sha256="%064x")\n' % (i, i) for i in range(40))
RECIPE = '''from spack.package import *


class P(CMakePackage):
    """A package."""

    homepage = "https://example.org"
    maintainers("a", "b")
    license("MIT")

''' + ROWS + '''    variant("shared", default=True, description="libraries that are shared")
    variant("threads", default="none", values=("none", "pthreads", "openmp"), multi=False)
    depends_on("zlib@1.2:", when="+shared")
    depends_on("mpi", when="@1.10: +shared")
    conflicts("%gcc@:4", when="+shared", msg="too old")
    with when("+shared"):
        depends_on("cmake@3.18:", type="build")
        provides("lapack@3", when="@1.5:")

    def cmake_args(self):
        return []
'''

ZLIB = 'class Zlib(Package):\n    version("1")\n'


def write(path, text):
    os.makedirs(os.path.dirname(path), exist_ok=True)
    with open(path, "w") as file:
        file.write(text)


def measure(program, repo, root, processors=1, runs=3):
    """Seconds of the clock and of the processors, and the memory of the best of some runs on the first of the processors."""
    allowed = sorted(os.sched_getaffinity(0))[:processors]
    best = None
    for _ in range(runs):
        before = resource.getrusage(resource.RUSAGE_CHILDREN)
        start = time.monotonic()
        done = subprocess.run(["/usr/bin/time", "-f", "%M", program, "concretize", repo, "-", "-", "/dev/null", "-", root],
                              capture_output=True, text=True, preexec_fn=lambda: os.sched_setaffinity(0, allowed))
        clock = time.monotonic() - start
        after = resource.getrusage(resource.RUSAGE_CHILDREN)
        spent = after.ru_utime + after.ru_stime - before.ru_utime - before.ru_stime
        memory = int(done.stderr.split()[-1]) * 1024
        if best is None or clock < best[0]:
            best = (clock, spent, memory)
    return best


def lengths(program, room):
    last = {}
    for count in (1000, 2000, 4000, 8000):
        repo = os.path.join(room, str(count))
        for i in range(count):
            write("%s/packages/p%d/package.py" % (repo, i), RECIPE)
        write(repo + "/packages/zlib/package.py", ZLIB)
        size = count * len(RECIPE)
        for kind in ("read", "whole"):
            first = repo + "/packages/a/package.py"
            if kind == "read":
                write(first, "x\n")
            else:
                os.remove(first)
            clock, spent, memory = measure(program, repo, "zlib")
            ratio = "%.2f" % (spent / last[kind]) if kind in last else "-"
            last[kind] = spent
            print("%-5s %5d recipes %9d bytes  %.2f s  %.2f s of a processor  %4.1f times in memory  ratio %s"
                  % (kind, count, size, clock, spent, memory / size, ratio))


def processors(program, room):
    """As many recipes as Spack has, and ten."""
    more = "".join('    version("2.%d.0", sha256="%064x")\n' % (i, i) for i in range(16))
    recipe = RECIPE.replace("    variant(", more + "    variant(", 1)
    for count, runs in ((7000, 5), (10, 50)):
        repo = os.path.join(room, "beside%d" % count)
        for i in range(count):
            write("%s/packages/p%d/package.py" % (repo, i), recipe)
        for number in (1, 2, 4):
            if number <= len(os.sched_getaffinity(0)):
                clock, spent, memory = measure(program, repo, "none", number, runs)
                print("%d processors %5d recipes of %d bytes  %.4f s  %.4f s of processors  %4.1f times in memory"
                      % (number, count, len(recipe), clock, spent, memory / (count * len(recipe))))


def main():
    program = os.path.abspath(sys.argv[1])
    with tempfile.TemporaryDirectory() as room:
        lengths(program, room)
        processors(program, room)


if __name__ == "__main__":
    main()
