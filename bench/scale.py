#!/usr/bin/env python3
"""Measures how the program grows: families of inputs (bench/families.py) at a size and at the double of it, outside the gate.

    bench/scale.py [--program [LABEL=]FILE].. [OPTION..] [WORD..]

A line for each family whose name has one of the words, and each program (without --program the release beside): sizes with seconds
of the processor in user mode and megabytes; the ratios of the last two sizes, seconds and then memory; the bound of the first. A
family begins at its size and is doubled while a run takes less than half a second and the size is below the family's last.

A run has 20 seconds of the processor and 4,000,000 KiB of address space (`ulimit -v`): what goes beyond is `cut` or `no memory`, and
counts as a ratio beyond any. A refusal by a limit (`too large`) ends a family well. The aim is a ratio of 2.5 at most; the bounds
that are higher stand for what was measured last. It ends with 1 where a ratio is above its bound.
"""
import argparse
import math
import multiprocessing
import os
import resource
import signal
import subprocess
import sys
import tempfile

import families

HERE = os.path.dirname(os.path.abspath(__file__))
RELEASE = os.path.join(os.path.dirname(HERE), "release", "spack_concretize-x86_64-linux")
LONGEST, MEMORY = 20, 4_000_000 * 1024
ENOUGH = 0.5  # seconds after which a family is not doubled any more
ENDS, TOO_LARGE, NO_MEMORY = (0, 1, 8), 7, 9  # statuses
UNSEEN = 0.1  # a ratio to less than so many seconds says nothing
CUT = math.inf  # as a bound: the run is cut, or has no memory, at the double of the size

# Each family: its name, what makes it, the first size and the last one, the bound of the ratio. A bound above 2.5 is what was measured last
# and some more; it is to be lowered with what it stands for.
FAMILIES = [
    ("a chain of packages", families.chain, 128, 1023, 3.5),
    ("a star, each child capped", families.capped_star, 64, 1023, 22),
    ("a star with conditions", families.conditional_star, 64, 1023, CUT),
    ("rows of eight with conditions", families.wide, 32, 512, 8),
    ("possible cycles", families.possible_cycles, 64, 512, 4.5),
    ("children that two share", families.shared_children, 32, 256, 4),
    ("each on each, with conditions", families.each_on_each, 12, 200, CUT),
    ("packages outside the closure", families.outside, 250, 4000, 2.5),
    ("providers of one virtual", families.providers, 125, 1000, 9),
    ("providers, the last of a list", families.late_providers, 60, 1000, 9.5),
    ("virtuals times providers", families.virtuals, 20, 80, 7),
    ("virtuals of one edge", families.edge_virtuals, 500, 8000, 2.5),
    ("versions", families.many_versions, 1250, 20000, 3.5),
    ("versions, conflicts of ranges", families.range_conflicts, 100, 1000, 12),
    ("directives", families.directives, 1000, 16000, 2.5),
    ("variants", families.variants, 500, 8000, 2.5),
    ("definitions of one variant", families.definitions, 125, 4000, 5),
    ("values, single", families.values, 250, 8000, 3),
    ("values, multi, all by default", families.multi_values, 250, 8000, 5),
    ("requires, one of two", families.one_of, 250, 4000, 2.5),
    ("requires, one of the versions", families.one_of_versions, 250, 4000, 5),
    ("requires, any of two", families.any_of, 250, 8000, 2.5),
    ("operating systems", families.systems, 3750, 30000, 4.5),
    ("targets", families.flat_targets, 3750, 30000, 5),
    ("targets, a chain", families.chained_targets, 3750, 30000, 4.5),
    ("compilers", families.compilers, 1000, 8000, 4.5),
    ("externals", families.externals, 1000, 8000, 5),
    ("records of one package", families.own_records, 500, 8000, 4),
    ("records of other packages", families.other_records, 5000, 40000, 2.5),
    ("a certificate of one line", families.long_line, 1_000_000, 16_000_000, 2.5),
]


class Run:
    """A run within the limits: how it ended, its seconds and megabytes."""

    def __init__(self, program, files, words):
        with tempfile.TemporaryDirectory() as room:
            for path, text in files.items():
                path = os.path.join(room, path)
                os.makedirs(os.path.dirname(path), exist_ok=True)
                with open(path, "w") as file:
                    file.write(text)
            before = resource.getrusage(resource.RUSAGE_CHILDREN).ru_utime
            limits = ["prlimit", "--cpu=%d" % LONGEST, "--as=%d" % MEMORY, "--core=0"]
            done = subprocess.run([*limits, "/usr/bin/time", "-q", "-o", "memory", "-f", "%M", program, *words], cwd=room,
                                  capture_output=True, text=True, errors="replace")
            self.seconds = resource.getrusage(resource.RUSAGE_CHILDREN).ru_utime - before
            with open(os.path.join(room, "memory")) as file:
                self.megabytes = int(file.read()) / 1000
        self.status, self.said = done.returncode, (done.stderr.splitlines() or done.stdout.splitlines() or [""])[0]

    @property
    def is_cut(self):
        return self.status in (128 + signal.SIGXCPU, 128 + signal.SIGKILL)

    def told(self):
        ends = {TOO_LARGE: "too large", NO_MEMORY: "no memory"}
        end = "cut" if self.is_cut else ends.get(self.status, "" if self.status in ENDS else "status %d %s" % (self.status, self.said))
        return "%.2f s %.0f MB%s" % (self.seconds, self.megabytes, end and " " + end)


def ratios(runs):
    """Of the last two sizes: the ratio of the seconds, which says nothing of short runs, and that of the memory."""
    if runs[-1][1].status == TOO_LARGE:
        return 0.0, 0.0
    if runs[-1][1].status not in ENDS:
        return CUT, CUT
    (_, half), (_, whole) = runs[-2:]
    return whole.seconds / max(half.seconds, 0.01) if whole.seconds >= UNSEEN else 0.0, whole.megabytes / half.megabytes


def measured(job):
    """The line of a family for a program, and whether it is within its bound."""
    (name, make, first, last, bound), label, program = job
    runs, size = [], first
    while True:
        runs.append((size, Run(program, *make(size))))
        run = runs[-1][1]
        if run.status not in ENDS or len(runs) > 1 and (run.seconds >= ENOUGH or size >= last):
            break
        size = min(2 * size, last)
    if bound < ratios(runs)[0] < CUT:  # once more, and the least counts, since other work may have come between
        for place in (-2, -1):
            size, run = runs[place]
            runs[place] = size, min(run, Run(program, *make(size)), key=lambda it: it.seconds)
    ratio, space = ratios(runs)
    told = ", ".join("%d: %s" % (size, run.told()) for size, run in runs)
    return "%-30s %-8s ratio %5.2f, %4.2f (at most %g)  %s" % (name, label, ratio, space, bound, told), ratio <= bound


def main():
    parser = argparse.ArgumentParser(description=__doc__.split("\n")[0])
    parser.add_argument("words", nargs="*", help="only families whose name has one of these")
    parser.add_argument("--program", action="append", metavar="[LABEL=]FILE", help="may be given several times")
    parser.add_argument("--jobs", type=int, default=1, help="so many families at once: for a machine with other work")
    options = parser.parse_args()
    programs = [word.rpartition("=") for word in options.program or [RELEASE]]
    chosen = [row for row in FAMILIES if not options.words or any(word in row[0] for word in options.words)]
    jobs = [(row, label or "program", os.path.abspath(path)) for row in chosen for label, _, path in programs]
    beyond = 0
    with multiprocessing.Pool(options.jobs) as pool:
        for line, is_within in pool.imap(measured, jobs, 1):
            beyond += not is_within
            print(line + ("" if is_within else "  BEYOND"), flush=True)
    print("%d lines, %d beyond their bounds" % (len(jobs), beyond))
    sys.exit(1 if beyond else 0)


if __name__ == "__main__":
    main()
