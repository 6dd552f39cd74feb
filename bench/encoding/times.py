#!/usr/bin/env python3
"""Sizes of the encodings of the problems of files of cases, and the time and memory of `encode_dimacs`.

    bench/encoding/compare.sh times [--encode PROGRAM] [--some N] FILE..

Times are seconds of the processor, with reading left out: of each run that of one over the same files with an unknown root is taken
away. What is left is the encoding and its text. A line for each case, and the medians by the number of names behind them.
"""
import argparse
import gzip
import json
import os
import resource
import statistics
import subprocess
import tempfile

from compare import unpack


def run(words, folder):
    """Seconds of the processor, the output, and the status."""
    before = resource.getrusage(resource.RUSAGE_CHILDREN)
    done = subprocess.run(words, cwd=folder, capture_output=True, text=True)
    after = resource.getrusage(resource.RUSAGE_CHILDREN)
    return after.ru_utime + after.ru_stime - before.ru_utime - before.ru_stime, done.stdout, done.returncode


def main():
    parser = argparse.ArgumentParser(description=__doc__, formatter_class=argparse.RawDescriptionHelpFormatter)
    parser.add_argument("--encode", required=True, help="a build of encode_dimacs")
    parser.add_argument("--some", type=int, default=20, help="how many cases of each file, evenly apart")
    parser.add_argument("files", nargs="+")
    options = parser.parse_args()
    rows = []
    for path in options.files:
        with (gzip.open if path.endswith(".gz") else open)(path, "rt") as file:
            cases = [json.loads(line) for line in file]
        for case in cases[:: max(1, len(cases) // options.some)]:
            _, repo, settings, database, _, _, *spec = case["words"]
            with tempfile.TemporaryDirectory() as folder:
                unpack(case["files"], folder)
                words = [os.path.abspath(options.encode), repo, settings, database]
                seconds, text, status = run([*words, *spec], folder)
                if status:
                    continue
                reading = run([*words, "no-such-package"], folder)[0]
            size = next(line for line in text.splitlines() if line.startswith("p cnf ")).split()
            names = sum(line.split()[2:3] == ["node"] for line in text.splitlines() if line.startswith("c "))
            rows.append((names, int(size[2]), int(size[3]), seconds - reading, reading))
            print("%s: %d names, %d variables, %d clauses; %.2f s, and %.2f s of reading" % (case["name"], *rows[-1]), flush=True)
    most = resource.getrusage(resource.RUSAGE_CHILDREN).ru_maxrss / 1024
    for low, high in ((0, 10), (10, 50), (50, 100), (100, 250), (250, 1025)):
        some = [row for row in rows if low <= row[0] < high]
        if some:
            medians = [statistics.median(column) for column in zip(*some)]
            print("%d problems of %d to %d names; medians: %d names, %d variables, %d clauses, %.3f s" % (len(some), low, high - 1, *medians[:4]))
    print("memory: %d MB at most" % most)


if __name__ == "__main__":
    main()
