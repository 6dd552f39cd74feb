#!/usr/bin/env python3
"""Runs trials and looks at what they say.

    trials.py PROGRAM [COUNT [MOST]]

COUNT pairs (200) of a number of packages up to MOST (200) and a seed. Where a trial is done its vector has to be 0 but for the sixteenth
number, which are its nodes: no package of a trial has to give anything up. Besides the recipes are made here once more, in a folder, and
`concretize` has to answer the same over them. Prints how the runs ended, the slowest and the largest.
"""
import collections
import concurrent.futures
import os
import random
import resource
import subprocess
import sys
import tempfile
import time


class Draws:
    def __init__(self, seed):
        self.state = seed

    def draw(self, below):
        self.state = (self.state * 6364136223846793005 + 1442695040888963407) % 2 ** 64
        return (self.state >> 33) % below


def recipe(draws, own, packages):
    versions = 1 + draws.draw(4)
    lines = ["class P(Package):"] + ['    version("1.%d")' % n for n in range(versions)] + ['    variant("a", default=True)']
    if own < packages - 1:
        for _ in range(1 + draws.draw(3)):
            child = own + 1 + draws.draw(packages - 1 - own)
            condition = ', when="+a"' if draws.draw(2) == 1 else ""
            lines.append('    depends_on("p%d@1.0:"%s)' % (child, condition))
    if versions >= 2 and draws.draw(4) == 0:
        lines.append('    conflicts("@=1.0")')
    return "\n".join(lines) + "\n"


def concretized(program, packages, seed):
    draws = Draws(seed)
    with tempfile.TemporaryDirectory() as folder:
        for own in range(packages):
            at = os.path.join(folder, "packages", "p%d" % own)
            os.makedirs(at)
            with open(os.path.join(at, "package.py"), "w") as out:
                out.write(recipe(draws, own, packages))
        return subprocess.run([program, "concretize", folder, "-", "-", os.path.join(folder, "lock"), "-", "p0"], capture_output=True, text=True)


def trial(program, packages, seed):
    begun = time.monotonic()
    done = subprocess.run([program, "trial", str(packages), str(seed)], capture_output=True, text=True, timeout=600)
    seconds = time.monotonic() - begun
    other = concretized(program, packages, seed)
    return packages, seed, done.returncode, done.stdout, seconds, other.returncode, other.stdout


def is_right(status, out, other_status, other_out):
    if status != other_status:
        return False
    if status != 0:
        return status in (1, 3)
    nodes, vector, learnt = out.splitlines()
    if other_out.splitlines()[-1] != vector:
        return False
    numbers = vector.split()[1:]
    count = nodes.split()[1]
    return numbers == ["0"] * 15 + [count] + ["0"] * 15 and learnt.split()[1].isdigit()


def main():
    program = os.path.abspath(sys.argv[1])
    count = int(sys.argv[2]) if len(sys.argv) > 2 else 200
    most = int(sys.argv[3]) if len(sys.argv) > 3 else 200
    draw = random.Random(1)
    pairs = [(draw.randint(1, most), draw.randrange(2 ** 64)) for _ in range(count)]
    statuses, slowest, bad = collections.Counter(), (0.0, None), 0
    with concurrent.futures.ThreadPoolExecutor(os.cpu_count()) as pool:
        for packages, seed, status, out, seconds, *others in pool.map(lambda p: trial(program, *p), pairs):
            statuses[status] += 1
            slowest = max(slowest, (seconds, "trial %d %d" % (packages, seed)))
            if not is_right(status, out, *others):
                bad += 1
                print("wrong: trial %d %d: %d %r" % (packages, seed, status, out))
    print("statuses", dict(statuses), "slowest %.1f s: %s" % slowest, "most memory %d MiB" % (resource.getrusage(resource.RUSAGE_CHILDREN).ru_maxrss // 1024))
    print("%d of %d wrong" % (bad, count))
    sys.exit(bad > 0)


main()
