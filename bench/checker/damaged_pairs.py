#!/usr/bin/env python3
"""Damages lock files and certificates, and looks for a yes of `check` or `refute` that is wrong.

    damaged_pairs.py PROGRAM [COUNT [SEED]]
    nice -n 15 taskset -c 0 damaged_pairs.py PROGRAM 100000     on one processor

Some problems of examples/ are concretized. Then, COUNT times (1,000), a lock file or certificate, or both, get up to three damages: a byte,
a line dropped, doubled or moved, an end cut off, a number raised, or the file of another problem. A yes of `check` is wrong where
`judge` does not say the vector of the best graph; one of `refute` where the problem has a graph. Other answers have status 0 to 9.
"""
import collections
import concurrent.futures
import os
import random
import re
import subprocess
import sys
import tempfile

TOP = os.path.dirname(os.path.dirname(os.path.dirname(os.path.abspath(__file__))))
PROBLEMS = [
    ("mpi", "mpi/settings.json", "-", "hdf5@1.14: +mpi"),
    ("mpi", "mpi/settings.json", "-", "hdf5 ~mpi"),
    ("mpi", "-", "-", "hdf5 ^mpich"),
    ("mpi", "-", "-", "hdf5@1.14: ~mpi ^mpich"),
    ("versions", "-", "-", "zlib"),
    ("versions", "-", "-", "zlib@=1.2"),
    # its log has learnt clauses
    ("site", "site/settings.json", "site/database.json", "hdf5"),
]


def run(program, *words):
    done = subprocess.run([program, *words], capture_output=True, timeout=60)
    return done.returncode, done.stdout


def damaged(draw, text, others):
    for _ in range(draw.randint(1, 3)):
        kind = draw.randrange(8)
        lines = text.split(b"\n")
        place = draw.randrange(len(lines))
        if kind == 0 and text:
            at = draw.randrange(len(text))
            text = text[:at] + bytes([draw.randrange(256)]) + text[at + 1:]
        elif kind == 1:
            text = b"\n".join(lines[:place] + lines[place + 1:])
        elif kind == 2:
            text = b"\n".join(lines[:place] + [lines[place]] + lines[place:])
        elif kind == 3:
            other = draw.randrange(len(lines))
            lines[place], lines[other] = lines[other], lines[place]
            text = b"\n".join(lines)
        elif kind == 4:
            text = text[:draw.randrange(len(text) + 1)]
        elif kind == 5:
            text = draw.choice(others)
        elif kind == 6:
            numbers = list(re.finditer(rb"\d+", text))
            if numbers:
                found = draw.choice(numbers)
                number = str(int(found.group()) + draw.choice([1, -1, 2, 10 ** 30])).encode()
                text = text[:found.start()] + number + text[found.end():]
        else:
            at = draw.randrange(len(text) + 1)
            text = text[:at] + draw.choice([b" ", b"\n", b"0", b"-", b"{}"]) + text[at:]
    return text


class Pair:
    def __init__(self, program, folder, number, problem):
        *files, spec = problem
        self.before = [each if each == "-" else os.path.join(TOP, "examples", each) for each in files]
        self.spec = spec
        lock, cert = (os.path.join(folder, "%d.%s" % (number, end)) for end in ("lock", "log"))
        self.status, out = run(program, "concretize", *self.before, lock, cert, spec)
        assert self.status in (0, 1), (problem, self.status)
        self.vector = out.splitlines()[-1]
        self.cert = open(cert, "rb").read()
        self.lock = open(lock, "rb").read() if self.status == 0 else b"{}"


def attempt(program, folder, pairs, seed):
    draw = random.Random(seed)
    pair = draw.choice(pairs)
    which = draw.randrange(3)
    lock, cert = pair.lock, pair.cert
    if which != 0:
        lock = damaged(draw, lock, [p.lock for p in pairs])
    if which != 1:
        cert = damaged(draw, cert, [p.cert for p in pairs])
    at_lock, at_cert = (os.path.join(folder, "x%d.%s" % (seed, end)) for end in ("lock", "log"))
    for path, text in ((at_lock, lock), (at_cert, cert)):
        with open(path, "wb") as out:
            out.write(text)
    wrong = []
    checked, _ = run(program, "check", *pair.before, at_lock, at_cert, pair.spec)
    refuted, _ = run(program, "refute", *pair.before, at_cert, pair.spec)
    if checked == 0 and run(program, "judge", *pair.before, at_lock, pair.spec) != (0, b"valid\n" + pair.vector + b"\n"):
        wrong.append("check")
    if refuted == 0 and pair.status == 0:
        wrong.append("refute")
    if not (0 <= checked <= 9 and 0 <= refuted <= 9):
        wrong.append("status")
    if not wrong:
        os.unlink(at_lock)
        os.unlink(at_cert)
    return checked, refuted, wrong, seed


def main():
    program = os.path.abspath(sys.argv[1])
    count = int(sys.argv[2]) if len(sys.argv) > 2 else 1000
    first = int(sys.argv[3]) if len(sys.argv) > 3 else 1
    folder = tempfile.mkdtemp(prefix="damaged.")
    pairs = [Pair(program, folder, number, problem) for number, problem in enumerate(PROBLEMS)]
    statuses, bad = collections.Counter(), 0
    with concurrent.futures.ThreadPoolExecutor(len(os.sched_getaffinity(0))) as pool:
        for checked, refuted, wrong, seed in pool.map(lambda s: attempt(program, folder, pairs, s), range(first, first + count)):
            statuses["check %d" % checked] += 1
            statuses["refute %d" % refuted] += 1
            if wrong:
                bad += 1
                print("wrong: %s, seed %d, files in %s" % (", ".join(wrong), seed, folder))
    print(" ".join("%s: %d" % entry for entry in sorted(statuses.items())))
    print("%d of %d wrong" % (bad, count))
    sys.exit(bad > 0)


main()
