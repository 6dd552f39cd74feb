#!/usr/bin/env python3
"""Times `concretize` where many packages are all needed: a chain, each package with ten versions, five variants and three further
dependencies, of which the newest versions are the answer. Outside the gate.

    bench/needed_packages.py PROGRAM [N..]

A line for each N (128, 256, 512 and 1,024 packages without one): the seconds of the processor, the greatest memory, the bytes of the
log and how many clauses were learnt.
"""
import os
import random
import resource
import subprocess
import sys
import tempfile


def recipe(name, later):
    lines = ['version("%d.0")' % number for number in range(10, 0, -1)]
    lines += ['variant("v%d", default=True, description="v")' % number for number in range(5)]
    lines += ['depends_on("%s")' % text for text in later]
    return "class P(Package):\n" + "".join("    %s\n" % line for line in lines)


def chain(count, room):
    chance = random.Random(1)
    for place in range(count):
        later = ["p%d" % (place + 1)] if place + 1 < count else []
        for _ in range(3):
            if place + 2 < count:
                later.append("p%d@1:" % chance.randrange(place + 1, min(count, place + 20)))
        folder = os.path.join(room, "packages", "p%d" % place)
        os.makedirs(folder)
        with open(os.path.join(folder, "package.py"), "w") as file:
            file.write(recipe("p%d" % place, later))


def main():
    program = os.path.abspath(sys.argv[1])
    for count in map(int, sys.argv[2:] or [128, 256, 512, 1024]):
        with tempfile.TemporaryDirectory() as room:
            chain(count, room)
            words = ["concretize", room, "-", "-", os.path.join(room, "lock"), os.path.join(room, "log"), "p0"]
            before = resource.getrusage(resource.RUSAGE_CHILDREN)
            done = subprocess.run([program, *words], capture_output=True, text=True)
            after = resource.getrusage(resource.RUSAGE_CHILDREN)
            spent = after.ru_utime + after.ru_stime - before.ru_utime - before.ru_stime
            with open(os.path.join(room, "log")) as file:
                log = file.read()
            learnt = sum(line.startswith("l ") for line in log.splitlines())
            vector = done.stdout.splitlines()[-1].split()[1:] if done.returncode == 0 else ["status %d" % done.returncode]
            right = vector[15:16] == [str(count)] and vector.count("0") == 30
            print("%5d packages  %7.2f s  %4d MiB  log %8d bytes, %6d learnt  %s" % (
                count, spent, after.ru_maxrss // 1024, len(log), learnt, "right" if right else "WRONG " + " ".join(vector)), flush=True)


if __name__ == "__main__":
    main()
