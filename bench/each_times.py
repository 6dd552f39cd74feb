#!/usr/bin/env python3
"""Times `each` of 64 roots beside 64 runs of `concretize` one after the other, over a made repository (bench/site), outside the gate.

    bench/each_times.py [--program FILE] [--folder FOLDER] [--recipes N] [--roots N] [--nodes N] [--once]

The roots are packages of the made repository whose best graphs have nearest to NODES nodes (100), out of four times as many that are drawn,
as far as all of them together can lead to no more than 1,024 names. FOLDER keeps the repository and the choice for the next run.

A line for each way: `each` on all processors, on one, and `concretize` of each root, with seconds by the clock, seconds of the processor, and the
most memory of a run in MiB. Then what `each` takes of the time of the single runs, and how many times the memory of the largest of them.
All ways have to put the same files, or it ends with 1. With --once the single runs are left out. The clock counts: nothing else should run.
"""
import argparse
import json
import os
import random
import resource
import subprocess
import sys
import tempfile
import time

TOP = os.path.dirname(os.path.dirname(os.path.abspath(__file__)))
sys.path.insert(0, os.path.join(TOP, "bench", "site"))

from generate import make  # noqa: E402

MOST = 64


class Run:
    """A run that has ended: what it said, its seconds by the clock and of the processor, and its most memory in MiB."""

    def __init__(self, words, processors=None):
        front = [] if processors is None else ["taskset", "-c", processors]
        out = tempfile.TemporaryFile()
        begun = time.monotonic()
        child = subprocess.Popen([*front, *words], stdout=out, stderr=subprocess.STDOUT)
        _, status, used = os.wait4(child.pid, 0)
        self.clock = time.monotonic() - begun
        child.returncode = os.waitstatus_to_exitcode(status)
        self.status, self.seconds, self.memory = child.returncode, used.ru_utime + used.ru_stime, used.ru_maxrss / 1024
        out.seek(0)
        self.said = out.read().decode()


def nodes_in(path):
    """How many nodes a lock file has; none where there is no such file."""
    if not os.path.exists(path):
        return None
    with open(path) as file:
        return len(json.load(file)["nodes"])


def solved(program, repo, names, folder):
    """The number of nodes of each root that has a graph, or None where they lead to too many names."""
    run = Run([program, "each", repo, os.path.join(repo, "settings.json"), "-", folder, *names])
    if run.said == "too large: packages\n":
        return None
    assert run.status in (0, 1), run.said
    return {name: nodes_in(os.path.join(folder, f"{place}.lock")) for place, name in enumerate(names)}


def chosen(program, repo, count, nodes, seed):
    """The roots: of those that are drawn the nearest to so many nodes, as many as lead to no more names than may be."""
    packages = sorted(os.listdir(os.path.join(repo, "packages")))
    drawn = random.Random(seed).sample(packages, min(4 * count, len(packages) // 2))
    sizes = {}
    for start in range(0, len(drawn), 8):
        with tempfile.TemporaryDirectory() as folder:
            sizes |= solved(program, repo, drawn[start : start + 8], folder) or {}
    ranked = sorted((name for name in sizes if sizes[name]), key=lambda name: (abs(sizes[name] - nodes), name))
    found = ranked[:count]
    with tempfile.TemporaryDirectory() as folder:
        while solved(program, repo, found, folder) is None:
            ranked = [name for name in ranked if name not in found[-4:]]
            found = ranked[:count]
    return found, [sizes[name] for name in found]


def files_of(folder):
    """The files of a folder."""
    found = {}
    for name in sorted(os.listdir(folder)):
        with open(os.path.join(folder, name), "rb") as file:
            found[name] = file.read()
    return found


def single_runs(program, input_words, roots, folder):
    """The runs of `concretize`, one after the other, with the files named as those of `each`."""
    runs = []
    for place, root in enumerate(roots):
        paths = [os.path.join(folder, f"{place}.{ending}") for ending in ("lock", "cert")]
        runs.append(Run([program, "concretize", *input_words, *paths, root]))
    return runs


def told(name, clock, seconds, memory):
    """A line of the table."""
    print(f"{name:24} {clock:9.2f} s by the clock {seconds:9.2f} s of the processor {memory:7.0f} MiB", flush=True)


def main():
    parser = argparse.ArgumentParser(description=__doc__, formatter_class=argparse.RawDescriptionHelpFormatter)
    parser.add_argument("--program", default=os.path.join(TOP, "release", "spack_concretize-x86_64-linux"))
    parser.add_argument("--folder")
    parser.add_argument("--recipes", type=int, default=7000)
    parser.add_argument("--roots", type=int, default=MOST)
    parser.add_argument("--nodes", type=int, default=100)
    parser.add_argument("--once", action="store_true")
    options = parser.parse_args()
    program = os.path.abspath(options.program)
    with tempfile.TemporaryDirectory() as room:
        repo = os.path.abspath(options.folder or os.path.join(room, "site"))
        print(make(repo, options.recipes, 3000, 1)["told"])
        path = os.path.join(repo, f"roots_{options.roots}_{options.nodes}.json")
        if not os.path.exists(path):
            roots, sizes = chosen(program, repo, options.roots, options.nodes, 1)
            with open(path, "w") as file:
                json.dump([roots, sizes], file)
        with open(path) as file:
            roots, sizes = json.load(file)
        print(f"{len(roots)} roots with graphs of {min(sizes)} to {max(sizes)} nodes, {sum(sizes) / len(sizes):.0f} on the mean")
        words, faults, wanted = [repo, os.path.join(repo, "settings.json"), "-"], [], None
        whole = {}
        for name, processors in (("each, all processors", None), ("each, one processor", "0")):
            folder = os.path.join(room, name)
            os.mkdir(folder)
            run = whole[name] = Run([program, "each", *words, folder, *roots], processors)
            told(name, run.clock, run.seconds, run.memory)
            wanted = wanted or files_of(folder)
            if run.status or files_of(folder) != wanted:
                faults.append(f"{name}: status {run.status}, or other files")
        if not options.once:
            folder = os.path.join(room, "alone")
            os.mkdir(folder)
            runs = single_runs(program, words, roots, folder)
            clock, memory = sum(run.clock for run in runs), max(run.memory for run in runs)
            told(f"concretize, {len(runs)} runs", clock, sum(run.seconds for run in runs), memory)
            if files_of(folder) != wanted:
                faults.append("concretize: other files")
            best = whole["each, all processors"]
            print(f"each takes {best.clock / clock:.2f} of the time of the runs one after the other, and {best.memory / memory:.2f} times the memory of the largest")
        print("\n".join(faults + [f"{len(faults)} differ"]))
    return 1 if faults else 0


if __name__ == "__main__":
    sys.exit(main())
