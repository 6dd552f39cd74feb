#!/usr/bin/env python3
"""Times `find` over databases, and `plan` beside `judge` over large graphs, outside the gate.

    bench/find_plan_times.py [--program FILE] [--mebibytes N] [--nodes N] [--edges N]

A line for each run, in seconds of the processor in user mode, the best of three. `find` is asked for one package, for all that need it, and
by a spec that is wrong, which is refused once the database was read: that is the time of reading alone. Of `plan` the time beyond
`judge` is told, for edges that are drawn and for the same with a chain through all nodes.
"""
import argparse
import base64
import hashlib
import json
import os
import random
import resource
import subprocess
import tempfile

HERE = os.path.dirname(os.path.abspath(__file__))
RELEASE = os.path.join(os.path.dirname(HERE), "release", "spack_concretize-x86_64-linux")
TIMES = 3


def compact(data):
    return json.dumps(data, separators=(",", ":"), sort_keys=True)


def node(name, version, children, variants):
    """A package as records and lock files have it, with its hash; children are hashes."""
    made = {"compiler": {"name": "gcc", "version": "12.3.0"}, "external": None, "name": name, "os": "ubuntu22.04", "target": "x86_64",
            "dependencies": [{"hash": each, "kinds": ["build", "link"]} for each in sorted(children)], "variants": variants,
            "version": version}
    digest = hashlib.sha256(compact(made).encode()).digest()[:20]
    return {**made, "hash": base64.b32encode(digest).decode().lower()}


def write(path, text):
    os.makedirs(os.path.dirname(path), exist_ok=True)
    with open(path, "w") as file:
        file.write(text)


def recipe(folder, name, children=()):
    lines = ['    version("1")\n'] + ['    depends_on("%s")\n' % child for child in children]
    write(os.path.join(folder, "r", "packages", name, "package.py"), "class P(Package):\n" + "".join(lines))


def database(folder, size):
    """A database of so many bytes: packages with four dependencies each on earlier ones, of 2,000 names."""
    drawn, hashes, written = random.Random(7), [], 0
    variants = {"build_type": ["Release"], "pic": ["false"], "shared": ["true"]}
    recipe(folder, "zlib")
    with open(os.path.join(folder, "d"), "w") as file:
        file.write('{"records":[')
        while written < size - 2000:
            count = len(hashes)
            children = drawn.sample(hashes[-3000:], min(4, count))
            made = node("pkg-%d" % (count % 2000) if count else "zlib", "%d.%d" % (drawn.randrange(20), count), children, variants)
            written += file.write("," * bool(hashes) + compact(made))
            hashes.append(made["hash"])
        file.write('],"version":1}')
    return len(hashes)


def graph(folder, nodes, edges, is_chain):
    """Recipes and the lock file of a graph, all of which is to be built."""
    drawn, joined = random.Random(3), set()
    for child in range(1, nodes):
        joined.add((child - 1 if is_chain else drawn.randrange(child), child))
    while len(joined) < edges:
        joined.add(tuple(sorted(drawn.sample(range(nodes), 2))))
    below = {each: [] for each in range(nodes)}
    for parent, child in sorted(joined):
        below[parent].append(child)
    made = {}
    for each in reversed(range(nodes)):
        recipe(folder, "p%d" % each, ["p%d" % child for child in below[each]])
        built = node("p%d" % each, "1", [made[child]["hash"] for child in below[each]], {})
        made[each] = {**built, "entry": None, "origin": "built"}
    roots = [{"hash": made[0]["hash"], "spec": "p0"}]
    lock = {"nodes": sorted(made.values(), key=lambda it: it["name"]), "providers": {}, "roots": roots, "version": 1}
    write(os.path.join(folder, "l"), compact(lock) + "\n")


def timed(program, folder, *words):
    """The least seconds of some runs, and what the last line said."""
    least = None
    for _ in range(TIMES):
        before = resource.getrusage(resource.RUSAGE_CHILDREN).ru_utime
        done = subprocess.run([program, *words], cwd=folder, capture_output=True, text=True)
        spent = resource.getrusage(resource.RUSAGE_CHILDREN).ru_utime - before
        least = spent if least is None else min(least, spent)
    return least, (done.stdout or done.stderr).splitlines()[-1]


def main():
    parser = argparse.ArgumentParser(description=__doc__.split("\n")[0])
    parser.add_argument("--program", default=RELEASE)
    parser.add_argument("--mebibytes", type=int, default=64)
    parser.add_argument("--nodes", type=int, default=1024)
    parser.add_argument("--edges", type=int, default=10000)
    options = parser.parse_args()
    program = os.path.abspath(options.program)
    with tempfile.TemporaryDirectory() as folder:
        count = database(folder, options.mebibytes << 20)
        print("%d MiB, %d records" % (options.mebibytes, count), flush=True)
        for spec in ("zlib", "^zlib", "zlib@"):
            print("  find %-8s %.3f s  %s" % (spec, *timed(program, folder, "find", "r", "-", "d", spec)), flush=True)
    for is_chain in (False, True):
        with tempfile.TemporaryDirectory() as folder:
            graph(folder, options.nodes, options.edges, is_chain)
            judged, _ = timed(program, folder, "judge", "r", "-", "-", "l", "p0")
            planned, chain = timed(program, folder, "plan", "r", "-", "-", "l", "p0")
            print("%d nodes, %d edges%s: judge %.3f s, plan %.3f s, beyond %.3f s; %d names in its chain" % (
                options.nodes, options.edges, ", a chain among them" if is_chain else "", judged, planned, planned - judged,
                len(chain.split()) - 1), flush=True)


if __name__ == "__main__":
    main()
