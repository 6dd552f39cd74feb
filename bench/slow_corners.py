#!/usr/bin/env python3
"""Times odd input whose cost is a product: long lists of preferred versions and providers, lock files of nodes that no recipe makes, of
many variants and of many virtuals on one edge, and long sets of versions over long recipes. Outside the gate.

    bench/slow_corners.py PROGRAM [WORD]

A line each, of those whose name has WORD: the seconds of the processor (best of two), the ratio to half of the input, and what the
run said. Each is to take under a second.
"""
import base64
import hashlib
import json
import os
import resource
import subprocess
import sys
import tempfile

LONGEST = 60
MACHINE = {"compiler": {"name": "gcc", "version": "12.3.0"}, "external": None, "os": "ubuntu22.04", "target": "x86_64", "variants": {}}


def compact(data):
    return json.dumps(data, separators=(",", ":"), sort_keys=True)


def node(name, version, children=(), **more):
    record = MACHINE | {"name": name, "version": version,
                        "dependencies": [{"hash": child, "kinds": ["build", "link"]} for child in sorted(children)]} | more
    record["hash"] = base64.b32encode(hashlib.sha256(compact(record).encode()).digest()[:20]).decode().lower()
    return record | {"entry": None, "origin": "built"}


def lock(nodes, root, providers=()):
    return compact({"nodes": sorted(nodes, key=lambda n: n["name"]), "providers": dict(providers),
                    "roots": [{"hash": root["hash"], "spec": root["name"]}], "version": 2}) + "\n"


def recipe(lines):
    return "class P(Package):\n" + "".join("    %s\n" % line for line in lines)


def versions(count):
    return ['version("1.%d")' % i for i in range(count)]


def preferred_versions(count):
    """As many versions as lists that prefer one each; the oldest is judged."""
    chosen = node("p", "1.0")
    return {"r/packages/p/package.py": recipe(versions(count)), "l": lock([chosen], chosen),
            "s": compact({"packages": {"p": {"versions": ["=1.%d" % i for i in range(count)]}}})}, ["judge", "r", "s", "-", "l", "p"]


def chosen_versions(count):
    files, words = preferred_versions(count)
    return files, ["concretize", "r", "s", "-", "o", "-", "p"]


def preferred_providers(count):
    """A list of providers, of which a thousand are there; the last is judged."""
    names = ["q%05d" % i for i in range(count)]
    there = names[-1000:]
    child = node(there[-1], "1")
    root = node("p", "1", [child["hash"]])
    files = {"r/packages/%s/package.py" % name: recipe(['version("1")', 'provides("v")']) for name in there}
    files["r/packages/p/package.py"] = recipe(['version("1")', 'depends_on("v")'])
    files["l"] = lock([root, child], root, [("v", child["name"])])
    files["s"] = compact({"providers": {"v": names}})
    return files, ["judge", "r", "s", "-", "l", "p"]


def chosen_providers(count):
    files, words = preferred_providers(count)
    return files, ["concretize", "r", "s", "-", "o", "-", "p"]


def unknown_nodes(count):
    nodes = [node("p", "1")] + [node("q%05d" % i, "1") for i in range(count)]
    return {"r/packages/p/package.py": recipe(['version("1")']), "l": lock(nodes, nodes[0])}, ["judge", "r", "-", "-", "l", "p"]


def judged_variants(count):
    """As many variants, each with its default value."""
    names = ["a%d" % i for i in range(count)]
    chosen = node("p", "1", variants={name: ["true"] for name in names})
    lines = ['version("1")'] + ['variant("%s", default=True)' % name for name in names]
    return {"r/packages/p/package.py": recipe(lines), "l": lock([chosen], chosen)}, ["judge", "r", "-", "-", "l", "p"]


def judged_virtuals(count):
    """As many virtuals that one package asks for and another one provides."""
    names = sorted("v%d" % i for i in range(count))
    child = node("q", "1")
    edge = {"hash": child["hash"], "kinds": ["build", "link"], "virtuals": names}
    root = node("p", "1", dependencies=[edge])
    files = {"r/packages/%s/package.py" % package: recipe(['version("1")'] + ['%s("%s")' % (word, name) for name in names])
             for package, word in (("p", "depends_on"), ("q", "provides"))}
    files["l"] = lock([root, child], root, [(name, "q") for name in names])
    return files, ["judge", "r", "-", "-", "l", "p"]


def chosen_virtuals(count):
    files, words = judged_virtuals(count)
    return files, ["concretize", "r", "-", "-", "o", "-", "p"]


def long_set(count, width):
    """A set of as many versions that are not there, over a recipe of 46,000."""
    items = ",".join("=9%0*d" % (width - 1, i % 10 ** (width - 1)) for i in range(count))
    lines = ['version("1.%d")' % i for i in range(23000)] + ['version("2.%d")' % i for i in range(23000)]
    return {"r/packages/p/package.py": recipe(lines)}, ["concretize", "r", "-", "-", "o", "-", "p@:2," + items]


CASES = [
    ("judge: versions, lists of one each", preferred_versions, 10000),
    ("concretize: versions, lists of one each", chosen_versions, 10000),
    ("judge: a list of providers", preferred_providers, 10000),
    ("concretize: a list of providers", chosen_providers, 10000),
    ("judge: nodes that no recipe makes", unknown_nodes, 20000),
    ("judge: variants", judged_variants, 20000),
    ("judge: virtuals of one edge", judged_virtuals, 4000),
    ("concretize: virtuals of one edge", chosen_virtuals, 2000),
    ("concretize: a set of five-digit versions over 46,000", lambda count: long_set(count, 5), 9000),
    ("concretize: a set of two-digit versions over 46,000", lambda count: long_set(count, 2), 16000),
]


def run(program, room, files, words):
    for path, text in files.items():
        path = os.path.join(room, path)
        os.makedirs(os.path.dirname(path), exist_ok=True)
        with open(path, "w") as file:
            file.write(text)
    best = None
    for _ in range(2):
        before = resource.getrusage(resource.RUSAGE_CHILDREN)
        try:
            done = subprocess.run([program] + words, cwd=room, capture_output=True, text=True, timeout=LONGEST)
        except subprocess.TimeoutExpired:
            return LONGEST, "not ended"
        after = resource.getrusage(resource.RUSAGE_CHILDREN)
        spent = after.ru_utime + after.ru_stime - before.ru_utime - before.ru_stime
        best = spent if best is None else min(best, spent)
    said = (done.stdout + done.stderr).splitlines()
    return best, (said[0] if said else "")[:60]


def main():
    program = os.path.abspath(sys.argv[1])
    word = sys.argv[2] if len(sys.argv) > 2 else ""
    for name, make, count in CASES:
        if word in name:
            spent = []
            for share in (count // 2, count):
                with tempfile.TemporaryDirectory() as room:
                    spent.append(run(program, room, *make(share)))
            print("%-54s %6d  %6.2f s  ratio %5.2f  %s" % (name, count, spent[1][0], spent[1][0] / max(spent[0][0], 0.001), spent[1][1]), flush=True)


if __name__ == "__main__":
    main()
