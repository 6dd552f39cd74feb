#!/usr/bin/env python3
"""Times `judge` on made repositories, from words to answer: valid graphs of 256, 512 and 1,024 nodes with ten directives each, in
a repository of 8,000 recipes; seconds of the processor, the same of a run that ends before the lock file is read (what reading costs),
and the most memory. At 1,024 nodes a run is to take under 4 s, of which reading recipes is the most.

    bench/judge_runs.py [PROGRAM [RECIPES]]
"""
import base64
import hashlib
import json
import os
import resource
import subprocess
import sys
import tempfile

TOP = os.path.dirname(os.path.dirname(os.path.abspath(__file__)))
SIZES = (256, 512, 1024)

RECIPE = """class P{i}(Package):
    version("1.1")
    version("1.0")
    variant("a", default=True)
    variant("b", default=False)
    depends_on("p{j}@1.0:")
    depends_on("p{k}", when="+a")
    depends_on("p{l}", when="+b")
    conflicts("+b", when="@:0.9")
    conflicts("~a ^p{m}@2:")
    requires("+a", when="@1.1:")
"""
LAST = """class P{i}(Package):
    version("1.1")
    variant("a", default=True)
    variant("b", default=False)
"""


def hash_of(record):
    text = json.dumps({key: record[key] for key in record if key not in ("hash", "entry", "origin")}, separators=(",", ":"), sort_keys=True)
    return base64.b32encode(hashlib.sha256(text.encode()).digest()[:20]).decode().lower()


def lock_file(nodes):
    """The graph of `nodes` nodes, each with edges to the next two."""
    hashes, made = {}, []
    for i in reversed(range(nodes)):
        near = [j for j in (i + 1, i + 2) if i < nodes - 4 and j < nodes] or ([i + 1] if i + 1 < nodes else [])
        record = {
            "compiler": {"name": "gcc", "version": "12.3.0"},
            "dependencies": sorted(({"hash": hashes[j], "kinds": ["build", "link"]} for j in near), key=lambda d: d["hash"]),
            "entry": None, "external": None, "name": f"p{i}", "origin": "built", "os": "ubuntu22.04", "target": "x86_64",
            "variants": {"a": ["true"], "b": ["false"]}, "version": "1.1",
        }
        record["hash"] = hashes[i] = hash_of(record)
        made.append(record)
    made.sort(key=lambda record: record["name"])
    lock = {"nodes": made, "providers": {}, "roots": [{"hash": hashes[0], "spec": "p0"}], "version": 1}
    return json.dumps(lock, separators=(",", ":"), sort_keys=True) + "\n"


def recipe(i, nodes, recipes):
    if i < nodes - 4 or i >= nodes:
        at = [(i + d) % recipes if i >= nodes else i + d for d in (1, 2, 3, 5)]
        return RECIPE.format(i=i, j=at[0], k=at[1], l=at[2], m=at[3])
    text = LAST.format(i=i)
    return text + (f'    depends_on("p{i + 1}")\n' if i + 1 < nodes else "")


def run(program, words, folder):
    before = resource.getrusage(resource.RUSAGE_CHILDREN)
    done = subprocess.run([program, *words], cwd=folder, capture_output=True, text=True)
    after = resource.getrusage(resource.RUSAGE_CHILDREN)
    return after.ru_utime + after.ru_stime - before.ru_utime - before.ru_stime, after.ru_maxrss / 1024, done


def main():
    program = os.path.abspath(sys.argv[1] if len(sys.argv) > 1 else os.path.join(TOP, "spack_concretize"))
    recipes = int(sys.argv[2]) if len(sys.argv) > 2 else 8000
    for nodes in SIZES:
        with tempfile.TemporaryDirectory() as folder:
            for i in range(recipes):
                path = os.path.join(folder, "r", "packages", f"p{i}")
                os.makedirs(path)
                with open(os.path.join(path, "package.py"), "w") as file:
                    file.write(recipe(i, nodes, recipes))
            with open(os.path.join(folder, "l"), "w") as file:
                file.write(lock_file(nodes))
            reading, _, _ = run(program, ["judge", "r", "-", "-", "missing", "p0"], folder)
            seconds, most, done = run(program, ["judge", "r", "-", "-", "l", "p0"], folder)
            answer = done.stdout.split("\n")[0] or done.stderr.strip()
            print(f"{nodes:5} nodes: {seconds:.2f} s, of which reading {reading:.2f} s; {most:.0f} MB; {answer}", flush=True)


main()
