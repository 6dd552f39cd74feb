#!/usr/bin/env python3
"""Times the writing and reading of lock files, and the refusal of hostile ones.

    (cd crates/json_rows && rt run) && bench/lock.py [FOLDER]

It runs the program that `rt run` built in FOLDER, which is crates/json_rows/out unless it is given. A lock file of 1,024
nodes is to be read in under 50 ms, and written again in under 50 ms: of each shape the program reads one file once and 11
times, and reads and writes it once and 11 times, and what is printed is a tenth of the difference. Hostile JSON is to
be refused in linear time: the time and its ratio at each doubling (near 2) up to 100 MB are printed. All times are
processor times.
"""
import base64
import hashlib
import json
import os
import random
import resource
import subprocess
import sys
import tempfile

TOP = os.path.dirname(os.path.dirname(os.path.abspath(__file__)))


def compact(data):
    return json.dumps(data, separators=(",", ":"), sort_keys=True)


def node(name, children):
    record = {"compiler": {"name": "gcc", "version": "12.3.0"}, "external": None, "name": name, "os": "ubuntu22.04", "target": "x86_64",
              "dependencies": [{"hash": child, "kinds": ["build", "link"]} for child in sorted(children)], "variants": {"a": ["true"]}, "version": "1.0"}
    text = compact(record).encode()
    record["hash"] = base64.b32encode(hashlib.sha256(text).digest()[:20]).decode().lower()
    return record | {"entry": None, "origin": "built"}


def lock(count, children_of, name):
    """A lock file in which node i has children below it in number."""
    nodes = []
    for i in range(count):
        nodes.append(node(name(i), [nodes[j]["hash"] for j in children_of(i)]))
    root = {"hash": nodes[-1]["hash"], "spec": nodes[-1]["name"]}
    return compact({"nodes": sorted(nodes, key=lambda n: n["name"]), "providers": {}, "roots": [root], "version": 2}) + "\n"


def some(i, most):
    draw = random.Random(i)
    return draw.sample(range(i), min(i, most))


def shapes(count):
    yield "no edges", lock(count, lambda i: [], lambda i: f"p{i:06}")
    yield "20 children each", lock(count, lambda i: some(i, 20), lambda i: f"p{i:06}")
    yield "a chain, children first by name", lock(count, lambda i: range(max(0, i - 1), i), lambda i: f"p{i:06}")
    yield "a chain, children last by name", lock(count, lambda i: range(max(0, i - 1), i), lambda i: f"p{count - i:06}")


def timed(program, words):
    """The processor time of a run, in which other work on the machine does not count, and the last line of its output."""
    before = resource.getrusage(resource.RUSAGE_CHILDREN)
    done = subprocess.run([program, *words], capture_output=True, check=True)
    after = resource.getrusage(resource.RUSAGE_CHILDREN)
    taken = after.ru_utime - before.ru_utime + after.ru_stime - before.ru_stime
    return taken, done.stdout.decode().rstrip("\n").split("\n")[-1]


def tenth(program, word, path):
    once = min(timed(program, [word, path])[0] for _ in range(3))
    eleven = min(timed(program, [word] + [path] * 11)[0] for _ in range(3))
    return (eleven - once) / 10 * 1000


HOSTILE = {
    "deep lists": lambda n: "[" * n,
    "deep lists behind nodes": lambda n: '{"nodes":' + "[" * (n - 9),
    "one long text": lambda n: '{"nodes":["' + "a" * (n - 13) + '"]}',
    "one text without an end": lambda n: '{"nodes":["' + "a" * (n - 11),
    "numbers": lambda n: '{"nodes":[' + "1," * (n // 2 - 6) + "1]}",
    "one long number": lambda n: '{"nodes":' + "1" * (n - 10) + "}",
    "one key again and again": lambda n: "{" + '"nodes":1,' * (n // 10) + '"nodes":1}',
    "keys in falling order": lambda n: "{" + ",".join(f'"k{i:08}":0' for i in range(n // 14, 0, -1)) + "}",
    "escapes": lambda n: '{"nodes":["' + "\\u0041" * (n // 6) + '"]}',
}


def hostile(program, folder):
    path = os.path.join(folder, "hostile.json")
    for kind, make in HOSTILE.items():
        before = None
        for size in (25_000_000, 50_000_000, 100_000_000):
            with open(path, "w") as file:
                file.write(make(size))
            seconds, said = timed(program, ["lock", path])
            ratio = "" if before is None else f" ratio {seconds / before:.2f}"
            before = seconds
            print(f"{kind}: {size // 1_000_000} MB {seconds:.2f} s{ratio}; {said[:50]}", flush=True)


def main():
    folder = sys.argv[1] if len(sys.argv) > 1 else os.path.join(TOP, "crates", "json_rows", "out")
    program = os.path.join(folder, "json_rows")
    with tempfile.TemporaryDirectory() as work:
        path = os.path.join(work, "lock.json")
        for shape, text in shapes(1024):
            with open(path, "w") as file:
                file.write(text)
            said = timed(program, ["again", path])[1]
            read, both = tenth(program, "lock", path), tenth(program, "again", path)
            print(f"{shape}: {len(text)} bytes; read {read:.1f} ms, written again {both - read:.1f} ms; {said}", flush=True)
        hostile(program, work)


if __name__ == "__main__":
    main()
