#!/usr/bin/env python3
"""Compares `fresh` with `concretize` and `judge` on files of cases (`bench/concretize/README.md`): each lock file that `concretize` writes
is to be fresh, with the vector that `judge` says; each made worse by hand, stale with the vector of the best; and of one that
`judge` does not call valid, `fresh` says what `judge` says.

    bench/fresh.py [--program PROGRAM] [--worse COUNT] FILE..

A lock file is made worse as a person does it: the request is narrowed by another version, variant value or compiler of a package of
the graph, solved, and the texts of the roots are put back; and the reverse breaks a rule of the narrower request. Others are spoilt: a
node has another version (its hash, and those above it, are told again), or the lock file is that of another case. It prints each that differs, and at the end how many of each kind there
were; it ends with 1 where one differs.
"""
import argparse
import base64
import collections
import hashlib
import json
import os
import random
import re
import subprocess
import sys
import tempfile

from cases import cases_of

TOP = os.path.dirname(os.path.dirname(os.path.abspath(__file__)))
STALE = 11 # the exit status
TRIES = 8 # of a case, to make a worse lock file of it


def compact(lock):
    return json.dumps(lock, separators=(",", ":"), sort_keys=True) + "\n"


def hash_of(node):
    record = {key: value for key, value in node.items() if key not in ("hash", "entry", "origin")}
    text = json.dumps(record, separators=(",", ":"), sort_keys=True)
    return base64.b32encode(hashlib.sha256(text.encode()).digest()[:20]).decode().lower()


class Runs:
    """A folder with the files of a case, and the runs in it."""

    def __init__(self, program, folder, case):
        self.program, self.folder, self.case = program, folder, case
        _, self.repo, self.settings, self.database, _, _, *self.spec = case["words"]
        for name, text in case["files"].items():
            os.makedirs(os.path.dirname(os.path.join(folder, name)), exist_ok=True)
            with open(os.path.join(folder, name), "wb") as file:
                file.write(base64.b64decode(text))

    def run(self, verb, lock, spec, *more):
        words = [self.program, verb, self.repo, self.settings, self.database, lock, *more, *spec]
        made = subprocess.run(words, cwd=self.folder, capture_output=True)
        return made.returncode, made.stdout.decode(), made.stderr.decode()

    def solve(self, lock, spec):
        return self.run("concretize", lock, spec, "-")

    def lock(self, name):
        with open(os.path.join(self.folder, name)) as file:
            return json.load(file)

    def put(self, name, lock):
        with open(os.path.join(self.folder, name), "w") as file:
            file.write(compact(lock))

    def recipe(self, name):
        try:
            with open(os.path.join(self.folder, self.repo, "packages", name, "package.py")) as file:
                return file.read()
        except OSError:
            return ""


def vector_of(text):
    return [int(number) for number in text.splitlines()[-1].split(" ")[1:]]


def wanted(judged, best):
    """What `fresh` is to say of a lock file of which `judge` says this, where the best graph has this vector."""
    status, out, _ = judged
    if status or not out.startswith("valid\n"):
        return judged
    costs = vector_of(out)
    if costs < best:
        return None # judge and concretize differ
    kind = "fresh" if costs == best else "stale"
    return STALE if kind == "stale" else 0, f"{kind}\nvector {' '.join(map(str, best))}\n", ""


def conditions_of(runs, draw, node):
    """Conditions of one package that its node does not meet."""
    texts = re.findall(r'^    version\("([^"]+)"', runs.recipe(node["name"]), re.M)
    some = [f"@={text}" for text in texts if text != node["version"]]
    for name, values in node["variants"].items():
        if values in (["true"], ["false"]):
            some.append(("~" if values == ["true"] else "+") + name)
    some.append("%clang" if node["compiler"] and node["compiler"]["name"] == "gcc" else "%gcc")
    return draw.choice(some)


def worse(runs, draw, best):
    """Makes a lock file of a narrower request, with the roots' texts of this one, and the reverse: gives the narrower request and its
    vector, where it has a graph."""
    node = draw.choice(best["nodes"])
    condition = conditions_of(runs, draw, node)
    is_root = node["hash"] == best["roots"][-1]["hash"]
    last = f"{runs.spec[-1]} {condition}" if is_root else f"{runs.spec[-1]} ^{node['name']}{condition}"
    spec = [*runs.spec[:-1], last]
    status, out, _ = runs.solve("narrow", spec)
    if status:
        return None
    narrow, wide = runs.lock("narrow"), runs.lock("best")
    if len(narrow["roots"]) != len(wide["roots"]) or narrow["nodes"] == wide["nodes"]:
        return None
    for one, other in zip(narrow["roots"], wide["roots"]):
        one["spec"], other["spec"] = other["spec"], one["spec"]
    runs.put("worse", narrow)
    runs.put("broken", wide)
    return spec, vector_of(out)


def spoil(draw, lock):
    """Gives a node another version, and tells the hashes again."""
    node = draw.choice(lock["nodes"])
    if any(hash_of(each) != each["hash"] for each in lock["nodes"]):
        return False
    node["version"] += ".9"
    told = {}
    by_hash = {each["hash"]: each for each in lock["nodes"]}

    def tell(old):
        if old in by_hash and old not in told:
            each = by_hash[old]
            for edge in each["dependencies"]:
                edge["hash"] = tell(edge["hash"])
            each["dependencies"].sort(key=lambda edge: edge["hash"])
            told[old] = each["hash"] = hash_of(each)
        return told.get(old, old) # a child that an installed package was built with may not be there

    for old in list(by_hash):
        tell(old)
    for root in lock["roots"]:
        root["hash"] = told[root["hash"]]
    return True


def main():
    parser = argparse.ArgumentParser(description=__doc__, formatter_class=argparse.RawDescriptionHelpFormatter)
    parser.add_argument("--program", default=os.path.join(TOP, "spack_concretize"))
    parser.add_argument("--worse", type=int, default=300, help="how many lock files are made worse")
    parser.add_argument("files", nargs="+")
    words = parser.parse_args()
    program = os.path.abspath(words.program)
    counts, said, differ, other = collections.Counter(), collections.Counter(), 0, None
    cases = [case for file in words.files for case in cases_of(file)]

    def compare(kind, runs, spec, best):
        nonlocal differ
        judged, got = runs.run("judge", kind, spec), runs.run("fresh", kind, spec)
        want = wanted(judged, best)
        if kind == "best" and (want is None or not want[1].startswith("fresh\n")):
            want = None
        counts[kind] += 1
        said[kind, got[1].split("\n")[0].split(" ")[0] or f"status {got[0]}"] += 1
        if got != want:
            differ += 1
            print(runs.case["name"], kind, " ".join(spec), f"  wanted {want}", f"  got    {got}", sep="\n", flush=True)

    for case in cases:
        draw = random.Random(case["name"])
        with tempfile.TemporaryDirectory() as folder:
            runs = Runs(program, folder, case)
            status, out, _ = runs.solve("best", runs.spec)
            if status:
                counts["no graph"] += 1
                continue
            best, vector = runs.lock("best"), vector_of(out)
            compare("best", runs, runs.spec, vector)
            for _ in range(TRIES if counts["worse"] < words.worse else 0):
                made = worse(runs, draw, best)
                if made:
                    compare("worse", runs, runs.spec, vector)
                    compare("broken", runs, *made)
                    break
            lock = runs.lock("best")
            if spoil(draw, lock):
                runs.put("spoilt", lock)
                compare("spoilt", runs, runs.spec, vector)
            if other is not None:
                runs.put("other", other)
                compare("other", runs, runs.spec, vector)
            other = best
    print(", ".join(f"{count} {kind}" for kind, count in sorted(counts.items())))
    print("answers: " + ", ".join(f"{kind} {text} {count}" for (kind, text), count in sorted(said.items())))
    print(f"{differ} differ")
    return differ > 0


if __name__ == "__main__":
    sys.exit(main())
