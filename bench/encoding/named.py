#!/usr/bin/env python3
"""Compares all graphs of small random problems over databases of version 2 with the models of their encodings.

    bench/encoding/compare.sh named [--encode PROGRAM] [--program PROGRAM] [--problems N] [--graphs N] [--seed N]

A root asks for virtuals, for what may provide them, and for a package between, of which there are records over one provider or the other:
they name what they have, some of it, more, or nothing. Edges are for linking, so of each edge the kinds none, link, and build and link are tried, with
each set of virtuals that the table has for it. Problems of more than `--graphs` graphs are drawn anew. Of each problem `compare.py` compares
all graphs, as of a case, whose answer is not known here. Besides, of each graph that `judge` calls valid what edges name is computed here a
second time: on an edge of a built node just the virtuals that a dependency asks for and the child is the provider of; on one of an installed
node just what is recorded, with the child as provider; and each provider is named. What it prints at the end says how many graphs with and
without such records were valid, and which rules were broken first. It ends with 1 at the first difference.
"""
import argparse
import base64
import json
import random
import sys
import tempfile

from compare import Counts, Differs, Problem, compare_all, features, unpack
from encoding import Wrong
from graphs import compact, hash_of

GCC = {"name": "gcc", "version": "12"}
KINDS = ((), ("link",), ("build", "link"))
VIRTUALS = ("m", "n")


def record(name, version, *children):
    """An installed package; its children as (record, kinds, virtuals)."""
    dependencies = [{"hash": child["hash"], "kinds": kinds, **({"virtuals": sorted(some)} if some else {})} for child, kinds, some in children]
    node = {
        "compiler": GCC, "external": None, "name": name, "os": "u", "target": "t", "version": version, "variants": {},
        "dependencies": sorted(dependencies, key=lambda child: child["hash"]),
    }
    return {**node, "hash": hash_of(node)}


def recipes_of(draw, names):
    """The recipes, and of each node what it asks for: (name, condition) each."""
    recipes, asks = {}, {}
    for name in names:
        versions = draw.choice([["1"], ["1"], ["2", "1"]])
        lines = ['version("%s")' % version for version in versions]
        some = {"a": [("t", 0.75), ("m", 0.6), ("n", 0.25), ("p", 0.15)], "t": [("m", 0.85), ("n", 0.3), ("q", 0.1)]}.get(name, [])
        asks[name] = [(child, draw.choice(["", "", "", "@1"])) for child, chance in some if (child in names or child in VIRTUALS) and draw.random() < chance]
        lines += ['depends_on("%s", type="link"%s)' % (child, ', when="%s"' % when if when else "") for child, when in asks[name]]
        if name in ("p", "q"):
            gives = [(virtual, draw.choice(["", "", "", "@1"])) for virtual, chance in (("m", 0.9), ("n", 0.4)) if draw.random() < chance]
            lines += ['provides("%s"%s)' % (virtual, ', when="%s"' % when if when else "") for virtual, when in gives]
        recipes[name] = lines
    if not any("provides(" in line for lines in recipes.values() for line in lines):
        recipes["p"].append('provides("m")')
    return recipes, asks


def records_of(draw, names):
    """Records of the providers, and of the package between over each."""
    found = {name: record(name, draw.choice(["1", "1", "1", "2"])) for name in ("p", "q") if name in names and draw.random() < 0.75}
    between = []
    for child in list(found.values()):
        if "t" in names and draw.random() < 0.8:
            virtuals = draw.choice([["m"], ["m"], ["m"], ["n"], ["m", "n"], [], ["other"]])
            kinds = draw.choice([["link"], ["link"], ["link", "run"], ["build", "link"], ["build"]])
            between.append(record("t", "1", (child, kinds, virtuals)))
    if len(found) == 2 and "t" in names and draw.random() < 0.2:
        between.append(record("t", "1", *((child, ["link"], [virtual]) for child, virtual in zip(found.values(), draw.sample(VIRTUALS, 2)))))
    above = [record("a", "1", (draw.choice(between), ["link"], []))] if between and draw.random() < 0.15 else []
    return [*found.values(), *{each["hash"]: each for each in between}.values(), *above]


def made(draw):
    """The files of a problem, its spec, and what its nodes ask for."""
    names = ["a", *(["t"] if draw.random() < 0.8 else []), "p", *(["q"] if draw.random() < 0.7 else [])]
    recipes, asks = recipes_of(draw, names)
    records = records_of(draw, names)
    packages = {name: {"buildable": False} for name in ("t", "p", "q") if name in names and draw.random() < 0.45}
    if "q" in packages and draw.random() < 0.3:
        packages["q"]["externals"] = [{"spec": "q@1", "prefix": "/usr"}]
    site = {"os": ["u"], "targets": [{"name": "t", "parents": []}], "compilers": [GCC], "packages": packages, "providers": {"m": draw.sample(["p", "q"], 2)}}
    texts = {"r/packages/%s/package.py" % name: "class %s(Package):\n" % name.upper() + "".join("    %s\n" % line for line in lines) for name, lines in recipes.items()}
    texts |= {"s": compact(site), "d": compact({"records": records, "version": 2})}
    specs = ["a"] * 4 + ["a ^q"] * ("q" in names) + ["t", "a t", "a ^m"] * ("t" in names)
    return {path: base64.b64encode(text.encode()).decode() for path, text in texts.items()}, draw.choice(specs), asks


def named_right(graph, asks, by_hash):
    """Whether what edges name is what the rules say, computed from the problem's own data."""
    used = set()
    for name, node in graph["nodes"].items():
        for child in node["edges"]:
            if node["origin"] == "built":
                held = {wanted for wanted, when in asks[name] if when in ("", "@" + node["version"])}
                wanted = sorted(virtual for virtual, package in graph["providers"].items() if package == child and virtual in held)
            else:
                own = by_hash[node["origin"].split()[1]]["dependencies"]
                wanted = next(sorted(each.get("virtuals", [])) for each in own if by_hash.get(each["hash"], {"name": None})["name"] == child)
            if node["named"].get(child, []) != wanted or any(graph["providers"].get(virtual) != child for virtual in wanted):
                return False
            used.update(wanted)
    return used == set(graph["providers"])


class Judged:
    """What `judge` says, and whether the virtuals of valid graphs are right by the second computation."""

    def __init__(self, problem, asks):
        self.problem, self.asks, self.judge = problem, asks, problem.judge
        self.valid = {"over a record that names a virtual": 0, "over no such record": 0}

    def __call__(self, graph, name="lock"):
        said = self.judge(graph, name)
        if isinstance(said, list):
            if not named_right(graph, self.asks, self.problem.graphs.by_hash):
                raise Differs("judge calls valid what names other virtuals: " + compact(graph))
            names = any(node["origin"] != "built" and node["named"] for node in graph["nodes"].values())
            self.valid["over a record that names a virtual" if names else "over no such record"] += 1
        return said


def main():
    parser = argparse.ArgumentParser(description=__doc__, formatter_class=argparse.RawDescriptionHelpFormatter)
    parser.add_argument("--encode", required=True, help="a build of encode_dimacs")
    parser.add_argument("--program", required=True, help="a build of spack_concretize")
    parser.add_argument("--problems", type=int, default=300, help="how many problems are compared")
    parser.add_argument("--graphs", type=int, default=600, help="how many graphs over its table a problem has at most")
    parser.add_argument("--seed", type=int, default=1)
    parser.add_argument("--cases", help="a file to write the problems to, as cases")
    options = parser.parse_args()
    options.kinds = KINDS
    draw, counts, cases, done, passed = random.Random(options.seed), Counts(), [], 0, 0
    while done < options.problems:
        files, spec, asks = made(draw)
        with tempfile.TemporaryDirectory() as folder:
            unpack(files, folder)
            problem = Problem(folder, ["r", "s", "d", *spec.split()], options)
            if problem.status:
                print("refused: " + problem.refusal)
                sys.exit(1)
            if not problem.encoding.named or not problem.graphs.by_hash or problem.graphs.count(options.graphs) > options.graphs:
                passed += 1
                continue
            problem.judge = judged = Judged(problem, asks)
            try:
                compare_all(problem, problem.encoding.models(0), list(features(problem, {"files": files})), options, counts, draw)
            except (Differs, Wrong) as fault:
                print("problem %d: %s" % (done, fault))
                print(json.dumps({path: base64.b64decode(text).decode() for path, text in files.items()}, indent=1), spec)
                sys.exit(1)
            for what, count in judged.valid.items():
                counts.by["valid graphs " + what] += count
                counts.by["problems with valid graphs " + what] += count > 0
        done += 1
        cases.append({"name": "named-%d-%d" % (options.seed, done), "files": files, "words": ["concretize", "r", "s", "d", "l", "c", *spec.split()]})
    if options.cases:
        with open(options.cases, "w") as file:
            file.writelines(json.dumps(case) + "\n" for case in cases)
    print("%d problems, 0 differences; %d larger ones, without records or without virtuals were passed over" % (done, passed))
    for name, count in sorted(counts.by.items()):
        print("%6d %s" % (count, name))
    for name, count in counts.rules.most_common():
        print("%6d graphs break first %s" % (count, name))


if __name__ == "__main__":
    main()
