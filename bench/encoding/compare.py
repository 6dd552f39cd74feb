#!/usr/bin/env python3
"""Compares the models of problems' encodings with the graphs that `judge` calls valid, and their numbers with the cost vectors.

    bench/encoding/compare.sh [--encode PROGRAM] [--program PROGRAM] [OPTION..] FILE..

A case is a line of JSON, in a file that may be packed by gzip: `name`; `files`, from paths to base64 texts; `words`, those of a
`concretize`; `want`, with its `status`. Other cases, and those that `encode_dimacs` refuses, are counted and left out.

Of each problem: clasp finds a model exactly where the case has a graph. Of each small problem: all graphs over the table are made and
judged, the valid ones are just those that the models decode to, one model each, and of each the numbers of its bits are the vector that
`judge` prints. Of the others: some models are decoded, each graph is valid, with the vector of its bits; and graphs that differ from one of
them at one or two places have a model exactly where `judge` calls them valid. What no lock file can show (a cycle, an installed node
that is not as recorded, a root that is no node) is invalid by a rule, and must have no model.

It ends with 1 at the first difference. What it reads of the encoding is what `encode_dimacs` prints, and nothing else.
"""
import argparse
import base64
import collections
import gzip
import json
import os
import random
import re
import subprocess
import sys
import tempfile
from concurrent.futures import ThreadPoolExecutor

from encoding import KINDS, Encoding, Wrong
from graphs import Graphs, NoLockFile, compact


class Differs(Exception):
    pass


def unpack(files, folder):
    for path, content in files.items():
        target = os.path.join(folder, path)
        os.makedirs(os.path.dirname(target), exist_ok=True)
        with open(target, "wb") as file:
            file.write(base64.b64decode(content))


class Problem:
    """The files of a problem in a folder, its encoding, and what `judge` says of graphs."""

    def __init__(self, folder, words, options):
        self.folder, self.options = folder, options
        self.repo, self.settings, self.database, *self.spec = words
        done = subprocess.run([options.encode, *words], cwd=folder, capture_output=True, text=True)
        self.status, self.refusal = done.returncode, done.stderr
        if self.status:
            return
        self.encoding = Encoding(done.stdout)
        records = []
        if self.database != "-":
            with open(os.path.join(folder, self.database)) as file:
                records = json.load(file)["records"]
        self.graphs = Graphs(self.encoding, records, *([options.kinds] if hasattr(options, "kinds") else []))
        self.roots = self.encoding.roots()

    def judge(self, graph, name="lock"):
        """The cost vector of a valid graph, or the rule that it breaks first."""
        try:
            text = self.graphs.lock(graph, self.roots)
        except NoLockFile as rule:
            return "no lock file: %s" % rule
        with open(os.path.join(self.folder, name), "w") as file:
            file.write(text)
        words = [self.options.program, "judge", self.repo, self.settings, self.database, name, *self.spec]
        done = subprocess.run(words, cwd=self.folder, capture_output=True, text=True)
        if done.returncode == 0 and done.stdout.startswith("valid\nvector "):
            return [int(word) for word in done.stdout.split()[2:]]
        broken = re.match(r"refused: graph (\w+) ", done.stderr)
        if done.returncode != 8 or not broken:
            raise Differs("judge ends with %d: %s%s" % (done.returncode, done.stdout, done.stderr))
        return broken[1]

    def verdicts(self, graphs):
        """What `judge` says of each of the graphs, two at a time."""
        with ThreadPoolExecutor(2) as pool:
            yield from pool.map(lambda it: (it[1], self.judge(it[1], "lock%d" % (it[0] % 64))), enumerate(graphs))


def changed(graph, encoding, draw):
    """A graph over the table that differs at some places; None where it cannot be."""
    nodes = {name: {**node, "variants": dict(node["variants"]), "edges": dict(node["edges"]), "named": dict(node["named"])} for name, node in graph["nodes"].items()}
    providers = dict(graph["providers"])
    for _ in range(draw.choice((1, 1, 2))):
        name = draw.choice(list(nodes))
        kind = draw.choice(["attribute", "variant", "edge", "named", "provider", "leave"])
        if kind == "attribute":
            attribute = draw.choice(["origin", "version", "compiler", "os", "target"])
            nodes[name][attribute] = draw.choice(encoding.choices[name][attribute])[0]
        elif kind == "variant" and encoding.variants[name]:
            variant = draw.choice(list(encoding.variants[name]))
            some = sorted(value for value, _ in encoding.variants[name][variant] if draw.random() < 0.5)
            nodes[name]["variants"].pop(variant, None)
            nodes[name]["variants"].update({variant: some} if some else {})
        elif kind == "edge" and encoding.edges:
            parent, child = draw.choice(list(encoding.edges))
            if parent in nodes and child in nodes:
                some = [which for which in KINDS if draw.random() < 0.5]
                nodes[parent]["edges"].pop(child, None)
                nodes[parent]["edges"].update({child: some} if some else {})
                nodes[parent]["named"] = nodes[parent]["named"] if some else {at: it for at, it in nodes[parent]["named"].items() if at != child}
        elif kind == "named" and encoding.named:
            parent, child = draw.choice(list(encoding.named))
            if child in nodes.get(parent, {"edges": {}})["edges"]:
                some = sorted(virtual for virtual, _ in encoding.named[parent, child] if draw.random() < 0.5)
                nodes[parent]["named"].pop(child, None)
                nodes[parent]["named"].update({child: some} if some else {})
        elif kind == "provider" and encoding.providers:
            virtual = draw.choice(list(encoding.providers))
            providers.pop(virtual, None)
            package = draw.choice(encoding.providers[virtual])[0]
            providers.update({virtual: package} if package in nodes and draw.random() < 0.7 else {})
        elif kind == "leave" and len(nodes) > 1:
            del nodes[name]
            for node in nodes.values():
                node["edges"].pop(name, None)
                node["named"].pop(name, None)
            providers = {virtual: package for virtual, package in providers.items() if package != name}
    return {"nodes": nodes, "providers": providers}


def has_cycle(edges):
    below = collections.defaultdict(set)
    for parent, child in edges:
        below[parent].add(child)
    for start in list(below):
        seen, waiting = set(), list(below[start])
        while waiting:
            name = waiting.pop()
            if name == start:
                return True
            if name not in seen:
                seen.add(name)
                waiting += below[name]
    return False


def features(problem, case):
    """What there is in a problem that a reader may want to know was compared."""
    encoding = problem.encoding
    texts = [base64.b64decode(text).decode() for path, text in case["files"].items() if path.endswith("package.py")]
    origins = [value for of in encoding.choices.values() for value, _ in of["origin"]]
    if has_cycle(encoding.edges):
        yield "possible cycle"
    if any("^" in text for text in [*texts, *problem.spec]):
        yield "`^`"
    if encoding.providers:
        yield "virtual"
    for origin in ("external", "installed"):
        if any(value.startswith(origin) for value in origins):
            yield origin
    if any("virtuals" in child for record in problem.graphs.by_hash.values() for child in record["dependencies"]):
        yield "installed, over a virtual"


class Counts:
    def __init__(self):
        self.by = collections.Counter()
        self.rules = collections.Counter()
        self.sizes = []

    def add(self, *names):
        self.by.update(names)


def compare(case, options, counts, draw):
    with tempfile.TemporaryDirectory() as folder:
        unpack(case["files"], folder)
        _, repo, settings, database, _, _, *spec = case["words"]
        problem = Problem(folder, [repo, settings, database, *spec], options)
        if problem.status:
            if case["want"]["status"] not in ("BadInput", "TooLarge") or problem.refusal != case["want"]["err"]:
                raise Differs("refused: " + problem.refusal)
            counts.add("refused")
            return
        encoding = problem.encoding
        counts.sizes.append((encoding.variables, len(encoding.clauses)))
        is_small = problem.graphs.count(options.graphs) <= options.graphs
        found = encoding.models(0 if is_small else max(1, options.models))
        if bool(found) != (case["want"]["status"] == "Done"):
            raise Differs("%d models where the case says %s" % (len(found), case["want"]["status"]))
        counts.add("the answer is the case's", "the answer is the case's, a graph" if found else "the answer is the case's, none")
        has = list(features(problem, case))
        (compare_all if is_small else compare_some)(problem, found, has, options, counts, draw)


def compare_answer(case, options, counts):
    """Whether clasp finds a model of what is printed, as it is."""
    with tempfile.TemporaryDirectory() as folder:
        unpack(case["files"], folder)
        _, repo, settings, database, _, _, *spec = case["words"]
        done = subprocess.run([options.encode, repo, settings, database, *spec], cwd=folder, capture_output=True, text=True)
        if done.returncode:
            if case["want"]["status"] not in ("BadInput", "TooLarge") or done.stderr != case["want"]["err"]:
                raise Differs("refused: " + done.stderr)
            counts.add("refused")
            return
        found = subprocess.run(["clasp", "-n", "1", "-q", "-V1"], input=done.stdout, capture_output=True, text=True).returncode
        if found not in (10, 20, 30) or (found != 20) != (case["want"]["status"] == "Done"):
            raise Differs("clasp ends with %d where the case says %s" % (found, case["want"]["status"]))
        counts.add("the answer is the case's", "the answer is the case's, a graph" if found != 20 else "the answer is the case's, none")


def decoded(encoding, found):
    """The models by the graphs that they decode to."""
    models = {compact(encoding.graph(true)): true for true in found}
    if len(models) != len(found):
        raise Differs("two models decode to one graph")
    return models


def compare_all(problem, found, has, _options, counts, _draw):
    """All graphs over the table."""
    models = decoded(problem.encoding, found)
    counts.add("all graphs judged", *("all graphs judged, " + it for it in has))
    if found:
        counts.add("all graphs judged, some valid", *("all graphs judged, some valid, " + it for it in has))
    valid = 0
    for graph, said in problem.verdicts(problem.graphs.all()):
        true = models.get(compact(graph))
        counts.add("graphs of them", *(["valid graphs of them"] if true is not None else []))
        if isinstance(said, list):
            valid += 1
        else:
            counts.rules[said] += 1
        agree(problem, graph, said, true)
    if valid != len(models):
        raise Differs("%d valid graphs and %d models" % (valid, len(models)))


def agree(problem, graph, said, true):
    """What `judge` says of a graph and its model, or None, are the same."""
    if (true is not None) != isinstance(said, list):
        raise Differs("judge says %s of %s, which is %s" % (said, compact(graph), "no model" if true is None else "a model"))
    if true is not None and problem.encoding.vector(true) != said:
        raise Differs("of %s judge says %s, and the bits %s" % (compact(graph), said, problem.encoding.vector(true)))


def compare_some(problem, found, has, options, counts, draw):
    """Some models, and graphs that are changed at one or two places."""
    encoding, models = problem.encoding, decoded(problem.encoding, found[: options.models])
    for graph, said in problem.verdicts([encoding.graph(true) for true in models.values()]):
        agree(problem, graph, said, models[compact(graph)])
        counts.add("some models judged: models")
    if models:
        counts.add("some models judged", *("some models judged, " + it for it in has))
    keys = list(models)
    judged = [changed(json.loads(draw.choice(keys)), encoding, draw) for _ in range(options.changes if keys else 0)]
    for graph, said in problem.verdicts(judged):
        lits = encoding.spelled(graph)
        true = None if lits is None else next(iter(encoding.models(1, [[lit] for lit in lits])), None)
        agree(problem, graph, said, true)
        counts.add("some models judged: graphs changed from them", *(["some models judged: valid graphs changed from them"] if true else []))
        counts.rules.update([] if true else [said])


def main():
    parser = argparse.ArgumentParser(description=__doc__, formatter_class=argparse.RawDescriptionHelpFormatter)
    parser.add_argument("--encode", required=True, help="a build of encode_dimacs")
    parser.add_argument("--program", required=True, help="a build of spack_concretize")
    parser.add_argument("--graphs", type=int, default=2000, help="how many graphs over its table a small problem has at most")
    parser.add_argument("--models", type=int, default=10, help="how many models of other problems are decoded")
    parser.add_argument("--changes", type=int, default=10, help="how many graphs are made from them")
    parser.add_argument("--answers", action="store_true", help="compare answers alone")
    parser.add_argument("--recipes", type=int, default=1000, help="cases with more recipes are left out")
    parser.add_argument("--from", dest="first", type=int, default=0, help="the first case")
    parser.add_argument("--to", dest="last", type=int, default=None, help="the one behind the last")
    parser.add_argument("files", nargs="+")
    options = parser.parse_args()
    counts, draw = Counts(), random.Random(1)
    for path in options.files:
        with (gzip.open if path.endswith(".gz") else open)(path, "rt") as file:
            cases = [json.loads(line) for line in file][options.first : options.last]
        for number, case in enumerate(cases):
            if case["words"][0] != "concretize" or sum(path.endswith("/package.py") for path in case["files"]) > options.recipes:
                counts.add("cases left out")
                continue
            try:
                if options.answers:
                    compare_answer(case, options, counts)
                else:
                    compare(case, options, counts, draw)
            except (Differs, Wrong) as fault:
                print("%s (words %s): %s" % (case["name"], " ".join(case["words"]), fault))
                sys.exit(1)
            if number % 100 == 99:
                print("%d cases: %s" % (number + 1, dict(counts.by)), file=sys.stderr, flush=True)
    for name, count in sorted(counts.by.items()):
        print("%7d  %s" % (count, name))
    print("first broken rules of the graphs that are not valid:")
    for name, count in counts.rules.most_common():
        print("%7d  %s" % (count, name))
    for what, sizes in zip(("variables", "clauses"), zip(*counts.sizes)):
        print("%s: %d to %d, median %d" % (what, min(sizes), max(sizes), sorted(sizes)[len(sizes) // 2]))


if __name__ == "__main__":
    main()
