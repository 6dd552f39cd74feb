#!/usr/bin/env python3
"""Compares all graphs of small random problems whose recipes provide several virtuals by one directive with the models of their encodings.

    bench/encoding/compare.sh together [--encode PROGRAM] [--program PROGRAM] [--problems N] [--graphs N] [--seed N]

A root asks for two virtuals, which one or two packages provide together or apart, with or without a condition; half of the settings say
`provided_together`. Of each problem `compare.py` compares all graphs, as of a case, whose answer is not known here. Besides, of each graph that
`judge` calls valid it is computed here a second time whether each provider by a directive is that of the directive's other names. What it
prints at the end says how many graphs were valid with the key and without it, and which rules were broken first. It ends with 1 at the first
difference, and where no graph broke Together, or none without the key took one virtual of each.
"""
import argparse
import base64
import json
import random
import sys
import tempfile

from compare import Counts, Differs, Problem, compare_all, features, unpack
from encoding import Wrong
from graphs import compact
from named import GCC, KINDS

VIRTUALS = ("m", "n")


def made(draw):
    """The files of a problem, its spec, and of each package its directives that provide: (names, condition) each."""
    names = ["a", "p", "q"]
    together, gives, recipes = draw.random() < 0.5, {}, {}
    for name in names:
        versions = draw.choice([["1"], ["2", "1"]]) if name != "a" else ["1"]
        lines = ['version("%s")' % version for version in versions]
        if name == "a":
            some = [virtual for virtual in VIRTUALS if draw.random() < 0.9] + [child for child in ("p", "q") if draw.random() < 0.2]
            lines += ['depends_on("%s", type="link")' % child for child in some or ["m"]]
        else:
            forms = [[VIRTUALS], [VIRTUALS], [VIRTUALS], [("n", "m")], [("m",), ("n",)], [("m",)], [VIRTUALS, ("n",)]]
            gives[name] = [(row, draw.choice(["", "", "", "@1"])) for row in draw.choice(forms)]
            lines += ["provides(%s%s)" % (", ".join('"%s"' % each for each in row), ', when="%s"' % when if when else "") for row, when in gives[name]]
        recipes[name] = lines
    site = {"os": ["u"], "targets": [{"name": "t", "parents": []}], "compilers": [GCC], "provided_together": together,
            "packages": {"q": {"externals": [{"spec": "q@1", "prefix": "/usr"}]}} if draw.random() < 0.3 else {}}
    texts = {"r/packages/%s/package.py" % name: "class %s(Package):\n" % name.upper() + "".join("    %s\n" % line for line in lines) for name, lines in recipes.items()}
    texts |= {"s": compact(site), "d": compact({"records": [], "version": 2})}
    specs = ["a", "a", "a ^q", "a ^p@1", "a p"]
    return {path: base64.b64encode(text.encode()).decode() for path, text in texts.items()}, draw.choice(specs), gives, together


def is_together(graph, gives):
    """Whether each provider by a directive is that of the directive's other names that have one."""
    for virtual, package in graph["providers"].items():
        for row, when in gives[package]:
            if virtual in row and when in ("", "@" + graph["nodes"][package]["version"]):
                if any(graph["providers"].get(other, package) != package for other in row):
                    return False
    return True


class Judged:
    """What `judge` says, and whether valid graphs are right by the second computation."""

    def __init__(self, problem, gives, together):
        self.judge, self.gives, self.together = problem.judge, gives, together
        self.valid = {"together": 0, "apart": 0}

    def __call__(self, graph, name="lock"):
        said = self.judge(graph, name)
        if isinstance(said, list):
            kept = is_together(graph, self.gives)
            if self.together and not kept:
                raise Differs("judge calls valid what is not together: " + compact(graph))
            self.valid["together" if kept else "apart"] += 1
        return said


def main():
    parser = argparse.ArgumentParser(description=__doc__, formatter_class=argparse.RawDescriptionHelpFormatter)
    parser.add_argument("--encode", required=True, help="a build of encode_dimacs")
    parser.add_argument("--program", required=True, help="a build of spack_concretize")
    parser.add_argument("--problems", type=int, default=200, help="how many problems are compared")
    parser.add_argument("--graphs", type=int, default=600, help="how many graphs over its table a problem has at most")
    parser.add_argument("--seed", type=int, default=1)
    options = parser.parse_args()
    options.kinds = KINDS
    draw, counts, done, passed = random.Random(options.seed), Counts(), 0, 0
    while done < options.problems:
        files, spec, gives, together = made(draw)
        with tempfile.TemporaryDirectory() as folder:
            unpack(files, folder)
            problem = Problem(folder, ["r", "s", "d", *spec.split()], options)
            if problem.status:
                print("refused: " + problem.refusal)
                sys.exit(1)
            if problem.graphs.count(options.graphs) > options.graphs:
                passed += 1
                continue
            problem.judge = judged = Judged(problem, gives, together)
            try:
                compare_all(problem, problem.encoding.models(0), list(features(problem, {"files": files})), options, counts, draw)
            except (Differs, Wrong) as fault:
                print("problem %d: %s" % (done, fault))
                print(json.dumps({path: base64.b64decode(text).decode() for path, text in files.items()}, indent=1), spec)
                sys.exit(1)
            for what, count in judged.valid.items():
                counts.by["valid graphs %s, %s the key" % (what, "with" if together else "without")] += count
        done += 1
    print("%d problems, 0 differences; %d larger ones were passed over" % (done, passed))
    for name, count in sorted(counts.by.items()):
        print("%6d %s" % (count, name))
    for name, count in counts.rules.most_common():
        print("%6d graphs break first %s" % (count, name))
    sys.exit(0 if counts.rules["Together"] and counts.by["valid graphs apart, without the key"] else 1)


if __name__ == "__main__":
    main()
