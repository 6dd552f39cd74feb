#!/usr/bin/env python3
"""Compares all graphs of small random problems whose settings have `require` with the models of their encodings.

    bench/encoding/compare.sh required [--encode PROGRAM] [--program PROGRAM] [--problems N] [--graphs N] [--seed N]

A problem has two or three packages with versions, variants, dependencies, a virtual, externals and installed packages as it comes, and
requirements of the settings for some of them. Those of more than `--graphs` graphs over the table are drawn anew. Of each problem
`compare.py` compares all graphs, as of a case, whose answer is not known here. What it prints at the end says how often Required was the first broken
rule, and in how many problems it was so of a built, an external and an installed node. It ends with 1 at the first difference.
"""
import argparse
import base64
import json
import random
import re
import sys
import tempfile

from compare import Counts, Differs, Problem, compare_all, features, unpack
from encoding import Wrong
from graphs import compact, hash_of

COMPILERS = [{"name": "gcc", "version": "12"}, {"name": "clang", "version": "17"}]


def record(name, version, value, children=(), compiler=COMPILERS[0]):
    node = {
        "compiler": compiler, "external": None, "name": name, "os": "u", "target": "t", "version": version, "variants": {"v": [value]} if value else {},
        "dependencies": sorted(({"hash": child["hash"], "kinds": ["link"]} for child in children), key=lambda child: child["hash"]),
    }
    return {**node, "hash": hash_of(node)}


def condition(draw, name, others):
    """A condition on the node, or on what stands below."""
    plain = ["@1", "@2", "@2:", "@=1", "+v", "~v", "%gcc", "%gcc@12", "%clang", "%gcc@:11", "os=u", "os=w", "target=t", "platform=linux", "", name, name + "@2"]
    below = ["^%s%s" % (other, more) for other in [*others, "m"] for more in ("", "@1", "@2", "+v", "%gcc")]
    text = draw.choice(plain * 3 + below * 2 + [other + "@1" for other in others])
    if draw.random() < 0.15 and text[:1] == "@":
        text += draw.choice([" +v", " ~v", " %gcc"])
    return text


def item(draw, name, others):
    """An item of `require`."""
    if draw.random() < 0.3:
        return condition(draw, name, others)
    policy = draw.choice(["any_of", "one_of"])
    found = {policy: [condition(draw, name, others) for _ in range(draw.choice([1, 2, 2, 3]))]}
    if draw.random() < 0.4:
        found["when"] = condition(draw, name, others)
    if draw.random() < 0.2:
        found["message"] = "why"
    return found


def required(draw, name, others):
    if draw.random() < 0.2:
        return condition(draw, name, others)
    return [item(draw, name, others) for _ in range(draw.choice([1, 1, 2, 3]))]


def made(draw):
    """The files of a problem, and its spec."""
    names = ["a", "b", "c"][: draw.choice([2, 2, 2, 3])]
    recipes, packages, records = {}, {}, []
    for place, name in enumerate(names):
        lines = ['version("%s")' % version for version in draw.choice([["1"], ["2", "1"]])]
        lines += ['variant("v", default=%s)' % draw.choice(["True", "False"])] if draw.random() < 0.4 else []
        for child in names[place + 1 :]:
            when = draw.choice(["", ', when="@2"', ', when="+v"']) if child != "b" else draw.choice(["", "", ', when="@1"'])
            wanted = "m" if child == names[-1] and draw.random() < 0.2 else child
            lines += ['depends_on("%s", type="link"%s)' % (wanted, when)] if draw.random() < 0.85 else []
        lines += ['provides("m")'] if place and draw.random() < 0.5 else []
        recipes[name] = lines
    for place, name in enumerate(names):
        others = [other for other in names if other != name]
        entry = {"require": required(draw, name, others)} if draw.random() < 0.75 else {}
        if draw.random() < 0.3:
            entry["externals"] = [{"spec": name + draw.choice(["@1", "@2", "@1 %gcc@12"]), "prefix": "/usr"}]
            entry["buildable"] = draw.random() < 0.6
        packages.update({name: entry} if entry else {})
    if draw.random() < 0.4:
        records.append(record(names[-1], draw.choice("12"), draw.choice([None, "true", "false"]), (), draw.choice(COMPILERS)))
        if draw.random() < 0.5:
            records.append(record(names[0], "1", draw.choice([None, "true"]), records[:1]))
    site = {"os": ["u"], "targets": [{"name": "t", "parents": []}], "compilers": COMPILERS[: draw.choice([1, 1, 1, 2])], "packages": packages}
    texts = {"r/packages/%s/package.py" % name: "class %s(Package):\n" % name.upper() + "".join("    %s\n" % line for line in lines) for name, lines in recipes.items()}
    texts |= {"s": compact(site), "d": compact({"records": records, "version": 1})}
    return {path: base64.b64encode(text.encode()).decode() for path, text in texts.items()}, draw.choice(["a", "a", "a@1", "a", "a b"])


class Origins:
    """Of which origins Required was the first broken rule."""

    def __init__(self, problem):
        self.problem, self.seen, self.judge = problem, set(), problem.judge

    def __call__(self, graph, name="lock"):
        said = self.judge(graph, name)
        if said == "Required":
            self.seen.update(node["origin"].split()[0] for node in graph["nodes"].values())
        return said


def main():
    parser = argparse.ArgumentParser(description=__doc__, formatter_class=argparse.RawDescriptionHelpFormatter)
    parser.add_argument("--encode", required=True, help="a build of encode_dimacs")
    parser.add_argument("--program", required=True, help="a build of spack_concretize")
    parser.add_argument("--problems", type=int, default=200, help="how many problems are compared")
    parser.add_argument("--graphs", type=int, default=1200, help="how many graphs over its table a problem has at most")
    parser.add_argument("--seed", type=int, default=1)
    parser.add_argument("--cases", help="a file to write the problems to, as cases")
    options = parser.parse_args()
    draw, counts, cases, done, large = random.Random(options.seed), Counts(), [], 0, 0
    while done < options.problems:
        files, spec = made(draw)
        with tempfile.TemporaryDirectory() as folder:
            unpack(files, folder)
            problem = Problem(folder, ["r", "s", "d", *spec.split()], options)
            if problem.status:
                print("refused: " + problem.refusal)
                sys.exit(1)
            if problem.graphs.count(options.graphs) > options.graphs:
                large += 1
                continue
            problem.judge = origins = Origins(problem)
            settings = json.loads(base64.b64decode(files["s"]))
            has = [*features(problem, {"files": files}), *(["`^` in require"] if re.search(r'"\^', json.dumps(settings)) else [])]
            try:
                compare_all(problem, problem.encoding.models(0), has, options, counts, draw)
            except (Differs, Wrong) as fault:
                print("problem %d: %s" % (done, fault))
                print(json.dumps({path: base64.b64decode(text).decode() for path, text in files.items()}, indent=1), spec)
                sys.exit(1)
            counts.add(*("Required first, %s nodes there" % origin for origin in origins.seen), *(["Required first, some graph"] if origins.seen else []))
        done += 1
        cases.append({"name": "required-%d-%d" % (options.seed, done), "files": files, "words": ["concretize", "r", "s", "d", "l", "c", *spec.split()]})
    if options.cases:
        with open(options.cases, "w") as file:
            file.writelines(json.dumps(case) + "\n" for case in cases)
    print("%d problems, 0 differences; %d larger ones were passed over" % (done, large))
    for name, count in sorted(counts.by.items()):
        print("%6d %s" % (count, name))
    for name, count in counts.rules.most_common():
        print("%6d graphs break first %s" % (count, name))


if __name__ == "__main__":
    main()
