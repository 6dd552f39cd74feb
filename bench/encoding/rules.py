#!/usr/bin/env python3
"""For each rule a small problem with a graph that keeps all of them, and one that differs from it and breaks that rule.

    bench/encoding/compare.sh rules [--encode PROGRAM] [--program PROGRAM]

Of each row `judge` has to call the first graph valid and name the rule for the second. The clauses, with the table's literals as the
graph has them, must have a model of the first, whose bits spell the vector that `judge` prints, and none of the second; that is also
so where the table has no literal for some part of it. A graph with a cycle has no lock file, so no verdict: the clauses alone are asked. An
installed node that is not as recorded has another hash, so `judge` cannot be asked either.

The rows have each origin where a rule speaks of more than one. It ends with 1 at the first row that is otherwise.
"""
import argparse
import base64
import copy
import json
import sys
import tempfile

from compare import Differs, Problem, unpack
from encoding import Wrong
from graphs import compact, hash_of

SITE = {"os": ["u", "w"], "targets": [{"name": "t", "parents": []}], "compilers": [{"name": "gcc", "version": "12"}]}


def dependency(child, kinds, virtuals=()):
    return {"hash": child["hash"], "kinds": list(kinds), **({"virtuals": sorted(virtuals)} if virtuals else {})}


def record(name, version, *children, **others):
    """An installed package, and what it was built with, as (record, kinds) or (record, kinds, virtuals)."""
    node = {
        "compiler": {"name": "gcc", "version": "12"}, "external": None, "name": name, "os": "u", "target": "t", "variants": {}, "version": version,
        "dependencies": sorted((dependency(*child) for child in children), key=lambda child: child["hash"]), **others,
    }
    return {**node, "hash": hash_of(node)}


def external(*specs, **others):
    return {"externals": [{"spec": spec, "prefix": "/usr"} for spec in specs], **others}


def site(packages=None, **others):
    return {**SITE, "packages": packages or {}, **others}


# ---- changes


def at(name, **attributes):
    """The node has these attributes."""
    return lambda graph: graph["nodes"][name].update(attributes)


def with_variant(name, variant, *values):
    def change(graph):
        graph["nodes"][name]["variants"].pop(variant, None)
        graph["nodes"][name]["variants"].update({variant: sorted(values)} if values else {})

    return change


def with_edge(parent, child, *kinds):
    def change(graph):
        graph["nodes"][parent]["edges"].pop(child, None)
        graph["nodes"][parent]["edges"].update({child: list(kinds)} if kinds else {})
        if not kinds:
            graph["nodes"][parent]["named"].pop(child, None)

    return change


def with_names(parent, child, *virtuals):
    """The edge names just these virtuals."""

    def change(graph):
        graph["nodes"][parent]["named"].pop(child, None)
        graph["nodes"][parent]["named"].update({child: sorted(virtuals)} if virtuals else {})

    return change


def with_provider(virtual, name):
    return lambda graph: graph["providers"].update({virtual: name})


def without_provider(virtual):
    return lambda graph: graph["providers"].pop(virtual)


def with_node(name, like, **attributes):
    """A further node, which is like another but for these attributes."""
    return lambda graph: graph["nodes"].update({name: {**copy.deepcopy(graph["nodes"][like]), "edges": {}, "named": {}, "variants": {}, **attributes}})


def without(name):
    return lambda graph: graph["nodes"].pop(name)


def both(*changes):
    def change(graph):
        for one in changes:
            one(graph)

    return change


# ---- the rows: the rule and what it is about, recipes, settings, records, the request, what the first graph has, the change

TWO = ['version("2")', 'version("1")']
ONE = ['version("1")']
ZLIB1, ZLIB2 = record("z", "1"), record("z", "2")
LIB = record("l", "1", (ZLIB1, ("link",)))
TOOL = record("l", "1", (ZLIB1, ("build", "run")))
KEPT = {"z": {"buildable": False}, "l": {"buildable": False}}
OVER = record("l", "1", (ZLIB1, ("link",), ("m",)))
NEEDS, GIVES = [*ONE, 'depends_on("m", type="link")'], [*ONE, 'provides("m")']


def is_at(name, **attributes):
    return lambda graph: name in graph["nodes"] and all(graph["nodes"][name][key] == value for key, value in attributes.items())


ANY = lambda graph: True

ROWS = [
    ("Root", "built", {"a": TWO}, site(), [], "a@2", ANY, at("a", version="1")),
    ("Root", "external", {"a": TWO}, site({"a": external("a@1", "a@2", buildable=False)}), [], "a@2", ANY, at("a", version="1", origin="external 0")),
    ("Root", "installed", {"z": TWO}, site(KEPT), [ZLIB1, ZLIB2], "z@2", ANY, at("z", version="1", origin="installed " + ZLIB1["hash"])),
    ("Root", "a part behind ^", {"a": [*ONE, 'depends_on("b")'], "b": TWO}, site(), [], "a ^b@2", ANY, at("b", version="1")),
    ("Buildable", "built", {"a": ONE}, site({"a": external("a@1", buildable=False)}), [], "a", ANY, at("a", origin="built", prefix=None, compiler="gcc@=12")),
    ("Buildable", "built, no recipe", {}, site({"a": external("a@1")}), [], "a", ANY, at("a", origin="built", prefix=None, compiler="gcc@=12")),
    ("Version", "of an external", {"a": ONE}, site({"a": external("a@3")}), [], "a", is_at("a", origin="built"), at("a", version="3")),
    ("Version", "of nothing", {"a": ONE}, site(), [], "a", ANY, at("a", version="9")),
    ("Variant", "two values", {"a": [*ONE, 'variant("v", default="x", values=("x", "y"))']}, site(), [], "a", ANY, with_variant("a", "v", "x", "y")),
    ("Variant", "none", {"a": [*ONE, 'variant("v", default="x", values=("x", "y"))']}, site(), [], "a", ANY, with_variant("a", "v")),
    ("Variant", "not defined there", {"a": [*TWO, 'variant("v", default="x", values=("x", "y"), when="@1")']}, site(), [], "a", is_at("a", version="2"),
     with_variant("a", "v", "x")),
    ("Variant", "of the definition before", {"a": [*ONE, 'variant("v", default="x", values=("x", "y"))', 'variant("v", default="z", values=("z",))']},
     site(), [], "a", ANY, with_variant("a", "v", "x")),
    ("Compiler", "of another OS", {"a": ONE},
     site(compilers=[{"name": "gcc", "version": "12", "os": ["u"]}, {"name": "gcc", "version": "13", "os": ["w"]}]), [], "a", is_at("a", os="u"), at("a", os="w")),
    ("Compiler", "none", {"a": ONE}, site({"a": external("a@1")}), [], "a", is_at("a", origin="built"), at("a", compiler=None)),
    ("Compiler", "of a record", {"z": ONE}, site(), [record("z", "1", compiler={"name": "icc", "version": "9"})], "z", is_at("z", origin="built"),
     at("z", compiler="icc@=9")),
    ("Machine", "of an external", {"a": ONE}, site({"a": external("a@1 os=q")}), [], "a", is_at("a", origin="built"), at("a", os="q")),
    ("Machine", "of a record", {"z": ONE}, site(), [record("z", "1", target="s")], "z", is_at("z", origin="built"), at("z", target="s")),
    ("Edge", "a kind less", {"a": [*ONE, 'depends_on("b", type=("build", "link"))'], "b": ONE}, site(), [], "a", ANY, with_edge("a", "b", "build")),
    ("Edge", "none to an external", {"a": [*ONE, 'depends_on("b", type="run")'], "b": ONE}, site({"b": external("b@1", buildable=False)}), [], "a b", ANY,
     with_edge("a", "b")),
    ("Edge", "none to a provider", {"a": [*ONE, 'depends_on("m")'], "b": [*ONE, 'provides("m")']}, site(), [], "a b", ANY, with_edge("a", "b")),
    ("Edge", "a virtual less", {"a": [*ONE, 'depends_on("m")'], "b": GIVES}, site(), [], "a", ANY, with_names("a", "b")),
    ("ExtraEdge", "a virtual that nothing asks for there", {"a": [*TWO, 'depends_on("b")', 'depends_on("m", when="@1")'], "b": GIVES}, site(), [], "a@2", ANY,
     both(with_names("a", "b", "m"), with_provider("m", "b"))),
    ("ExtraEdge", "a virtual that another one provides", {"a": [*ONE, 'depends_on("b")', 'depends_on("m")'], "b": GIVES, "c": GIVES}, site(), [], "a ^c",
     lambda graph: graph["providers"] == {"m": "c"}, with_names("a", "b", "m")),
    ("ExtraEdge", "a kind more", {"a": [*ONE, 'depends_on("b", type="build")'], "b": ONE}, site(), [], "a", ANY, with_edge("a", "b", "build", "run")),
    ("ExtraEdge", "under no condition", {"a": [*TWO, 'depends_on("z", type="link", when="@1")'], "z": ONE}, site(KEPT), [ZLIB1], "a z", is_at("a", version="2"),
     with_edge("a", "z", "link")),
    ("Constraint", "built", {"a": [*ONE, 'depends_on("b@2")'], "b": TWO}, site(), [], "a", ANY, at("b", version="1")),
    ("Constraint", "external", {"a": [*ONE, 'depends_on("b@2")'], "b": TWO}, site({"b": external("b@1", "b@2", buildable=False)}), [], "a", ANY,
     at("b", version="1", origin="external 0")),
    ("Constraint", "installed", {"a": [*ONE, 'depends_on("z@2")'], "z": TWO}, site(KEPT), [ZLIB1, ZLIB2], "a", ANY,
     at("z", version="1", origin="installed " + ZLIB1["hash"])),
    ("Constraint", "a provider", {"a": [*ONE, 'depends_on("m@2")'], "b": [*TWO, 'provides("m@2", when="@2")', 'provides("m@1", when="@1")']}, site(), [], "a",
     ANY, at("b", version="1")),
    ("Conflict", "built", {"a": [*ONE, 'variant("v", default=False)', 'conflicts("+v")']}, site(), [], "a", ANY, with_variant("a", "v", "true")),
    ("Conflict", "a part behind ^", {"a": [*ONE, 'depends_on("b")', 'conflicts("^b@1")'], "b": TWO}, site(), [], "a", ANY, at("b", version="1")),
    ("Conflict", "an external behind ^", {"a": [*ONE, 'depends_on("b")', 'conflicts("^b@1")'], "b": TWO}, site({"b": external("b@1")}), [], "a",
     is_at("b", origin="built"), at("b", origin="external 0", version="1", compiler=None, prefix="/usr")),
    ("Requirement", "one of, both", {"a": [*TWO, 'variant("v", default=False)', 'requires("@2", "+v", policy="one_of")']}, site(), [], "a",
     is_at("a", version="2", variants={"v": ["false"]}), with_variant("a", "v", "true")),
    ("Requirement", "one of, none", {"a": [*TWO, 'variant("v", default=False)', 'requires("@2", "+v", policy="one_of")']}, site(), [], "a",
     is_at("a", version="2"), at("a", version="1")),
    ("Requirement", "any of, none", {"a": [*TWO, 'variant("v", default=False)', 'requires("@2", "+v", policy="any_of")']}, site(), [], "a",
     is_at("a", version="2", variants={"v": ["false"]}), at("a", version="1")),
    ("Required", "one of, both", {"a": [*ONE, 'variant("v", default=True)', 'variant("w", default=False)']},
     site({"a": {"require": [{"one_of": ["+v", "+w"], "when": "%gcc"}]}}), [], "a", is_at("a", variants={"v": ["true"], "w": ["false"]}),
     with_variant("a", "w", "true")),
    ("Required", "installed", {"z": TWO}, site({"z": {"buildable": False, "require": "@2"}}), [ZLIB1, ZLIB2], "z", ANY,
     at("z", version="1", origin="installed " + ZLIB1["hash"])),
    ("Required", "external", {"a": TWO}, site({"a": external("a@1", "a@2", buildable=False, require=["@1:", "@2"])}), [], "a", ANY,
     at("a", version="1", origin="external 0")),
    ("Kept", "a built node with a prefix", {"a": ONE}, site({"a": external("a@1")}), [], "a", is_at("a", origin="built"), at("a", prefix="/usr")),
    ("Kept", "an external of another version", {"a": TWO}, site({"a": external("a@1")}), [], "a", is_at("a", origin="external 0"), at("a", version="2")),
    ("Kept", "an external with an edge", {"a": [*ONE, 'depends_on("b")'], "b": ONE}, site({"a": external("a@1")}), [], "a b", is_at("a", origin="external 0"),
     with_edge("a", "b", "link")),
    ("Kept", "a recorded virtual of another provider", {"a": [*ONE, 'depends_on("l")', 'depends_on("m")'], "l": NEEDS, "z": GIVES, "c": GIVES}, site(KEPT),
     [ZLIB1, OVER], "a", ANY, both(with_edge("a", "z"), with_node("c", "a", version="1"), with_edge("a", "c", "build", "link"), with_names("a", "c", "m"),
                                   with_provider("m", "c"))),
    ("Kept", "a recorded virtual without a provider", {"l": NEEDS, "z": GIVES}, site(KEPT), [ZLIB1, OVER], "l", ANY, without_provider("m")),
    ("no lock file: Kept", "a recorded virtual is passed over", {"l": NEEDS, "z": GIVES}, site(KEPT), [ZLIB1, OVER], "l", ANY,
     both(with_names("l", "z"), without_provider("m"))),
    ("no lock file: Kept", "a virtual that is not recorded", {"l": NEEDS, "z": GIVES}, site(KEPT), [ZLIB1, LIB], "l", ANY,
     both(with_names("l", "z", "m"), with_provider("m", "z"))),
    ("no lock file: Kept", "an installed node of another OS", {"z": ONE}, site(KEPT), [ZLIB1], "z", ANY, at("z", os="w")),
    ("no lock file: Kept", "an installed node without its child", {"l": ONE, "z": ONE}, site(KEPT), [ZLIB1, LIB], "l z", ANY, with_edge("l", "z")),
    ("no lock file: Kept", "an installed node with its child for building", {"l": ONE, "z": ONE}, site(KEPT), [ZLIB1, TOOL], "l z", ANY,
     with_edge("l", "z", "build", "run")),
    ("no lock file: Kept", "another record of the child", {"l": ONE, "z": TWO}, site(KEPT), [ZLIB1, ZLIB2, LIB], "l", ANY,
     at("z", version="2", origin="installed " + ZLIB2["hash"])),
    ("Provider", "no provision holds there", {"a": [*ONE, 'variant("v", default=False)', 'depends_on("m", when="+v")'], "b": [*TWO, 'provides("m", when="@2")']},
     site(), [], "a~v b@1", ANY, with_provider("m", "b")),
    ("Provider", "of an installed node, which provides it no more", {"l": NEEDS, "z": [*TWO, 'provides("m", when="@2")']}, site(), [ZLIB1, OVER], "l",
     is_at("l", origin="built", os="u"),
     both(at("l", origin="installed " + OVER["hash"]), at("z", origin="installed " + ZLIB1["hash"], version="1", os="u"), with_edge("l", "z", "link"))),
    ("UnusedProvider", "the child of an installed node that names nothing", {"l": NEEDS, "z": GIVES}, site(KEPT), [ZLIB1, LIB], "l", ANY, with_provider("m", "z")),
    ("UnusedProvider", "nothing asks for it", {"a": [*ONE, 'variant("v", default=False)', 'depends_on("m", when="+v")'], "b": [*TWO, 'provides("m", when="@2")']},
     site(), [], "a~v b@2", ANY, with_provider("m", "b")),
    ("UnusedProvider", "an external that nothing asks for", {"a": [*ONE, 'variant("v", default=False)', 'depends_on("m", when="+v")'], "b": [*ONE, 'provides("m")']},
     site({"b": external("b@1", buildable=False)}), [], "a~v b", ANY, with_provider("m", "b")),
    ("no lock file: Cycle", "of two", {"a": [*TWO, 'depends_on("b", when="@2")'], "b": [*TWO, 'depends_on("a", when="@2")']}, site(), [], "a b",
     lambda graph: is_at("a", version="2")(graph) and is_at("b", version="1")(graph), both(at("b", version="2"), with_edge("b", "a", "build", "link"))),
    ("no lock file: Cycle", "of a node with itself", {"a": [*TWO, 'depends_on("a", when="@2")']}, site(), [], "a", is_at("a", version="1"),
     both(at("a", version="2"), with_edge("a", "a", "build", "link"))),
    ("Unreachable", "built", {"a": [*TWO, 'depends_on("b", when="@1")'], "b": ONE}, site(), [], "a@2", ANY, with_node("b", "a", version="1")),
    ("Unreachable", "external", {"a": [*TWO, 'depends_on("b", when="@1")'], "b": ONE}, site({"b": external("b@1", buildable=False)}), [], "a@2", ANY,
     with_node("b", "a", version="1", origin="external 0", compiler=None, prefix="/usr", os="u")),
    ("Unreachable", "installed", {"a": [*TWO, 'depends_on("z", when="@1")'], "z": ONE}, site(KEPT), [ZLIB1], "a@2", ANY,
     with_node("z", "a", version="1", origin="installed " + ZLIB1["hash"], os="u")),
    ("no lock file: Cycle", "off the roots", {"a": [*TWO, 'depends_on("b", when="@1")'], "b": [*ONE, 'depends_on("d", type="link")'],
     "d": [*ONE, 'depends_on("b", type="link")']}, site(), [], "a@2", ANY,
     both(with_node("b", "a", version="1", edges={"d": ["link"]}), with_node("d", "a", version="1", edges={"b": ["link"]}))),
]


def files_of(recipes, settings, records):
    texts = {"r/packages/%s/package.py" % name: "class %s(Package):\n" % name.upper() + "".join("    %s\n" % line for line in lines) for name, lines in recipes.items()}
    texts |= {"s": compact(settings), "d": compact({"records": records, "version": 2}), "r/packages/other/package.py": 'class Other(Package):\n    version("1")\n'}
    return {path: base64.b64encode(text.encode()).decode() for path, text in texts.items()}


def show(row, options):
    rule, _, recipes, settings, records, spec, picks, change = row
    with tempfile.TemporaryDirectory() as folder:
        unpack(files_of(recipes, settings, records), folder)
        problem = Problem(folder, ["r", "s", "d", *spec.split()], options)
        if problem.status:
            raise Differs("refused: " + problem.refusal)
        encoding = problem.encoding
        good = next((graph for true in encoding.models(0) for graph in [encoding.graph(true)] if picks(graph)), None)
        if good is None:
            raise Differs("no model is as the row has it")
        bad = copy.deepcopy(good)
        change(bad)
        models = encoding.models(0, [[lit] for lit in encoding.spelled(good)])
        if len(models) != 1 or problem.judge(good) != encoding.vector(models[0]):
            raise Differs("%d models of %s, of which judge says %s" % (len(models), compact(good), problem.judge(good)))
        if problem.judge(bad) != rule:
            raise Differs("judge says %s of %s" % (problem.judge(bad), compact(bad)))
        lits = encoding.spelled(bad)
        if lits is not None and encoding.models(1, [[lit] for lit in lits]):
            raise Differs("a model of " + compact(bad))
        return "the table has no such graph" if lits is None else "no model"


def main():
    parser = argparse.ArgumentParser(description=__doc__, formatter_class=argparse.RawDescriptionHelpFormatter)
    parser.add_argument("--encode", required=True, help="a build of encode_dimacs")
    parser.add_argument("--program", required=True, help="a build of spack_concretize")
    options = parser.parse_args()
    for row in ROWS:
        try:
            print("%s, %s: %s" % (row[0], row[1], show(row, options)))
        except (Differs, Wrong) as fault:
            print("%s, %s: %s" % (row[0], row[1], fault))
            sys.exit(1)
    print("%d rows" % len(ROWS))


if __name__ == "__main__":
    main()
