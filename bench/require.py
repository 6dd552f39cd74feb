#!/usr/bin/env python3
"""Compares the program with a second reading of the settings' `require`, written apart from it, over random settings.

    bench/require.py [--program PROGRAM] [--settings N] [--seed N]

A lock file has a built, an external and an installed node, and keeps all rules but what the settings require. Settings with random values of `require`, right
and wrong ones, for these nodes and for packages that are none, are handed to `judge`: it has to say the first fault of the settings with its
pointer, or the node and place of the first requirement that is broken, or `valid`. The reading is `fault_of` and `broken_in`, some 60
lines; conditions are drawn from a table that says where each holds, or its fault. It ends with 1 at the first difference.
"""
import argparse
import base64
import collections
import hashlib
import json
import os
import random
import re
import subprocess
import sys
import tempfile

TOP = os.path.dirname(os.path.dirname(os.path.abspath(__file__)))
# Where each condition holds: app is built, lib an external without compiler below it, tool installed and below both.
HOLDS = {
    "": "app lib tool", "@1": "app lib", "@1.2": "lib", "@=1": "app", "@2:": "tool", "@:1.1": "app", "@1,2.0": "app lib tool", "+p": "app lib", "~p": "tool", "p=true": "app lib",
    "+q": "", "~q": "app", "+p~q": "app", "%gcc": "app tool", "%gcc@12": "app", "%gcc@:11": "tool", "%clang": "", "os=ubuntu22.04": "app lib tool", "os=rocky9": "",
    "platform=linux": "app lib tool", "platform=darwin": "", "target=x86_64": "app lib tool", "target=x86_64:": "app lib tool", "target=zen2": "", "^lib": "app", "^tool": "app",
    "^lib@1.2 ^tool": "app", "^lib@2:": "", "^tool ~p": "app", "^tool+p": "", "^api": "app", "^api@3": "", "^app": "", "app": "app", "lib@1.2": "lib", "tool %gcc": "tool",
    "api": "", "other": "", " +p ": "app lib", "%gcc ^tool%gcc": "app", "arch=linux-ubuntu22.04-x86_64": "app lib tool",
}
FAULTS = {
    "@": "Expected 1", "+": "Expected 1", "+p %": "Expected 4", "lib tool": "Expected 8", "^": "Expected 1", "++p": "Unsupported 0 Propagation", "p==true": "Unsupported 0 Propagation",
    "p:=true": "Unsupported 0 ConcreteAssign", "p=*": "Unsupported 0 AnyValue", "cflags=-O2": "Unsupported 0 Flags", "/abc": "Unsupported 0 Reference",
    "^[virtuals=api] lib": "Unsupported 0 EdgeAttributes", "builtin.lib": "Unsupported 0 Namespace", "@2:1": "BadVersion 1", "+p @1,3:2": "BadVersion 6", "+p +p": "TwiceSet 3",
    "@1 ^lib @1@2": "TwiceSet 10",
}
KEYS = ("any_of", "message", "one_of", "when")


def below(at, *steps):
    return at + "".join("/" + str(step).replace("~", "~0").replace("/", "~1") for step in steps)


def condition_fault(text, at):
    if not isinstance(text, str):
        return "WrongKind " + at
    return "Spec %s %s" % (at, FAULTS[text]) if text in FAULTS else None


def list_fault(value, at):
    """A list of conditions: its kind, then that it has some, then their texts, then what these say."""
    if not isinstance(value, list):
        return "WrongKind " + at
    wrong = next(("WrongKind " + below(at, place) for place, text in enumerate(value) if not isinstance(text, str)), None)
    faults = [] if wrong or not value else [condition_fault(text, below(at, place)) for place, text in enumerate(value)]
    return wrong or (next(filter(None, faults), None) if value else "Empty " + at)


def item_fault(value, at):
    if not isinstance(value, dict):
        return condition_fault(value, at)
    unknown = sorted((key for key in value if key not in KEYS), key=str.encode)
    if unknown:
        return "UnknownKey " + below(at, unknown[0])
    if ("any_of" in value) == ("one_of" in value):
        return "WrongKind " + at
    for key in sorted(value):
        is_wrong = "WrongKind " + below(at, key) if key == "message" and not isinstance(value[key], str) else None
        fault = list_fault(value[key], below(at, key)) if key.endswith("_of") else condition_fault(value[key], below(at, key)) if key == "when" else is_wrong
        if fault:
            return fault
    return None


def fault_of(packages):
    """The first fault of the settings' packages, which are right but for `require` and for unknown keys."""
    bad = sorted((name for name in packages if not re.fullmatch("[A-Za-z0-9_][A-Za-z0-9_-]*", name)), key=str.encode)
    if bad:
        return "UnknownKey " + below("/packages", bad[0])
    for name in sorted(packages, key=str.encode):
        at, entry = below("/packages", name), packages[name]
        unknown = sorted(set(entry) - {"versions", "buildable", "externals", "require"}, key=str.encode)
        value = entry.get("require", [])
        if unknown:
            return "UnknownKey " + below(at, unknown[0])
        if not isinstance(value, (str, list)):
            return "WrongKind " + below(at, "require")
        faults = [item_fault(each, below(at, "require", place)) for place, each in enumerate(value)] if isinstance(value, list) else [condition_fault(value, below(at, "require"))]
        if any(faults):
            return next(filter(None, faults))
    return None


def broken_in(packages):
    """The first node of which a requirement is broken, and the place of the first such one."""
    for node in ("app", "lib", "tool"):
        value = packages.get(node, {}).get("require", [])
        for place, each in enumerate([value] if isinstance(value, str) else value):
            it = {"any_of": [each]} if isinstance(each, str) else each
            held = [node in HOLDS[text].split() for text in it.get("any_of", it.get("one_of"))]
            if node in HOLDS[it.get("when", "")].split() and (held.count(True) != 1 if "one_of" in it else True not in held):
                return "%s %d" % (node, place)
    return None


# ---- random settings, and what they are handed to


def condition(draw, wrong):
    return draw.choice([3, None, ["+p"], {}, *FAULTS, *FAULTS]) if draw.random() < wrong else draw.choice(list(HOLDS))


def item(draw, wrong, node):
    likely = [text for text in HOLDS if node in HOLDS[text].split()]  # so that not every file is broken at once
    texts = lambda: [draw.choice(likely) if likely and draw.random() < 0.6 else condition(draw, wrong) for _ in range(draw.choice([1, 1, 2, 3]))]
    if draw.random() < 0.4:
        return texts()[0]
    found = {draw.choice(["any_of", "any_of", "one_of"]): texts()}
    if draw.random() < 0.4:
        found["when"] = condition(draw, wrong)
    if draw.random() < 0.3:
        found["message"] = draw.choice(["", "why", 3 if draw.random() < 4 * wrong else "x"])
    for kind in draw.sample(range(6), 6) if draw.random() < wrong else ():
        if kind == 0:
            found[draw.choice(["spec", "policy", "a~/b", "If"])] = "+p"
        elif kind == 1:
            found.setdefault(draw.choice(["any_of", "one_of"]), texts())
        elif kind == 2:
            found.pop("any_of", None)
        elif kind == 3:
            found = {key: [] if key.endswith("_of") else value for key, value in found.items()}
        elif kind == 4:
            found = {key: "+p" if key.endswith("_of") else value for key, value in found.items()}
        if draw.random() < 0.5:
            break
    return found


def packages_of(draw, external):
    wrong = draw.choice([0, 0, 0.02, 0.08])
    packages = {"lib": {"externals": external}}
    for name in draw.sample(["app", "lib", "tool", "other", "api", "nosuch"], draw.choice([1, 2, 3, 5])):
        value = [item(draw, wrong, name) for _ in range(draw.choice([0, 1, 1, 2, 3]))]
        alone = draw.choice(value) if value and draw.random() < 0.5 else None
        value = alone if isinstance(alone, str) or alone and draw.random() < wrong else value
        packages.setdefault(name, {})["require"] = draw.choice([3, None, True]) if draw.random() < wrong / 2 else value
        if draw.random() < wrong / 4:
            packages[name][draw.choice(["requires", "Require"])] = "+p"
    if draw.random() < wrong / 4:
        packages["li~b/2"] = {"require": "+"}
    return packages


def compact(data):
    return json.dumps(data, separators=(",", ":"), sort_keys=True)


def node(name, version, compiler, external, children, **variants):
    it = {
        "compiler": compiler and {"name": "gcc", "version": compiler}, "dependencies": children, "external": external, "name": name, "os": "ubuntu22.04", "target": "x86_64",
        "variants": {key: [value] for key, value in variants.items()}, "version": version,
    }
    return {**it, "hash": base64.b32encode(hashlib.sha256(compact(it).encode()).digest()[:20]).decode().lower()}


def files():
    """Recipes, database and lock file, without the settings."""
    lib, tool = node("lib", "1.2", None, "/usr", [], p="true"), node("tool", "2.0", "11.4.0", None, [], p="false")
    edges = sorted(({"hash": child["hash"], "kinds": ["build", "link"]} for child in (lib, tool)), key=lambda edge: edge["hash"])
    app = node("app", "1", "12.3.0", None, edges, p="true", q="false")
    nodes = [{**app, "origin": "built", "entry": None}, {**lib, "origin": "external", "entry": 0}, {**tool, "origin": "installed", "entry": None}]
    recipes = {
        "app": ['version("1")', 'variant("p", default=True)', 'variant("q", default=False)', 'depends_on("lib")', 'depends_on("tool")', 'depends_on("api")'],
        "lib": ['version("1.2")', 'variant("p", default=True)', 'provides("api@1:2")'], "tool": ['version("2.0")', 'variant("p", default=True)'], "other": ['version("1")'],
    }
    found = {"r/packages/%s/package.py" % name: "class %s(Package):\n" % name.title() + "".join("    %s\n" % line for line in lines) for name, lines in recipes.items()}
    return {
        **found, "d": compact({"records": [tool], "version": 1}),
        "l": compact({"nodes": nodes, "providers": {"api": "lib"}, "roots": [{"hash": app["hash"], "spec": "app"}], "version": 1}) + "\n",
    }


def main():
    parser = argparse.ArgumentParser(description=__doc__, formatter_class=argparse.RawDescriptionHelpFormatter)
    parser.add_argument("--program", default=os.path.join(TOP, "spack_concretize"))
    parser.add_argument("--settings", type=int, default=1000)
    parser.add_argument("--seed", type=int, default=1)
    options = parser.parse_args()
    draw, counts, program = random.Random(options.seed), collections.Counter(), os.path.abspath(options.program)
    with tempfile.TemporaryDirectory() as folder:
        for path, text in files().items():
            os.makedirs(os.path.dirname(os.path.join(folder, path)), exist_ok=True)
            with open(os.path.join(folder, path), "w") as file:
                file.write(text)
        for number in range(options.settings):
            packages = packages_of(draw, [{"spec": "lib@1.2", "prefix": "/usr"}])
            with open(os.path.join(folder, "s"), "w") as file:
                json.dump({"packages": packages}, file)
            done = subprocess.run([program, "judge", "r", "s", "d", "l", "app"], cwd=folder, capture_output=True, text=True)
            got = done.stderr.strip() or done.stdout.split("\n")[0]
            fault = fault_of(packages)
            broken = None if fault else broken_in(packages)
            wanted = "bad input: settings: " + fault if fault else "refused: graph Required " + broken if broken else "valid"
            if got != wanted:
                print("%d: wanted %r, got %r\n%s" % (number, wanted, got, json.dumps(packages)))
                sys.exit(1)
            counts[wanted if wanted == "valid" else "Required " + broken.split()[0] if broken else fault.split()[0]] += 1
    print("%d settings, 0 differences: %s" % (options.settings, ", ".join("%d %s" % (count, name) for name, count in counts.most_common())))


if __name__ == "__main__":
    main()
