#!/usr/bin/env python3
"""Runs the program over long lists of every kind on a small stack. Outside the gate; needs no kit.

    bench/stack.py PROGRAM [--kib 256] [--only WORD] [--at N ..]

For each kind of list, 2,000 and 4,000 long, one line each for `concretize` and `explain` and for what can be asked of the answer (`judge` and `check` of a
lock file with its certificate, `refute` of a refutation): status, seconds of the processor, what is said first. A run
that a signal ends is marked and ends the script with 1. A run is cut off after 15 s of the processor (`cut`), and has 4 GB of addresses: that counts for nothing here, since
the search and the encoding are not what is tried.
"""
import argparse
import base64
import hashlib
import json
import os
import resource
import shutil
import signal
import subprocess
import sys
import tempfile

LONGEST = 15
LONGEST_ON_THE_CLOCK = 120
ADDRESSES = 4 << 30
SIZES = (2000, 4000)
MACHINE = {"compiler": {"name": "gcc", "version": "12.3.0"}, "external": None, "os": "ubuntu22.04", "target": "x86_64", "variants": {}}


def compact(data):
    return json.dumps(data, separators=(",", ":"), sort_keys=True)


def recipe(lines, front=""):
    return front + "class P(Package):\n" + "".join("    %s\n" % line for line in lines)


def one(lines, front=""):
    """A repository of p alone."""
    return {"r/packages/p/package.py": recipe(lines, front)}


def with_node(name, lines, more):
    return one(lines) | {"r/packages/%s/package.py" % name: recipe(more)}


def rows(count, form, first='version("1")'):
    return one([first] + [form % ((i,) * form.count("%d")) for i in range(count)])


def joined(count, form, between=", "):
    return between.join(form % ((i,) * form.count("%d")) for i in range(count))


def settings(files, data):
    return files | {"s": compact(data)}


def node(name, version, children=(), **more):
    record = MACHINE | {"name": name, "version": version,
                        "dependencies": [{"hash": child, "kinds": ["build", "link"]} for child in sorted(children)]} | more
    record["hash"] = base64.b32encode(hashlib.sha256(compact(record).encode()).digest()[:20]).decode().lower()
    return record


def locked(nodes, root, providers=(), roots=1):
    nodes = [record | {"entry": None, "origin": "built"} for record in nodes]
    return compact({"nodes": sorted(nodes, key=lambda n: n["name"]), "providers": dict(providers),
                    "roots": [{"hash": root["hash"], "spec": root["name"]}] * roots, "version": 2}) + "\n"


KINDS = []


def kind(name, root="p"):
    def add(make):
        KINDS.append((name, make, root))
        return make
    return add


P = 'version("1")'
# How many packages a spec may lead to.
MOST_NAMES = 1000


# ---- recipes

kind("versions")(lambda n: one(['version("1.%d")' % i for i in range(n)]))
kind("versions, each asked for", "p@:1.1")(lambda n: one(['version("1.%d", deprecated=True)' % i for i in range(n)]))
kind("a version of many parts")(lambda n: one(['version("%s")' % joined(n, "%d", ".")]))
kind("variants")(lambda n: rows(n, 'variant("a%d", default=True)'))
kind("variants, each with a condition")(lambda n: rows(n, 'variant("a%d", default=True, when="@1")'))
kind("definitions of one variant")(lambda n: rows(n, 'variant("a", default=True, when="@1.%d")'))
kind("definitions of one variant that all hold")(lambda n: rows(n, 'variant("a", default=True)  # %d'))
kind("values of a variant with one")(lambda n: one([P, 'variant("a", default="v0", values=(%s), multi=False)' % joined(n, '"v%d"')]))
kind("values of a variant with several")(lambda n: one([P, 'variant("a", default="v0", values=(%s), multi=True)' % joined(n, '"v%d"')]))
kind("values that are all the default")(
    lambda n: one([P, 'variant("a", default="%s", values=(%s), multi=True)' % (joined(n, "v%d", ","), joined(n, '"v%d"'))]))
kind("dependencies, 1,000 at most")(
    lambda n: rows(min(n, MOST_NAMES), 'depends_on("q%d")') | {"r/packages/q%d/package.py" % i: recipe([P]) for i in range(n)})
kind("dependencies on one package")(lambda n: with_node("q", [P] + ['depends_on("q@:%d", when="@1:")' % (i + 1) for i in range(n)], [P]))
kind("dependencies on nothing")(lambda n: rows(n, 'depends_on("q%d")'))
kind("dependencies with a condition")(
    lambda n: with_node("q", [P] + ['depends_on("q", when="@2.%d")' % i for i in range(n)], [P]))
kind("a dependency with a spec of many variants")(
    lambda n: with_node("q", [P, 'depends_on("q%s")' % joined(n, "+a%d", "")], [P]))
kind("a chain of dependencies, 1,000 at most", "p0")(
    lambda n: {"r/packages/p%d/package.py" % i: recipe([P] + (['depends_on("p%d")' % (i + 1)] if i + 1 < MOST_NAMES else [])) for i in range(n)})
kind("a chain of dependencies, upwards", "p9999")(
    lambda n: {"r/packages/p%d/package.py" % (9999 - i): recipe([P] + (['depends_on("p%d")' % (9998 - i)] if i + 1 < MOST_NAMES else [])) for i in range(n)})
kind("a ring of dependencies", "p0")(
    lambda n: {"r/packages/p%d/package.py" % i: recipe([P, 'depends_on("p%d", type="run")' % ((i + 1) % MOST_NAMES)]) for i in range(MOST_NAMES)})
kind("a chain that is too long", "p0")(
    lambda n: {"r/packages/p%d/package.py" % i: recipe([P] + (['depends_on("p%d")' % (i + 1)] if i + 1 < n else [])) for i in range(n)})
kind("conflicts")(lambda n: rows(n, 'conflicts("@2.%d")'))
kind("conflicts with conditions")(lambda n: rows(n, 'conflicts("@2.%d", when="@3.%d")'))
kind("conflicts below")(lambda n: with_node("q", [P, 'depends_on("q")'] + ['conflicts("^q@2.%d")' % i for i in range(n)], [P]))
kind("conflicts that refuse")(lambda n: rows(n, 'conflicts("@1")  # %d'))
kind("requirements")(lambda n: rows(n, 'requires("@1")  # %d'))
kind("requirements that refuse")(lambda n: rows(n, 'requires("@2.%d")'))
kind("a requirement of any")(lambda n: one([P, 'variant("a", default=True)', 'requires(%s, policy="any_of")' % joined(n, '"@%d"')]))
kind("a requirement of one")(lambda n: one([P, 'variant("a", default=True)', 'requires("+a", %s, policy="one_of")' % joined(n - 1, '"~a"')]))
kind("a requirement of one version")(lambda n: one([P, 'requires(%s, policy="one_of")' % joined(n, '"@%d"')]))
kind("a requirement of one that refuses")(lambda n: one([P, 'requires(%s, policy="one_of")' % joined(n, '"@1"')]))
kind("provided names")(lambda n: rows(n, 'provides("v%d")'))
kind("provided names in one line")(lambda n: one([P, "provides(%s)" % joined(n, '"v%d"')]))
kind("provisions of one name")(lambda n: one([P, 'depends_on("v")']) | {"r/packages/q/package.py": recipe([P] + ['provides("v@%d")' % i for i in range(n)])})
kind("providers of one name", "p")(
    lambda n: one([P, 'depends_on("v")']) | {"r/packages/q%d/package.py" % i: recipe([P, 'provides("v")']) for i in range(min(n, MOST_NAMES))})
kind("packages")(lambda n: one([P]) | {"r/packages/q%d/package.py" % i: recipe([P]) for i in range(n)})
kind("patches that are passed over")(lambda n: rows(n, 'patch("p%d.patch")'))
kind("resources that are passed over")(lambda n: rows(n, 'resource(name="x%d")'))
kind("comments")(lambda n: rows(n, "# %d"))
kind("texts alone")(lambda n: rows(n, '"%d"'))
kind("assignments")(lambda n: rows(n, "x%d = 1"))
kind("a long assignment")(lambda n: one([P, "x = " + joined(n, "%d", " + ")]))
kind("methods")(lambda n: rows(n, "def f%d(self): pass"))
kind("decorators")(lambda n: one([P] + ["@d%d" % i for i in range(n)] + ["def f(self): pass"]))
kind("imports")(lambda n: one([P], "".join("import m%d\n" % i for i in range(n))))
kind("builders")(lambda n: one([P], "".join("class A%dBuilder(B):\n    pass\n" % i for i in range(n))))
kind("blocks beside each other")(lambda n: one([P] + ['with when("@1"):\n        conflicts("@2.%d")' % i for i in range(n)]))
kind("blocks inside each other")(
    lambda n: one([P] + [" " * i + 'with when("@1"):' for i in range(min(n, 1300))] + [" " * min(n, 1300) + "pass"]))
kind("brackets inside each other")(lambda n: one([P, "x = " + "(" * n + "1" + ")" * n]))
kind("brackets inside each other in a call")(lambda n: one([P, 'conflicts("@2", msg=%s"a"%s)' % ("(" * n, ")" * n)]))
kind("tuples inside each other")(lambda n: one([P, 'variant("a", default="1", values=%s"1"%s)' % ("(" * n, ",)" * n)]))
kind("open brackets")(lambda n: one([P, "x = " + "[({" * n]))
kind("signs in a row")(lambda n: one([P, 'variant("a", default=%s1)' % ("-" * n)]))
kind("texts beside each other")(lambda n: one([P, "conflicts(%s)" % joined(n, '""', " ").replace('""', '"@2"', 1)]))
kind("lines that go on")(lambda n: one([P, "x = \\\n" * n + "1"]))
kind("a condition of many variants")(lambda n: one([P, 'conflicts("%s")' % joined(n, "+a%d", "")]))
kind("a condition of many parts")(lambda n: one([P, 'conflicts("p %s")' % joined(n, "^q%d", " ")]))
kind("a condition of many versions")(lambda n: one([P, 'conflicts("@%s")' % joined(n, "2.%d", ",")]))
kind("a condition of many targets")(lambda n: one([P, 'conflicts("target=%s")' % joined(n, "t%d", ",")]))
kind("a condition of many values")(lambda n: one([P, 'conflicts("a=%s")' % joined(n, "t%d", ",")]))
kind("positional arguments")(lambda n: one(["version(%s)" % joined(n, '"%d"')]))
kind("keywords that are passed over")(lambda n: one(['version("1", %s)' % joined(n, "k%d=1")]))

# ---- specs of the command line

SPEC_KINDS = [
    ("a spec of many variants", lambda n: "p" + joined(n, "+a%d", "")),
    ("a spec of many parts", lambda n: "p " + joined(n, "^q%d", " ")),
    ("a spec of many versions", lambda n: "p@1," + joined(n, "2.%d", ",")),
    ("a spec of many values", lambda n: "p a=" + joined(n, "v%d", ",")),
    ("a spec of many targets", lambda n: "p target=x86_64," + joined(n, "t%d", ",")),
    ("many specs", lambda n: joined(n, "p@:%d", " ")),
    ("a long number", lambda n: "p@" + "1" * n),
]
for name, spec in SPEC_KINDS:
    kind(name, spec)(lambda n: one([P]))

# ---- settings

S = one([P])
kind("operating systems")(lambda n: settings(S, {"os": ["ubuntu22.04"] + ["o%d" % i for i in range(n)]}))
kind("targets")(lambda n: settings(S, {"targets": [{"name": "x86_64", "parents": []}] + [{"name": "t%d" % i, "parents": []} for i in range(n)]}))
kind("a chain of targets")(
    lambda n: settings(S, {"targets": [{"name": "x86_64", "parents": ["t0"]}]
                           + [{"name": "t%d" % i, "parents": ["t%d" % (i + 1)] if i + 1 < n else []} for i in range(n)]}))
kind("parents of a target")(
    lambda n: settings(S, {"targets": [{"name": "x86_64", "parents": ["t%d" % i for i in range(n)]}] + [{"name": "t%d" % i, "parents": []} for i in range(n)]}))
kind("compilers")(lambda n: settings(S, {"compilers": [{"name": "gcc", "version": "12.3.0"}] + [{"name": "gcc", "version": "1.%d" % i} for i in range(n)]}))
kind("a compiler's systems")(
    lambda n: settings(S, {"os": ["o%d" % i for i in range(n)], "compilers": [{"name": "gcc", "version": "12.3.0", "os": ["o%d" % i for i in range(n)]}]}))
kind("virtuals of the settings")(lambda n: settings(S, {"providers": {"v%d" % i: ["p"] for i in range(n)}}))
kind("providers of the settings")(lambda n: settings(one([P, 'provides("v")']), {"providers": {"v": ["q%d" % i for i in range(n)] + ["p"]}}))
kind("packages of the settings")(lambda n: settings(S, {"packages": {"q%d" % i: {"buildable": True} for i in range(n)}}))
kind("requirements of the settings")(lambda n: settings(S, {"packages": {"p": {"require": ["@:%d" % (i + 1) for i in range(n)]}}}))
kind("requirements of the settings that refuse")(lambda n: settings(S, {"packages": {"p": {"require": ["@2.%d" % i for i in range(n)]}}}))
kind("a requirement of one of the settings")(lambda n: settings(S, {"packages": {"p": {"require": [{"one_of": ["@%d" % (i + 1) for i in range(n)]}]}}}))
kind("packages of which the settings require")(lambda n: settings(S, {"packages": {"q%d" % i: {"require": "@1"} for i in range(n)}}))
kind("versions of the settings")(lambda n: settings(S, {"packages": {"p": {"versions": ["=1.%d" % i for i in range(n)]}}}))
kind("externals")(
    lambda n: settings(S, {"packages": {"p": {"buildable": False, "externals": [{"spec": "p@=1", "prefix": "/%d" % i} for i in range(n)]}}}))
kind("an external of many variants")(
    lambda n: settings(rows(n, 'variant("a%d", default=True)'), {"packages": {"p": {"externals": [{"spec": "p@1" + joined(n, "+a%d", ""), "prefix": "/"}]}}}))
kind("JSON inside each other")(lambda n: S | {"s": "[" * n})

# ---- databases

def database(records):
    return compact({"records": sorted(records, key=lambda record: record["hash"]), "version": 2})


def chained(count):
    count = min(count, MOST_NAMES)
    nodes = [node("q%d" % (count - 1), "1")]
    for i in range(count - 2, -1, -1):
        nodes.append(node("q%d" % i, "1", [nodes[-1]["hash"]]))
    return nodes


def starred(count):
    leaves = [node("q%d" % i, "1") for i in range(min(count, MOST_NAMES))]
    return leaves + [node("p", "1", [leaf["hash"] for leaf in leaves])]


def named(count):
    """A node over another one that provides as many virtuals to it."""
    child = node("q", "1")
    virtuals = sorted("v%d" % i for i in range(count))
    return [child, node("p", "1", dependencies=[{"hash": child["hash"], "kinds": ["build", "link"], "virtuals": virtuals}])]


def provided(count):
    return with_node("q", [P] + ['depends_on("v%d")' % i for i in range(count)], [P] + ['provides("v%d")' % i for i in range(count)])


def chain_recipes(count):
    count = min(count, MOST_NAMES)
    return {"r/packages/q%d/package.py" % i: recipe([P] + (['depends_on("q%d")' % (i + 1)] if i + 1 < count else [])) for i in range(count)}


def star_recipes(count):
    count = min(count, MOST_NAMES)
    return rows(count, 'depends_on("q%d")') | {"r/packages/q%d/package.py" % i: recipe([P]) for i in range(count)}


def valued(count):
    return node("p", "1", variants={"a%d" % i: ["true"] for i in range(count)})


kind("records")(lambda n: S | {"d": database([node("p", "1.%d" % i) for i in range(n)])})
kind("records of other packages")(lambda n: S | {"d": database([node("q%d" % i, "1") for i in range(n)])})
kind("a chain of records", "q0")(lambda n: chain_recipes(n) | {"d": database(chained(n))})
kind("dependencies of a record")(lambda n: star_recipes(n) | {"d": database(starred(n))})
kind("virtuals of a dependency")(lambda n: provided(n) | {"d": database(named(n))})
kind("variants of a record")(lambda n: rows(n, 'variant("a%d", default=True)') | {"d": database([valued(n)])})
kind("values of a record")(
    lambda n: one([P, 'variant("a", default="v0", values=(%s), multi=True)' % joined(n, '"v%d"')])
    | {"d": database([node("p", "1", variants={"a": sorted("v%d" % i for i in range(n))})])})

# ---- lock files that are written by hand, and judged

kind("lock: variants")(lambda n: rows(n, 'variant("a%d", default=True)') | {"l": locked([valued(n)], valued(n))})
kind("lock: a chain", "q0")(lambda n: chain_recipes(n) | {"l": locked(chained(n), chained(n)[-1])})
kind("lock: edges of a node")(lambda n: star_recipes(n) | {"l": locked(starred(n), starred(n)[-1])})
kind("lock: virtuals of an edge")(lambda n: provided(n) | {"l": locked(named(n), named(n)[-1], [("v%d" % i, "q") for i in range(n)])})
kind("lock: nodes that no recipe makes")(lambda n: S | {"l": locked([node("p", "1")] + [node("q%d" % i, "1") for i in range(n)], node("p", "1"))})
kind("lock: roots")(lambda n: S | {"l": locked([node("p", "1")], node("p", "1"), roots=n)})
kind("lock: providers")(lambda n: S | {"l": locked([node("p", "1")], node("p", "1"), [("v%d" % i, "p") for i in range(n)])})
kind("lock: JSON inside each other")(lambda n: S | {"l": '{"a":' * n})

# ---- certificates that are written by hand: what comes behind the right first line, of V variables and C clauses

CERTIFICATES = [
    ("certificate: many learnt clauses", lambda n, v, c: "".join("l %d 1 %d 0 1 0\n" % (c + i + 1, i + 2) for i in range(n))),
    ("certificate: a long clause", lambda n, v, c: "l %d %s 0 1 0\n" % (c + 1, " ".join(str(i + 1) for i in range(n)))),
    ("certificate: a clause of one variable", lambda n, v, c: "l %d %s 0 1 0\n" % (c + 1, " ".join(["1", "-1"] * n))),
    ("certificate: a long chain", lambda n, v, c: "l %d 1 0 %s 0\n" % (c + 1, joined(n, "1", " "))),
    ("certificate: a long number", lambda n, v, c: "l %s 0 1 0\n" % ("9" * n)),
    ("certificate: leading zeros", lambda n, v, c: "l %s1 0 1 0\n" % ("0" * n)),
    ("certificate: a long line", lambda n, v, c: "x" * n * 10),
    ("certificate: many bits", lambda n, v, c: "".join("z %d %d\n" % (c + i + 1, i) for i in range(n))),
    ("certificate: empty lines", lambda n, v, c: "\n" * n),
]
for name, text in CERTIFICATES:
    kind(name)(lambda n, text=text: S | {"l": locked([node("p", "1")], node("p", "1")), "c": lambda v, c: text(n, v, c)})


def limits(kib):
    def set_them():
        resource.setrlimit(resource.RLIMIT_STACK, (kib << 10, kib << 10))
        resource.setrlimit(resource.RLIMIT_AS, (ADDRESSES, ADDRESSES))
        resource.setrlimit(resource.RLIMIT_CPU, (LONGEST, LONGEST + 5))
        resource.setrlimit(resource.RLIMIT_CORE, (0, 0))
    return set_them


def run(program, kib, room, words):
    """Status (below 0: the signal; None: cut off), what is said first, seconds, MB."""
    child = subprocess.Popen([program] + words, cwd=room, stdout=subprocess.PIPE, stderr=subprocess.STDOUT, preexec_fn=limits(kib))
    spent = resource.getrusage(resource.RUSAGE_CHILDREN)
    cut = False
    try:
        said = child.communicate(timeout=LONGEST_ON_THE_CLOCK)[0]
    except subprocess.TimeoutExpired:
        child.kill()
        said = child.communicate()[0]
        cut = True
    after = resource.getrusage(resource.RUSAGE_CHILDREN)
    seconds = after.ru_utime + after.ru_stime - spent.ru_utime - spent.ru_stime
    first = said.decode("latin-1").split("\n", 1)[0]
    cut = cut or child.returncode == -signal.SIGXCPU
    return (None if cut else child.returncode), first[:60], seconds


def commands(files, spec, status):
    """What is asked of the files, and of what `concretize` wrote."""
    settings_word, database_word = ("s" if "s" in files else "-"), ("d" if "d" in files else "-")
    front = ["r", settings_word, database_word]
    if status is None:
        if "l" not in files:
            return [("concretize", ["concretize"] + front + ["l", "c", spec]), ("explain", ["explain"] + front + [spec])]
        asked = [("judge", ["judge"] + front + ["l", spec])]
        if "c" in files:
            asked += [("check", ["check"] + front + ["l", "c", spec]), ("refute", ["refute"] + front + ["c", spec])]
        return asked
    if status == 0:
        return [("judge", ["judge"] + front + ["l", spec]), ("check", ["check"] + front + ["l", "c", spec])]
    if status == 1:
        return [("refute", ["refute"] + front + ["c", spec])]
    return []


def shown(status):
    return "cut" if status is None else signal.Signals(-status).name if status < 0 else str(status)


def certificate(program, room, spec, text):
    """The first line of the certificate that `concretize` writes, and what comes behind it."""
    subprocess.run([program, "concretize", "r", "-", "-", "x", "y", spec], cwd=room, capture_output=True)
    first = open(os.path.join(room, "y")).readline()
    return first + text(int(first.split()[2]), int(first.split()[3]))


def tried(program, kib, name, files, spec, count):
    """One line for each run; how many there were, and how many a signal ended."""
    room = tempfile.mkdtemp(prefix="stack-")
    ended = runs = 0
    try:
        for path, text in files.items():
            if callable(text):
                text = certificate(program, room, spec, text)
            path = os.path.join(room, path)
            os.makedirs(os.path.dirname(path), exist_ok=True)
            with open(path, "w") as file:
                file.write(text)
        todo, wrote = commands(files, spec, None), False
        while todo:
            verb, words = todo.pop(0)
            status, said, seconds = run(program, kib, room, words)
            killed = status is not None and status < 0
            ended, runs = ended + killed, runs + 1
            print("%-8s %-10s %6d %7.2f s  %s: %s" % (shown(status), verb, count, seconds, name, said), flush=True)
            if verb == "concretize" and status in (0, 1):
                todo = commands(files, spec, status) + todo
    finally:
        shutil.rmtree(room, ignore_errors=True)
    return runs, ended


def main():
    parser = argparse.ArgumentParser()
    parser.add_argument("program")
    parser.add_argument("--kib", type=int, default=256)
    parser.add_argument("--only", default="")
    parser.add_argument("--at", type=int, nargs="*")
    given = parser.parse_args()
    program = os.path.abspath(given.program)
    ended = runs = 0
    for name, make, root in KINDS:
        if given.only not in name:
            continue
        for count in given.at or (SIZES + ((10000,) if name in ("variants", "lock: variants") else ())):
            more, killed = tried(program, given.kib, name, make(count), root(count) if callable(root) else root, count)
            runs, ended = runs + more, ended + killed
    if not given.only:
        for packages, name in (("100", "100 packages"), ("1000", "1,000 packages"), ("0" * 100000 + "1", "a number of 100,001 digits")):
            room = tempfile.mkdtemp(prefix="stack-")
            status, said, seconds = run(program, given.kib, room, ["trial", packages, "7"])
            shutil.rmtree(room)
            ended, runs = ended + (status is not None and status < 0), runs + 1
            print("%-8s %-10s %6s %7.2f s  %s: %s" % (shown(status), "trial", "", seconds, name, said), flush=True)
    print("%d runs, %d ended by a signal; %d kinds of list" % (runs, ended, len(KINDS)))
    return min(ended, 1)


sys.exit(main())
