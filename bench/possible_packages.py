#!/usr/bin/env python3
"""Tries and times the limit of 1,024 packages that specs can lead to, outside the gate.

    bench/possible_packages.py PROGRAM

First the limit: 1,025 names are `too large: packages` under `judge`, whether LOCK is there or not; with 1,024 names the run goes
on to LOCK. The names are those of recipes, of externals, and of records; a name that is none of these does not count, and a
condition that never holds takes no name away. Then times, a line each: the seconds of the processor (best of three) of
`judge` with a LOCK that is missing, of the same where the root needs nothing, and of their difference, which is that of the names.
"""
import base64
import hashlib
import json
import os
import resource
import subprocess
import sys
import tempfile

LIMIT = 1024
failures = []


def compact(data):
    return json.dumps(data, separators=(",", ":"), sort_keys=True)


def record(name, children=()):
    made = {"compiler": None, "dependencies": [{"hash": child, "kinds": ["link"]} for child in sorted(children)], "external": None,
            "name": name, "os": "ubuntu22.04", "target": "x86_64", "variants": {}, "version": "1"}
    made["hash"] = base64.b32encode(hashlib.sha256(compact(made).encode()).digest()[:20]).decode().lower()
    return made


class Room:
    """A folder with a repository `r`, settings `s`, a database `d` and a lock file `l`."""

    def __init__(self, folder):
        self.folder = folder
        os.makedirs(folder)

    def write(self, path, text):
        path = os.path.join(self.folder, path)
        os.makedirs(os.path.dirname(path), exist_ok=True)
        with open(path, "w") as file:
            file.write(text)

    def recipe(self, name, lines):
        self.write("r/packages/%s/package.py" % name, "class P(Package):\n" + "".join("    %s\n" % line for line in lines))

    def externals(self, names):
        entry = {"externals": [{"spec": None, "prefix": "/p"}]}
        self.write("s", compact({"packages": {name: {"externals": [entry["externals"][0] | {"spec": name + "@1"}]} for name in names}}))

    def records(self, records):
        self.write("d", compact({"version": 1, "records": records}))

    def judge(self, program, root):
        words = [program, "judge", "r", "s" if self.has("s") else "-", "d" if self.has("d") else "-", "l", root]
        before = resource.getrusage(resource.RUSAGE_CHILDREN)
        done = subprocess.run(words, cwd=self.folder, capture_output=True, text=True)
        after = resource.getrusage(resource.RUSAGE_CHILDREN)
        return done.stderr.strip(), after.ru_utime + after.ru_stime - before.ru_utime - before.ru_stime

    def has(self, path):
        return os.path.exists(os.path.join(self.folder, path))


def wants(what, got, wanted):
    if got != wanted:
        failures.append(what)
        print("WRONG %s: wanted %r, got %r" % (what, wanted, got))


def needs(names):
    return ['version("1")'] + ['depends_on("%s")' % name for name in names]


def of_recipes(room, names):
    for name in names:
        room.recipe(name, needs([]))


def of_externals(room, names):
    room.externals(names)


def of_records(room, names):
    room.records([record(name) for name in names])


def of_providers(room, names):
    for name in names:
        room.recipe(name, ['version("1")', 'provides("v", when="@2")'])


def of_children(room, names):
    children = [record(name) for name in names[1:]]
    room.records(children + [record(names[0], [child["hash"] for child in children])])


KINDS = [
    ("recipes", of_recipes, lambda names: needs(names)),
    ("recipes under conditions", of_recipes, lambda names: ['version("1")'] + ['depends_on("%s", when="@2")' % name for name in names]),
    ("externals", of_externals, lambda names: needs(names)),
    ("records", of_records, lambda names: needs(names)),
    ("providers", of_providers, lambda names: needs(["v"])),
    ("children of a record", of_children, lambda names: needs(names[:1])),
    ("recipes beside names that are none", of_recipes, lambda names: needs(names + ["none%d" % i for i in range(50)])),
]


def try_limit(program, room):
    for place, (kind, make, lines_of) in enumerate(KINDS):
        for count in (LIMIT, LIMIT + 1):
            here = Room("%s/%d-%d" % (room, place, count))
            names = ["p%04d" % i for i in range(count - 1)]
            make(here, names)
            here.recipe("root", lines_of(names))
            over = count > LIMIT
            wants("%d %s, no LOCK" % (count, kind), here.judge(program, "root")[0], "too large: packages" if over else "bad input: missing l")
            here.write("l", "{")
            wants("%d %s" % (count, kind), here.judge(program, "root")[0], "too large: packages" if over else "bad input: lock: NotJson")


def timed(program, room, root):
    return min((room.judge(program, root) for _ in range(3)), key=lambda run: run[1])


def show(program, room, what, wanted):
    said, whole = timed(program, room, "root")
    wants(what, said, wanted)
    base = timed(program, room, "alone")[1]
    print("%-58s %6.2f s  %6.2f s  %6.2f s" % (what, whole, base, whole - base), flush=True)


def chain(room, count, others):
    """A chain of names, which leads to nothing else, among other recipes."""
    room.recipe("alone", needs([]))
    for i in range(count - 1):
        room.recipe("a%05d" % i, needs(["a%05d" % (i + 1)] if i + 2 < count else []))
    for i in range(others):
        room.recipe("b%05d" % i, needs(["b%05d" % (i // 2)]))
    room.recipe("root", needs(["a00000"]))


def time_all(program, room):
    here = Room(room + "/some")
    chain(here, LIMIT, 16384 - LIMIT - 2)
    show(program, here, "1,024 of 16,384 recipes", "bad input: missing l")

    here = Room(room + "/many")
    here.recipe("alone", needs([]))
    names = ["p%05d" % i for i in range(16382)]
    for name in names:
        here.recipe(name, ['version("1")', 'provides("v")', 'depends_on("v")'])
    here.recipe("root", needs(["v"]))
    show(program, here, "16,384 recipes, each of which needs each", "too large: packages")

    here = Room(room + "/wide")
    names = ["p%04d" % i for i in range(1500)]
    here.recipe("alone", needs([]))
    for name in names:
        here.recipe(name, needs(names))
    here.recipe("root", needs(names[:1]))
    show(program, here, "1,500 recipes with a row for each of them", "too large: packages")

    here = Room(room + "/records")
    chain(here, LIMIT, 0)
    here.records([record("p%06d" % i) for i in range(100000)])
    show(program, here, "1,024 recipes, 100,000 records of other packages", "bad input: missing l")

    here = Room(room + "/none")
    here.recipe("alone", needs([]))
    names = ["p%04d" % i for i in range(LIMIT - 1)]
    for name in names:
        here.recipe(name, needs(["none%03d" % i for i in range(200)]))
    here.recipe("root", needs(names))
    here.externals(["e%05d" % i for i in range(20000)])
    here.records([record("q%05d" % i) for i in range(20000)])
    show(program, here, "200,000 names that are none, 20,000 externals and records", "bad input: missing l")

    here = Room(room + "/virtual")
    here.recipe("alone", needs([]))
    for i in range(LIMIT - 1):
        here.recipe("p%04d" % i, ['version("1")', 'provides("v")'])
    here.recipe("root", ['version("1")'] + ['depends_on("v", when="@%d")' % i for i in range(20000)])
    show(program, here, "20,000 rows for a virtual of 1,023 providers", "bad input: missing l")


def main():
    program = os.path.abspath(sys.argv[1])
    with tempfile.TemporaryDirectory() as room:
        try_limit(program, room + "/limit")
        print("%-58s %8s  %8s  %8s" % ("", "whole", "alone", "names"))
        time_all(program, room)
    print("%d wrong" % len(failures))
    sys.exit(1 if failures else 0)


if __name__ == "__main__":
    main()
