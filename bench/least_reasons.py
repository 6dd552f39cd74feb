#!/usr/bin/env python3
"""Checks on files of cases (`bench/concretize/README.md`) that each list of `reasons` is least, by the answers to other problems:
nothing of how it was found, and no graph that it prints, is believed.

    bench/least_reasons.py [--program PROGRAM] [--judge PROGRAM] [--skip COUNT] [--count COUNT] [--seconds SECONDS] FILE..

For each list the recipes, the settings and the request are edited until they ask for its demands alone: a `conflicts`, a `requires`, an
entry of `require` and a root that the list does not name are taken out, and a `depends_on` may be left off and is without its
constraints. Then `concretize` of JUDGE has to say that there is no graph; and with one more demand taken out it has to find one, which
`judge` calls valid. Besides, it has to find one where each package may be built only as the nodes below that demand say, and no other at all.
A list without its only root is met by the empty graph. A root that the list does not name is asked for by its package alone where the
package is among the nodes: by the rules it may be there, and need not.

It prints each list that differs, and each that JUDGE did not answer for within SECONDS of the processor a run, then how many there were and how long, and how much more processor time `reasons` took than
`explain` (the median and the worst), and the most memory. It ends with 1 where one differs. JUDGE may be an older program than PROGRAM, so that none of
its code is believed either.
"""
import argparse
import collections
import json
import os
import pathlib
import re
import resource
import signal
import statistics
import sys
import tempfile
import time

TOP = os.path.dirname(os.path.dirname(os.path.abspath(__file__)))
sys.path.insert(0, os.path.join(TOP, "site_tools"))

from bridge import answers, recipe_rows, spec_parts  # noqa: E402

from cases import cases_of, unpack

DEMAND = re.compile(r"root ([0-9]+) (.*)|([A-Za-z0-9_-]+) (depends_on|conflicts|requires|require) ([0-9]+)")
DONE, UNSATISFIABLE = 0, 1


class Run:
    """A run: its status, what it said, the seconds of the processor and the most memory in MiB."""

    def __init__(self, words, folder, seconds=None):
        out, err = [tempfile.TemporaryFile() for _ in range(2)]
        child = self.spawn(words, folder, out, err, seconds)
        _, status, used = os.wait4(child, 0)
        self.status = os.waitstatus_to_exitcode(status)
        self.seconds, self.memory = used.ru_utime + used.ru_stime, used.ru_maxrss / 1024
        for file in (out, err):
            file.seek(0)
        self.out, self.err = out.read().decode(), err.read().decode()

    @staticmethod
    def spawn(words, folder, out, err, seconds):
        child = os.fork()
        if child == 0:
            try:
                os.chdir(folder)
                if seconds:
                    resource.setrlimit(resource.RLIMIT_CPU, (seconds, seconds + 1))
                os.dup2(out.fileno(), 1)
                os.dup2(err.fileno(), 2)
                os.execv(words[0], words)
            finally:
                os._exit(127)
        return child


def read_list(said):
    """The demands of a list, each with the nodes of its graph."""
    found = []
    for line in said.splitlines():
        if line.startswith("  "):
            node = answers.node(line[2:])
            assert node or line == "  none", line
            found[-1][1].extend([line[2:]] if node else [])
        else:
            each = DEMAND.fullmatch(line)
            assert each, line
            found.append((("root", int(each[1])) if each[1] else (each[3], each[4], int(each[5])), []))
    return found


# ---- the edited problem


def edited_recipe(folder, repo, name, kept, node):
    """Writes a recipe that asks for the directives alone whose numbers are kept; with a node, one that is built as that says."""
    rows = recipe_rows.read(pathlib.Path(folder) / repo, name)
    path = os.path.join(folder, repo, "packages", name, "package.py")
    with open(path) as file:
        lines = file.read().splitlines()
    more = []
    for number, row in enumerate(rows):
        if number in kept or row.word not in ("depends_on", "conflicts", "requires"):
            continue
        line = lines[row.line - 1]
        indent = line[: len(line) - len(line.lstrip())]
        assert line.strip().startswith(row.word + "("), (name, number, line)
        if row.word != "depends_on":
            lines[row.line - 1] = indent + "pass"
            continue
        spec = spec_parts.parts(row.first())[0][0]
        more.append(f'    variant("optional_{number}", default=True)')
        bare = line.strip().replace(f'depends_on("{row.first()}"', f'depends_on("{spec.name}"', 1)
        lines[row.line - 1] = f'{indent}with when("+optional_{number}"):\n{indent}    {bare}'
    if node is not None:
        more.append(f"    requires({json.dumps(node)})" if node else '    conflicts("@:")')
    head = next(place for place, line in enumerate(lines) if line.startswith("class "))
    with open(path, "w") as file:
        file.write("\n".join([*lines[: head + 1], *more, *lines[head + 1 :]]) + "\n")


def constraint_of(line):
    """What a node's line says, as a condition; None of a node that is not built."""
    node = answers.node(line)
    if node["origin"] != "built":
        return None
    text = f"@={node['version']}"
    for variant, values in node["variants"].items():
        flags = {("true",): f"+{variant}", ("false",): f"~{variant}"}
        text += " " + flags.get(tuple(values), f"{variant}={','.join(values)}")
    own = node["compiler"]
    return text + f" %{own['name']}@={own['version']} os={node['os']} target={node['target']}"


def edited(case, demands, nodes, folder):
    """Writes the problem that asks for these demands alone, and with nodes is met by these alone. Gives its roots."""
    unpack(case, folder)
    _, repo, settings, _, _, _, *words = case["words"]
    packages = os.path.join(folder, repo, "packages")
    built = None if nodes is None else {answers.node(line)["name"]: constraint_of(line) for line in nodes}
    for name in sorted(os.listdir(packages)):
        if os.path.exists(os.path.join(packages, name, "package.py")):
            kept = {each[2] for each in demands if each[0] == name and each[1] != "require"}
            # of a package that is not built nothing is said: it may stand in the graph as it is kept
            forced = None if built is None or (name in built and built[name] is None) else built.get(name, "")
            edited_recipe(folder, repo, name, kept, forced)
    if settings != "-":
        path = os.path.join(folder, settings)
        with open(path) as file:
            site = json.load(file)
        for name, entry in site.get("packages", {}).items():
            if "require" in entry:
                items = entry["require"] if isinstance(entry["require"], list) else [entry["require"]]
                entry["require"] = [item for place, item in enumerate(items) if (name, "require", place) in demands]
        with open(path, "w") as file:
            json.dump(site, file)
    specs = spec_texts(" ".join(words))
    return [specs[each[1]] for each in sorted(demands, key=str) if each[0] == "root"]


def other_roots(case, demands):
    """The packages of the roots that are none of these demands: each may be a node, since every root is reached."""
    asked = {each[1] for each in demands if each[0] == "root"}
    return [spec[0].name for place, spec in enumerate(spec_parts.parts(" ".join(case["words"][6:]))) if place not in asked]


def spec_texts(text):
    """The roots of a request, each as a text."""
    return [spec_parts.text_of(spec) for spec in spec_parts.parts(text)]


class OutOfTime(Exception):
    """The other program did not answer in time."""


class Judge:
    """Asks another program about edited problems."""

    def __init__(self, program, case, seconds):
        self.program, self.case, self.seconds = program, case, seconds

    def ask(self, demands, nodes=None, there=()):
        """Whether there is a graph for these demands alone that has these packages besides; a graph has to be called valid. What the program
        says where it refuses the problem."""
        with tempfile.TemporaryDirectory() as folder:
            roots = [*edited(self.case, demands, nodes, folder), *there]
            if not roots:
                return True
            _, repo, settings, database, *_ = self.case["words"]
            words = [repo, settings, database, "judged.lock"]
            found = Run([self.program, "concretize", *words, "-", *roots], folder, self.seconds)
            if found.status in (-signal.SIGXCPU, -signal.SIGKILL):
                raise OutOfTime
            if found.status not in (DONE, UNSATISFIABLE):
                return found.err.strip() or f"status {found.status}"
            if found.status == DONE:
                said = Run([self.program, "judge", *words, *roots], folder)
                assert said.out.startswith("valid\n"), said.out + said.err
            return found.status == DONE


def checked(judge, found):
    """What is wrong with a list."""
    demands = [demand for demand, _ in found]
    if len(set(demands)) != len(demands):
        yield "a demand stands twice"
    for there in ([], other_roots(judge.case, demands)):
        whole = judge.ask(demands, there=there)
        if whole is not False:
            yield f"the demands can be met together: {whole}"
    for place, (demand, nodes) in enumerate(found):
        others = demands[:place] + demands[place + 1 :]
        names = {answers.node(line)["name"] for line in nodes}
        there = [name for name in other_roots(judge.case, others) if name in names]
        without = judge.ask(others, there=there)
        if without is not True:
            yield f"{demand} can be left out: {without}"
        if nodes:
            shown = judge.ask(others, nodes, there)
            if shown is not True:
                yield f"no graph is as said below {demand}: {shown}"


def main():
    parser = argparse.ArgumentParser(description=__doc__, formatter_class=argparse.RawDescriptionHelpFormatter)
    parser.add_argument("--program", default=os.path.join(TOP, "release", "spack_concretize-x86_64-linux"))
    parser.add_argument("--judge", help="PROGRAM where it is not given")
    parser.add_argument("--skip", type=int, default=0)
    parser.add_argument("--count", type=int)
    parser.add_argument("--seconds", type=int, help="of the processor, for a run of JUDGE")
    parser.add_argument("--no-check", action="store_true", help="times alone")
    parser.add_argument("file", nargs="+")
    options = parser.parse_args()
    options.program = os.path.abspath(options.program)
    judge_program = os.path.abspath(options.judge or options.program)
    count, wrong = collections.Counter(), 0
    ratios, lengths, worst, memory, begun = [], [], (0.0, ""), 0.0, time.monotonic()
    for file in options.file:
        for number, case in enumerate(cases_of(file)):
            if number < options.skip or options.count is not None and number >= options.skip + options.count:
                continue
            with tempfile.TemporaryDirectory() as folder:
                unpack(case, folder)
                _, repo, settings, database, _, _, *specs = case["words"]
                words = [repo, settings, database, *specs]
                least = Run([options.program, "reasons", *words], folder)
                first = Run([options.program, "explain", *words], folder)
            faults = []
            if least.status != first.status or (least.status != UNSATISFIABLE and (least.out, least.err) != (first.out, first.err)):
                faults.append(f"reasons ends with {least.status}, explain with {first.status}: {least.err}{first.err}")
            count[least.status] += 1
            memory = max(memory, least.memory)
            if least.status == UNSATISFIABLE and first.status == UNSATISFIABLE:
                ratio = least.seconds / max(first.seconds, 0.001)
                ratios.append(ratio)
                worst = max(worst, (ratio, f"{case['name']}: {least.seconds:.2f} s, explain {first.seconds:.2f} s"))
                found = read_list(least.out)
                lengths.append((len(found), len(first.out.splitlines())))
                if len(found) > len(first.out.splitlines()):
                    count["longer than explain's"] += 1
                try:
                    if not options.no_check:
                        faults += checked(Judge(judge_program, case, options.seconds), found)
                except OutOfTime:
                    count["not judged in time"] += 1
                    print(f"{file} {number} {case['name']}: not judged in time, {len(found)} demands", flush=True)
            for fault in faults:
                print(f"{file} {number} {case['name']}: {fault}", flush=True)
            wrong += bool(faults)
    print(f"{sum(count[status] for status in count if isinstance(status, int))} cases: {dict(count)}; {wrong} differ; {time.monotonic() - begun:.0f} s")
    if ratios:
        print(f"unsatisfiable: {len(ratios)}; demands: {sum(a for a, _ in lengths)} where explain names {sum(b for _, b in lengths)}")
        print(f"time over explain's: median {statistics.median(ratios):.2f}, worst {worst[0]:.2f} ({worst[1]}); most memory {memory:.0f} MiB")
    return 1 if wrong else 0


if __name__ == "__main__":
    sys.exit(main())
