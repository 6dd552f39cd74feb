#!/usr/bin/env python3
"""Asks for twenty roots of a made repository, by the program and by gringo and clasp, and compares answers, times and memory.

    bench/site.sh [--program FILE] [--encoder FILE] [OPTION..]

Of each root, in turn: the program; where several are given (`--program before=FILE --program after=FILE`) one right behind the other;
then gringo and clasp over the facts of the same files (bench/concretize). Every second root is asked for over the database. All have
to answer alike: that there is no graph, or the same 31 numbers.

Times are seconds of the processor in user mode, of single runs. `whole` is a run of `concretize` with a certificate. `reading` is a run
of `explain` over the same files with a root that nothing has: it reads and parses the settings, all recipes, the database and the spec,
and is refused before the closure is made. `ratio` is whole less reading, by what gringo and clasp took; what writes the facts is
not counted. `MB` is the most memory that `concretize` had. The encoder says how many names the closure has, and how many variables
and clauses there are, of them those of the rules; the certificate says how many clauses were learnt.
"""
import argparse
import multiprocessing
import os
import resource
import signal
import statistics
import subprocess
import sys
import tempfile

import generate

HERE = os.path.dirname(os.path.abspath(__file__))
sys.path.insert(0, os.path.join(os.path.dirname(HERE), "concretize"))
from compare import CLASP, DONE, UNSATISFIABLE, TooSlow, run_other, shown  # noqa: E402
from facts import Facts  # noqa: E402
from names import Problem  # noqa: E402
from reading import read_database, read_recipe, read_settings, read_specs  # noqa: E402

SMALL = {"recipes": 600, "records": 400, "roots": "6"}
HEAD = "%-12s %3s %5s %-8s %7s %7s %7s %7s %7s %6s %5s %9s %9s %9s %9s %7s  %s" % (
    "root", "db", "names", "program", "whole", "reading", "search", "gringo", "clasp", "ratio", "MB", "variables", "of rules", "clauses",
    "of rules", "learnt", "answer")


class Run:
    """A run that has ended: seconds in user mode, megabytes, status, and what it said."""

    def __init__(self, words, folder, limit):
        before = resource.getrusage(resource.RUSAGE_CHILDREN)
        measured = ["prlimit", "--cpu=%d" % limit, "/usr/bin/time", "-q", "-o", "memory", "-f", "%M", *words]
        done = subprocess.run(measured, cwd=folder, capture_output=True, text=True)
        if done.returncode in (128 + signal.SIGXCPU, 128 + signal.SIGKILL):
            raise TooSlow(words[0])
        self.seconds = resource.getrusage(resource.RUSAGE_CHILDREN).ru_utime - before.ru_utime
        with open(os.path.join(folder, "memory")) as file:
            self.megabytes = int(file.read()) / 1000
        self.status, self.out, self.said = done.returncode, done.stdout, done.stderr.strip()

    def answer(self):
        """The vector, None for no graph, or the line of a refusal."""
        if self.status == DONE:
            return [int(number) for number in self.out.splitlines()[-1].split()[1:]]
        return None if self.status == UNSATISFIABLE else self.said or "status %d" % self.status


class Recipes:
    """The recipes of a repository for the other side, each parsed where it is asked for, since most are not."""

    def __init__(self, folder):
        self.texts, self.parsed = {}, {}
        for name in sorted(os.listdir(folder + "/packages")):
            with open("%s/packages/%s/package.py" % (folder, name)) as file:
                self.texts[name] = file.read()

    def __contains__(self, name):
        return name in self.texts

    def __getitem__(self, name):
        if name not in self.parsed:
            self.parsed[name] = read_recipe(self.texts[name])
        return self.parsed[name]

    def get(self, name):
        return self[name] if name in self else None

    def items(self):
        """Those that may provide something, which is what all recipes are looked through for."""
        return [(name, self[name]) for name, text in self.texts.items() if "provides(" in text]


class Site:
    """A made repository, as the other side reads it."""

    def __init__(self, folder, options):
        self.made = generate.make(folder, options.recipes, options.records, options.seed)
        self.repository, self.settings, self.database = folder, folder + "/settings.json", folder + "/database.json"
        self.read = Recipes(folder), read_settings(self.settings)
        self.records = read_database(self.database)

    def facts(self, with_database, root):
        problem = Problem(*self.read, self.records if with_database else [], read_specs(root))
        return Facts(problem).all()


class Row:
    """A root: what each program answered and took, and what the other side did."""

    def __init__(self, site, root, with_database):
        self.root, self.with_database = root, with_database
        self.input = [site.repository, site.settings, site.database if with_database else "-"]
        self.whole, self.reading, self.learnt, self.sizes = {}, {}, {}, {}  # by program

    def run_program(self, which, path, folder, limit):
        self.whole[which] = Run([path, "concretize", *self.input, "lock", "cert", self.root], folder, limit)
        with open(os.path.join(folder, "cert"), "rb") as file:
            self.learnt[which] = sum(line.startswith(b"l ") for line in file)
        os.remove(os.path.join(folder, "cert"))
        self.reading[which] = Run([path, "explain", *self.input, "no-such-package"], folder, limit)
        assert "UnknownRoot" in self.reading[which].said, self.reading[which].said

    def run_encoder(self, which, path, folder):
        names, rules, total = 0, ("-", "-"), ("-", "-")
        with subprocess.Popen([path, *self.input, self.root], cwd=folder, stdout=subprocess.PIPE) as encoder:
            for line in encoder.stdout:
                if line.startswith(b"c rules "):
                    rules = line.split()[2:4]
                elif line.startswith(b"p cnf "):
                    total = line.split()[2:4]
                elif line.startswith(b"c ") and line.split()[2] == b"node":
                    names += 1
        self.sizes[which] = [names, *(int(pair[place]) for place in (0, 1) for pair in (total, rules))]

    def run_other(self, site, folder, options):
        with open(os.path.join(folder, "facts.lp"), "w") as file:
            file.write(site.facts(self.with_database, self.root))
        self.gringo, self.clasp, self.other = run_other(folder, options)

    def search(self, which):
        return max(self.whole[which].seconds - self.reading[which].seconds, 0.0)

    def ratio(self, which):
        return self.search(which) / (self.gringo + self.clasp)

    def has_one_answer(self):
        return all(run.answer() == self.other for run in self.whole.values())

    def tell(self, which):
        run = self.whole[which]
        names, *sizes = self.sizes.get(which, ["-"] * 5)
        answer = run.answer()
        told = "no graph" if answer is None else answer if isinstance(answer, str) else "%d nodes" % (len(run.out.splitlines()) - 1)
        print("%-12s %3s %5s %-8s %7.2f %7.2f %7.2f %7.2f %7.2f %6.2f %5.0f %9s %9s %9s %9s %7d  %s" % (
            self.root, "db" if self.with_database else "-", names, which, run.seconds, self.reading[which].seconds, self.search(which),
            self.gringo, self.clasp, self.ratio(which), run.megabytes, *sizes, self.learnt[which], told), flush=True)

    def tell_difference(self):
        print("%s: the answers differ" % self.root)
        answers = {which: run.answer() for which, run in self.whole.items()} | {"other": self.other}
        for which, answer in answers.items():
            print("  %-8s %s" % (which, answer if isinstance(answer, str) else shown(answer)))


def tell_all(rows, which, apart):
    def both(those, word="%.2f"):
        worst = max(those, key=those.get)
        return ("median " + word + ", worst " + word + " (%s)") % (statistics.median(those.values()), those[worst], worst)

    print("%s: %d roots, %d with a graph, %d answers differ; whole s: %s; reading s: %s; search s: %s; ratio: %s; MB: %s" % (
        which, len(rows), sum(isinstance(row.whole[which].answer(), list) for row in rows), apart,
        both({row.root: row.whole[which].seconds for row in rows}), both({row.root: row.reading[which].seconds for row in rows}),
        both({row.root: row.search(which) for row in rows}), both({row.root: row.ratio(which) for row in rows}),
        both({row.root: row.whole[which].megabytes for row in rows}, "%.0f")))


def labelled(words):
    """From labels to files, of words LABEL=FILE or FILE."""
    pairs = [word.rpartition("=") for word in words]
    return {label or "program": os.path.abspath(path) for label, _, path in pairs}


def asked_for(site, options):
    """The roots, each with whether it is asked for over the database."""
    roots = site.made["roots"][:int(options.roots)] if options.roots.isdigit() else options.roots.split(",")
    return [(root, options.database == "all" or options.database == "half" and place % 2 == 1) for place, root in enumerate(roots)]


def measured(pair):
    """The row of a root, or the line of what was cut. It reads SITE and OPTIONS, since it may run in another process."""
    row = Row(SITE, *pair)
    with tempfile.TemporaryDirectory() as room:
        try:
            for which, path in OPTIONS.programs.items():
                row.run_program(which, path, room, OPTIONS.seconds)
            row.run_other(SITE, room, OPTIONS)
        except TooSlow as fault:
            return "%-12s cut after %d s: %s" % (row.root, OPTIONS.seconds, os.path.basename(str(fault)))
        for which, path in OPTIONS.encoders.items():
            row.run_encoder(which, path, room)
    return row


def measure(site, options):
    rows, apart, cut = [], 0, 0
    print(site.made["told"])
    print(HEAD, flush=True)
    with multiprocessing.get_context("fork").Pool(options.jobs) as pool:
        for row in pool.imap(measured, asked_for(site, options), 1):
            if isinstance(row, str):
                cut += 1
                print(row, flush=True)
                continue
            rows.append(row)
            for which in options.programs:
                row.tell(which)
            if not row.has_one_answer():
                apart += 1
                row.tell_difference()
    if cut:
        print("%d roots cut" % cut)
    for which in options.programs if rows else ():
        tell_all(rows, which, apart)
    return 1 if apart or cut or not rows else 0


def main():
    parser = argparse.ArgumentParser(description=__doc__.split("\n")[0])
    parser.add_argument("--program", action="append", required=True, metavar="[LABEL=]FILE", help="may be given several times")
    parser.add_argument("--encoder", action="append", default=[], metavar="[LABEL=]FILE", help="encode_dimacs of the program so labelled")
    parser.add_argument("--folder", help="where the repository is kept and found again (without: made anew, and removed)")
    parser.add_argument("--recipes", type=int, default=8000)
    parser.add_argument("--records", type=int, default=3000)
    parser.add_argument("--seed", type=int, default=1)
    parser.add_argument("--roots", default="20", help="how many of the repository's roots, or some names with commas between them")
    parser.add_argument("--database", choices=("none", "half", "all"), default="half", help="which roots are asked for over it")
    parser.add_argument("--seconds", type=int, default=120, help="a run that takes more of a processor is cut")
    parser.add_argument("--jobs", type=int, default=1, help="so many roots at once: for a machine with other work")
    parser.add_argument("--small", action="store_true", help="a run of a minute: %(const)s" % {"const": SMALL})
    parser.add_argument("--profile", default=os.path.join(os.path.dirname(HERE), "concretize", "profile.lp"), help="another logic program")
    parser.add_argument("--clasp", default=CLASP, help="the words of clasp (%(default)s)")
    options = parser.parse_args()
    if options.small:
        vars(options).update(SMALL)
    options.programs, options.encoders, options.user = labelled(options.program), labelled(options.encoder), True
    options.profile = os.path.abspath(options.profile)
    global SITE, OPTIONS
    with tempfile.TemporaryDirectory() as room:
        folder = os.path.abspath(options.folder) if options.folder else room
        os.makedirs(folder, exist_ok=True)
        SITE, OPTIONS = Site(folder, options), options
        status = measure(SITE, OPTIONS)
    sys.exit(status)


if __name__ == "__main__":
    main()
