#!/usr/bin/env python3
"""Solves the problems of files of cases by the program and by gringo and clasp, and compares answers and times.

    bench/concretize.sh [--program PROGRAM] [--before PROGRAM] [OPTION..] FILE..

A case is a line of JSON, in a file that may be packed by gzip: `name`; `files`, from paths to base64 texts; `words`, those of a
`concretize`: REPO SETTINGS DATABASE LOCK CERT SPEC... Other cases, and those that the program refuses, are counted and left out.
Both have to answer alike: that there is no graph, or the same 31 numbers.

Times are seconds of the processor, the least of some runs, with reading left out. Of the program's run that of a run over the
same files with an unknown root is taken away; of the other only gringo and clasp count, and not what writes the facts. The ratio
is the program's time over the other's. It is told a second time with what gringo and clasp need over no facts taken away too, as
the program's start is: for small problems that is nearly all of their time.

With --before a second program solves each problem right behind the first, so that both have the same machine: its ratios are told
too, and what of its time the first one takes.
"""
import argparse
import base64
import gzip
import json
import os
import resource
import signal
import statistics
import subprocess
import sys
import tempfile
import time

from facts import facts

HERE = os.path.dirname(os.path.abspath(__file__))
LIMIT = 3.0  # rows slower than so many times the other are listed
DONE, UNSATISFIABLE = 0, 1
CLASP = "--configuration=tweety --opt-strategy=usc,one"


class TooSlow(Exception):
    pass


def spent(words, folder, options, source=None):
    """Seconds of the processor, the status and the output of a run."""
    before = resource.getrusage(resource.RUSAGE_CHILDREN)
    words = ["prlimit", "--cpu=%d" % options.seconds, *words]
    done = subprocess.run(words, cwd=folder, stdin=source, capture_output=True)
    if done.returncode in (-signal.SIGXCPU, -signal.SIGKILL):
        raise TooSlow(words[2])
    after = resource.getrusage(resource.RUSAGE_CHILDREN)
    seconds = after.ru_utime - before.ru_utime
    if not options.user:
        seconds += after.ru_stime - before.ru_stime
    return seconds, done.returncode, done.stdout.decode(errors="replace"), done.stderr.decode(errors="replace")


def unpack(case, folder):
    for path, content in case["files"].items():
        target = os.path.join(folder, path)
        os.makedirs(os.path.dirname(target), exist_ok=True)
        with open(target, "wb") as file:
            file.write(base64.b64decode(content))


# ---- the two


def run_program(program, words, folder, options):
    """The seconds of a run, and the answer: the vector, None for no graph; or the line of a refusal."""
    seconds, status, out, said = spent([program, *words], folder, options)
    if status == DONE:
        return seconds, [int(number) for number in out.splitlines()[-1].split()[1:]]
    if status == UNSATISFIABLE:
        return seconds, None
    return seconds, said.strip() or "status %d" % status


def reading_seconds(program, words, folder, options):
    _, repo, settings, database, lock, cert, *_ = words
    unknown = [program, "concretize", repo, settings, database, lock, cert, "no-such-package"]
    seconds, _, _, said = spent(unknown, folder, options)
    assert "UnknownRoot" in said, said
    return seconds


def priorities(ground):
    """The priorities that the ground program has something to be minimised at, the highest first."""
    found = set()
    with open(ground) as file:
        for line in file:
            if line.startswith("2 "):
                found.add(int(line.split()[1]))
    return sorted(found, reverse=True)


def run_other(folder, options):
    """The seconds of gringo and of clasp over the facts in the folder, and the answer as above."""
    ground = os.path.join(folder, "ground")
    words = ["gringo", "-Wno-atom-undefined", options.profile, "facts.lp"]
    grounding, status, out, said = spent(words, folder, options)
    assert status == 0, said
    with open(ground, "w") as file:
        file.write(out)
    with open(ground) as file:
        words = ["clasp", "--outf=2", "--quiet=1,1,2", *options.clasp.split()]
        solving, status, out, said = spent(words, folder, options, file)
    answer = json.loads(out)
    if answer["Result"] == "UNSATISFIABLE":
        return grounding, solving, None
    levels = priorities(ground)
    # where nothing can cost anything, there is nothing to be minimised
    assert answer["Result"] == ("OPTIMUM FOUND" if levels else "SATISFIABLE"), (answer["Result"], said)
    costs = dict(zip(levels, answer["Models"]["Costs"], strict=True)) if levels else {}
    return grounding, solving, [costs.get(priority, 0) for priority in range(31, 0, -1)]


# ---- one case


class Row:
    """A case that all answered: the answers, and the seconds of the programs, gringo and clasp."""

    def __init__(self, name):
        self.name, self.facts_seconds = name, 0.0
        self.answers, self.program_seconds, self.reading_seconds = {}, {}, {}  # by program

    def is_refused(self):
        return any(isinstance(answer, str) for answer in self.answers.values())

    def has_one_answer(self):
        return all(answer == self.other for answer in self.answers.values())

    def ratio(self, program, start=0.0):
        """What a program took of the time of gringo and clasp, of which that of their start may be taken away."""
        return self.program_seconds[program] / max(self.ground_seconds + self.solve_seconds - start, 0.001)


def compared(case, options):
    row = Row(case["name"])
    with tempfile.TemporaryDirectory() as folder:
        unpack(case, folder)
        words = case["words"]
        if options.no_certificate:
            words = [*words[:5], "-", *words[6:]]
        runs = range(1 if options.no_times else options.runs)
        tries = [{which: run_program(path, words, folder, options) for which, path in options.programs.items()} for _ in runs]
        row.answers = {which: answer for which, (_, answer) in tries[0].items()}
        if row.is_refused():
            return row
        begun = time.process_time()
        here = [path if path == "-" else os.path.join(folder, path) for path in words[1:4]]
        with open(os.path.join(folder, "facts.lp"), "w") as file:
            file.write(facts(*here, words[6:]))
        row.facts_seconds = time.process_time() - begun
        others = [run_other(folder, options) for _ in runs]
        row.other = others[0][2]
        if not options.no_times:
            for which, path in options.programs.items():
                reading = min(reading_seconds(path, words, folder, options) for _ in runs)
                row.program_seconds[which] = max(min(run[which][0] for run in tries) - reading, 0.0)
                row.reading_seconds[which] = reading
            row.ground_seconds, row.solve_seconds = (min(run[place] for run in others) for place in (0, 1))
    return row


# ---- all of them


def cases_of(path):
    with (gzip.open if path.endswith(".gz") else open)(path, "rt") as file:
        yield from map(json.loads, file)


def shown(answer):
    return "no graph" if answer is None else " ".join(map(str, answer))


def starting(options):
    """The seconds of starting gringo and clasp, over no program."""
    with tempfile.TemporaryDirectory() as folder:
        with open(os.path.join(folder, "facts.lp"), "w") as file:
            file.write("")
        return min(sum(run_other(folder, options)[:2]) for _ in range(5))


def tell_ratios(what, ratios):
    """The median and the worst ratio, and how many are above the limit."""
    worst = max(ratios, key=ratios.get)
    slow = sum(ratio > LIMIT for ratio in ratios.values())
    print("%s: median %.2f, worst %.2f (%s); %d of %d rows slower than %g times" % (
        what, statistics.median(ratios.values()), ratios[worst], worst, slow, len(ratios), LIMIT))


def tell_times(rows, options):
    ground, solve, written = (sum(getattr(row, word) for row in rows) for word in ("ground_seconds", "solve_seconds", "facts_seconds"))
    print("seconds: gringo %.2f and clasp %.2f, together %.2f; facts, not counted, %.2f" % (ground, solve, ground + solve, written))
    for which in options.programs:
        print("%s: seconds %.2f" % (which, sum(row.program_seconds[which] for row in rows)))
        tell_ratios("%s: ratio" % which, {row.name: row.ratio(which) for row in rows})
        tell_ratios("%s: without the start of gringo and clasp, %.3f s" % (which, options.start),
                    {row.name: row.ratio(which, options.start) for row in rows})
        for row in sorted(rows, key=lambda row: -row.ratio(which, options.start)):
            if row.ratio(which, options.start) > LIMIT:
                print("  %-24s %8.3f s, %8.3f s, ratio %.2f, %.2f" % (
                    row.name, row.program_seconds[which], row.ground_seconds + row.solve_seconds, row.ratio(which),
                    row.ratio(which, options.start)))
    if options.before:
        both = {row.name: (row.program_seconds["program"], max(row.program_seconds["before"], 0.001)) for row in rows}
        tell_ratios("program to before", {name: now / before for name, (now, before) in both.items()})


def tell_row(row, options):
    for which in options.programs:
        print("%-24s %s %.4f s (reading %.4f s), gringo %.4f s, clasp %.4f s, ratio %.2f, %.2f" % (
            row.name, which, row.program_seconds[which], row.reading_seconds[which], row.ground_seconds, row.solve_seconds,
            row.ratio(which), row.ratio(which, options.start)), flush=True)


def main():
    parser = argparse.ArgumentParser(description=__doc__.split("\n")[0])
    parser.add_argument("files", nargs="+")
    parser.add_argument("--program", required=True)
    parser.add_argument("--before", help="a second program, whose times are told beside the first one's")
    parser.add_argument("--user", action="store_true", help="only seconds in user mode count")
    parser.add_argument("--every", type=int, default=1, help="only each so many-th case")
    parser.add_argument("--from", type=int, default=0, dest="first", help="the place of the first case, from 0")
    parser.add_argument("--most", type=int, default=None, help="no more than so many cases")
    parser.add_argument("--runs", type=int, default=3, help="of so many runs the least time counts")
    parser.add_argument("--no-times", action="store_true", help="only the answers are compared, in one run each")
    parser.add_argument("--seconds", type=int, default=300, help="a run that takes more of a processor is cut")
    parser.add_argument("--total", type=float, default=float("inf"), help="no more cases after so many seconds")
    parser.add_argument("--rows", action="store_true", help="print a line for each case")
    parser.add_argument("--no-certificate", action="store_true", help="the program writes no log of its search")
    parser.add_argument("--profile", default=os.path.join(HERE, "profile.lp"), help="another logic program")
    parser.add_argument("--clasp", default=CLASP, help="the words of clasp (%(default)s)")
    options = parser.parse_args()
    options.profile = os.path.abspath(options.profile)
    options.programs = {which: os.path.abspath(path) for which, path in (("program", options.program), ("before", options.before)) if path}
    options.start = 0.0 if options.no_times else starting(options)
    rows, apart, left_out, begun = [], 0, {}, time.monotonic()

    def leave(why):
        left_out[why] = left_out.get(why, 0) + 1

    for path in options.files:
        for place, case in enumerate(cases_of(path)):
            if place < options.first or (place - options.first) % options.every or len(rows) == options.most:
                continue
            if time.monotonic() - begun > options.total:
                print("stopped at case %d of %s" % (place, path))
                break
            if case["words"][0] != "concretize":
                leave("other commands")
                continue
            try:
                row = compared(case, options)
            except TooSlow as fault:
                leave("cut after %d s" % options.seconds)
                print("%s: cut: %s" % (case["name"], fault), flush=True)
                continue
            if row.is_refused():
                leave("refused by the program")
                continue
            rows.append(row)
            if not row.has_one_answer():
                apart += 1
                print("%s: the answers differ" % row.name)
                for which, answer in [*row.answers.items(), ("other", row.other)]:
                    print("  %-7s %s" % (which, shown(answer)))
            if options.rows and not options.no_times:
                tell_row(row, options)
    graphs = sum(row.answers["program"] is not None for row in rows)
    print("%d problems compared, %d with a graph and %d without; %d answers differ" % (len(rows), graphs, len(rows) - graphs, apart))
    for why, count in left_out.items():
        print("%d left out: %s" % (count, why))
    if rows and not options.no_times:
        tell_times(rows, options)
    sys.exit(1 if apart else 0)


if __name__ == "__main__":
    main()
