#!/usr/bin/env python3
"""How long `check` and `refute` take beside `concretize`, and how long the logs are that they read.

    bench/checker/checks.py --program PROGRAM [--before PROGRAM] [--runs N] [--first N] [--jobs N] [--writing] FILE.. [--cases N..]

A case is as in bench/concretize/compare.py; cases that the program refuses, or leaves undecided, are counted and left out. Of each
other one the best graph is found with a log, and `check` reads both, or `refute` the log where there is no graph; another word than
`accepted` ends the script. Times are seconds of the processor in user mode, the least of some runs, without those of a run over the
same files with an unknown root: what is left is what a command does with a problem that was read; whole runs are told beside it. Memory is the
most that a run had, its reading within. Of the log's bytes those are needed that `site_tools/trim_log` leaves. With --writing the graph is found
without a log too. With --before a second program does the same right behind the first.
"""
import argparse
import concurrent.futures
import os
import statistics
import subprocess
import sys
import tempfile

BENCH = os.path.join(os.path.dirname(os.path.abspath(__file__)), "..")
sys.path[:0] = [BENCH, os.path.join(BENCH, "..", "site_tools")]
sys.dont_write_bytecode = True
from bridge import proof_logs
from cases import cases_of, unpack

DONE, UNSATISFIABLE = 0, 1
LEAST = 0.0005  # seconds below which a time is none


def run(words, folder):
    """Seconds of the processor, the status, standard output, and the most memory in kB. (What a script sees of its own child is no less than the
    script had: so another program starts it.)"""
    timed = ["/usr/bin/time", "-q", "-f", "%M", *words]
    with subprocess.Popen(timed, cwd=folder, stdout=subprocess.PIPE, stderr=subprocess.PIPE) as child:
        said, told = child.stdout.read(), child.stderr.read()
        _, status, used = os.wait4(child.pid, 0)
        child.returncode = os.waitstatus_to_exitcode(status)
    return used.ru_utime, child.returncode, said, int(told.split()[-1])


class Row:
    """What one program took for one case."""

    def __init__(self, program, case, folder, writing):
        _, repo, settings, database, lock, cert, *specs = case["words"]
        front = [repo, settings, database]
        self.cert = os.path.join(folder, cert)
        self.words = {
            "find": [program, "concretize", *front, lock, cert, *specs],
            "judge": [program, "check", *front, lock, cert, *specs],
            "read": [program, "judge", *front, lock, "no-such-package"],
        }
        if writing:
            self.words["silent"] = [program, "concretize", *front, lock, "-", *specs]
        self.refuting = [program, "refute", *front, cert, *specs]
        self.seconds = {name: [] for name in self.words}
        self.memory = {}
        self.take("find", folder)

    def take(self, name, folder):
        """A run, and what it took; its output."""
        seconds, status, said, self.memory[name] = run(self.words[name], folder)
        self.seconds[name].append(seconds)
        if name == "find":
            self.status = status
        return said

    def look_at_log(self):
        if self.status == UNSATISFIABLE:
            self.words["judge"] = self.refuting
        with open(self.cert, "rb") as file:
            log = file.read()
        self.bytes, self.learnt = len(log), log.count(b"\nl ")
        self.needed = len(proof_logs.trimmed(log).text)

    def run_all(self, names, folder):
        for name in names:
            said = self.take(name, folder)
            if name == "judge" and said.strip() != b"accepted":
                raise ValueError("%r says %r" % (self.words[name], said))

    def whole(self, name):
        return max(min(self.seconds[name]), LEAST)

    def beside_reading(self, name):
        return max(self.whole(name) - self.whole("read"), LEAST)


def rows_of(case, options):
    """A row for each program; none where it is refused or left undecided."""
    with tempfile.TemporaryDirectory() as room:
        rows = []
        for place, program in enumerate(options.programs):
            folder = os.path.join(room, str(place))
            unpack(case, folder)
            rows.append((Row(program, case, folder, options.writing), folder))
        if any(row.status not in (DONE, UNSATISFIABLE) for row, _ in rows):
            return None
        for row, _ in rows:
            row.look_at_log()
        for turn in range(options.runs):
            for row, folder in rows:
                row.run_all([name for name in row.words if turn > 0 or name != "find"], folder)  # the graph was found once
        return [row for row, _ in rows]


def spread(ratios):
    return "median %.2f, %.2f to %.2f" % (statistics.median(ratios), min(ratios), max(ratios))


def tell(name, rows):
    """The lines of some rows: logs, times and memory."""
    sizes = [row.bytes for row in rows]
    print("  %s: %d; logs: median %d bytes, most %d, all %d, of which needed %d; %d learnt clauses" % (
        name, len(rows), statistics.median(sizes), max(sizes), sum(sizes), sum(row.needed for row in rows), sum(row.learnt for row in rows)))
    for words, taken in ("beside reading", Row.beside_reading), ("whole runs", Row.whole):
        finds, judges = ([taken(row, each) for row in rows] for each in ("find", "judge"))
        ratios = [judge / find for judge, find in zip(judges, finds, strict=True)]
        print("    %s, judging over finding: %s; longer in %d; seconds to judge: median %.3f, most %.2f, all %.2f; to find %.3f, %.2f, %.2f" % (
            words, spread(ratios), sum(ratio > 1 for ratio in ratios), statistics.median(judges), max(judges), sum(judges),
            statistics.median(finds), max(finds), sum(finds)))
    finds, judges = ([row.memory[each] for row in rows] for each in ("find", "judge"))
    print("    memory, judging over finding: %s; at most %d and %d kB" % (
        spread([judge / find for judge, find in zip(judges, finds, strict=True)]), max(judges), max(finds)))
    if "silent" in rows[0].words:
        print("    finding with a log over without: %s" % spread([row.whole("find") / row.whole("silent") for row in rows]))
    sys.stdout.flush()


def tell_file(file, options):
    cases = [case for place, case in enumerate(cases_of(file)) if place < options.first and (not options.cases or place in options.cases)]
    with concurrent.futures.ThreadPoolExecutor(options.jobs) as pool:
        found = list(pool.map(lambda case: rows_of(case, options), cases))
    print("%s: %d cases, %d left out" % (file, len(found), found.count(None)))
    for place, program in enumerate(options.programs):
        print(" %s" % program)
        for name, status in ("with a graph", DONE), ("without one", UNSATISFIABLE):
            rows = [each[place] for each in found if each and each[place].status == status]
            if rows:
                tell(name, rows)


def main():
    parser = argparse.ArgumentParser(description=__doc__, formatter_class=argparse.RawDescriptionHelpFormatter)
    parser.add_argument("--program", required=True)
    parser.add_argument("--before", action="append", default=[])
    parser.add_argument("--runs", type=int, default=3)
    parser.add_argument("--first", type=int, default=1 << 60, help="so many cases of each file")
    parser.add_argument("--cases", type=int, nargs="+", help="the cases at these places of each file, from 0")
    parser.add_argument("--jobs", type=int, default=1, help="so many cases beside each other")
    parser.add_argument("--writing", action="store_true", help="what writing the log costs")
    parser.add_argument("files", nargs="+")
    options = parser.parse_args()
    options.programs = [os.path.abspath(program) for program in (*options.before, options.program)]
    for file in options.files:
        tell_file(file, options)


if __name__ == "__main__":
    main()
