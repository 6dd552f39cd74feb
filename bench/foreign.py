#!/usr/bin/env python3
"""Certificates and lock files that were made outside of the program, handed to `check` and `refute`: bench/foreign.sh. What was done up to an
interrupt (SIGINT) is told.

    bench/foreign.sh [--program FILE --encoder FILE] [OPTION..] FILE..

A case is a line of JSON, in a file that may be packed by gzip: `name`; `files`, from paths to base64 texts; `words`, those of a
`concretize`: REPO SETTINGS DATABASE LOCK CERT SPEC... Other cases, and those of which there are no clauses, are passed over.

Each problem goes from `encode_dimacs` through site_tools/optimize: has it a graph, `check` has to say yes to its lock file and
certificate; has it none, `refute` to the refutation. Of some with a graph that is not the best (the solver's first one, where its costs are
others) `check` has to say no to its lock file, with the right certificate and with one that claims its bits. The program's own log of each problem
is made too, and the bytes of both are added up.
"""
import argparse
import base64
import gzip
import json
import shlex
import shutil
import subprocess
import sys
import tempfile
import time
from pathlib import Path

TOP = Path(__file__).resolve().parent.parent
sys.path.insert(0, str(TOP / "site_tools"))
sys.dont_write_bytecode = True

from bridge import dimacs, model_lock, solvers  # noqa: E402
from bridge.optimize import Search  # noqa: E402
from bridge.proof_logs import Line, Log  # noqa: E402

YES, NO = (0, "accepted"), 8


def cases(paths, count):
    """Cases of `concretize`, spread over the files; more than are asked for, since some have no clauses."""
    found = []
    for path in paths:
        opened = gzip.open(path, "rt") if path.endswith(".gz") else open(path, encoding="utf-8")
        with opened as file:
            found += [case for case in map(json.loads, file) if case["words"][0] == "concretize"]
    step = max(1, len(found) // count)
    return [case for first in range(step) for case in found[first::step]]


def unpack(case, room):
    for path, content in case["files"].items():
        target = room / path
        target.parent.mkdir(parents=True, exist_ok=True)
        target.write_bytes(base64.b64decode(content))


def claimed(log, bits, model):
    """A log that claims the bits of a model that is not the best: the right lines up to the first bit that is not so, and then claims."""
    lines, next_id = [], log.counts[1] + 1
    for line in log.lines:
        if line.kind in "zo" and (line.kind == "o") != dimacs.is_true(model, bits[line.bit]):
            break
        lines.append(line)
        next_id += line.kind in "lzo"
    first = sum(line.kind in "zo" for line in lines)
    for place in range(first, len(bits)):
        one = dimacs.is_true(model, bits[place])
        lines.append(Line("o", next_id, bit=place, chain=[next_id - 1]) if one else Line("z", next_id, bit=place))
        next_id += 1
    return Log(log.counts, [*lines, Line("e")])


class Bench:
    def __init__(self, options):
        self.options = options
        self.certificates = self.refutations = self.passed = self.tried = self.bytes = self.own_bytes = 0
        self.faults = []

    def said(self, room, words):
        done = subprocess.run([self.options.program, *words], cwd=room, capture_output=True, text=True)
        return done.returncode, (done.stdout + done.stderr).strip()

    def expect(self, case, room, words, wants_yes):
        answer = self.said(room, words)
        if (answer == YES) if wants_yes else (answer[0] == NO and answer[1].startswith("refused: ")):
            return
        self.faults.append("%s: `%s` says %s, and %s was due" % (case["name"], words[0], answer, "yes" if wants_yes else "no"))

    def run(self, case, room):
        _, repo, settings, database, _, _, *specs = case["words"]
        encoded = subprocess.run([self.options.encoder, repo, settings, database, *specs], cwd=room, capture_output=True)
        size = encoded.stdout.count(b"\n")
        if encoded.returncode != 0 or size > self.options.lines:
            self.passed += 1
            return
        (room / "clauses").write_bytes(encoded.stdout)
        records = None if database == "-" else room / database
        search = Search(dimacs.read(room / "clauses"), self.options.solver, self.options.prover)
        model = search.best()
        (room / "log").write_text(search.made.log.text(), "ascii")
        self.said(room, ["concretize", repo, settings, database, "own.lock", "own.log", *specs])
        self.bytes += (room / "log").stat().st_size
        self.own_bytes += (room / "own.log").stat().st_size
        if model is None:
            self.refutations += 1
            self.expect(case, room, ["refute", repo, settings, database, "log", *specs], True)
            return
        self.certificates += 1
        words = [repo, settings, database, "lock", "log", *specs]
        (room / "lock").write_text(model_lock.lock_text(search.problem, model, records), "utf-8")
        self.expect(case, room, ["check", *words], True)
        if self.tried < self.options.wrong:
            self.run_wrong(case, room, search, model, words, records)

    def run_wrong(self, case, room, search, best, words, records):
        bits = search.problem.bits()
        text = solvers.solve(self.options.solver, search.problem.variables, search.problem.clauses).model
        model = dimacs.read_model(text, search.problem)
        if all(dimacs.is_true(model, bit) == dimacs.is_true(best, bit) for bit in bits):
            return
        self.tried += 1
        (room / "lock").write_text(model_lock.lock_text(search.problem, model, records), "utf-8")
        if self.said(room, ["judge", *words[:4], *words[5:]])[0] != 0:
            self.faults.append(case["name"] + ": the graph that is not the best is not valid either")
        self.expect(case, room, ["check", *words], False)
        (room / "log").write_text(claimed(search.made.log, bits, model).text(), "ascii")
        self.expect(case, room, ["check", *words], False)


def main():
    parser = argparse.ArgumentParser(description=__doc__, formatter_class=argparse.RawDescriptionHelpFormatter)
    parser.add_argument("files", metavar="FILE", nargs="+", help="files of cases")
    parser.add_argument("--program", required=True, help="spack_concretize")
    parser.add_argument("--encoder", required=True, help="encode_dimacs")
    parser.add_argument("--count", type=int, default=100, help="how many problems (100)")
    parser.add_argument("--wrong", type=int, default=10, help="with how many of them a graph that is not the best is tried (10)")
    parser.add_argument("--lines", type=int, default=60000, help="problems that are printed in more lines are passed over (60,000)")
    parser.add_argument("--solver", default="cadical", help="finds models (cadical)")
    parser.add_argument("--prover", default="cadical", help="writes refutations (cadical)")
    options = parser.parse_args()
    for solver in (options.solver, options.prover):
        if shutil.which(shlex.split(solver)[0]) is None:
            print("bench/foreign.sh: %s is missing" % solver, file=sys.stderr)
            return 2
    bench, begun = Bench(options), time.monotonic()
    for case in cases(options.files, options.count):
        if bench.certificates + bench.refutations >= options.count:
            break
        with tempfile.TemporaryDirectory() as name:
            unpack(case, Path(name))
            try:
                bench.run(case, Path(name))
            except (OSError, ValueError, KeyError) as fault:
                bench.faults.append("%s: %s" % (case["name"], fault))
            except KeyboardInterrupt:
                break
    for fault in bench.faults:
        print(fault)
    count = bench.certificates + bench.refutations
    print(
        "%d problems by `%s` (%d certificates, %d refutations, %d bytes, where the program's own have %d; %d passed over), %d graphs that are not "
        "the best: %d wrong, %.0f s"
        % (count, options.solver, bench.certificates, bench.refutations, bench.bytes, bench.own_bytes, bench.passed, bench.tried, len(bench.faults),
           time.monotonic() - begun)
    )
    if count < options.count or bench.tried < options.wrong:
        print("fewer than were asked for")
    return 1 if bench.faults or count < options.count or bench.tried < options.wrong else 0


if __name__ == "__main__":
    sys.exit(main())
