"""Whether a log is right, and what it shows: a certificate, a refutation, or that a budget was spent.

A checker in Python of docs/formats/proof_log.md, over what encode_dimacs prints: a second opinion beside `check` and `refute`, and the only
reader of spent logs, which a run puts that ends with `undecided`.
"""
import argparse
import sys
from pathlib import Path
from typing import Optional

from . import dimacs, log_rules, solvers

WORDS = """\
The words behind a wrong line are those of `check` and `refute`. A spent log that settles bits says that some graph has them: a solver
finds one where --solver names it, and its model is looked at; without it the answer says that this is open.
"""


def model_with(problem: dimacs.Problem, values: list[bool], solver: str) -> bool:
    """Whether a model of all clauses has these first bits, by a solver; what it says is looked at."""
    settled = [bit if value else -bit for bit, value in zip(problem.bits(), values)]
    answer = solvers.solve(solver, problem.variables, problem.clauses + [[literal] for literal in settled])
    if answer.model is None:
        return False
    model = dimacs.read_model(answer.model, problem)
    if not all(dimacs.is_true(model, literal) for literal in settled):
        raise solvers.NoAnswer(f"the model of `{solver}` does not have the bits")
    return True


def said_of_spent(problem: dimacs.Problem, found: log_rules.Found, solver: Optional[str]) -> str:
    """What a spent log shows."""
    first = f"a spent log: {found.learnt} learnt clauses, each useful, so a budget of {found.learnt - 1} was spent"
    if found.is_of_rules:
        return f"{first}; no graph was found"
    if not found.values:
        return f"{first}; no bit was settled"
    bits = f"{first}; {len(found.values)} of {len(problem.bits())} bits were settled"
    if solver is None:
        return f"{bits} (whether a graph has them was not looked at)"
    if not model_with(problem, found.values, solver):
        raise log_rules.Wrong("no graph has the bits that were settled")
    return f"{bits}, and a graph has them"


def said_of(problem: dimacs.Problem, found: log_rules.Found, solver: Optional[str]) -> str:
    """What a right log shows, in a line."""
    if found.end == "u":
        return "a refutation: no graph is valid"
    if found.end == "e":
        return "a certificate: no graph costs less than " + " ".join(map(str, problem.costs(found.values)))
    return said_of_spent(problem, found, solver)


def main(words: Optional[list[str]] = None) -> int:
    """Runs the command: 0 where the log is right, 1 where a line is wrong, 2 where a file or solver is none."""
    parser = argparse.ArgumentParser(prog="check_log", description=__doc__, epilog=WORDS)
    parser.add_argument("clauses", metavar="CLAUSES", type=Path, help="what encode_dimacs prints")
    parser.add_argument("log", metavar="LOG", type=Path, help="the log")
    parser.add_argument("--solver", help="finds a graph with the bits that a spent log settles: as with optimize")
    given = parser.parse_args(words)
    try:
        problem = dimacs.read(given.clauses)
        found = log_rules.Rules(problem, given.log.read_bytes().decode("ascii", "replace")).check()
        print(said_of(problem, found, given.solver))
    except log_rules.Wrong as fault:
        print(f"check_log: {given.log}: {fault}", file=sys.stderr)
        return 1
    except (OSError, ValueError) as fault:
        print(f"check_log: {fault}", file=sys.stderr)
        return 2
    return 0
