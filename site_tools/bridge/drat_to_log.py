"""A solver's refutation (DRAT as text or binary, or LRAT) as a log that `refute` reads."""
import argparse
import sys
from pathlib import Path
from typing import Optional

from . import dimacs, proof_logs, proof_steps, refuter

WORDS = """\
The refutation is over the clauses of the rules: the first ones that encode_dimacs prints, as many as its first line says. To write
these alone, for the solver:  site_tools/drat_to_log --rules CLAUSES RULES
"""


def rules_text(problem: dimacs.Problem) -> str:
    """The clauses of the rules as DIMACS."""
    variables, count = problem.rules
    lines = [" ".join(map(str, [*clause, 0])) for clause in problem.clauses[:count]]
    return "\n".join([f"p cnf {variables} {count}", *lines]) + "\n"


def log_of(problem: dimacs.Problem, data: bytes) -> proof_logs.Kept:
    """The log of a refutation, without lines that nothing rests on; `NoProof` where it is none."""
    steps, has_hints = proof_steps.read(data)
    variables, count = problem.rules
    if has_hints:
        log = refuter.log_by_hints(variables, problem.clauses[:count], steps)
    else:
        made = refuter.Refuter(variables, problem.clauses[:count], 0)
        if not made.unsat(steps):
            raise proof_steps.NoProof("its steps do not end in a conflict by unit propagation")
        log = made.log
    return proof_logs.trimmed(log.text().encode())


def main(words: Optional[list[str]] = None) -> int:
    """Runs the command: 0 where a log was written, 1 where the proof is none, 2 where a file is none."""
    parser = argparse.ArgumentParser(prog="drat_to_log", description=__doc__, epilog=WORDS)
    parser.add_argument("clauses", metavar="CLAUSES", type=Path, help="what encode_dimacs prints")
    parser.add_argument("proof", metavar="PROOF", type=Path, help="the solver's DRAT or LRAT; which it is, is seen from its text")
    parser.add_argument("log", metavar="LOG", type=Path, nargs="?", help="the log that is written")
    parser.add_argument("--rules", action="store_true", help="write the clauses of the rules to PROOF, and read no proof")
    given = parser.parse_args(words)
    if given.rules == (given.log is not None):
        parser.error("CLAUSES, PROOF and LOG, or --rules, CLAUSES and the file that is written")
    try:
        problem = dimacs.read(given.clauses)
        if given.rules:
            given.proof.write_text(rules_text(problem), "ascii")
            return 0
        log = log_of(problem, given.proof.read_bytes())
        given.log.write_bytes(log.text)
    except proof_steps.NoProof as fault:
        print(f"drat_to_log: {given.proof}: {fault}", file=sys.stderr)
        return 1
    except (OSError, ValueError) as fault:
        print(f"drat_to_log: {fault}", file=sys.stderr)
        return 2
    print(f"{log.learnt} learnt clauses, {log.ids} ids in chains")
    return 0
