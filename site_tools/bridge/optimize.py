"""The best graph by SAT solvers, with its certificate: the clauses are those that encode_dimacs prints.

The bits of the costs are settled one after the other: one that a model leaves false is 0; of another one a solver is asked for a model
without it, and a refutation, made into lines of the log, says that there is none.
"""
import argparse
import sys
from pathlib import Path
from typing import Optional

from . import dimacs, model_lock, proof_steps, refuter, solvers

WORDS = """\
A solver is a command line: `cadical`, `picosat -i 0`, or one with the files' places, as `kissat -q {cnf} {proof}`
or `my-solver {cnf} {model}`. Known by name: cadical, kissat, minisat, glucose, picosat.
Where there is no graph, LOG is a refutation, no LOCK is written, and the status is 1.
"""


class Search:
    """A problem, the solvers, the log, and the best model up to now."""

    def __init__(self, problem: dimacs.Problem, solver: str, prover: str) -> None:
        self.problem, self.solver, self.prover = problem, solver, prover
        self.made = refuter.Refuter(problem.variables, problem.clauses, len(problem.bits()))
        self.settled: list[list[int]] = []

    def better(self, model: list[bool], place: int, bit: int) -> list[bool]:
        """A model without a bit that is true; the same one where there is none, and then the bit is written."""
        variables, clauses = self.problem.variables, self.problem.clauses + self.settled + [[-bit]]
        answer = solvers.solve(self.solver, variables, clauses)
        if answer.model is not None:
            other = dimacs.read_model(answer.model, self.problem)
            if any(not dimacs.is_true(other, literal) for literal, in [*self.settled, [-bit]]):
                raise solvers.NoAnswer(f"the model of `{self.solver}` does not meet a clause of one literal")
            return other
        self.need(self.made.one(place, bit, self.proof(variables, clauses, answer)))
        return model

    def proof(self, variables: int, clauses: list[list[int]], said: Optional[solvers.Answer] = None) -> list[proof_steps.Step]:
        """A refutation of clauses that have no model: the one that was said already, or by the solver that writes these."""
        is_said = said is not None and self.prover == self.solver
        answer = said if said is not None and is_said else solvers.solve(self.prover, variables, clauses)
        if answer.model is not None:
            raise solvers.NoAnswer(f"`{self.prover}` finds a model where `{self.solver}` finds none")
        if answer.proof is None:
            raise solvers.NoAnswer(f"`{self.prover}` wrote no refutation")
        return proof_steps.read(answer.proof)[0]

    def best(self) -> Optional[list[bool]]:
        """The best model, with its certificate in the log; none where there is none, with a refutation in the log."""
        problem = self.problem
        answer = solvers.solve(self.solver, problem.variables, problem.clauses)
        if answer.model is None:
            variables, count = problem.rules
            rules = problem.clauses[:count]
            self.made = refuter.Refuter(variables, rules, 0)
            if not self.made.unsat([]):
                self.need(self.made.unsat(self.proof(variables, rules)))
            return None
        model = dimacs.read_model(answer.model, problem)
        for place, bit in enumerate(problem.bits()):
            if dimacs.is_true(model, bit) and not self.made.one(place, bit, []):
                model = self.better(model, place, bit)
            if not dimacs.is_true(model, bit):
                self.made.zero(place, bit)
            self.settled.append([bit if dimacs.is_true(model, bit) else -bit])
        self.made.end()
        return model

    def need(self, is_written: bool) -> None:
        """Refuses a refutation that was none."""
        if not is_written:
            raise proof_steps.NoProof(f"what `{self.prover}` wrote does not end in a conflict by unit propagation")


def main(words: Optional[list[str]] = None) -> int:
    """Runs the command: 0 where the best graph was found, 1 where there is none, 2 where a file or solver is wrong."""
    parser = argparse.ArgumentParser(prog="optimize", description=__doc__, epilog=WORDS)
    parser.add_argument("clauses", metavar="CLAUSES", type=Path, help="what encode_dimacs prints")
    parser.add_argument("log", metavar="CERT", type=Path, help="the log that is written: a certificate, or a refutation")
    parser.add_argument("lock", metavar="LOCK", type=Path, help="the lock file that is written")
    parser.add_argument("--database", metavar="FILE", type=Path, help="the database of the call of encode_dimacs, where it had one")
    parser.add_argument("--solver", default="cadical", help="finds models; cadical where it is left out")
    parser.add_argument("--prover", help="writes refutations as DRAT; the solver where it does so, and else cadical")
    given = parser.parse_args(words)
    prover = given.prover or (given.solver if solvers.writes_proofs(given.solver) else "cadical")
    try:
        search = Search(dimacs.read(given.clauses), given.solver, prover)
        model = search.best()
        if model is not None:
            given.lock.write_text(model_lock.lock_text(search.problem, model, given.database), "utf-8")
        given.log.write_text(search.made.log.text(), "ascii")
    except (OSError, ValueError, KeyError, TypeError) as fault:
        print(f"optimize: {fault}", file=sys.stderr)
        return 2
    if model is None:
        print("unsatisfiable")
        return 1
    values = [dimacs.is_true(model, bit) for bit in search.problem.bits()]
    print("costs " + " ".join(map(str, search.problem.costs(values))))
    return 0
