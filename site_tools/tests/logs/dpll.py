"""A SAT solver of a few lines, for the tests alone: branches and propagates, and writes the negations of its decisions as DRAT."""
import sys
from pathlib import Path


def falsified(clauses: list[list[int]], true: set[int]) -> bool:
    """Propagates; whether a clause became false."""
    changed = True
    while changed:
        changed = False
        for clause in clauses:
            free = [literal for literal in clause if -literal not in true]
            if not free:
                return True
            if len(free) == 1 and free[0] not in true:
                true.add(free[0])
                changed = True
    return False


def answer(variables: int, clauses: list[list[int]]) -> tuple[set[int], list[list[int]]]:
    """The true literals of a model (none where there is none), and the lemmas of the refutation."""
    lemmas: list[list[int]] = []

    def model(decisions: list[int]) -> set[int]:
        true = set(decisions)
        if not falsified(clauses, true):
            free = [each for each in range(1, variables + 1) if each not in true and -each not in true]
            if not free:
                return true
            for literal in (free[0], -free[0]):
                found = model([*decisions, literal])
                if found:
                    return found
        lemmas.append([-literal for literal in decisions])
        return set()

    return model([]), lemmas


def texts(found: set[int], lemmas: list[list[int]]) -> tuple[str, str]:
    """What a solver prints, and its DRAT."""
    proof = "".join(" ".join(map(str, [*lemma, 0])) + "\n" for lemma in lemmas)
    return ("s SATISFIABLE\nv " + " ".join(map(str, found)) + " 0\n" if found else "s UNSATISFIABLE\n"), proof


def main(cnf: str, proof: str) -> int:
    """Answers as solvers do."""
    lines = Path(cnf).read_text("ascii").splitlines()
    clauses = [list(map(int, line.split()))[:-1] for line in lines[1:]]
    shown, lemmas = texts(*answer(int(lines[0].split()[2]), clauses))
    Path(proof).write_text(lemmas, "ascii")
    print(shown, end="")
    return 10 if " SAT" in shown else 20


if __name__ == "__main__":
    sys.exit(main(*sys.argv[1:3]))
