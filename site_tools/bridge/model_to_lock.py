"""The lock file of a model that a SAT solver found of the clauses which encode_dimacs prints."""
import argparse
import sys
from pathlib import Path
from typing import Optional

from . import dimacs, model_lock

WORDS = """\
MODEL is what the solver wrote: `v` lines, or literals alone. It has to meet all clauses, which is looked at. An installed node is named
by its hash alone in the comments; the rest of its record is taken from the database, the DATABASE that encode_dimacs was called with.
"""


def main(words: Optional[list[str]] = None) -> int:
    """Runs the command: 0 where a lock file was written, 2 where a file is none."""
    parser = argparse.ArgumentParser(prog="model_to_lock", description=__doc__, epilog=WORDS)
    parser.add_argument("clauses", metavar="CLAUSES", type=Path, help="what encode_dimacs prints")
    parser.add_argument("model", metavar="MODEL", type=Path, help="what the solver wrote")
    parser.add_argument("lock", metavar="LOCK", type=Path, help="the lock file that is written")
    parser.add_argument("--database", metavar="FILE", type=Path, help="the database of the call of encode_dimacs, where it had one")
    given = parser.parse_args(words)
    try:
        problem = dimacs.read(given.clauses)
        values = dimacs.read_model(given.model.read_text("ascii"), problem)
        text = model_lock.lock_text(problem, values, given.database)
        given.lock.write_text(text, "utf-8")
    except (OSError, ValueError, KeyError, TypeError) as fault:
        print(f"model_to_lock: {fault}", file=sys.stderr)
        return 2
    bits = [dimacs.is_true(values, bit) for bit in problem.bits()]
    print("costs " + " ".join(map(str, problem.costs(bits))))
    return 0
