"""SAT solvers by their command lines: a model of clauses, or that there is none, with the refutation that the solver wrote."""
import shlex
import subprocess
import tempfile
from dataclasses import dataclass
from pathlib import Path
from typing import Optional

# How solvers that are known by name are called. Each of `{cnf}`, `{proof}`, `{model}` stands for a file.
KNOWN = {
    "cadical": "-q {cnf} {proof}",
    "kissat": "-q {cnf} {proof}",
    "picosat": "{cnf}",
    "minisat": "-verb=0 {cnf} {model}",
    "glucose": "-verb=0 {cnf} {model}",
}


class NoAnswer(ValueError):
    """A solver that could not be run, or that said neither."""


@dataclass
class Answer:
    """What a solver said: the text with its model, or that there is none; and its refutation where it wrote one."""

    model: Optional[str]
    proof: Optional[bytes] = None


def command(text: str, room: Path) -> list[str]:
    """The words of a call, with the files of a room."""
    words = shlex.split(text)
    if not words:
        raise NoAnswer("a solver has no name")
    if "{cnf}" not in text:
        words += KNOWN.get(Path(words[0]).name, "{cnf}").split()
    return [word.format(cnf=room / "cnf", proof=room / "proof", model=room / "model") for word in words]


def writes_proofs(text: str) -> bool:
    """Whether a call names a file for the refutation."""
    return "{proof}" in text or "{proof}" in KNOWN.get(Path((shlex.split(text) or [""])[0]).name, "")


def solve(text: str, variables: int, clauses: list[list[int]]) -> Answer:
    """Has a solver look for a model."""
    with tempfile.TemporaryDirectory() as name:
        room = Path(name)
        lines = [" ".join(map(str, [*clause, 0])) for clause in clauses]
        (room / "cnf").write_text("\n".join([f"p cnf {variables} {len(clauses)}", *lines]) + "\n", "ascii")
        words = command(text, room)
        try:
            done = subprocess.run(words, capture_output=True, text=True, check=False, stdin=subprocess.DEVNULL)
        except OSError as fault:
            raise NoAnswer(f"{words[0]} does not run: {fault.strerror}") from fault
        if done.returncode == 10 or "s SATISFIABLE" in done.stdout.splitlines():
            file = room / "model"
            return Answer(file.read_text("ascii") if file.exists() else done.stdout)
        if done.returncode == 20 or "s UNSATISFIABLE" in done.stdout.splitlines():
            file = room / "proof"
            return Answer(None, file.read_bytes() if file.exists() else None)
        raise NoAnswer(f"{shlex.join(words)} ended with {done.returncode}: {(done.stderr or done.stdout).strip()[:200]}")
