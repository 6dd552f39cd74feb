"""Runs of the program: what it says to some words, in the caller's folder."""
import functools
import subprocess
from dataclasses import dataclass
from pathlib import Path
from typing import Optional

TOP = Path(__file__).resolve().parent.parent.parent


@dataclass(frozen=True)
class Said:
    """A run's exit status and what it said on both streams."""

    status: int
    out: str
    err: str


def run(words: list[str], program: Optional[str] = None) -> Said:
    """Runs the program, or the launcher where none is named."""
    command = [program or str(TOP / "spack_concretize"), *words]
    done = subprocess.run(command, stdin=subprocess.DEVNULL, capture_output=True, check=False)
    return Said(done.returncode, done.stdout.decode("utf-8", "replace"), done.stderr.decode("utf-8", "replace"))


@functools.lru_cache(maxsize=None)
def path() -> str:
    """The file that the launcher would run; the launcher itself where it names none."""
    found = run(["--where"])
    return found.out.strip() if found.status == 0 else str(TOP / "spack_concretize")
