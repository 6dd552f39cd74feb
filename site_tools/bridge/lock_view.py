"""`lock_view`: a lock file as a tree like `spack spec` prints, as a table, for graphviz, or as JSON by names.

With `--vector` it says what the 31 numbers are, in words: from a file with the program's output, from `-`, or, with
`--judge REPO SETTINGS DATABASE`, by asking the program. It computes no cost itself.

With `--diff` the status says whether anything differs, as that of `diff`. With `--why` it says of one package who asks for it
and what its choices cost, computed from the recipes and compared with the program's numbers where these are known.
"""
import argparse
import subprocess
import sys
from pathlib import Path
from typing import Optional

from . import cost_reasons, criteria, json_files, lock, lock_formats

TOP = Path(__file__).resolve().parent.parent.parent


class NotJudged(RuntimeError):
    """The program did not say `valid`."""


def judged(found: lock.Lock, path: Path, words: list[str]) -> str:
    """What the program's `judge` says of the lock file."""
    specs = " ".join(spec for spec, _ in found.roots)
    command = [str(TOP / "spack_concretize"), "judge", *words, str(path), specs]
    done = subprocess.run(command, capture_output=True, text=True, check=False)
    if done.returncode != 0:
        raise NotJudged(done.stderr.strip() or f"the program ended with {done.returncode}")
    return done.stdout


def vector_text(found: lock.Lock, given: argparse.Namespace) -> Optional[str]:
    """The text with the vector's line; None where none was asked for."""
    if given.judge:
        return judged(found, given.lock, given.judge)
    if given.vector == "-":
        return sys.stdin.read()
    return Path(given.vector).read_text("utf-8") if given.vector else None


def settings_of(given: argparse.Namespace) -> Optional[dict]:
    """The settings that the costs are by, where they are known; `-` are the standard ones."""
    path = given.judge[1] if given.judge else given.settings
    return None if path is None else {} if path == "-" else json_files.read(Path(path))


def arguments(words: Optional[list[str]]) -> argparse.Namespace:
    """The words of the command line."""
    parser = argparse.ArgumentParser(prog="lock_view", description=__doc__)
    parser.add_argument("lock", type=Path, metavar="LOCK", help="a lock file")
    parser.add_argument("--format", choices=sorted(lock_formats.FORMATS), default="tree", help="tree is the standard")
    parser.add_argument("--diff", type=Path, metavar="OTHER", help="what is other in the lock file OTHER; status 1 where anything is")
    parser.add_argument("--vector", metavar="FILE", help="what concretize or judge said, for the costs in words; - is standard input")
    parser.add_argument("--judge", nargs=3, metavar=("REPO", "SETTINGS", "DATABASE"), help="asks the program for the costs")
    parser.add_argument("--settings", metavar="SETTINGS", help="with --vector: the settings, for more of the reasons")
    parser.add_argument("--why", metavar="NAME", help="who asks for this package or virtual, and what its choices cost")
    parser.add_argument("--repo", metavar="REPO", help="with --why: the recipes")
    parser.add_argument("--all", action="store_true", help="also the costs that are 0")
    return parser.parse_args(words)


def why_lines(found: lock.Lock, given: argparse.Namespace) -> list[str]:
    """Who asks for a package, and what its choices cost as far as recipes and settings are named."""
    from . import why
    from .catalog import Catalog

    text = vector_text(found, given)
    inputs = given.judge or ([given.repo, given.settings or "-"] if given.repo else None)
    return why.lines(given.why, found, Catalog(*inputs) if inputs else None, None if text is None else criteria.read(text))


def main(words: Optional[list[str]] = None) -> int:
    """Shows a lock file: 0 where it was shown, 1 where --diff shows a difference, 2 where it is none or the program refuses it."""
    given, differs = arguments(words), False
    try:
        found = lock.read(given.lock)
        if given.why:
            print("\n".join(why_lines(found, given)))
            return 0
        if given.diff:
            lines = lock_formats.diff_lines(found, lock.read(given.diff))
            differs = lines != lock_formats.SAME
        else:
            lines = lock_formats.FORMATS[given.format](found)
        text = vector_text(found, given)
        if text is not None:
            reasons = cost_reasons.reasons(found, settings_of(given))
            costs = criteria.lines(criteria.read(text), lambda *number: cost_reasons.text_of(*number, reasons), given.all)
            lines += ["", "Costs, the heaviest first (a number counts only where all before it are equal):"] + (costs or ["  none"])
    except (OSError, ValueError, lock.NoLock, criteria.NoVector, NotJudged) as fault:
        print(f"lock_view: {fault}", file=sys.stderr)
        return 2
    print("\n".join(lines))
    return 1 if differs else 0
