"""`show_fault`: the place of a refusal, its cause and what is nearest, for a log of CI or behind a run.

LOG has what a run said on standard error (other lines in it are passed over), or is `-` for standard input. The words behind
it are those of the run, which say where the files are.
"""
import argparse
import sys
from pathlib import Path
from typing import Optional

from . import fault_lines, fault_words
from .fault_files import words_of
from .shown import shown


def main(words: Optional[list[str]] = None) -> int:
    """Shows the refusals of a log: 0 where there was one, 1 where there was none, 2 where the log cannot be read."""
    parser = argparse.ArgumentParser(prog="show_fault", description=__doc__)
    parser.add_argument("--more", action="store_true", help="without the line itself")
    parser.add_argument("log", metavar="LOG", help="a file, or -")
    parser.add_argument("words", nargs=argparse.REMAINDER, metavar="COMMAND ARGUMENT..", help="the words of the run")
    given = parser.parse_args(words)
    try:
        text = sys.stdin.read() if given.log == "-" else Path(given.log).read_text("utf-8", "replace")
    except OSError as fault:
        print(f"show_fault: {fault}", file=sys.stderr)
        return 2
    run = [word for word in given.words if word != "--"] if given.words[:1] == ["--"] else given.words
    whole = fault_lines.read(text)
    faults = [whole] if given.more and whole else list(fault_lines.read_log(text))
    for fault in faults:
        lines = [] if given.more else [shown(fault.line)]
        print("\n".join(lines + fault_words.told(fault, words_of(run)).lines()))
    return 0 if faults else 1
