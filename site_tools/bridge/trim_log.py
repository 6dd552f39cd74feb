"""A log without the learnt clauses that nothing rests on: the certificate or refutation says the same, and is shorter."""
import argparse
import sys
from pathlib import Path
from typing import Optional

from . import proof_logs

WORDS = """\
No chain is looked at, and no clause: a line that is wrong stays wrong where something rests on it. What check or refute accepts is accepted
afterwards. Ids are given anew; a spent log is written as it is, since each of its lines counts.
"""


def main(words: Optional[list[str]] = None) -> int:
    """Runs the command: 0 where a log was written, 2 where there is none."""
    parser = argparse.ArgumentParser(prog="trim_log", description=__doc__, epilog=WORDS)
    parser.add_argument("log", metavar="LOG", type=Path, help="a log, of concretize or of anyone")
    parser.add_argument("out", metavar="OUT", type=Path, help="the log that is written; it may be LOG")
    given = parser.parse_args(words)
    try:
        kept = proof_logs.trimmed(given.log.read_bytes())
        given.out.write_bytes(kept.text)
    except proof_logs.NoLog as fault:
        print(f"trim_log: {given.log}: {fault}", file=sys.stderr)
        return 2
    except OSError as fault:
        print(f"trim_log: {fault}", file=sys.stderr)
        return 2
    print(f"{kept.learnt} of {kept.of_learnt} learnt clauses stay")
    return 0
