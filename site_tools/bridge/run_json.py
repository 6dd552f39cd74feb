"""`run_json`: runs the program, and says what it said as one JSON object on one line (docs/formats/json.md).

The launcher calls it for `--json`. The exit status is the program's, and so are the files that are written.
"""
import ctypes
import hashlib
import json
import signal
import subprocess
import sys
from dataclasses import asdict
from pathlib import Path
from types import FrameType
from typing import Any, Optional

from . import answers, fault_words, reasons
from .catalog import Catalog
from .fault_files import words_of
from .fault_lines import read as read_fault

PARENT_DEATH = 1  # PR_SET_PDEATHSIG of Linux's prctl
OWN_WORDS = (["--help"], ["--version"])  # which the program answers by a text of its own


def die_with_parent() -> None:
    """Has the run end where this process is killed."""
    ctypes.CDLL(None).prctl(PARENT_DEATH, signal.SIGTERM)


def run(command: list[str]) -> tuple[int, str, str]:
    """Runs the program; a signal to this process goes to it as well."""
    child = subprocess.Popen(
        command, stdin=subprocess.DEVNULL, stdout=subprocess.PIPE, stderr=subprocess.PIPE, preexec_fn=die_with_parent
    )

    def stop(number: int, frame: Optional[FrameType]) -> None:
        """Ends the run, and then this process, by the same signal."""
        child.terminate()
        signal.signal(number, signal.SIG_DFL)
        signal.raise_signal(number)

    for number in (signal.SIGTERM, signal.SIGINT, signal.SIGHUP):
        signal.signal(number, stop)
    out, err = child.communicate()
    return child.returncode, out.decode("utf-8", "replace"), err.decode("utf-8", "replace")


def fault_data(err: str, words: list[str], wrong: str) -> Optional[dict[str, Any]]:
    """A refusal as data, with its place and what is said behind it."""
    fault = read_fault(err)
    if fault is None:
        return None
    told = fault_words.told(fault, words_of(words))
    found: dict[str, Any] = {"about": fault.about, "name": fault.name(), "fields": fault.fields()}
    if fault.package:
        found["package"] = fault.package
    if fault.root is not None:
        found["root"] = fault.root
    if told.place:
        found["place"] = asdict(told.place)
    sentences = [wrong] if wrong and fault.status == 2 else told.sentences
    return {**found, "sentences": [each.strip() for each in sentences]} if sentences else found


def sum_of(program: str) -> dict[str, str]:
    """The SHA-256 of the file that ran, where that can be read: a release has it beside the file."""
    try:
        return {"sha256": hashlib.sha256(Path(program).read_bytes()).hexdigest()}
    except OSError:
        return {}


def answer(program: str, wrong: str, words: list[str]) -> dict[str, Any]:
    """The whole object of a run."""
    status, out, err = run([program, *words])
    found: dict[str, Any] = {"version": 1, "program": program, "words": words, "status": status}
    found.update({"answer": answers.NAMES.get(status, "Ended"), **sum_of(program)})
    run_words = words_of(words)
    if words in OWN_WORDS and status == 0:
        found["text"] = out
    else:
        found.update(answers.data(out, run_words.command))
        for root in found.get("roots", []):
            root["cert"] = f"{run_words.folder}/{root['number']}.cert"
            if root["answer"] == "Done":
                root["lock"] = f"{run_words.folder}/{root['number']}.lock"
    if err:
        found["line"] = err.removesuffix("\n")
        fault = fault_data(err, words, wrong)
        if fault:
            found["fault"] = fault
    if (status, run_words.command) in ((1, "explain"), (1, "reasons"), (3, "reasons")):
        catalog = Catalog(run_words.repo, run_words.settings, run_words.database)
        rows = reasons.read(out, catalog)
        found["reasons"] = [each.data() for each in rows]
        cycle = reasons.cycle(rows)
        if cycle:
            found["cycle"] = cycle
    return found


def main(words: Optional[list[str]] = None) -> int:
    """Runs the program by the words PROGRAM WRONG COMMAND..; WRONG is what the launcher found wrong in them, or empty."""
    given = sys.argv[1:] if words is None else words
    if given in (["--help"], ["-h"]) or len(given) < 2:
        print(f"usage: run_json PROGRAM WRONG COMMAND ARGUMENT..\n\n{__doc__}")
        return 0 if given in (["--help"], ["-h"]) else 2
    found = answer(str(Path(given[0])), given[1], given[2:])
    print(json.dumps(found, ensure_ascii=True, sort_keys=True))
    return found["status"] if found["status"] >= 0 else 128 - found["status"]
