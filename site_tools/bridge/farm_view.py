"""`farm_view DIR`: what `each` put into a folder as a table, a line for each root.

A root's status is by the last line of `DIR/N.cert`: `e` ends a certificate, `u` a refutation, `s` a log that spent its budget. Its
nodes are those of `DIR/N.lock`. Its cost vector, and its spec where it has no lock file, stand in neither: they are taken from what
`each` said, `DIR/said` or the file that `--said` names, and are `?` without it. Nothing is proved of the table: `check_each` says
whether the files are right.
"""
import argparse
import re
import sys
from dataclasses import dataclass
from pathlib import Path
from typing import Any, Iterator, Optional

from . import lock
from .answers import roots_said
from .shown import shown

HEAD = ("root", "status", "nodes", "built", "vector", "certificate", "spec")
RIGHT = (0, 2, 3, 5)  # the columns of numbers
FILE = re.compile(r"(0|[1-9][0-9]{0,5})\.(cert|lock)")
ENDS = {b"e": "best", b"u": "unsatisfiable", b"s": "undecided"}
ANSWERS = {"best": "Done", "unsatisfiable": "Unsatisfiable", "undecided": "Undecided"}


@dataclass
class Row:
    """What is known of one root."""

    number: int
    status: str
    nodes: Optional[int] = None
    built: Optional[int] = None
    vector: Optional[list[int]] = None
    size: Optional[int] = None
    spec: str = "?"

    def cells(self) -> list[str]:
        """The cells of the table: `-` where there is nothing, `?` where it is not known."""
        numbers = [f"{place}:{value}" for place, value in enumerate(self.vector or [], start=1) if value]
        costs = " ".join(numbers) or "none" if self.vector is not None else "?" if self.nodes else "-"
        nodes, built, size = ["-" if each is None else str(each) for each in (self.nodes, self.built, self.size)]
        return [str(self.number), self.status, nodes, built, costs, size, shown(self.spec)]


def end_of(path: Path) -> str:
    """What a certificate ends as."""
    last = b""
    with path.open("rb") as file:
        for last in file:
            pass
    return ENDS.get(re.split(rb"[ \n]", last)[0], "cut off") if last.endswith(b"\n") else "cut off"


def row_of(folder: Path, number: int, said: dict[str, Any]) -> Row:
    """A root by its two files, and by what was said of it."""
    cert, path = folder / f"{number}.cert", folder / f"{number}.lock"
    row = Row(number, end_of(cert) if cert.exists() else "no certificate")
    row.size = cert.stat().st_size if cert.exists() else None
    row.spec, row.vector = said.get("text", "?"), said.get("vector")
    if path.exists() and row.status in ("best", "no certificate"):
        try:
            found = lock.read(path)
        except lock.NoLock:
            row.status = "broken lock file"
            return row
        row.nodes, row.built = len(found.nodes), sum(node["origin"] == "built" for node in found.nodes.values())
        texts = [text for text, _ in found.roots]
        row.spec = texts[0] if row.spec == "?" and len(texts) == 1 else row.spec
        if texts != [row.spec]:
            row.status = "another root"
    elif row.status == "best":
        row.status = "no lock file"
    if said and row.status in ANSWERS and said["answer"] != ANSWERS[row.status]:
        row.status += ", not as said"
    return row


def rows(folder: Path, said: dict[int, dict[str, Any]]) -> Iterator[Row]:
    """A row for each root that has a file or of which something was said."""
    numbers = {int(found[1]) for found in map(FILE.fullmatch, (path.name for path in folder.iterdir())) if found}
    for number in sorted(numbers | set(said)):
        yield row_of(folder, number, said.get(number, {}))


def table(cells: list[list[str]]) -> Iterator[str]:
    """The lines of a table: columns of numbers to the right, the last one as long as it is."""
    widths = [max(len(row[place]) for row in cells) for place in range(len(HEAD))]
    for row in cells:
        parts = [cell.rjust(width) if place in RIGHT else cell.ljust(width) for place, (cell, width) in enumerate(zip(row, widths))]
        yield "  ".join(parts).rstrip()


def main(words: Optional[list[str]] = None) -> int:
    """Shows the table: 0 where each root has its best graph, 1 where one has not, 2 where nothing can be shown."""
    parser = argparse.ArgumentParser(prog="farm_view", description=__doc__)
    parser.add_argument("folder", type=Path, metavar="DIR", help="the folder that was given to each")
    parser.add_argument("--said", type=Path, metavar="FILE", help="what each said on standard output; DIR/said without it, where that is")
    given = parser.parse_args(words)
    path = given.said or (given.folder / "said" if (given.folder / "said").exists() else None)
    try:
        said = {root["number"]: root for root in roots_said(path.read_text("utf-8"))} if path else {}
        found = list(rows(given.folder, said))
    except OSError as fault:
        print(f"farm_view: {fault}", file=sys.stderr)
        return 2
    if not found:
        print(f"farm_view: {shown(str(given.folder))} has no file of a root, as 0.cert", file=sys.stderr)
        return 2
    print("\n".join(table([list(HEAD), *(row.cells() for row in found)])))
    return 0 if all(row.status == "best" for row in found) else 1
