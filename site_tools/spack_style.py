"""The recipes of tests/spack_style: some of Spack's packages, written anew in its style, with what is expected of each.

A recipe begins with `=== PACKAGE | whole`, or `part`, or `out`. `# out: WORDS` behind a line says that the directive which begins
there is left out, with WORDS in its reason; behind the class it is about base classes. No code of theirs runs.
"""
import json
import re
import subprocess
import tempfile
from collections import Counter
from dataclasses import dataclass, field
from pathlib import Path
from typing import Any, Callable, Iterator

from bridge import import_repo
from bridge.recipe_files import class_name
from bridge.recipe_writer import lines_of
from bridge.rows import Conditions, Row

FRONT = "from spack.package import *\n\n\n"
MARK = re.compile(r"  # out: (.*)$")
Main = Callable[..., str]


@dataclass
class Case:
    """One recipe, and what is expected of it."""

    package: str
    wanted: str
    lines: list[str] = field(default_factory=list)

    def text(self) -> str:
        """The package's file, without the marks."""
        body = "\n".join(MARK.sub("", line) for line in self.lines).strip("\n") + "\n"
        return body if "from spack.package import" in body else FRONT + body

    def marks(self) -> Iterator[tuple[int, str]]:
        """The lines of the file that are marked, each with the words of its reason."""
        shift = 0 if "from spack.package import" in "\n".join(self.lines) else FRONT.count("\n")
        first = next(place for place, line in enumerate(self.lines) if line)
        for place, line in enumerate(self.lines):
            found = MARK.search(line)
            if found:
                is_class = line.startswith("class ")
                yield 0 if is_class else place - first + shift + 1, found.group(1).removesuffix(" (base)")


def cases(path: Path) -> list[Case]:
    """The recipes of a file."""
    found: list[Case] = []
    for line in path.read_text("utf-8").splitlines():
        if line.startswith("=== "):
            package, _, wanted = line[4:].partition(" | ")
            found.append(Case(package, wanted))
        elif found:
            found[-1].lines.append(line)
    return found


def imported(room: Path, files: list[list[Case]], run: Main) -> dict[str, Any]:
    """What the importer makes of all recipes together, by package."""
    for case in [case for each in files for case in each]:
        folder = room / "repo" / "packages" / case.package
        folder.mkdir(parents=True)
        (folder / "package.py").write_text(case.text(), "utf-8")
    run(import_repo.main, room / "repo", room / "out", "--json", room / "out.json")
    return {recipe["name"]: recipe for recipe in json.loads((room / "out.json").read_text("utf-8"))}


def status_of(recipe: Any) -> str:
    """Whole, in part or out."""
    return "out" if recipe is None else "part" if recipe["left_out"] else "whole"


def unexpected(case: Case, recipe: Any) -> Iterator[str]:
    """What differs from the expectation."""
    if status_of(recipe) != case.wanted:
        yield f"wanted {case.wanted}, got {status_of(recipe)}"
    marks, listed = set(case.marks()), recipe["left_out"] if recipe else []
    met = set()
    for each in listed:
        line = each["line"] if each["file"] == f"packages/{case.package}/package.py" and each["directive"] != "class" else 0
        reason = f"{each['kind']}: {each['detail']}"
        own = {mark for mark in marks if mark[0] == line and mark[1] in reason.replace("`", "") + reason}
        met |= own
        if not own:
            yield f"line {line} is listed, and not expected: {each['text']}: {reason}"
        if not each["file"] or not each["line"] or not each["kind"]:
            yield f"without file, line or reason: {each}"
    yield from (f"line {line} is not listed: {words}" for line, words in sorted(marks - met))


def written_text(case: Case, recipe: Any) -> str:
    """What was written of the recipe's own directives: those of base classes are the stand-ins'."""
    rows = []
    for row in recipe["rows"] if recipe else []:
        if row["origin"]["file"].startswith("packages/"):
            conditions = Conditions(tuple(row["conditions"]["blocks"]), row["conditions"]["own"])
            rows.append(Row(row["directive"], tuple(row["arguments"]), conditions))
    return "\n".join([f"class {class_name(case.package)}(Package):", *(lines_of(rows, 0) or ["    pass"])]) + "\n"


def faults(tests: Path, run: Main, compared: Callable[..., Iterator[tuple[str, str]]]) -> Iterator[tuple[str, str]]:
    """What differs: of each recipe its status and its list, of each file the recipes that are written."""
    paths = sorted(tests.glob("*.txt"))
    files = [cases(path) for path in paths]
    with tempfile.TemporaryDirectory() as room:
        found = imported(Path(room), files, run)
    for path, group in zip(paths, files):
        for case in group:
            yield from ((f"spack_style/{path.name} {case.package}", fault) for fault in unexpected(case, found.get(case.package)))
        written = "\n".join(written_text(case, found.get(case.package)) for case in group)
        yield from compared(f"spack_style/{path.stem}", written, tests / "written" / f"{path.stem}.py")
    yield from compared("spack_style table", table(files, found), tests / "written" / "table.txt")


def refused(tests: Path, run: Main, program: str) -> Iterator[tuple[str, str]]:
    """Whether the program refuses what was written."""
    with tempfile.TemporaryDirectory() as room:
        imported(Path(room), [cases(path) for path in sorted(tests.glob("*.txt"))], run)
        words = [program, "explain", f"{room}/out", "-", "-", "zlib"]
        done = subprocess.run(words, capture_output=True, text=True, check=False)
        if done.returncode not in (0, 1):
            yield "spack_style", f"the program says {done.stderr.strip()!r}"


def table(files: list[list[Case]], found: dict[str, Any]) -> str:
    """How many recipes are whole, in part and out, and each that is in part with the reasons."""
    counts = Counter(status_of(found.get(case.package)) for group in files for case in group)
    lines = [f"{sum(counts.values())} recipes: {counts['whole']} whole, {counts['part']} in part, {counts['out']} out"]
    for case in sorted((case for group in files for case in group), key=lambda case: case.package):
        kinds = Counter(each["kind"] for each in (found.get(case.package) or {"left_out": []})["left_out"])
        reasons = "; ".join(f"{count} {kind}" for kind, count in sorted(kinds.items()))
        lines.append(f"{case.package:24} {status_of(found.get(case.package)):6} {reasons}".rstrip())
    return "\n".join(lines) + "\n"
