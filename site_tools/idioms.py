"""The idioms of tests/idioms: small recipes in Spack's style, with what is to be written and what is to be listed.

A case begins with `=== TITLE`, or `=== TITLE | PACKAGE`, or `=== TITLE | PACKAGE | WORDS` with words of import_repo. Its
lines are the body of a class, or whole classes where a line begins with `class`; below `---` stand the lines of the recipe,
without the variant `build_system`; below `--- listed` each directive that is left out with the reason.
"""
import re
import tempfile
from dataclasses import dataclass, field
from pathlib import Path
from typing import Iterator

from bridge import import_repo
from bridge.recipe_files import class_name

STUBS = "c cmake cuda cxx fir gcc gmake hip hypre mpich netlib-blas ninja oak openmpi pine py-pip py-wheel python python-venv zlib zlib-ng"


@dataclass
class Case:
    """One idiom."""

    title: str
    package: str
    words: tuple[str, ...]
    body: list[str] = field(default_factory=list)
    wanted: list[str] = field(default_factory=list)
    listed: list[str] = field(default_factory=list)

    def file(self) -> str:
        """The package's file."""
        front = "from spack.package import *\n\n\n"
        if any(line.startswith("class ") for line in self.body):
            return front + "\n".join(self.body).replace("class Idiom(", f"class {class_name(self.package)}(") + "\n"
        return front + f"class {class_name(self.package)}(Package):\n" + "\n".join("    " + line for line in self.body) + "\n"


def cases(path: Path) -> Iterator[Case]:
    """The cases of a file."""
    case, part = None, []
    for number, line in enumerate(path.read_text("utf-8").splitlines()):
        if line.startswith("=== "):
            words = [word.strip() for word in line[4:].split("|")] + ["", ""]
            if case:
                yield case
            case = Case(words[0], words[1] or f"{path.stem}-{number}", tuple(words[2].split()))
            part = case.body
        elif case and line == "---":
            part = case.wanted
        elif case and line == "--- listed":
            part = case.listed
        elif line.strip() and case:
            part.append(line.rstrip())
    if case:
        yield case


def outcome(room: Path, package: str) -> tuple[list[str], list[str]]:
    """The lines of the recipe that was written, and what was listed."""
    path = room / "out" / "packages" / package / "package.py"
    lines = [line[4:] for line in path.read_text("utf-8").splitlines()[2:]] if path.exists() else ["no recipe"]
    hidden = re.compile(r'variant\("build_system"|pass$')
    report = (room / "out" / "report.txt").read_text("utf-8")
    listed = re.findall(rf"^{re.escape(package)}\n((?:    .*\n)*)", report.rpartition("Taken with parts left out")[2], re.M)
    blocks = re.findall(r"    \S.*\n        (\S+?)[( ].*\n        (.*)\n|    \S.*\n        (\S+)\n        (.*)\n", "".join(listed))
    found = [f"{name or other}: {why or reason}" for name, why, other, reason in blocks]
    found += [f"{what}: {why}" for what, why in re.findall(rf"    packages.yaml:\d+: (packages.{package}\..*)\n        (.*)\n", report)]
    return [line for line in lines if not hidden.match(line)], found


def check(path: Path, run: object) -> Iterator[tuple[str, str]]:
    """What differs for the cases of a file."""
    groups: dict[tuple[str, ...], list[Case]] = {}
    for case in cases(path):
        groups.setdefault(case.words, []).append(case)
    for words, group in groups.items():
        with tempfile.TemporaryDirectory() as name:
            room = Path(name)
            files = {package: f"class {class_name(package)}(Package):\n    version('1')\n" for package in STUBS.split()}
            files.update({case.package: case.file() for case in group})
            for package, text in files.items():
                (room / "repo" / "packages" / package).mkdir(parents=True)
                (room / "repo" / "packages" / package / "package.py").write_text(text, "utf-8")
            given = [word.replace("@/", f"{path.parent}/") for word in words]
            said = run(import_repo.main, room / "repo", room / "out", *given)  # type: ignore[operator]
            for case in group:
                wanted = (case.wanted, case.listed)
                found = outcome(room, case.package) if (room / "out").exists() else ([said], [])
                if found != wanted:
                    yield f"idioms/{path.name} {case.title}", f"wanted {wanted}, got {found}"
