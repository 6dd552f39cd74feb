"""What an import wrote, and from what: so that the next one reads again only what changed.

`import.json` in OUT is a table of hashes, `import_rows.jsonl` what was read of each package. A recipe that was changed by
hand since is seen by its hash, and left as it is.
"""
import argparse
import gc
import hashlib
import json
import multiprocessing
from pathlib import Path
from typing import Any, Iterable, Iterator, Optional

from . import json_files, packed, report
from .read_packages import PIECE, Found, processes
from .recipe_files import Repository
from .recipe_writer import recipe_text
from .rows import Recipe

TABLE, ROWS, ORIGINS = "import.json", "import_rows.jsonl", "origins.json"
SOURCES = sorted(Path(__file__).resolve().parent.glob("*.py"))


def digest(parts: Iterable[bytes]) -> str:
    """One hash of several texts."""
    found = hashlib.sha256()
    for part in parts:
        found.update(b"%d:" % len(part) + part)
    return found.hexdigest()


def bytes_of(path: Path) -> bytes:
    """The bytes of a regular file; empty where it is none."""
    try:
        return path.read_bytes() if path.is_file() else b""
    except OSError:
        return b""


def hash_of(data: bytes) -> str:
    """The hash of one file."""
    return hashlib.sha256(data).hexdigest()[:32]


class ImportTable:
    """The table of the last import beside that of this one."""

    def __init__(self, out: Path, repository: Repository, given: argparse.Namespace) -> None:
        self.out, self.repository = out, repository
        self.files = {name: hash_of(bytes_of(path)) for name, path in repository.folders.items()}
        machine = json.dumps(repository.machine, sort_keys=True).encode()
        fixed = [*map(bytes_of, SOURCES), *map(bytes_of, repository.base_files), bytes_of(repository.root / "repo.yaml"), machine]
        self.reading = digest([*fixed, "\n".join(self.files).encode(), *map(bytes_of, given.values_from or [])])
        options = [given.strict, given.sticky, str(given.report), str(given.json), [str(path) for path in repository.base_files]]
        self.whole = digest([self.reading.encode(), json.dumps(options).encode(), bytes_of(given.packages) if given.packages else b"-"])
        self.old = self.read_old()
        self.written: dict[str, list[str]] = {}
        self.recipes: list[Recipe] = []
        self.summary, self.status = str(self.old.get("summary", "")), int(self.old.get("status", 0))

    def read_old(self) -> dict[str, Any]:
        """The last table; an empty one where there is none that can be read."""
        try:
            found = json_files.read(self.out / TABLE)
            is_table = isinstance(found, dict) and all(isinstance(found.get(key), dict) for key in ("files", "written"))
            return found if is_table and found.get("version") == 1 else {}
        except (ValueError, OSError):
            return {}

    def is_same(self) -> bool:
        """Whether this import would write what is there."""
        if self.old.get("whole") != self.whole or self.old.get("files") != self.files or not self.old.get("is_done"):
            return False
        return all((self.out / "packages" / name / "package.py").is_file() for name in self.old["written"])

    def kept(self) -> dict[str, Found]:
        """What was read the last time and did not change since, by package."""
        if self.old.get("reading") != self.reading:
            return {}
        same = {name for name, text in self.files.items() if self.old["files"].get(name) == text}
        found: dict[str, Found] = {}
        try:
            for line in (self.out / ROWS).read_text("utf-8").split("\n")[:-1]:
                name, others, each = line.split("\t", 2)
                if name in same and same.issuperset(others.split()):
                    found[name] = f"{others}\t{each}"
        except (OSError, ValueError, KeyError, TypeError):
            return {}
        return found

    def write(self, read: dict[str, Found], found: report.Import, jobs: Optional[int]) -> list[str]:
        """Writes the recipes that are new or other; gives those that were changed by hand, which stay."""
        (self.out / "packages").mkdir(parents=True, exist_ok=True)
        old = self.old.get("written", {})
        if old:
            self.put(old, False)
        self.recipes = found.recipes
        by_hand = [name for name in set(old).difference(recipe.name for recipe in found.recipes) if not self.drop(name)]
        for name, text, is_written in self.write_recipes(jobs):
            self.written[name] = [text]
            by_hand += [] if is_written else [name]
        (self.out / ROWS).write_text("".join(f"{name}\t{read[name]}\n" for name in sorted(read)), "utf-8")
        return sorted(by_hand)

    def is_own(self, name: str, data: bytes) -> bool:
        """Whether a recipe is as an import wrote it."""
        return hash_of(data) in self.old.get("written", {}).get(name, [])

    def write_recipes(self, jobs: Optional[int]) -> Iterator[tuple[str, str, bool]]:
        """Writes all recipes, on all processors where they are many: each name, the text's hash, and whether it was written."""
        places = range(0, len(self.recipes), PIECE)
        count = processes(jobs, len(self.recipes))
        WRITER[:] = [self]
        if count < 2:
            yield from (each for place in places for each in write_piece(place))
            return
        gc.freeze()
        with multiprocessing.get_context("fork").Pool(count) as pool:
            for found in pool.imap_unordered(write_piece, places):
                yield from found

    def write_recipe(self, recipe: Recipe, text: bytes) -> bool:
        """Writes one recipe and its origins; false where one that was changed by hand stands there."""
        folder = self.out / "packages" / recipe.name
        path = folder / "package.py"
        data = bytes_of(path)
        if data and data != text and not self.is_own(recipe.name, data):
            return False
        folder.mkdir(exist_ok=True)
        if data != text:
            path.write_bytes(text)
        origins = packed.origins(recipe).encode()
        if bytes_of(folder / ORIGINS) != origins:
            (folder / ORIGINS).write_bytes(origins)
        return True

    def drop(self, name: str) -> bool:
        """Removes a recipe whose package is gone; false where it was changed by hand."""
        folder = self.out / "packages" / name
        data = bytes_of(folder / "package.py")
        if data and not self.is_own(name, data):
            return False
        for file in (folder / "package.py", folder / ORIGINS):
            file.unlink(missing_ok=True)
        if folder.is_dir() and not any(folder.iterdir()):
            folder.rmdir()
        return True

    def put(self, written: dict[str, list[str]], is_done: bool) -> None:
        """Writes the table."""
        table = {
            "version": 1, "whole": self.whole, "reading": self.reading, "is_done": is_done, "summary": self.summary,
            "status": self.status, "files": self.files, "written": written,
        }
        (self.out / (TABLE + ".new")).write_text(json.dumps(table), "utf-8")
        (self.out / (TABLE + ".new")).replace(self.out / TABLE)

    def end(self, summary: str, status: int) -> None:
        """Writes the table of a whole import."""
        self.summary, self.status = summary, status
        self.put(self.written, True)


WRITER: list[ImportTable] = []


def write_piece(place: int) -> list[tuple[str, str, bool]]:
    """Writes some of the recipes, in a process that has them all."""
    table, found = WRITER[0], []
    for recipe in table.recipes[place : place + PIECE]:
        text = recipe_text(recipe).encode()
        found.append((recipe.name, hash_of(text), table.write_recipe(recipe, text)))
    return found
