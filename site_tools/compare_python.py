#!/usr/bin/env python3
"""Compares the importer's walk over a recipe with Python itself: `site_tools/compare_python.py [SEED [RUNS]]`, by hand.

The importer never runs a recipe. This script does, with the recipes of tests/recipes and with random ones that it makes
itself: their directives are replaced by functions that note what they are called with. What the importer took must be
what was called, in that order, but for the lines that it lists as left out; and each call that cannot be said must be listed.
"""
import argparse
import ast
import copy
import itertools
import sys
import tempfile
import types
from collections import ChainMap
from pathlib import Path
from typing import Any

TOOLS = Path(__file__).resolve().parent
sys.path.insert(0, str(TOOLS))
sys.dont_write_bytecode = True

from bridge import directives, literals  # noqa: E402
from bridge.class_reader import ClassReader  # noqa: E402
from bridge.recipe_files import Module, Repository, class_name  # noqa: E402
from bridge.rows import Cannot  # noqa: E402
from bridge.spec_text import Dialect, NotInProfile, read_condition  # noqa: E402
from compare_reader import GIVEN, Maker  # noqa: E402

Called = tuple[int, str, list, dict, list]  # line, directive, positional values, keywords, conditions and defaults of the blocks


class Block:
    """`when(..)` and `default_args(..)`: what stands around the calls in their block."""

    def __init__(self, notes: "Notes", condition: Any, defaults: dict) -> None:
        self.notes, self.entry = notes, (condition, defaults)

    def __enter__(self) -> None:
        self.notes.around.append(self.entry)

    def __exit__(self, *_: object) -> None:
        self.notes.around.pop()


class Notes:
    """What the directives of a file were called with, by class."""

    def __init__(self) -> None:
        self.called: dict[str, list[Called]] = {}
        self.around: list[tuple[Any, dict]] = []

    def directive(self, name: str) -> Any:
        """A function in the place of a directive."""

        def note(*positional: Any, **keywords: Any) -> None:
            """Notes a call, at the line of the class's body."""
            frame = sys._getframe(1)
            while frame is not None and "__qualname__" not in frame.f_locals:
                frame = frame.f_back
            if frame is not None:
                row = (frame.f_lineno, name, list(positional), keywords, self.around)
                self.called.setdefault(frame.f_locals["__qualname__"], []).append(copy.deepcopy(row))

        return note

    def names(self) -> dict[str, Any]:
        """The names that `from spack.package import *` gives."""
        found = {name: self.directive(name) for name in directives.DIRECTIVES}
        found.update({name: lambda *_, **__: None for name in directives.PASSED_OVER | {"run_before", "run_after"}})
        constructors = ("conditional", "any_combination_of", "auto_or_any_combination_of", "disjoint_sets", "Version", "ver")
        found.update({name: literals.FUNCTIONS[name] for name in constructors})
        found["itertools"] = itertools
        found["unknown"] = "u"  # what Python knows, and the importer does not
        found["when"] = lambda condition: Block(self, condition, {})
        found["default_args"] = lambda **words: Block(self, None, words)
        return found


class AnyModule(types.ModuleType):
    """A module that has every class and function."""

    def __getattr__(self, name: str) -> Any:
        if name in literals.FUNCTIONS:
            return literals.FUNCTIONS[name]
        return type(name, (), {"cones": ("small", "large")})


def run(text: str, repository: Repository) -> Notes:
    """Runs a recipe that this script may run."""
    notes = Notes()
    names = notes.names()
    for path in repository.base_files:
        for node in ast.parse(path.read_bytes()).body:
            if isinstance(node, ast.ClassDef):
                values = {"cuda_arch_values": literals.Evaluator({}).value(node.body[0].value)} if node.name == "CudaPackage" else {}
                names[node.name] = type(node.name, (), values)
    names["PackageBase"] = object
    modules = ("spack", "spack.package", "spack.variant", "spack.build_systems", "spack.build_systems.cmake", "mylib")
    modules += ("spack.build_systems.autotools", "spack.build_systems.wood", "spack.pkg.builtin.pine", "wood.base", "woods")
    made = {name: AnyModule(name) for name in (*modules, "spack.pkg", "spack.pkg.builtin", "wood")}
    for name, module in made.items():
        module.__path__ = []  # type: ignore[attr-defined]
        module.__all__ = []  # type: ignore[attr-defined]
        parent, _, last = name.rpartition(".")
        if parent:
            setattr(made[parent], last, module)
    before = {name: sys.modules.get(name) for name in made}
    sys.modules.update(made)
    try:
        exec(compile(text, "recipe", "exec"), {**names, "__name__": "recipe"})
    finally:
        for name, module in before.items():
            sys.modules.pop(name)
            if module is not None:
                sys.modules[name] = module
    return notes


def rows_of(called: Called, dialect: Dialect) -> list:
    """The rows of a call; `Cannot` or `NotInProfile` where it has none."""
    _, name, positional, keywords, around = called
    conditions = [condition for condition, words in around if not words and condition is not True]
    if any(condition is False for condition in conditions):
        return []
    unread = directives.UNREAD.get(name, frozenset())
    if name != "version" and set(keywords) - directives.KEYWORDS[name] - unread:
        raise Cannot("a keyword that the profile has not", "")
    if not all(isinstance(condition, str) for condition in conditions):
        raise Cannot("a condition that is no text", "")
    blocks = tuple(text for text in (read_condition(each, dialect).text() for each in conditions) if text)
    known = {key: value for _, words in around for key, value in words.items()}
    known.update({key: value for key, value in keywords.items() if key in directives.KEYWORDS[name]})
    for place, word in enumerate(directives.NAMED_PLACES.get(name, ()), start=1):
        if place < len(positional):
            known.setdefault(word, positional[place])
    return directives.DIRECTIVES[name](directives.Call(name, positional, known, blocks, dialect))


def compared(module: Module, name: str, repository: Repository, notes: Notes) -> list[str]:
    """What differs for one class."""
    node = module.classes[name]
    reader = ClassReader("recipe", repository.dialect, text=module.text)
    reader.run(node.body, ChainMap({}, repository.class_values(module, node), copy.deepcopy(module.names_at[name])))
    listed = {each.line for each in reader.left_out}
    wrong, places = [], {0}  # how many of the taken rows are accounted for
    for called in notes.called.get(name, []):
        try:
            rows = rows_of(called, repository.dialect)
        except (Cannot, NotInProfile) as fault:
            wrong += [f"{name}:{called[0]}: cannot be said ({fault}), and is not listed"] * (called[0] not in listed)
            continue
        # A line that is listed for one turn of a loop may have been taken in another.
        next_places = {place + len(rows) for place in places if reader.rows[place : place + len(rows)] == rows}
        next_places |= places if called[0] in listed else set()
        if not next_places:
            return wrong + [f"{name}:{called[0]}: {rows} was called, and not taken"]
        places = next_places
    return wrong + [f"{name}: {reader.rows[max(places):]} was taken, and not called"] * (len(reader.rows) not in places)


def compare(repository: Repository) -> tuple[int, list[str]]:
    """All recipes of a repository that Python reads."""
    count, wrong = 0, []
    for package, path in repository.folders.items():
        try:
            module = repository.module(path)
            notes = run(module.text, repository)
        except (Cannot, OSError, NameError, TypeError, ValueError, AttributeError, LookupError, MemoryError):
            continue
        if class_name(package) in module.classes:
            count += 1
            wrong += compared(module, class_name(package), repository, notes)
    return count, wrong


def main() -> int:
    """Compares the recipes of the tests, and random ones: 0 where nothing differs."""
    parser = argparse.ArgumentParser(description=__doc__)
    parser.add_argument("seed", type=int, nargs="?", default=1, metavar="SEED")
    parser.add_argument("runs", type=int, nargs="?", default=5, metavar="RUNS")
    given = parser.parse_args()
    seed, runs = given.seed, given.runs
    stand_ins = [TOOLS / "build_systems"]
    count, wrong = compare(Repository(TOOLS / "tests" / "recipes", stand_ins, "linux"))
    for turn in range(runs):
        with tempfile.TemporaryDirectory() as room:
            maker = Maker(seed + turn)
            for number in range(150):
                folder = Path(room) / "packages" / f"p{number}"
                folder.mkdir(parents=True)
                (folder / "package.py").write_text("\n".join([f"class P{number}(Package):", *GIVEN, *maker.block(1)]) + "\n", "utf-8")
            more, faults = compare(Repository(Path(room), stand_ins, "linux"))
            count, wrong = count + more, wrong + faults
    print("\n".join(wrong + [f"{count} recipes compared, {len(wrong)} differ"]))
    return 1 if wrong else 0


if __name__ == "__main__":
    sys.exit(main())
