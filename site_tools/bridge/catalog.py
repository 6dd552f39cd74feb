"""What a repository, settings and a database have: packages, their versions and variants, virtuals, compilers, systems, targets.

Reads as much as is asked for, and leniently: what the program refuses has no place here, and is passed over. It judges nothing.
"""
import difflib
import json
import re
from functools import cached_property, lru_cache
from pathlib import Path
from typing import Any, Iterable, Optional

from . import recipe_rows, signs, spec_parts, versions
from .cost_reasons import STANDARD
from .recipe_rows import Directive


def nearest(word: str, words: Iterable[str], count: int = 3) -> list[str]:
    """The words that are nearest to one, the nearest first."""
    return difflib.get_close_matches(word, sorted(set(words)), count, 0.6)


def few(words: Iterable[str], count: int = 8) -> str:
    """Words with commas between, the first ones where there are many."""
    found = list(words)
    rest = len(found) - count
    return ", ".join(found[:count]) + (f" and {rest} more" if rest > 0 else "")


def data_of(path: str) -> dict[str, Any]:
    """A JSON object from a file; an empty one for `-` and for what is none."""
    try:
        found = {} if path == "-" else json.loads(Path(path).read_text("utf-8"))
    except (OSError, ValueError, RecursionError):
        return {}
    return found if isinstance(found, dict) else {}


class Catalog:
    """The inputs of a run."""

    def __init__(self, repo: str, settings: str = "-", database: str = "-") -> None:
        self.repo = Path(repo)
        self.settings = {**STANDARD, "platform": "linux", "packages": {}, **data_of(settings)}
        self.settings["os"] = [signs.as_value(each) for each in self.settings["os"]]
        self.records = [each for each in data_of(database).get("records", []) if isinstance(each, dict) and "name" in each]
        self.rows = lru_cache(maxsize=None)(lambda name: recipe_rows.read(self.repo, name))

    @cached_property
    def recipes(self) -> list[str]:
        """The packages that have a recipe."""
        try:
            return sorted(each.parent.name for each in (self.repo / "packages").glob("*/package.py"))
        except OSError:
            return []

    @cached_property
    def virtuals(self) -> dict[str, list[tuple[str, Directive]]]:
        """What is provided, by whom, and by which directives."""
        found: dict[str, list[tuple[str, Directive]]] = {}
        for name in self.recipes:
            if b"provides" in (self.repo / "packages" / name / "package.py").read_bytes():
                for row in [each for each in self.rows(name) if each.word == "provides"]:
                    for text in row.values:
                        for spec in spec_parts.parts(str(text)):
                            found.setdefault(spec[0].name, []).append((name, row))
        return found

    def externals(self, name: str) -> list[spec_parts.Part]:
        """The externals of a package, each as what its spec says."""
        entries = self.settings["packages"].get(name, {}).get("externals", [])
        found = [spec_parts.parts(str(each.get("spec", ""))) for each in entries if isinstance(each, dict)]
        return [spec[0][0] for spec in found if spec]

    def installed(self, name: str) -> list[dict[str, Any]]:
        """The records of a package."""
        return [each for each in self.records if each["name"] == name]

    def known(self) -> set[str]:
        """All names of packages and virtuals."""
        return {*self.recipes, *self.settings["packages"], *(each["name"] for each in self.records), *self.virtuals}

    def has(self, name: str) -> bool:
        """Whether there is a package of that name: a recipe, an external or a record."""
        return (self.repo / "packages" / name / "package.py").is_file() or bool(self.externals(name) or self.installed(name))

    def versions(self, name: str) -> list[str]:
        """The versions that a package can have, the newest first."""
        found = {row.first() for row in self.rows(name) if row.word == "version"}
        found |= {versions.single(part.versions) or "" for part in self.externals(name)}
        found |= {str(each.get("version", "")) for each in self.installed(name)}
        return sorted(found - {""}, key=versions.key, reverse=True)

    def variants(self, name: str) -> dict[str, list[Directive]]:
        """The definitions of each variant of a package's recipe."""
        found: dict[str, list[Directive]] = {}
        for row in self.rows(name):
            if row.word == "variant":
                found.setdefault(row.first(), []).append(row)
        return found

    def kept_variants(self, name: str) -> dict[str, set[str]]:
        """The values of variants that externals and records of a package have."""
        found: dict[str, set[str]] = {}
        for part in self.externals(name):
            for each, values in part.variants.items():
                found.setdefault(each, set()).update(values)
        for record in self.installed(name):
            for each, texts in record.get("variants", {}).items():
                found.setdefault(each, set()).update(texts)
        return found

    def packages_of(self, name: str) -> list[str]:
        """A package, or those that provide a virtual."""
        return [name, *sorted({package for package, _ in self.virtuals.get(name, [])})]

    def compilers(self, name: str) -> set[tuple[str, str]]:
        """The compilers that a package can have: those of the settings, of its externals and of its records."""
        found = {(str(each.get("name")), str(each.get("version"))) for each in self.settings["compilers"]}
        for each in self.packages_of(name):
            kept = [record["compiler"] for record in self.installed(each)]
            found |= {(one["name"], one["version"]) for one in kept if one}
            written = [part.compiler for part in self.externals(each)]
            found |= {(one[0], versions.single(one[1]) or one[1]) for one in written if one}
        return found

    def systems(self, name: str) -> set[str]:
        """The operating systems that a package can have."""
        found = set(map(str, self.settings["os"]))
        for each in self.packages_of(name):
            found |= {str(record.get("os")) for record in self.installed(each)}
            found |= {part.os for part in self.externals(each) if part.os}
        return found

    def targets_of(self, name: str) -> set[str]:
        """The targets that a package can have."""
        found = {str(each["name"]) for each in self.settings["targets"]}
        for each in self.packages_of(name):
            found |= {str(record.get("target")) for record in self.installed(each)}
            found |= {part.targets[0] for part in self.externals(each) if part.targets}
        return found

    @cached_property
    def targets(self) -> dict[str, list[str]]:
        """The targets of the settings, each with its parents."""
        return {str(each["name"]): list(each.get("parents", [])) for each in self.settings["targets"]}

    def ancestors(self, target: str) -> set[str]:
        """A target and all that it builds on."""
        found: set[str] = set()
        todo = [target]
        while todo:
            each = todo.pop()
            if each not in found:
                found.add(each)
                todo += self.targets.get(each, [])
        return found

    def in_target(self, item: str, target: str) -> bool:
        """Whether an item of `target=` contains a target."""
        low, colon, high = item.partition(":")
        if not colon:
            return item == target
        return (not low or low in self.ancestors(target)) and (not high or target in self.ancestors(high))


def allowed(row: Directive) -> Optional[list[str]]:
    """The values that a definition of a variant allows; None where they cannot be told."""
    values = row.keywords.get("values", row.values[2] if len(row.values) > 2 else None)
    if values is None:
        return ["true", "false"]
    if isinstance(values, (tuple, list)):
        return [re.sub("^(True|False)$", lambda found: found[0].lower(), str(each)) for each in values]
    return None


def defaults(row: Directive) -> set[str]:
    """The default values of a definition."""
    value = row.keywords.get("default", row.values[1] if len(row.values) > 1 else None)
    texts = value if isinstance(value, (tuple, list)) else str(value).split(",")
    return {str(each).lower() if str(each) in ("True", "False") else str(each) for each in texts if each is not None}
