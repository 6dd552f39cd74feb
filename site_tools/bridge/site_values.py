"""Values that a site names: of variants that take any text, these can be allowed (`--values-from`).

Reads specs, a line each; packages.yaml or spack.yaml; Spack's index.json. A text that is no spec names nothing.
"""
from pathlib import Path
from typing import Any, Iterator, Optional

from . import json_files, spec_text, wish_texts, yaml_texts
from .settings_externals import name_of
from .spec_text import Dialect, NotInProfile, Part
from .yaml_texts import Text

SiteValues = dict[str, dict[str, list[str]]]  # by package ("" for each one), by variant


def read(paths: list[Path]) -> SiteValues:
    """The values that files name; `ValueError` where one cannot be read."""
    found: SiteValues = {}
    for path in paths:
        if path.suffix == ".json":
            parts = of_index(json_files.read(path))
        elif path.suffix in (".yaml", ".yml"):
            parts = of_yaml(yaml_texts.read_file(path), "")
        else:
            parts = of_texts(path.read_text("utf-8").splitlines(), "")
        for package, part in parts:
            add(found, package, part.variants)
    return found


def add(found: SiteValues, package: str, variants: dict[str, Any]) -> None:
    """Adds the values of one spec."""
    for name, values in variants.items():
        known = found.setdefault(package, {}).setdefault(name, [])
        known += [value for value in values if value not in known]


def of_texts(texts: list[str], owner: str) -> Iterator[tuple[str, Part]]:
    """The parts of specs, each with its package: its own name, or the one that it stands under."""
    for text in texts:
        try:
            spec = spec_text.read_condition(text.partition("#")[0].strip(), Dialect(has_edges=True))
        except NotInProfile:
            continue
        for part in [spec.top, *spec.below]:
            yield part.name or owner, part


def of_yaml(value: Any, owner: str) -> Iterator[tuple[str, Part]]:
    """The specs of packages.yaml or of an environment, wherever they stand below a package or among `specs`."""
    waiting = [(value, owner)]
    while waiting:
        inner, package = waiting.pop()
        if isinstance(inner, Text):
            yield from of_texts([str(inner)], package)
        elif isinstance(inner, list):
            waiting += [(each, package) for each in reversed(inner)]
        elif isinstance(inner, dict):
            for name, each in reversed(inner.items()):
                known = str(name) in ("packages", "spack", "specs", "externals", "spec", "all", *wish_texts.SECTIONS, "one_of", "any_of")
                waiting.append((each, "" if str(name) == "all" else package if known else name_of(str(name)) or package))


def of_index(index: Any) -> Iterator[tuple[str, Part]]:
    """The variants of installed packages."""
    installs = index.get("database", {}).get("installs", {}) if isinstance(index, dict) else {}
    for entry in installs.values() if isinstance(installs, dict) else ():
        spec = entry.get("spec") if isinstance(entry, dict) else None
        given = spec.get("parameters") if isinstance(spec, dict) else None
        if isinstance(given, dict) and isinstance(spec.get("name"), str):
            values = {str(name): [str(each) for each in (value if isinstance(value, list) else [value])] for name, value in given.items()}
            yield spec["name"], Part(variants={name: tuple(each) for name, each in values.items()})


def values_for(found: SiteValues, package: Optional[str]) -> dict[str, tuple[str, ...]]:
    """The values that are named of a package's variants, and of any package's."""
    merged: SiteValues = {"": {}}
    for key in ("", package or ""):
        add(merged, "", found.get(key, {}))
    return {name: tuple(values) for name, values in merged[""].items()}
