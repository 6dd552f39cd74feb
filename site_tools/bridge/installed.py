"""`import_installed`: what Spack has installed, as a database of the profile.

Reads Spack's `index.json` (in `opt/spack/.spack-db`), writes records with hashes computed anew and a table of old to
new hashes. What a record cannot say is left out of it and listed; a record that cannot be said is left out, and so is
each that is linked to it or runs with it.
"""
import argparse
import sys
from dataclasses import dataclass, field
from pathlib import Path
from typing import Any, Optional

from . import json_files, records, signs
from .catalog import Catalog
from .records import Record
from .rows import Cannot
from .shown import shown as shown_text
from .spec_text import COMPILER_OF_PACKAGE

LANGUAGES = {"c", "cxx", "fortran"}
# Said of every record alike: what Spack keeps of a package's files, and of how its specs were written.
NOT_SAID = ("namespace", "package_hash", "patches", "annotations", "target's features")
NO_VARIANTS = frozenset({"patches", "dev_path", "commit"})


@dataclass
class Import:
    """The records by their new hashes, the table of hashes, and what was left out."""

    platform: str
    installs: dict[str, dict]
    found: dict[str, Record] = field(default_factory=dict)
    new_hash: dict[str, str] = field(default_factory=dict)
    refused: dict[str, str] = field(default_factory=dict)
    parts: dict[str, list[str]] = field(default_factory=dict)
    open: set[str] = field(default_factory=set)
    provided: Optional[frozenset[str]] = None  # by the recipes, where they are known
    unknown: set[str] = field(default_factory=set)  # virtuals of the index that no recipe provides


def children_of(spec: dict) -> list[dict]:
    """The dependencies of a spec as `hash`, `name`, `kinds`, `virtuals`, by any of Spack's forms."""
    given = spec.get("dependencies", [])
    if isinstance(given, dict):
        given = [{"name": name, **child} for name, child in given.items()]
    found = []
    for child in given:
        parameters = child.get("parameters", {})
        kinds = parameters.get("deptypes", child.get("type", []))
        found.append({"hash": child["hash"], "name": child["name"], "kinds": kinds, "virtuals": parameters.get("virtuals", [])})
    return found


def target_of(arch: dict) -> str:
    """The name of a target, which is a text or an object with a name."""
    target = arch["target"]
    return target["name"] if isinstance(target, dict) else target


def compiler_of(spec: dict, found: Import) -> Optional[dict]:
    """The compiler: written as such, or (Spack 1.0) the one package that provides the languages."""
    written = spec.get("compiler")
    if written:
        return {"name": written["name"], "version": written["version"]}
    compilers = set()
    for child in children_of(spec):
        if LANGUAGES & set(child["virtuals"]):
            other = found.installs.get(child["hash"], {}).get("spec")
            if other is None:
                raise Cannot("a compiler that the database has not", child["name"])
            compilers.add((COMPILER_OF_PACKAGE.get(other["name"], other["name"]), other["version"]))
    if len(compilers) > 1:
        raise Cannot("several compilers", ", ".join("@".join(each) for each in sorted(compilers)))
    return next(({"name": name, "version": version} for name, version in compilers), None)


def variants_of(spec: dict, parts: list[str]) -> dict[str, list[str]]:
    """The variants; flags and values beyond the profile are left out and listed."""
    variants: dict[str, list[str]] = {}
    for name, value in spec.get("parameters", {}).items():
        values = [signs.as_value(each) for each in (value if isinstance(value, list) else [value])]
        if name in signs.FLAGS or name in NO_VARIANTS:
            parts += [f"{name}={' '.join(values)}"] if values and name in signs.FLAGS else []
        elif values and signs.is_name(name) and all(map(signs.is_value, values)):
            variants[name] = sorted(set(values))
        elif values:
            parts.append(f"{name}={','.join(values)}")
    return variants


def checked(record: Record) -> Record:
    """The record, where its texts have their forms."""
    compiler = record["compiler"]
    if compiler and not (signs.is_name(compiler["name"]) and signs.is_version(compiler["version"])):
        raise Cannot("a compiler beyond the profile", f"`{compiler['name']}@{compiler['version']}`")
    if not signs.is_name(record["name"]) or not signs.is_version(record["version"]):
        raise Cannot("a name or version beyond the profile", f"`{record['name']}@{record['version']}`")
    if not signs.is_value(record["os"]) or not signs.is_value(record["target"]):
        raise Cannot("an OS or target beyond the profile", f"`{record['os']}`, `{record['target']}`")
    return record


def named_on(child: dict, found: Import) -> list[str]:
    """What a child provides, but for languages: a compiler is no package of the profile, and no recipe asks for `c`."""
    virtuals = [str(each) for each in child["virtuals"] if each not in LANGUAGES]
    if found.provided is not None:
        found.unknown.update(set(virtuals) - found.provided)
        virtuals = [each for each in virtuals if each in found.provided]
    strange = [each for each in virtuals if not signs.is_name(each)]
    if strange:
        raise Cannot("a virtual beyond the profile", f"`{strange[0]}`")
    return virtuals


def dependencies_of(spec: dict, found: Import) -> list[dict]:
    """The dependencies with their new hashes; a child for building alone may be no record, and keeps its old hash."""
    kinds_of: dict[str, list[str]] = {}
    named: dict[str, set[str]] = {}
    for child in children_of(spec):
        kinds = [kind for kind in records.KINDS if kind in child["kinds"]]
        new = read(child["hash"], found) if child["hash"] in found.installs else None
        if kinds and kinds != ["build"] and new is None:
            raise Cannot("a link or run child that is left out", child["name"])
        if kinds:
            kinds_of.setdefault(new or child["hash"], []).extend(kinds)
            named.setdefault(new or child["hash"], set()).update(named_on(child, found))
    return [records.dependency(each, kinds_of[each], named[each]) for each in sorted(kinds_of)]


def record_of(old: str, found: Import) -> Record:
    """The record of one installed package; `Cannot` where there is none."""
    install = found.installs[old]
    spec, arch = install["spec"], install["spec"].get("arch", {})
    if not install.get("installed", True) and not install.get("in_buildcache"):
        raise Cannot("not installed", "")
    if install.get("deprecated_for"):
        raise Cannot("deprecated for another one", "")
    if arch.get("platform") != found.platform:
        raise Cannot("another platform", f"`{arch.get('platform')}`")
    parts: list[str] = []
    external = spec.get("external") or None
    if external and not isinstance(external.get("path"), str):
        raise Cannot("an external without a path", "")
    record = {
        "compiler": compiler_of(spec, found),
        "dependencies": dependencies_of(spec, found),
        "external": external["path"] if external else None,
        "name": spec["name"], "os": arch["platform_os"], "target": target_of(arch),
        "variants": variants_of(spec, parts), "version": str(spec["version"]),
    }
    if parts:
        found.parts[old] = parts
    return checked(record)


def read(old: str, found: Import) -> Optional[str]:
    """The new hash of an installed package, its children read first; None where it is left out."""
    if old in found.new_hash or old in found.refused:
        return found.new_hash.get(old)
    try:
        if old in found.open:
            raise Cannot("a package that depends on itself", "")
        found.open.add(old)
        record = record_of(old, found)
    except Cannot as fault:
        found.refused[old] = fault.kind + (f": {fault.detail}" if fault.detail else "")
        return None
    except (KeyError, TypeError, AttributeError, ValueError, RecursionError) as fault:
        found.refused[old] = f"an entry that is not of Spack's form: {fault}"
        return None
    new = records.hash_of(record)
    if new in found.found:
        found.parts.setdefault(old, []).append("(all in which it differs from another record, whose hash it shares)")
    found.found[new] = {**record, "hash": new}
    found.new_hash[old] = new
    return new


def children_first(installs: dict[str, Any]) -> list[str]:
    """The installed packages, each behind those that it depends on, as far as there is no cycle."""
    order: dict[str, None] = {}
    seen: set[str] = set()
    for first in sorted(installs):
        waiting = [(first, False)]
        while waiting:
            old, is_done = waiting.pop()
            if is_done:
                order[old] = None
            elif old not in seen and old in installs:
                seen.add(old)
                waiting.append((old, True))
                waiting += [(each, False) for each in child_hashes(installs[old])]
    return list(order)


def child_hashes(install: Any) -> list[str]:
    """The hashes of an entry's children; none where it is not of Spack's form."""
    try:
        return [child["hash"] for child in children_of(install["spec"]) if isinstance(child["hash"], str)]
    except (KeyError, TypeError, AttributeError):
        return []


def import_all(index: dict, platform: str, strict: bool = False, provided: Optional[frozenset[str]] = None) -> Import:
    """All installed packages of an index."""
    found = Import(platform, index["database"]["installs"], provided=provided)
    for old in children_first(found.installs):
        read(old, found)
    if strict and found.parts:
        kept = {old: each for old, each in found.installs.items() if old not in found.parts}
        again = import_all({"database": {"installs": kept}}, platform, provided=provided)
        again.refused.update({old: "parts that cannot be said, under --strict" for old in found.parts})
        again.installs = found.installs
        return again
    return found


def add_cache(index: dict, cache: dict) -> None:
    """Adds what a build cache has and the index has not: it can be fetched in place of being built."""
    installs = index["database"]["installs"]
    for old, entry in cache["database"]["installs"].items():
        if old not in installs or not installs[old].get("installed", True):
            installs[old] = {**entry, "in_buildcache": True}


def database_text(found: Import) -> str:
    """The database as a file: records by name, then by hash."""
    rows = sorted(found.found.values(), key=lambda record: (record["name"], record["hash"]))
    return '{"records":[\n' + ",\n".join(map(records.compact, rows)) + '\n],"version":2}\n'


def table_text(found: Import) -> str:
    """The table of hashes: old, new, name and version, with tabs between."""
    rows = [(found.found[new]["name"], old, new, found.found[new]["version"]) for old, new in found.new_hash.items()]
    return "".join(f"{old}\t{new}\t{name}@{version}\n" for name, old, new, version in sorted(rows))


def shown(old: str, found: Import) -> str:
    """An installed package as reports show it."""
    install = found.installs[old]
    spec = install.get("spec") if isinstance(install, dict) else None
    if not isinstance(spec, dict):
        return f"an entry /{old[:7]}"
    return f"{spec.get('name')}@{spec.get('version')} /{old[:7]}"


def report_text(found: Import) -> str:
    """What was taken, and what was left out."""
    lines = [
        f"import_installed: {len(found.installs)} entries: {len(found.found)} records, "
        f"{len(found.refused)} left out, {len(found.parts)} with parts left out",
        f"Left out of all: {', '.join(NOT_SAID)}.",
    ]
    unknown = ", ".join(map(shown_text, sorted(found.unknown)))
    lines += [f"Virtuals that no recipe provides, left out of all edges: {unknown}."] * bool(unknown)
    lines += ["", "Left out"] * bool(found.refused)
    lines += [f"    {shown(old, found)}: {found.refused[old]}" for old in sorted(found.refused, key=lambda old: shown(old, found))]
    lines += ["", "Taken without"] * bool(found.parts)
    lines += [f"    {shown(old, found)}: {'; '.join(found.parts[old])}" for old in sorted(found.parts, key=lambda old: shown(old, found))]
    return "\n".join(lines) + "\n"


def provided_in(repo: Path) -> frozenset[str]:
    """The virtuals that recipes provide; `Cannot` where there is no recipe."""
    catalog = Catalog(str(repo))
    if not catalog.recipes:
        raise Cannot("no recipes", f"{repo} has no packages/NAME/package.py")
    return frozenset(catalog.virtuals)


def main(words: Optional[list[str]] = None) -> int:
    """Imports an index: 0 where all was said, 1 where something was listed, 2 where the file is none."""
    parser = argparse.ArgumentParser(prog="import_installed", description=__doc__)
    parser.add_argument("index", type=Path, metavar="INDEX_JSON", help="Spack's opt/spack/.spack-db/index.json")
    parser.add_argument("database", type=Path, metavar="DATABASE", help="the file that is written")
    parser.add_argument("table", type=Path, metavar="HASHES", help="the table of old to new hashes that is written")
    parser.add_argument("--platform", default="linux", help="records of other platforms are left out")
    parser.add_argument(
        "--cache", type=Path, action="append", default=[], metavar="INDEX_JSON",
        help="index.json of a build cache: what is there counts as installed",
    )
    parser.add_argument("--repo", type=Path, metavar="OUT", help="the imported recipes: virtuals that none of them provides are left out")
    parser.add_argument("--strict", action="store_true", help="leave out each record of which a part cannot be said")
    given = parser.parse_args(words)
    try:
        index = json_files.read(given.index)
        for path in given.cache:
            add_cache(index, json_files.read(path))
        found = import_all(index, given.platform, given.strict, provided_in(given.repo) if given.repo else None)
    except Cannot as fault:
        print(f"import_installed: {fault}", file=sys.stderr)
        return 2
    except (OSError, ValueError, KeyError, TypeError, AttributeError) as fault:
        print(f"import_installed: {given.index} is no index of Spack's: {fault}", file=sys.stderr)
        return 2
    given.database.write_text(database_text(found), "utf-8")
    given.table.write_text(table_text(found), "utf-8")
    print(report_text(found), end="")
    return 1 if found.refused or found.parts else 0
