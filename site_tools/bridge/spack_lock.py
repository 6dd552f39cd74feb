"""`import_lock`: Spack's `spack.lock` as a LOCK for `judge`: is what Spack chose valid here, and what does it cost?

Reads the forms of Spack 0.2x and 1.0. Compilers, their runtimes and the C library, which are packages in Spack 1.0, are no
nodes here; what else a node has that the profile has not is left out and listed. Hashes are computed anew.
"""
import argparse
import json
import sys
from dataclasses import dataclass, field
from pathlib import Path
from typing import Any, Optional

from . import edges, external_entries, installed, json_files, records, spec_text
from .rows import Cannot
from .spec_text import Dialect, NotInProfile

RUNTIMES = frozenset({"gcc-runtime", "intel-oneapi-runtime", "glibc", "musl", "compiler-wrapper"})


@dataclass
class LockImport:
    """What becomes of a spack.lock."""

    nodes: list[dict[str, Any]] = field(default_factory=list)
    providers: dict[str, str] = field(default_factory=dict)
    roots: list[dict[str, str]] = field(default_factory=list)
    notes: list[str] = field(default_factory=list)
    recipes: Optional[edges.Repository] = None  # what decides for edges, where the imported recipes are named

    def text(self) -> str:
        """The lock file."""
        nodes = sorted(self.nodes, key=lambda node: node["name"].encode())
        return records.compact({"nodes": nodes, "providers": self.providers, "roots": self.roots, "version": 2}) + "\n"


def is_language(child: dict) -> bool:
    """Whether a dependency is there for languages alone."""
    return bool(child["virtuals"]) and set(child["virtuals"]) <= installed.LANGUAGES


def plain_specs(given: dict[str, Any]) -> dict[str, dict]:
    """The specs without compilers and runtimes: a compiler becomes an attribute, as it was before Spack 1.0."""
    whole = installed.Import("", {old: {"spec": spec} for old, spec in given.items()})
    found = {}
    for old, spec in given.items():
        compiler = installed.compiler_of(spec, whole)
        children = [each for each in installed.children_of(spec) if not is_language(each) and each["name"] not in RUNTIMES]
        listed = [
            {"name": each["name"], "hash": each["hash"], "parameters": {"deptypes": each["kinds"], "virtuals": each["virtuals"]}}
            for each in children
        ]
        found[old] = {**spec, "compiler": compiler, "dependencies": listed}
    return found


def reached(specs: dict[str, dict], roots: list[str]) -> list[str]:
    """The specs that the roots lead to."""
    found = dict.fromkeys(roots)
    waiting = list(roots)
    while waiting:
        old = waiting.pop()
        if old not in specs:
            raise Cannot("a spec that the file has not", old)
        new = [each["hash"] for each in installed.children_of(specs[old]) if each["hash"] not in found]
        found.update(dict.fromkeys(new))
        waiting += new
    return list(found)


def root_text(root: dict, spec: dict, found: LockImport) -> str:
    """The canonical text of a root; its name alone where the profile has no such spec."""
    try:
        text = spec_text.Reader(str(root["spec"]), Dialect(has_edges=found.recipes is not None)).read(needs_name=True).text()
        return edges.said(text, None, frozenset(), found.recipes)[0] if found.recipes else text
    except (NotInProfile, Cannot) as fault:
        found.notes.append(f"root `{root['spec']}`: {fault.kind}: taken as `{spec['name']}`")
        return spec["name"]


def convert(value: Any, platform: str, known: dict[str, str], entries: external_entries.Entries, repo: Optional[Path]) -> LockImport:
    """The lock file of a spack.lock; `Cannot` where there is none."""
    found = LockImport(recipes=recipes_of(repo))
    specs = plain_specs(value["concrete_specs"])
    asked = [root["hash"] for root in value["roots"]]
    names = reached(specs, asked)
    one_of_each(specs, names)
    whole = installed.Import(platform, {old: {"spec": specs[old], "installed": True} for old in names})
    for old in installed.children_first(whole.installs):
        node = node_of(old, whole, known, entries, found)
        whole.new_hash[old] = node["hash"]
        found.nodes.append(node)
    for old in names:
        for child in installed.children_of(specs[old]):
            for virtual in set(child["virtuals"]) - installed.LANGUAGES:
                found.providers[virtual] = child["name"]
    found.roots = [{"hash": whole.new_hash[root["hash"]], "spec": root_text(root, specs[root["hash"]], found)} for root in value["roots"]]
    return found


def recipes_of(repo: Optional[Path]) -> Optional[edges.Repository]:
    """What import_repo kept of the recipes; None where it is not there."""
    path = repo / "site.json" if repo else None
    known = json_files.read(path).get("edges") if path and path.is_file() else None
    return edges.Repository.of_shown(known) if known else None


def one_of_each(specs: dict[str, dict], names: list[str]) -> None:
    """Refuses two nodes of one package, which a graph of the profile cannot have."""
    seen: dict[str, str] = {}
    for old in names:
        name = specs[old]["name"]
        if name in seen:
            raise Cannot("two nodes of one package", f"{name} /{seen[name][:7]} and /{old[:7]} (as with `unify: false` or `duplicates`)")
        seen[name] = old


def node_of(old: str, whole: installed.Import, known: dict[str, str], entries: external_entries.Entries, found: LockImport) -> dict:
    """One node: external by its entry in the settings, installed where the table of hashes has it, else built."""
    record = installed.record_of(old, whole)
    for part in whole.parts.get(old, []):
        found.notes.append(f"{record['name']}: left out: {part}")
    if record["external"] is not None and known.get(old) != records.hash_of(record):
        entry, record = entries.completed(record, found.notes)
        return {**record, "entry": entry, "origin": "external", "hash": records.hash_of(record)}
    computed = records.hash_of(record)
    is_installed = known.get(old) == computed
    if old in known and not is_installed:
        found.notes.append(f"{record['name']}: installed as another record than this node: taken as to build")
    return {**record, "entry": None, "origin": "installed" if is_installed else "built", "hash": computed}


def table_of(path: Optional[Path]) -> dict[str, str]:
    """The table of hashes that import_installed wrote."""
    rows = [line.split("\t") for line in path.read_text("utf-8").splitlines()] if path else []
    return {row[0]: row[1] for row in rows if len(row) > 1}


def main(words: Optional[list[str]] = None) -> int:
    """Imports a lock file: 0 where all was said, 1 where something was listed, 2 where there is none."""
    parser = argparse.ArgumentParser(prog="import_lock", description=__doc__)
    parser.add_argument("spack_lock", type=Path, metavar="SPACK_LOCK", help="the spack.lock of an environment")
    parser.add_argument("lock", type=Path, metavar="LOCK", help="the lock file that is written")
    parser.add_argument("--repo", type=Path, metavar="REPO", help="the imported recipes, for what externals are")
    parser.add_argument("--settings", type=Path, metavar="SETTINGS", help="the imported settings, for the entries of externals")
    parser.add_argument("--hashes", type=Path, metavar="HASHES", help="import_installed's table: what is installed is taken as that")
    given = parser.parse_args(words)
    try:
        settings = json_files.read(given.settings) if given.settings else {}
        entries = external_entries.Entries(settings, given.repo)
        platform = settings.get("platform", "linux")
        found = convert(json_files.read(given.spack_lock), platform, table_of(given.hashes), entries, given.repo)
    except Cannot as fault:
        print(f"import_lock: {given.spack_lock}: {fault}", file=sys.stderr)
        return 2
    except (OSError, ValueError, KeyError, TypeError, AttributeError, IndexError) as fault:
        print(f"import_lock: {given.spack_lock} is no lock file of Spack's: {type(fault).__name__} {fault}", file=sys.stderr)
        return 2
    given.lock.write_text(found.text(), "utf-8")
    print(f"import_lock: {len(found.nodes)} nodes, {len(found.roots)} roots, {len(found.notes)} left out")
    print("".join(f"    {note}\n" for note in found.notes), end="")
    print("judge: " + json.dumps(" ".join(root["spec"] for root in found.roots)))
    return 1 if found.notes else 0
