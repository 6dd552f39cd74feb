"""The lock file of a model: the graph that its true literals spell, by the comments of `encode_dimacs`.

An installed node is named by its hash alone there; its record, with the children that it was built with, is taken from the database.
"""
import re
from pathlib import Path
from typing import Any, Optional

from . import json_files, records
from .dimacs import KINDS, Choices, NoClauses, Problem, is_true

NAME = re.compile(r"[A-Za-z0-9_-]+")
Node = dict[str, Any]


def chosen(values: list[bool], name: str, attribute: str, choices: Choices) -> str:
    """The one value of an attribute."""
    found = [value for value, literal in choices.attributes[attribute] if is_true(values, literal)]
    if len(found) != 1:
        raise NoClauses(f"the model gives {name} {len(found)} values of {attribute}")
    return found[0]


def prefix_of(words: str) -> Optional[str]:
    """A prefix as it is: `-` is none, and behind `=` bytes are written as `\\hh` where they are no plain signs."""
    if words == "-":
        return None
    return re.sub(rb"\\([0-9a-f]{2})", lambda found: bytes([int(found[1], 16)]), words[1:].encode()).decode()


class Locker:
    """Makes the nodes, children before parents."""

    def __init__(self, problem: Problem, values: list[bool], database: Optional[Path]) -> None:
        self.problem, self.values = problem, values
        self.made: dict[str, Node] = {}
        self.by_hash: dict[str, Node] = {}
        if database is not None:
            data = json_files.read(database)
            if not isinstance(data, dict) or not isinstance(data.get("records"), list):
                raise ValueError(f"{database} is no database")
            self.by_hash = {record["hash"]: record for record in data["records"]}
        self.edges: dict[str, dict[str, list[str]]] = {}  # the kinds by parent and child
        for (parent, child), literals in problem.edges.items():
            kinds = [kind for kind in KINDS if kind in literals and is_true(values, literals[kind])]
            if kinds:
                self.edges.setdefault(parent, {})[child] = kinds

    def children_first(self, names: list[str]) -> list[str]:
        """The names, each behind its children."""
        order: dict[str, None] = {}
        above: set[str] = set()
        stack = [(name, False) for name in names]
        while stack:
            name, is_left = stack.pop()
            if is_left:
                above.discard(name)
                order[name] = None
            elif name in above:
                raise NoClauses(f"the model has a cycle through {name}")
            elif name not in order:
                above.add(name)
                stack.append((name, True))
                stack += [(child, False) for child in self.edges.get(name, {})]
        return list(order)

    def make(self, name: str) -> None:
        """Makes the node of a name, of which the children are made."""
        choices = self.problem.names[name]
        origin, _, entry = chosen(self.values, name, "origin", choices).partition(" ")
        if origin == "installed":
            if entry not in self.by_hash:
                raise NoClauses(f"{name} is the installed {entry}, which no database has: --database FILE")
            record = {key: self.by_hash[entry][key] for key in records.KEYS}
        else:
            record = self.record(name, choices)
        made = {**record, "origin": origin, "entry": int(entry) if origin == "external" else None, "hash": records.hash_of(record)}
        self.made[name] = made

    def record(self, name: str, choices: Choices) -> Node:
        """The record of a node that is built or external."""
        record: Node = {"name": name, "variants": {}, "dependencies": []}
        for attribute in ("version", "os", "target"):
            record[attribute] = chosen(self.values, name, attribute, choices)
        compiler = chosen(self.values, name, "compiler", choices)
        record["compiler"] = None if compiler == "-" else dict(zip(("name", "version"), compiler.split("@=")))
        record["external"] = prefix_of(chosen(self.values, name, "prefix", choices))
        for variant, some in choices.variants.items():
            found = sorted(value for value, literal in some if is_true(self.values, literal))
            if found:
                record["variants"][variant] = found
        for child, kinds in self.edges.get(name, {}).items():
            named = [virtual for virtual, literal in self.problem.named.get((name, child), []) if is_true(self.values, literal)]
            record["dependencies"].append(records.dependency(self.made[child]["hash"], kinds, named))
        record["dependencies"].sort(key=lambda child: child["hash"])
        return record


def lock_text(problem: Problem, values: list[bool], database: Optional[Path]) -> str:
    """The text of the lock file; `NoClauses` where the model spells no graph, or a record is missing."""
    locker = Locker(problem, values, database)
    names = sorted((name for name, choices in problem.names.items() if is_true(values, choices.node)), key=str.encode)
    for name in locker.children_first(names):
        locker.make(name)
    nodes = [locker.made[name] for name in names]
    roots = []
    for number, text in sorted(problem.roots.items()):
        found = NAME.match(text)
        if number != len(roots) or found is None or found[0] not in names:
            raise NoClauses(f"no `c clause` tells the root {len(roots)}, or the model has no node of it")
        roots.append({"hash": locker.made[found[0]]["hash"], "spec": text})
    providers = {}
    for virtual, some in problem.providers.items():
        for package, literal in some:
            if is_true(values, literal):
                providers[virtual] = package
    return records.compact({"nodes": nodes, "providers": providers, "roots": roots, "version": 2}) + "\n"
