"""A lock file as data: nodes by name and by hash, roots, providers.

Reads what docs/formats/lock-file.md has; compares each hash with the computed one, and takes no other file.
"""
from dataclasses import dataclass
from pathlib import Path
from typing import Any, Iterator

from . import json_files, records

Node = dict[str, Any]
VERSIONS = (1, 2)


class NoLock(ValueError):
    """A file that is no lock file, or one that was changed by hand."""


@dataclass
class Lock:
    """The graph of a lock file."""

    nodes: dict[str, Node]  # by hash
    roots: list[tuple[str, str]]  # the text of a spec, and its node's hash
    providers: dict[str, str]
    version: int = 2  # in 1 no edge names what its child provides

    def by_name(self) -> dict[str, Node]:
        """The nodes by their names, in byte order."""
        return {node["name"]: node for node in sorted(self.nodes.values(), key=lambda node: node["name"])}

    def children(self, node: Node) -> Iterator[tuple[Node, list[str]]]:
        """The children that are nodes, by name, with the kinds of the edge: an installed node's are to link and run alone."""
        found = []
        for child in node["dependencies"]:
            kinds = [kind for kind in child["kinds"] if node["origin"] != "installed" or kind != "build"]
            if kinds and child["hash"] in self.nodes:
                found.append((self.nodes[child["hash"]], kinds))
        yield from sorted(found, key=lambda pair: pair[0]["name"])

    def named(self, node: Node, child: Node) -> list[str]:
        """The virtuals that the edge to a child names: what the child provides to this node."""
        return next((sorted(each.get("virtuals", [])) for each in node["dependencies"] if each["hash"] == child["hash"]), [])

    def provided_by(self, name: str) -> list[str]:
        """The virtuals that a package provides in this graph."""
        return sorted(virtual for virtual, package in self.providers.items() if package == name)


def read(path: Path) -> Lock:
    """The lock file; `NoLock` where it is none."""
    try:
        value = json_files.read(path)
        nodes = {node["hash"]: node for node in value["nodes"]}
        roots = [(root["spec"], root["hash"]) for root in value["roots"]]
        for node in value["nodes"]:
            if records.hash_of(node) != node["hash"]:
                raise NoLock(f"{path}: {node['name']} was changed without its hash")
        if value["version"] not in VERSIONS or not all(hash in nodes for _, hash in roots):
            raise NoLock(f"{path} is no lock file of version 1 or 2")
        if value["version"] == 1 and any("virtuals" in child for node in value["nodes"] for child in node["dependencies"]):
            raise NoLock(f"{path}: an edge names virtuals, which version 1 has not")
        return Lock(nodes, roots, value["providers"], value["version"])
    except NoLock:
        raise
    except (ValueError, KeyError, TypeError, AttributeError) as fault:
        raise NoLock(f"{path} is no lock file: {type(fault).__name__} {fault}") from fault
