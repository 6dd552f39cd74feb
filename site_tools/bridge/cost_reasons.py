"""Which nodes and edges of a lock file the numbers of its cost vector come from, as far as lock file and settings say it.

Versions' weights and variants' values need the recipes, and are not explained here. A reason is shown only where the
reasons of a number add up to it, so that what is shown is never another number's.
"""
from collections import defaultdict
from typing import Any, Optional

from .lock import Lock, Node

STANDARD: dict[str, Any] = {
    "os": ["ubuntu22.04"], "targets": [{"name": "x86_64", "parents": []}], "providers": {},
    "compilers": [{"name": "gcc", "version": "12.3.0"}],
}
Reasons = dict[int, list[tuple[str, int]]]


def place(value: Any, order: list[Any]) -> int:
    """The place of a value in an order of preference, or the order's length."""
    return order.index(value) if value in order else len(order)


def part(node: Node) -> int:
    """Where the criteria of a node begin in the vector: nodes to build first, then the others."""
    return 0 if node["origin"] == "built" else 16


def edge_reasons(lock: Lock, found: Reasons) -> None:
    """Edges between two compilers, operating systems and targets."""
    for node in lock.by_name().values():
        for child, _ in lock.children(node):
            pairs = {8: (node["compiler"], child["compiler"]), 9: (node["os"], child["os"]), 14: (node["target"], child["target"])}
            for number, (one, two) in pairs.items():
                if one != two and None not in (one, two):
                    found[part(node) + number].append((f"{node['name']} to {child['name']}", 1))


def place_reasons(lock: Lock, settings: dict[str, Any], found: Reasons) -> None:
    """Places of operating systems, compilers, targets and providers in the settings' lists."""
    compilers = [(each["name"], each["version"]) for each in settings["compilers"]]
    names = [each["name"] for each in settings["targets"]]
    roots = {lock.nodes[hash]["name"] for _, hash in lock.roots}
    for name, node in lock.by_name().items():
        own = node["compiler"]
        numbers = {10: place(node["os"], settings["os"]), 15: place(node["target"], names)}
        numbers[13] = place((own["name"], own["version"]), compilers) if own else 0
        for virtual in lock.provided_by(name):
            number = 4 if name in roots else 7
            weight = place(name, settings["providers"].get(virtual, []))
            if weight:
                found[part(node) + number].append((f"{name} for {virtual}", weight))
        for number, weight in numbers.items():
            if weight:
                found[part(node) + number].append((name, weight))


def reasons(lock: Lock, settings: Optional[dict[str, Any]]) -> Reasons:
    """The reasons of each number that has some; those of the settings only where they are known."""
    found: Reasons = defaultdict(list)
    edge_reasons(lock, found)
    found[16] = [(name, 1) for name, node in lock.by_name().items() if node["origin"] == "built"]
    if settings is not None:
        place_reasons(lock, {**STANDARD, **settings}, found)
    return found


def text_of(number: int, value: int, found: Reasons) -> Optional[str]:
    """The reasons of a number on one line; None where they do not add up to it."""
    rows = found.get(number, [])
    if not rows or sum(weight for _, weight in rows) != value:
        return None
    return ", ".join(name if weight == 1 else f"{name} {weight}" for name, weight in rows)
