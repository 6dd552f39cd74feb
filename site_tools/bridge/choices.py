"""What each choice of a node costs, by criterion: computed from lock file, recipes and settings as docs/RULES.md has it.

Where the program's numbers are known, what is computed is shown only where the sums over all nodes are these.
"""
from dataclasses import dataclass, replace
from typing import Any, Optional

from . import node_texts, spec_parts, versions
from .catalog import Catalog, allowed, defaults, few
from .cost_reasons import part as part_of
from .cost_reasons import place
from .lock import Lock, Node
from .reason_causes import overlap
from .recipe_rows import Directive
from .spec_text import variant_text


@dataclass(frozen=True)
class Choice:
    """A choice of a node: the number of its criterion in the vector, its cost, and in words."""

    number: int
    cost: int
    text: str


def meets(part: spec_parts.Part, node: Node, catalog: Catalog) -> bool:
    """Whether a part holds at a node."""
    own = node["compiler"]
    compiler = not part.compiler or own and own["name"] == part.compiler[0] and (
        not part.compiler[1] or versions.contains(part.compiler[1], own["version"])
    )
    return (
        part.name in ("", node["name"])
        and (not part.versions or versions.contains(part.versions, node["version"]))
        and all(set(values) <= set(node["variants"].get(name, [])) for name, values in part.variants.items())
        and bool(compiler)
        and part.os in ("", node["os"])
        and part.platform in ("", str(catalog.settings["platform"]))
        and (not part.targets or any(catalog.in_target(item, node["target"]) for item in part.targets))
    )


def below(lock: Lock, node: Node) -> set[str]:
    """The names of all nodes that edges lead to from a node."""
    found: set[str] = set()
    todo = [node]
    while todo:
        for child, _ in lock.children(todo.pop()):
            if child["name"] not in found:
                found.add(child["name"])
                todo.append(child)
    return found


def provides(package: Node, virtual: str, wanted: str, lock: Lock, catalog: Catalog) -> bool:
    """Whether a node provides a virtual for a set of versions."""
    for giver, row in catalog.virtuals.get(virtual, []):
        if giver == package["name"] and holds(row.conditions, package, lock, catalog):
            lists = [spec[0].versions for text in row.values for spec in spec_parts.parts(str(text)) if spec[0].name == virtual]
            if any(not each or not wanted or overlap(each, wanted) for each in lists):
                return True
    return False


def suits(part: spec_parts.Part, node: Node, lock: Lock, catalog: Catalog) -> bool:
    """Whether what a part behind `^` asks for is below a node."""
    name = lock.providers.get(part.name, part.name)
    asked = lock.by_name().get(name)
    if asked is None or name not in below(lock, node):
        return False
    if part.name not in lock.providers:
        return meets(part, asked, catalog)
    return provides(asked, part.name, part.versions, lock, catalog) and meets(replace(part, name="", versions=""), asked, catalog)


def holds(conditions: tuple[str, ...], node: Node, lock: Lock, catalog: Catalog) -> bool:
    """Whether conditions hold at a node."""
    specs = [spec for text in conditions for spec in spec_parts.parts(text)]
    return all(meets(spec[0], node, catalog) and all(suits(part, node, lock, catalog) for part in spec[1:]) for spec in specs)


def governing(rows: list[Directive], node: Node, lock: Lock, catalog: Catalog) -> Optional[Directive]:
    """The last definition of a variant that holds at a node."""
    return next((row for row in reversed(rows) if holds(row.conditions, node, lock, catalog)), None)


def version_order(name: str, catalog: Catalog) -> list[str]:
    """The declared versions of a package, the most preferred first."""
    lists = [str(each) for each in catalog.settings["packages"].get(name, {}).get("versions", [])]
    rows = {row.first(): row for row in catalog.rows(name) if row.word == "version"}

    def rank(text: str) -> tuple[int, bool, bool, bool]:
        """What counts before newness."""
        at = next((number for number, each in enumerate(lists) if versions.contains(each, text)), len(lists))
        words = bool(set(versions.components(text)) & set(versions.SPECIAL))
        return at, rows[text].keywords.get("preferred") is not True, rows[text].keywords.get("deprecated") is True, words

    newest = sorted(rows, key=versions.key, reverse=True)
    return sorted(newest, key=rank)


def version_choices(node: Node, is_root: bool, catalog: Catalog) -> list[Choice]:
    """The version: how far behind, and whether it is deprecated."""
    order = version_order(node["name"], catalog)
    weight = order.index(node["version"]) if node["version"] in order else len(order)
    kind = f"of {few(order)}" if order else "none is declared"
    found = [Choice(2 if is_root else 11, weight, f"version {node['version']}, {weight} places behind the preferred one, {kind}")]
    rows = [row for row in catalog.rows(node["name"]) if row.word == "version" and row.first() == node["version"]]
    if any(row.keywords.get("deprecated") is True for row in rows):
        found.append(Choice(1, 1, f"version {node['version']} is deprecated"))
    return found


def variant_choices(lock: Lock, node: Node, is_root: bool, catalog: Catalog) -> list[Choice]:
    """The values of variants: those that are no default, and defaults that are not used."""
    found: list[Choice] = []
    definitions = catalog.variants(node["name"])
    for name, values in sorted(node["variants"].items()):
        row = governing(definitions.get(name, []), node, lock, catalog)
        if row is None:
            continue
        text = variant_text(name, tuple(values))
        usual, own = defaults(row), set(values)
        there = f"(default {few(sorted(usual))}; there is {few(allowed(row) or ['any'])})"
        for number, count in ((3 if is_root else 6, len(own - usual)), (5 if is_root else 12, len(usual - own))):
            if count:
                found.append(Choice(number, count, f"{text} {there}"))
    return found


def machine_choices(lock: Lock, node: Node, catalog: Catalog) -> list[Choice]:
    """Operating system, compiler, target, and edges to nodes of others."""
    settings, own = catalog.settings, node["compiler"]
    compilers = [(each["name"], each["version"]) for each in settings["compilers"]]
    targets = [str(each["name"]) for each in settings["targets"]]
    found = [Choice(10, place(node["os"], settings["os"]), f"os={node['os']}")]
    found.append(Choice(15, place(node["target"], targets), f"target={node['target']}, of {few(targets)}"))
    if own:
        text = f"%{node_texts.compiler_text(node)}, of {few(f'{name}@{version}' for name, version in compilers)}"
        found.append(Choice(13, place((own["name"], own["version"]), compilers), text))
    for child, _ in lock.children(node):
        pairs: dict[int, tuple[Any, Any]] = {
            8: (own, child["compiler"]), 9: (node["os"], child["os"]), 14: (node["target"], child["target"]),
        }
        words = {8: "compiler", 9: "operating system", 14: "target"}
        found += [Choice(number, 1, f"{child['name']} has another {words[number]}")
                  for number, (one, two) in pairs.items() if one != two and None not in (one, two)]
    return found


def choices(lock: Lock, name: str, catalog: Catalog) -> list[Choice]:
    """All choices of a node, by their numbers in the vector; those that cost nothing too."""
    node = lock.by_name()[name]
    is_root = name in {lock.nodes[hash]["name"] for _, hash in lock.roots}
    found = version_choices(node, is_root, catalog) + variant_choices(lock, node, is_root, catalog) + machine_choices(lock, node, catalog)
    for virtual in lock.provided_by(name):
        order = [str(each) for each in catalog.settings["providers"].get(virtual, [])]
        found.append(Choice(4 if is_root else 7, place(name, order), f"provider of {virtual}" + (f", of {few(order)}" if order else "")))
    if node["origin"] == "built":
        found.append(Choice(16, 1, "is to be built"))
    shift = part_of(node)
    moved = [Choice(each.number + (shift if each.number != 16 else 0), each.cost, each.text) for each in found]
    return sorted(moved, key=lambda each: each.number)


def sums(lock: Lock, catalog: Catalog) -> dict[int, int]:
    """What all nodes' choices add up to, by number."""
    found = {number: 0 for number in range(1, 32)}
    for name in lock.by_name():
        for each in choices(lock, name, catalog):
            found[each.number] += each.cost
    return found
