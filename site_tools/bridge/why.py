"""`lock_view --why NAME`: who asks for a package in a lock file, by which ways from the roots, and what its choices cost."""
from typing import Optional

from . import node_texts, spec_parts
from .catalog import Catalog
from .choices import choices, holds, sums
from .lock import Lock, Node
from .shown import shown

KINDS = {"build": "to build with", "link": "to link with", "run": "to run with"}
MOST_WAYS = 6


class NoNode(ValueError):
    """A name that no node of the lock file has."""


def directives_for(parent: Node, child: Node, lock: Lock, catalog: Optional[Catalog]) -> list[str]:
    """The dependencies of the parent's recipe that ask for the child, or for what it provides."""
    if catalog is None or parent["origin"] != "built":
        return []
    names = {child["name"], *lock.provided_by(child["name"])}
    found = []
    for row in [each for each in catalog.rows(parent["name"]) if each.word == "depends_on"]:
        asks = any(spec[0].name in names for spec in spec_parts.parts(row.first()))
        if asks and holds(row.conditions, parent, lock, catalog):
            found.append(f"{shown(row.text)}, {catalog.repo}/packages/{parent['name']}/package.py:{row.line}")
    return found


def asking_lines(name: str, lock: Lock, catalog: Optional[Catalog]) -> list[str]:
    """Who asks for a node."""
    lines = [f"  asked for: {shown(spec)}" for spec, hash in lock.roots if lock.nodes[hash]["name"] == name]
    for parent in lock.by_name().values():
        for child, kinds in lock.children(parent):
            if child["name"] == name:
                named = lock.named(parent, child)
                answer = f", as {', '.join(named)}" if named else ""
                lines.append(f"  {parent['name']}, {', '.join(KINDS[kind] for kind in kinds)}{answer}")
                lines += [f"      {each}" for each in directives_for(parent, child, lock, catalog)]
    return lines


def ways(name: str, lock: Lock) -> list[str]:
    """For each root the shortest way to a node."""
    found = []
    for spec, hash in lock.roots:
        before: dict[str, str] = {}
        todo, seen = [lock.nodes[hash]], {lock.nodes[hash]["name"]}
        while todo:
            here = todo.pop(0)
            for child, _ in lock.children(here):
                if child["name"] not in seen:
                    seen.add(child["name"])
                    before[child["name"]] = here["name"]
                    todo.append(child)
        if name in before:
            way = [name]
            while way[-1] in before:
                way.append(before[way[-1]])
            found.append(f"  {shown(spec)}: {' -> '.join(way[::-1])}")
    return found[:MOST_WAYS] + ([f"  and from {len(found) - MOST_WAYS} more roots"] if len(found) > MOST_WAYS else [])


def cost_lines(name: str, lock: Lock, catalog: Catalog, vector: Optional[list[int]]) -> list[str]:
    """What each choice costs; what does not add up to the program's numbers is left out and named."""
    totals = sums(lock, catalog) if vector else {}
    lines, wrong = [], set()
    for each in choices(lock, name, catalog):
        if vector and totals[each.number] != vector[each.number - 1]:
            wrong.add(each.number)
        else:
            lines.append(f"  {each.number:3}. {each.cost:4}  {each.text}")
    if wrong:
        lines.append(f"  not told, since the recipes here do not add up to the program's numbers: {', '.join(map(str, sorted(wrong)))}")
    return lines


def lines(name: str, lock: Lock, catalog: Optional[Catalog], vector: Optional[list[int]]) -> list[str]:
    """All that is said of a node."""
    if name in lock.providers:
        name = lock.providers[name]
    node = lock.by_name().get(name)
    if node is None:
        raise NoNode(f"no node and no virtual of the lock file has the name `{shown(name)}`")
    provided = lock.provided_by(name)
    found = [node_texts.spec_text(node, ""), f"  {node_texts.origin_text(node)}" + (f", as {', '.join(provided)}" if provided else "")]
    found += ["", "Who asks for it:", *asking_lines(name, lock, catalog)]
    way_lines = ways(name, lock)
    found += ["", "Ways from the roots:", *way_lines] if way_lines else []
    if catalog is None:
        return found + ["", "What its choices cost: --judge, or --repo and --settings, say it"]
    head = "What its choices cost, by the numbers of the vector"
    checked = " (they add up to the program's)" if vector else " (from the recipes; --judge compares them with the program's)"
    return found + ["", head + checked + ":", *cost_lines(name, lock, catalog, vector)]
