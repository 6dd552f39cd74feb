"""What a graph has that is valid for all demands but one: the difference between what that one asks and the graph.

The program wrote the graph below the demand. Here its nodes are compared with what the directive's words ask, part by part; where
the words do not show a difference, as where a condition asks for a path, the nodes are named.
"""
from typing import Any, Iterator

from . import spec_parts, versions
from .catalog import Catalog, few
from .shown import shown
from .spec_parts import Part

Node = dict[str, Any]


def text_of(node: Node, part: Part) -> str:
    """A node with as much of it as a part asks about."""
    text = f"{node['name']}@={node['version']}"
    for name in part.variants:
        values = node["variants"].get(name)
        if values:
            flags = {("true",): f" +{name}", ("false",): f" ~{name}"}
            text += flags.get(tuple(values), f" {name}={','.join(values)}")
    if part.compiler:
        text += f" %{node['compiler']['name']}@={node['compiler']['version']}" if node["compiler"] else " without a compiler"
    text += f" os={node['os']}" if part.os else ""
    return shown(text + (f" target={node['target']}" if part.targets else ""))


def is_met(kind: str, part: Part, node: Node, catalog: Catalog, name: str = "") -> bool:
    """Whether one constraint of a part holds at a node."""
    if kind == "version":
        return versions.contains(part.versions, node["version"])
    if kind == "variant":
        return set(part.variants[name]) <= set(node["variants"].get(name, []))
    if kind == "compiler" and part.compiler:
        own = node["compiler"]
        return bool(own) and own["name"] == part.compiler[0] and versions.contains(part.compiler[1] or ":", own["version"])
    if kind == "platform":
        return part.platform == catalog.settings["platform"]
    if kind == "os":
        return part.os == node["os"]
    return any(catalog.in_target(item, node["target"]) for item in part.targets)


def unmet(part: Part, node: Node, catalog: Catalog) -> list[str]:
    """The constraints of a part that do not hold at a node."""
    names = iter(sorted(part.variants))
    return [text.strip() for kind, text in part.constraints()
            if not is_met(kind, part, node, catalog, next(names) if kind == "variant" else "")]


def nodes_for(part: Part, graph: list[Node], catalog: Catalog) -> list[Node]:
    """The nodes of a part's name, or those that provide it."""
    own = [node for node in graph if node["name"] == part.name]
    givers = {package for package, _ in catalog.virtuals.get(part.name, [])}
    return own or [node for node in graph if node["name"] in givers]


def asked_differences(spec: list[Part], graph: list[Node], catalog: Catalog) -> Iterator[str]:
    """For each part of a spec that is asked for, what the graph has in its place."""
    for part in spec:
        there = nodes_for(part, graph, catalog)
        if not there:
            yield f"no {shown(part.name)}"
        for node in there:
            missing = unmet(part, node, catalog) if node["name"] == part.name else []
            if missing:
                yield f"{text_of(node, part)}, which is not {shown(' '.join(missing))}"


def forbidden(spec: list[Part], graph: list[Node], catalog: Catalog) -> list[str]:
    """The nodes that are as a conflict says."""
    found = [(node, part) for part in spec for node in nodes_for(part, graph, catalog)]
    return [text_of(node, part) for node, part in found if node["name"] != part.name or not unmet(part, node, catalog)]


def named(graph: list[Node]) -> str:
    """The names of a graph's nodes."""
    return f"a graph of {few([shown(node['name']) for node in graph])}"


def sentence(kind: str, package: str, specs: list[list[Part]], graph: list[Node], catalog: Catalog) -> str:
    """What the graph has that is valid without this demand, beside what the demand asks of it."""
    if not graph:
        return "without it nothing has to be there"
    if kind == "conflicts":
        found = [text for spec in specs for text in forbidden(spec, graph, catalog)]
        return f"without it there is just that: {', '.join(found)}" if found else f"without it there is {named(graph)}"
    lacks = [text for spec in specs for text in asked_differences(spec, graph, catalog)]
    if kind in ("requires", "require"):
        lacks = lacks[:1] if len(specs) == 1 else [text_of(node, specs[0][0]) for node in graph if node["name"] == package][:1]
    beside = f"{package} and " if kind == "depends_on" and lacks and lacks[0].startswith("no ") else ""
    return f"without it there is {beside}{', '.join(lacks)}" if lacks else f"without it there is {named(graph)}"
