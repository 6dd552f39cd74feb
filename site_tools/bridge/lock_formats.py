"""A lock file in four forms: tree, table, dot, JSON. Shows; computes no cost and judges nothing."""
import json
from typing import Any

from . import node_texts
from .lock import Lock, Node

COLOURS = {"built": "#dbe9f6", "external": "#eeeeee", "installed": "#dcf2dc"}


def tree_lines(lock: Lock) -> list[str]:
    """A tree for each root, as `spack spec` prints it: each node with its children once."""
    shown: set[str] = set()
    lines: list[str] = []

    def show(node: Node, kinds: str, sign: str, depth: int) -> None:
        """A node, and what it depends on where that was not shown."""
        again = node["hash"] in shown
        name = f"{node['name']}@{node['version']}" if again else node_texts.spec_text(node, "")
        front = f"{node_texts.MARKS[node['origin']]}  {node['hash'][:7]}  {kinds}  "
        provided = lock.provided_by(node["name"]) if lock.version == 1 else []
        note = "" if again or not provided else f"  (as {', '.join(provided)})"
        lines.append(front + "    " * depth + sign + name + note)
        shown.add(node["hash"])
        for child, below in [] if again else lock.children(node):
            show(child, node_texts.kinds_text(below), node_texts.below_sign(lock.named(node, child)), depth + 1)

    for spec, hash in lock.roots:
        lines += ["", spec, "-" * 32]
        show(lock.nodes[hash], "[   ]", "", 0)
    return lines[1:]


def table_lines(lock: Lock) -> list[str]:
    """A line for each node, in columns."""
    head = ("package", "version", "origin", "compiler", "os", "target", "hash", "variants")
    rows = [head]
    for node in lock.by_name().values():
        compiler = node_texts.compiler_text(node) or "-"
        words = (node["name"], node["version"], node["origin"], compiler, node["os"], node["target"], node["hash"][:7])
        rows.append((*words, node_texts.variants_text(node)))
    widths = [max(len(row[column]) for row in rows) for column in range(len(head) - 1)] + [0]
    return ["  ".join(word.ljust(width) for word, width in zip(row, widths)).rstrip() for row in rows]


def dot_lines(lock: Lock) -> list[str]:
    """A graph for graphviz: `site_tools/lock_view --format dot LOCK | dot -Tsvg`."""
    lines = ["digraph lock {", '  node [shape=box, style="filled,rounded", fontname="sans-serif", fontsize=11];']
    lines.append('  edge [fontname="sans-serif", fontsize=9];')
    roots = {hash for _, hash in lock.roots}
    for node in lock.by_name().values():
        rows = [f"{node['name']}@{node['version']}", node_texts.variants_text(node), node_texts.compiler_text(node)]
        rows.append(node_texts.origin_text(node))
        rows += [f"provides {virtual}" for virtual in lock.provided_by(node["name"])]
        label = "\\n".join(row.replace('"', '\\"') for row in rows if row)
        width = ", penwidth=2" if node["hash"] in roots else ""
        lines.append(f'  "{node["name"]}" [label="{label}", fillcolor="{COLOURS[node["origin"]]}"{width}];')
        for child, kinds in lock.children(node):
            style = ", style=dashed" if kinds == ["build"] else ""
            label = node_texts.edge_text(kinds, lock.named(node, child)).replace(" as ", "\\nas ")
            lines.append(f'  "{node["name"]}" -> "{child["name"]}" [label="{label}"{style}];')
    return lines + ["}"]


def json_lines(lock: Lock) -> list[str]:
    """The graph by names, for programs: hashes stand only where they name an installed package."""
    found: dict[str, Any] = {}
    for name, node in lock.by_name().items():
        rest = {key: node[key] for key in ("version", "variants", "compiler", "os", "target", "origin", "external", "hash")}
        named = {child["name"]: lock.named(node, child) for child, _ in lock.children(node)}
        found[name] = {
            **rest, "dependencies": {child["name"]: kinds for child, kinds in lock.children(node)},
            "virtuals": {child: virtuals for child, virtuals in named.items() if virtuals},
        }
    roots = [{"spec": spec, "package": lock.nodes[hash]["name"]} for spec, hash in lock.roots]
    whole = {"roots": roots, "providers": lock.providers, "packages": found}
    return json.dumps(whole, indent=1, sort_keys=True, ensure_ascii=False).splitlines()


def facts(lock: Lock, node: Node) -> dict[str, str]:
    """What is compared of a node, each in words."""
    found = {"version": node["version"], "compiler": node_texts.compiler_text(node) or "none", "os": node["os"]}
    found.update({"target": node["target"], "origin": node_texts.origin_text(node)})
    found.update({f"variant {name}": ",".join(sorted(values)) for name, values in node["variants"].items()})
    edges = {child["name"]: node_texts.edge_text(kinds, lock.named(node, child)) for child, kinds in lock.children(node)}
    found.update({f"edge to {name}": text for name, text in edges.items()})
    return found


def diff_lines(old: Lock, new: Lock) -> list[str]:
    """What is in one graph and not in the other, package by package; and what was asked for, where that is other."""
    before, after = old.by_name(), new.by_name()
    asked = ["; ".join(spec for spec, _ in each.roots) for each in (old, new)]
    lines = [f"  asked for: {asked[0]} -> {asked[1]}"] if asked[0] != asked[1] else []
    for name in sorted(before.keys() | after.keys()):
        if name not in after:
            lines.append(f"- {node_texts.spec_text(before[name], '')}")
        elif name not in before:
            lines.append(f"+ {node_texts.spec_text(after[name], '')}")
        else:
            one, two = facts(old, before[name]), facts(new, after[name])
            keys = [key for key in sorted(one.keys() | two.keys()) if one.get(key) != two.get(key)]
            rows = [f"    {key}: {one.get(key, 'none')} -> {two.get(key, 'none')}" for key in keys]
            lines += [f"  {name}", *rows] if rows else []
    providers = sorted(old.providers.keys() | new.providers.keys())
    changed = [name for name in providers if old.providers.get(name) != new.providers.get(name)]
    lines += [f"  provider of {name}: {old.providers.get(name, 'none')} -> {new.providers.get(name, 'none')}" for name in changed]
    return lines or SAME


SAME = ["no difference"]
FORMATS = {"tree": tree_lines, "table": table_lines, "dot": dot_lines, "json": json_lines}
