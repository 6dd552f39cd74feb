"""The reasons that `explain` and `reasons` give, with what stands behind each: the text and place of a directive, the causes that
show, and of `reasons` the difference to the graph that is valid without it.

Reads what the program said, and the files of the run; the program alone decides that there is no graph.
"""
import json
import re
from dataclasses import asdict, dataclass, field
from typing import Any, Optional

from . import answers, origins, spec_parts, without
from .catalog import Catalog, few
from .reason_causes import Cause, causes
from .recipe_rows import Directive
from .shown import shown

LINE = re.compile(r"root ([0-9]+) (.*)|([A-Za-z0-9_-]+) (depends_on|conflicts|requires|require) ([0-9]+)")


@dataclass
class Reason:
    """A root, or a directive of a package, with its place in the recipe, the line of Spack's that it was made of, and causes."""

    kind: str
    number: int
    text: str
    package: str = ""
    file: str = ""
    line: int = 0
    msg: str = ""
    origin: str = ""
    causes: list[Cause] = field(default_factory=list)
    needs: list[str] = field(default_factory=list)
    graph: Optional[list[dict[str, Any]]] = None  # the nodes of a graph that is valid for all others, where one was said
    specs: list[list[spec_parts.Part]] = field(default_factory=list)  # what it asks, or forbids
    others: str = ""  # the difference between that and the graph

    def lines(self) -> list[str]:
        """The reason for a person."""
        head = f"root {self.number}: {shown(self.text)}"
        if self.kind != "root":
            head = f"{self.package}: {shown(self.text)}"
        found = [f"  {head}"]
        if self.file:
            found.append(f"      {shown(self.file)}:{self.line}" + (f", from {shown(self.origin)}" if self.origin else ""))
        found += [f"      its message: {shown(self.msg)}"] if self.msg else []
        for each in self.causes:
            there = f": there is {few(map(shown, each.near))}" if each.near else ""
            found.append(f"      {each.kind}: {each.text}{there}")
        found += [f"      {self.others}"] if self.others else []
        return found

    def data(self) -> dict[str, Any]:
        """The reason for a machine, without what is empty."""
        whole = asdict(self)
        for key in ("needs", "specs", "others"):
            del whole[key]
        return {key: value for key, value in whole.items() if value not in ("", None) and not (key == "line" and not self.file)}


def needed(row: Directive, catalog: Catalog) -> list[str]:
    """The packages that a dependency can lead to: itself, or who provides it."""
    names = [spec[0].name for spec in spec_parts.parts(row.first())][:1]
    return names + sorted({package for name in names for package, _ in catalog.virtuals.get(name, [])})


def directive_causes(row: Directive, package: str, catalog: Catalog) -> list[Cause]:
    """The causes in the spec of a dependency, or in all specs of a requirement."""
    if row.word == "depends_on":
        return [cause for spec in spec_parts.parts(row.first()) for part in spec for cause in causes(part, catalog)]
    if row.word == "requires":
        each_of = [[cause for spec in spec_parts.parts(str(text)) for part in spec
                    for cause in causes(own(part, package), catalog)] for text in row.values]
        return [cause for found in each_of for cause in found] if all(each_of) else []
    return []


def own(part: spec_parts.Part, package: str) -> spec_parts.Part:
    """A part of a condition, which speaks of the recipe's own package where it has no name."""
    part.name = part.name or package
    return part


def of_directive(package: str, word: str, number: int, catalog: Catalog) -> Reason:
    """A directive by its number."""
    found = Reason(word, number, f"{word} {number}", package)
    rows = catalog.rows(package)
    if number < len(rows) and rows[number].word == word:
        row = rows[number]
        around = [text for text in row.conditions if text != row.keywords.get("when")]
        found.text = row.text + (f" with when {' '.join(around)}" if around else "")
        found.file, found.line = f"{catalog.repo}/packages/{package}/package.py", row.line
        found.msg = str(row.keywords.get("msg") or "")
        found.causes = directive_causes(row, package, catalog)
        found.needs = needed(row, catalog) if word == "depends_on" else []
        texts = row.values if word == "requires" else [row.first()]
        found.specs = [[own(part, package) for part in spec] for text in texts for spec in spec_parts.parts(str(text))]
    entry = origins.entry(catalog.repo, package, number)
    if entry:
        found.origin = f"{entry.get('file', '')}:{entry.get('line', '')}".strip(":")
        found.msg = str(entry.get("msg") or found.msg)
    return found


def of_setting(package: str, place: int, catalog: Catalog) -> Reason:
    """An item of the settings' `require` by its place."""
    found = Reason("require", place, f"require {place}", package)
    entry = catalog.settings["packages"].get(package, {})
    value = entry.get("require", []) if isinstance(entry, dict) else []
    items = [value] if isinstance(value, str) else value
    if isinstance(items, list) and place < len(items):
        found.text = f"the settings require {json.dumps(items[place])}"
        found.msg = str(items[place].get("message", "")) if isinstance(items[place], dict) else ""
        found.specs = [[own(part, package) for part in spec] for text in required_texts(items[place]) for spec in spec_parts.parts(text)]
    return found


def required_texts(item: Any) -> list[str]:
    """The specs of an item of `require`: one, or those of an object."""
    if not isinstance(item, dict):
        return [str(item)]
    lists = [[item["spec"]] if "spec" in item else [], *(item[key] for key in ("one_of", "any_of") if isinstance(item.get(key), list))]
    return [str(text) for texts in lists for text in texts]


def read(said: str, catalog: Catalog) -> list[Reason]:
    """The reasons that `explain` or `reasons` said, in its order."""
    found: list[Reason] = []
    for line in said.splitlines():
        if line.startswith("  ") and found:
            node = answers.node(line[2:])
            found[-1].graph = [*(found[-1].graph or []), *([node] if node else [])]
            continue
        each = LINE.fullmatch(line)
        if each and each[1]:
            specs = spec_parts.parts(each[2])
            reason = Reason("root", int(each[1]), each[2])
            reason.causes = [cause for spec in specs for part in spec for cause in causes(part, catalog)]
            reason.specs = specs
            found.append(reason)
        elif each and each[4] == "require":
            found.append(of_setting(each[3], int(each[5]), catalog))
        elif each:
            found.append(of_directive(each[3], each[4], int(each[5]), catalog))
    for one in found:
        if one.graph is not None and len(found) > 1:
            one.others = without.sentence(one.kind, one.package, one.specs, one.graph, catalog)
    return found


def cycle(reasons: list[Reason]) -> list[str]:
    """Packages that need each other in a round by the dependencies among the reasons, the first one again at the end."""
    edges: dict[str, set[str]] = {}
    for reason in reasons:
        edges.setdefault(reason.package, set()).update(reason.needs)
    return next(filter(None, (way_back(start, edges) for start in sorted(edges) if start)), [])


def way_back(start: str, edges: dict[str, set[str]]) -> list[str]:
    """The shortest way from a package back to itself; none where there is none."""
    before: dict[str, str] = {}
    todo = [start]
    while todo:
        here = todo.pop(0)
        for name in sorted(edges.get(here, ())):
            if name == start:
                way = [start, here]
                while here != start:
                    here = before[here]
                    way.append(here)
                return way[::-1]
            if name not in before:
                before[name] = here
                todo.append(name)
    return []
