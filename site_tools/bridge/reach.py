"""Which packages the dependencies of a root can lead to, and by which directives: for a `^` that no graph meets.

Looks at the recipes alone, and at no condition; so what is not reached here is in no graph of that root.
"""
from . import spec_parts
from .catalog import Catalog
from .recipe_rows import Directive
from .shown import shown

MOST = 2000
LANGUAGES = ("c", "cxx", "fortran")  # a dependency on these and nothing more is passed over


def provided(name: str, catalog: Catalog) -> set[str]:
    """The virtuals that a package provides, under whatever conditions."""
    return {virtual for virtual, rows in catalog.virtuals.items() if any(package == name for package, _ in rows)}


def ways_to(root: str, name: str, catalog: Catalog) -> list[tuple[str, Directive]]:
    """The dependencies on a package, or on what it provides, of all packages that a root can lead to."""
    wanted = {name} | provided(name, catalog)
    found: list[tuple[str, Directive]] = []
    seen, todo = {root}, [root]
    while todo and len(seen) < MOST:
        here = todo.pop(0)
        for row in [each for each in catalog.rows(here) if each.word == "depends_on" and each.first().strip() not in LANGUAGES]:
            for spec in spec_parts.parts(row.first()):
                target = spec[0].name
                if target in wanted:
                    found.append((here, row))
                for next_one in [target, *(package for package, _ in catalog.virtuals.get(target, []))]:
                    if next_one not in seen:
                        seen.add(next_one)
                        todo.append(next_one)
    return found


def rivals(spec: list[spec_parts.Part], catalog: Catalog) -> list[str]:
    """For each virtual with several providers among the `^` of a spec that nothing asks for by their own names: that these are rivals."""
    found: list[str] = []
    below = sorted({part.name for part in spec[1:]})
    by_virtual: dict[str, list[str]] = {}
    for name in below:
        by_name = {target[0].name for _, row in ways_to(spec[0].name, name, catalog) for target in spec_parts.parts(row.first())}
        if name not in by_name and len(by_name) == 1:
            by_virtual.setdefault(by_name.pop(), []).append(name)
    for virtual, names in sorted(by_virtual.items()):
        if len(names) > 1:
            found.append(f"{' and '.join(names)} come in only as providers of {virtual}, and a graph has one provider of it")
    return found


def lines(spec: list[spec_parts.Part], catalog: Catalog) -> list[str]:
    """For each `^` of a spec what leads to it."""
    found: list[str] = []
    for part in spec[1:]:
        ways = ways_to(spec[0].name, part.name, catalog)
        if part.name == spec[0].name:
            found.append(f"{part.name} is not below itself: no graph has a cycle")
            continue
        if not ways:
            found.append(f"no dependency of {spec[0].name} leads to {part.name}, by whatever conditions")
        else:
            found.append(f"{part.name} comes in only by")
        for package, row in ways[:6]:
            found.append(f"    {package}: {shown(row.text)}, {catalog.repo}/packages/{package}/package.py:{row.line}")
    return found
