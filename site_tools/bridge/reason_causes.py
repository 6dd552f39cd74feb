"""Why what is asked of one package cannot be met by any graph: a name, version, variant, value, compiler, system or target that
is not there, each with the nearest that are.

Looks at each part alone, so it finds no reason where parts are there but not together; and it decides nothing: the
program has said that there is no graph.
"""
from dataclasses import dataclass, field
from typing import Iterator

from . import spec_parts, versions
from .catalog import Catalog, allowed, few, nearest
from .shown import shown
from .spec_parts import Part


@dataclass(frozen=True)
class Cause:
    """A cause: its class, in words, and what there is in place of it, the nearest first."""

    kind: str
    text: str
    near: list[str] = field(default_factory=list)


def ends(item: str) -> tuple[str, str]:
    """The low and the high end of an item of a set of versions."""
    low, colon, high = item.removeprefix("=").partition(":")
    return (low, high) if colon else (low, low)


def overlap(one: str, two: str) -> bool:
    """Whether two sets of versions overlap, as docs/formats/versions.md has it."""
    for first in one.split(","):
        for second in two.split(","):
            if first.startswith("=") and versions.item_contains(second, first[1:]):
                return True
            if second.startswith("=") and versions.item_contains(first, second[1:]):
                return True
            (low, high), (bottom, top) = ends(first), ends(second)
            pairs = ((low, top), (bottom, high))
            fits = (not a or not b or versions.key(a) <= versions.key(b) or versions.is_prefix(b, a) for a, b in pairs)
            if not first.startswith("=") and not second.startswith("=") and all(fits):
                return True
    return False


def package_causes(part: Part, catalog: Catalog) -> Iterator[Cause]:
    """The name: unknown, or of a virtual that nothing provides so."""
    givers = catalog.virtuals.get(part.name, [])
    if not catalog.has(part.name) and not givers:
        near = nearest(part.name, catalog.known())
        yield Cause("unknown package", f"no recipe, external or record has the name `{shown(part.name)}`, and nothing provides it", near)
    if givers and part.versions:
        provided = {text[0].versions for _, row in givers for value in row.values for text in spec_parts.parts(str(value))
                    if text[0].name == part.name}
        if all(each and not overlap(each, part.versions) for each in provided):
            texts = sorted(f"{package} provides {few([str(value) for value in row.values])}" for package, row in givers)
            yield Cause("no such version", f"nothing provides {part.name}@{part.versions}", texts)


def version_causes(part: Part, catalog: Catalog) -> Iterator[Cause]:
    """The versions: none of the package's is among them, or none of those that may be had without building it."""
    said = catalog.settings["packages"].get(part.name, {})
    there = catalog.versions(part.name)
    if part.versions and there and not any(versions.contains(part.versions, each) for each in there):
        yield Cause("no such version", f"no version of {part.name} is in @{part.versions}", there)
    elif said.get("buildable") is False:
        kept = [versions.single(each.versions) or "" for each in catalog.externals(part.name)]
        kept += [str(each.get("version")) for each in catalog.installed(part.name)]
        if not any(versions.contains(part.versions or ":", each) for each in kept if each):
            wanted = f" in @{part.versions}" if part.versions else ""
            yield Cause("not buildable", f"{part.name} may not be built (settings), and no external or record of it is{wanted}", kept)


def variant_causes(part: Part, catalog: Catalog) -> Iterator[Cause]:
    """Variants and values that no definition, external or record has, and those whose conditions the versions exclude."""
    definitions, kept = catalog.variants(part.name), catalog.kept_variants(part.name)
    for name, values in sorted(part.variants.items()):
        rows, others = definitions.get(name, []), kept.get(name, set())
        if not rows and not others:
            near = nearest(name, {*definitions, *kept}) or sorted({*definitions, *kept})
            yield Cause("no such variant", f"{part.name} has no variant `{shown(name)}`", near)
            continue
        lists = [allowed(row) for row in rows]
        known = {value for each in lists for value in each or ()} | others
        missing = [value for value in values if value not in known and None not in lists]
        if missing:
            yield Cause("no such value", f"the variant `{name}` of {part.name} has no value `{shown(few(missing))}`", sorted(known))
        elif not others and rows and not any(may_hold(row.conditions, part, catalog) for row in rows):
            conditions = sorted({" ".join(row.conditions) for row in rows})
            yield Cause("variant not there", f"the variant `{name}` of {part.name} is there only when {' or '.join(conditions)}", [])


def may_hold(conditions: tuple[str, ...], part: Part, catalog: Catalog) -> bool:
    """Whether some version that is asked for is in the versions of all conditions."""
    lists = [spec[0].versions for text in conditions for spec in spec_parts.parts(text) if spec[0].name in ("", part.name)]
    wanted = [each for each in [*lists, part.versions] if each]
    return not wanted or any(all(versions.contains(each, version) for each in wanted) for version in catalog.versions(part.name))


def machine_causes(part: Part, catalog: Catalog) -> Iterator[Cause]:
    """Compiler, platform, operating system and target."""
    if part.compiler:
        name, wanted = part.compiler
        compilers = catalog.compilers(part.name)
        there = sorted(f"{each}@{version}" for each, version in compilers)
        own = [version for each, version in compilers if each == name]
        if not own:
            yield Cause("no such compiler", f"there is no compiler `{shown(name)}`", there)
        elif wanted and not any(versions.contains(wanted, version) for version in own):
            newest = sorted(own, key=versions.key, reverse=True)
            yield Cause("no such compiler", f"no version of the compiler {name} is in @{wanted}", newest)
    if part.platform and part.platform != catalog.settings["platform"]:
        yield Cause("another platform", f"the platform is not `{shown(part.platform)}`", [str(catalog.settings["platform"])])
    systems, targets = catalog.systems(part.name), catalog.targets_of(part.name)
    if part.os and part.os not in systems:
        near = nearest(part.os, systems) or sorted(systems)
        yield Cause("no such operating system", f"there is no operating system `{shown(part.os)}`", near)
    if part.targets and not any(catalog.in_target(item, each) for item in part.targets for each in targets):
        near = nearest(part.targets[0], targets) or sorted(targets)
        yield Cause("no such target", f"there is no target in `{shown(','.join(part.targets))}`", near)


def causes(part: Part, catalog: Catalog) -> list[Cause]:
    """All causes of one part, each by itself enough."""
    found = list(machine_causes(part, catalog))
    if part.name:
        found = [*package_causes(part, catalog), *found]
    if part.name and catalog.has(part.name):
        found = [*version_causes(part, catalog), *variant_causes(part, catalog), *found]
    return found
