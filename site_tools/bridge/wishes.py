"""packages.yaml in the recipes: what a site requires, forbids and prefers, and the versions of its externals.

`require` and `conflict` become `requires` and `conflicts`, `variants` become defaults, a virtual's `require` takes the
virtual from all other packages; all of it binds what is built, and no package that is reused. Where the profile cannot say
it so, it is listed.
"""
from dataclasses import dataclass, field, replace
from typing import Any

from . import versions, wish_texts
from .own_name import name_in
from .rows import Conditions, Origin, Recipe, Row, quoted, unquoted
from .settings_externals import external_part
from .settings_notes import Notes
from .spec_text import Dialect, Part, Spec
from .wish_texts import Wish
from .yaml_texts import Map, line_of

FILE = "packages.yaml"


@dataclass
class Site:
    """What other importers have to know of the recipes: who provides what, and the versions of packages with externals."""

    providers: dict[str, list[str]] = field(default_factory=dict)
    declared: dict[str, list[str]] = field(default_factory=dict)  # a package's own versions, where an external's was added
    edges: dict[str, dict] = field(default_factory=dict)  # what decides for specs that say something of edges


def providers_of(recipes: list[Recipe]) -> dict[str, list[str]]:
    """Each virtual with the packages that may provide it."""
    found: dict[str, list[str]] = {}
    for recipe in recipes:
        for row in recipe.rows:
            for name in row.names if row.directive == "provides" else ():
                found.setdefault(name, [])
                found[name] += [recipe.name] if recipe.name not in found[name] else []
    return {name: sorted(found[name]) for name in sorted(found)}


def apply(recipes: list[Recipe], packages: Map, notes: Notes, dialect: Dialect) -> Site:
    """Writes what packages.yaml says into the recipes."""
    site = Site(providers_of(recipes))
    names = {recipe.name for recipe in recipes}
    for name in [name for name in site.providers if name not in names and isinstance(packages.get(name), dict)]:
        require_virtual(name, recipes, packages[name], notes, dialect)
    read_all: dict[str, list[Wish]] = {}
    for recipe in recipes:
        for section in wish_texts.SECTIONS:
            is_of_all, value = wish_texts.section_of(packages, recipe.name, section)
            if is_of_all and section not in read_all:
                read_all[section] = wish_texts.read(section, "all", value, notes, dialect)
            wishes = read_all[section] if is_of_all else wish_texts.read(section, recipe.name, value, notes, dialect)
            for wish in wishes:
                write(wish, recipe, is_of_all, notes)
        add_versions(recipe, external_versions(recipe.name, packages, site), site)
    return site


def write(wish: Wish, recipe: Recipe, is_of_all: bool, notes: Notes) -> None:
    """One entry in one recipe."""
    specs = [spec for spec in wish.specs if not is_of_all or fits(spec, recipe)]
    if not specs:
        return
    where = f"packages.{'all' if is_of_all else recipe.name}.{wish.shown()}"
    if any(spec.top.name not in (None, recipe.name) for spec in specs) or wish.when and named(wish.when, recipe.name):
        notes.leave_out_line(wish.line, where, "it names another package than it stands under")
        return
    origin = Origin(FILE, wish.line, wish.shown(), wish.message)
    if wish.section in ("require", "conflict"):
        directive = "requires" if wish.section == "require" else "conflicts"
        words = ('policy="any_of"',) if wish.policy == "any_of" and len(specs) > 1 else ()
        texts = tuple(quoted(spec.text()) for spec in specs)
        recipe.rows.append(Row(directive, texts + words, Conditions(own=wish.when or None), origin=origin))
        return
    spec = specs[0]
    is_plain = not spec.below and replace(spec.top, name=None, variants={}) == Part()
    if wish.section == "prefer" and not is_of_all and wish_texts.plain_versions(wish, recipe.name):
        why = "`import_settings --repo` writes it as an order of versions, which is weaker than Spack's preference"
        notes.leave_out_line(wish.line, where, why)
        return
    if not is_plain or wish.when:
        why = "a preference of more than values of variants: versions are preferred by `version`, all else in the spec"
        notes.leave_out_line(wish.line, where, why)
        return
    if wish.section == "prefer":
        notes.leave_out_line(wish.line, where, "it is written as a default, which is weaker than Spack's preference")
    for name, values in spec.top.variants.items():
        if not set_default(recipe, name, values) and not is_of_all:
            notes.leave_out_line(wish.line, where, f"no definition of `{name}` allows the value")


def named(text: str, own: str) -> bool:
    """Whether a condition begins with another package's name."""
    return name_in(text) not in (None, own)


def fits(spec: Spec, recipe: Recipe) -> bool:
    """Whether an entry of `all` is for a package: it has the variants that are named, and the name."""
    has = {row.choice.name for row in recipe.rows if row.choice}
    return spec.top.name in (None, recipe.name) and set(spec.top.variants) <= has


def set_default(recipe: Recipe, name: str, values: tuple[str, ...]) -> bool:
    """Changes the default of each definition that allows the values; whether there is one."""
    found = False
    for place, row in enumerate(recipe.rows):
        choice = row.choice
        if choice and choice.name == name and set(values) <= set(choice.all_values()) and (choice.multi or len(values) == 1):
            changed = choice._replace(default=values)
            recipe.rows[place] = replace(row, arguments=changed.arguments(), choice=changed)
            found = True
    return found


def require_virtual(virtual: str, recipes: list[Recipe], inner: Any, notes: Notes, dialect: Dialect) -> None:
    """A virtual's `require` of packages: no other one provides it."""
    for section in ("prefer", "conflict", "variants"):
        if inner.get(section):
            notes.leave_out_line(line_of(inner[section]), f"packages.{virtual}.{section}", "it is asked of a virtual")
    for wish in wish_texts.read("require", virtual, inner.get("require") or [], notes, dialect):
        parts = [spec.top for spec in wish.specs]
        if wish.when or any(part.name is None or part.text() != part.name for part in parts):
            why = "a virtual's requirement of more than names of packages"
            notes.leave_out_line(wish.line, f"packages.{virtual}.{wish.shown()}", why)
            continue
        allowed = {part.name for part in parts}
        for recipe in recipes:
            if recipe.name not in allowed:
                recipe.rows = [kept for row in recipe.rows for kept in without(row, virtual)]


def without(row: Row, virtual: str) -> list[Row]:
    """A `provides` without one of its names."""
    if row.directive != "provides" or virtual not in row.names:
        return [row]
    kept = [(text, name) for text, name in zip(row.arguments, row.names) if name != virtual]
    return [replace(row, arguments=tuple(text for text, _ in kept), names=tuple(name for _, name in kept))] if kept else []


def external_versions(name: str, packages: Map, site: Site) -> list[str]:
    """The versions of a package's externals, also of those that stand under a virtual."""
    found: list[str] = []
    virtuals = [virtual for virtual, providers in site.providers.items() if name in providers]
    for inner in [packages.get(each) for each in [name, *virtuals]]:
        listed = inner.get("externals") if isinstance(inner, dict) else None
        for external in [each for each in listed or [] if isinstance(each, dict)]:
            part = external_part(str(external.get("spec", "")))
            version = versions.single(part.versions) if part and part.name == name else None
            found += [version] if version and version not in found else []
    return found


def add_versions(recipe: Recipe, wanted: list[str], site: Site) -> None:
    """Declares versions of externals, so that they have an order, and forbids to build them."""
    own = [unquoted(row.arguments[0]) for row in recipe.rows if row.directive == "version"]
    new = sorted((each for each in wanted if each not in own), key=versions.key, reverse=True)
    if not new:
        return
    site.declared[recipe.name] = own
    for version in new:
        origin = Origin(FILE, 0, f"externals: {recipe.name}@{version}", "an external of this version is there, and no recipe")
        recipe.rows.append(Row("version", (quoted(version),), origin=origin))
        recipe.rows.append(Row("conflicts", (quoted(f"@={version}"),), origin=origin))
