"""`sticky` variants: what nobody asks for is forbidden, as far as the caller says what is asked for.

Spack keeps the default of a sticky variant unless a spec names the variant. The profile has no such word. Where the caller
says which values requests may name (`--sticky`), each other value is forbidden by `conflicts` unless some recipe's
dependency can ask for it: then no graph has it in Spack either. A value that may be asked for may also be chosen unasked,
which is listed.
"""
from collections import defaultdict
from dataclasses import dataclass, field
from functools import lru_cache

from . import signs, spec_text
from .rows import LeftOut, Recipe, Row, quoted, unquoted
from .spec_text import Dialect, NotInProfile, Part, variant_text

KIND = "`sticky` of a variant"
Allowed = dict[tuple[str, str], set[str]]


@lru_cache(maxsize=100_000)
def top_of(text: str) -> Part | None:
    """The first part of a condition of the profile; None where it is none."""
    try:
        return spec_text.read_condition(text, Dialect()).top
    except NotInProfile:
        return None


@dataclass
class Sticky:
    """The sticky variants of a repository: all values of each, and those that may be asked for."""

    values: dict[tuple[str, str], dict[str, None]] = field(default_factory=dict)
    allowed: Allowed = field(default_factory=lambda: defaultdict(set))
    mixed: set[tuple[str, str]] = field(default_factory=set)  # of which another definition is not sticky

    def take(self, recipe: Recipe) -> None:
        """Takes the sticky variants of a recipe; a default of any definition is allowed."""
        choices = [row.choice for row in recipe.rows if row.choice]
        for name in {choice.name for choice in choices if choice.sticky}:
            own = [choice for choice in choices if choice.name == name]
            key = (recipe.name, name)
            self.values[key] = {value: None for choice in own for value in choice.all_values()}
            self.allowed[key].update(value for choice in own for value in choice.default)
            if not all(choice.sticky for choice in own):
                self.mixed.add(key)

    def ask(self, package: str, part: Part) -> bool:
        """Allows what a spec asks of a package; whether that was new."""
        new = False
        for name, values in part.variants.items():
            key = (package, name)
            if key in self.values and not set(values) <= self.allowed[key]:
                self.allowed[key].update(values)
                new = True
        return new

    def can_hold(self, package: str, text: str) -> bool:
        """Whether a condition may hold at a package, by its sticky variants."""
        part = top_of(text)
        asked = part.variants.items() if part else ()
        return all(set(values) <= self.allowed[package, name] for name, values in asked if (package, name) in self.values)


def wanted_of(texts: list[str]) -> list[Part]:
    """What the caller says that requests may ask for: specs with or without a name; `ValueError` where one is none."""
    parts = []
    for text in texts:
        try:
            parts.append(spec_text.read_condition(text, Dialect()).top)
        except NotInProfile as fault:
            raise ValueError(f"--sticky {text}: {fault}") from fault
    return parts


def asked_by_recipes(found: Sticky, recipes: list[Recipe]) -> None:
    """Allows what dependencies can ask for, until nothing new is."""
    sticky = {package for package, _ in found.values}
    edges: list[tuple[Recipe, Row, Part]] = []
    for recipe in recipes:
        for row in recipe.rows:
            if row.directive == "depends_on" and row.names and row.names[0] in sticky:
                part = top_of(unquoted(row.arguments[0]))
                if part is not None and part.variants:
                    edges.append((recipe, row, part))
    more = True
    while more:
        more = False
        for recipe, row, part in edges:
            if all(found.can_hold(recipe.name, text) for text in row.conditions.all()):
                more = found.ask(row.names[0], part) or more


def settle(recipes: list[Recipe], texts: list[str]) -> None:
    """Writes what `--sticky` allows into the recipes, and lists what is left."""
    found = Sticky()
    wanted = wanted_of(texts)
    for recipe in recipes:
        found.take(recipe)
    for package, name in found.values:
        for part in wanted:
            if part.name in (None, package) and name in part.variants:
                found.ask(package, Part(variants={name: part.variants[name]}))
    asked_by_recipes(found, recipes)
    for recipe in recipes:
        keep_default(recipe, found)


def keep_default(recipe: Recipe, found: Sticky) -> None:
    """The conflicts of one recipe, behind the last definition of each variant, and its list."""
    names = {name for package, name in found.values if package == recipe.name}
    if not names:
        return
    recipe.left_out = [each for each in recipe.left_out if each.kind != KIND]
    last = {row.choice.name: place for place, row in enumerate(recipe.rows) if row.choice}
    for name in sorted(names, key=lambda each: -last[each]):
        place, key = last[name], (recipe.name, name)
        row = recipe.rows[place]
        forbidden = [] if key in found.mixed else [value for value in found.values[key] if value not in found.allowed[key]]
        rules = [Row("conflicts", (quoted(variant_text(name, (signs.as_value(value),))),), origin=row.origin) for value in forbidden]
        while place + 1 < len(recipe.rows) and recipe.rows[place + 1].origin == row.origin and not recipe.rows[place + 1].choice:
            place += 1
        recipe.rows[place + 1 : place + 1] = rules
        free = [value for value in found.values[key] if value in found.allowed[key]]
        if len(free) > 1 and row.origin:
            what = f"a value of `{name}` that may be asked for is also chosen unasked: {', '.join(free)}"
            recipe.left_out.append(LeftOut(row.origin.file, row.origin.line, "sticky", row.origin.text, KIND, what))
