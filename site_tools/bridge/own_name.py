"""What a recipe's rows mean by the name of its package: no dependency on itself, and no condition on another package.

A condition of Spack's that begins with another package's name is about that package wherever it is in the graph; one of the
profile never holds then. A conflict with such a spec is written with `^` where that says the same, which is where the
recipe depends on the package whenever the conflict is asked; all else is left out and listed.
"""
import re
from dataclasses import replace
from typing import Iterator, Optional

from .rows import Cannot, Conditions, LeftOut, Recipe, Row, VariantRow, quoted, unquoted

NAMED = re.compile(r"([A-Za-z0-9_][A-Za-z0-9_-]*)(?=[@ ]|$)")
KIND = "another package's name in front of a condition"
NEVER = "Spack asks it of that package, and the profile of this one, where it never holds"


def name_in(text: str) -> Optional[str]:
    """The name that a canonical condition begins with."""
    found = NAMED.match(text)
    return found.group(1) if found else None


def settle(recipe: Recipe, rows: list[Row | VariantRow], packages: frozenset[str]) -> list[Row | VariantRow]:
    """The rows that can stand; the others are listed in the recipe."""
    found: list[Row | VariantRow] = []
    for each in rows:
        row = each.row if isinstance(each, VariantRow) else each
        if row.directive == "depends_on" and row.names == (recipe.name,) and is_extension(row):
            continue
        try:
            found.append(settled_row(recipe.name, each, rows, packages))
        except Cannot as fault:
            origin = row.origin
            recipe.lost_variants |= {each.name} if isinstance(each, VariantRow) else set()
            file, line, text = (origin.file, origin.line, origin.text) if origin else (recipe.file, 0, row.directive)
            recipe.left_out.append(LeftOut(file, line, row.directive, text, fault.kind, fault.detail))
    return found


def is_extension(row: Row) -> bool:
    """Whether a dependency was brought by `extends`: Spack adds `python-venv` to what extends Python, but not to itself."""
    return row.origin is not None and "extends(" in row.origin.text


def settled_row(name: str, each: Row | VariantRow, rows: list[Row | VariantRow], packages: frozenset[str]) -> Row | VariantRow:
    """The row in words that mean what Spack means; `Cannot` where there are none."""
    row = each.row if isinstance(each, VariantRow) else each
    for text in [*row.conditions.all(), *(text for rule in rules_of(each) for text in rule.conditions.all())]:
        if name_in(text) not in (None, name):
            raise Cannot(KIND, f"`{text}`: {NEVER}")
    if row.directive not in ("conflicts", "requires"):
        return each
    texts = [unquoted(text) for text in row.arguments if text.startswith('"')]
    others = [text for text in texts if name_in(text) not in (None, name)]
    if not others:
        return each
    if row.directive == "conflicts" and "^" not in others[0] and always_there(name_in(others[0]) or "", row.conditions, rows, packages):
        return replace(row, arguments=(quoted("^" + others[0]),))
    raise Cannot(KIND, f"`{others[0]}`: {NEVER}")


def rules_of(each: Row | VariantRow) -> tuple[Row, ...]:
    """The rows that a variant brings."""
    return each.rules if isinstance(each, VariantRow) else ()


def always_there(name: str, conditions: Conditions, rows: list[Row | VariantRow], packages: frozenset[str]) -> bool:
    """Whether the recipe depends on a package whenever these conditions hold."""
    true = conditions.all() | set(always_true(rows))
    plain = [each for each in rows if isinstance(each, Row) and each.directive == "depends_on" and each.names == (name,)]
    return name in packages and any(each.conditions.all() <= true for each in plain)


def always_true(rows: list[Row | VariantRow]) -> Iterator[str]:
    """Conditions that hold at each node: the one value of a variant that is always there."""
    choices = [each for each in rows if isinstance(each, VariantRow)]
    for each in choices:
        values = each.row.choice.values if each.row.choice else None
        is_only = sum(other.name == each.name for other in choices) == 1 and not each.row.conditions.all()
        if is_only and values is not None and len(values) == 1:
            yield f"{each.name}={values[0]}"
