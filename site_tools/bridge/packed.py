"""Recipes as lists of JSON and back: what workers hand over, and what is kept between two imports."""
import json
from dataclasses import fields, is_dataclass
from typing import Any, Optional

from .rows import Choice, Conditions, LeftOut, Origin, Recipe, Row


def packed_row(row: Row) -> list[Any]:
    """A row as a list."""
    origin, choice = row.origin, row.choice
    return [
        row.directive, row.arguments, row.conditions.blocks, row.conditions.own, row.names,
        None if origin is None else [origin.file, origin.line, origin.text, origin.message],
        None if choice is None else [choice.name, choice.default, choice.values, choice.multi, choice.sticky],
    ]


def row_of(given: list[Any]) -> Row:
    """The row of such a list."""
    directive, arguments, blocks, own, names, origin, choice = given
    return Row(
        directive, tuple(arguments), Conditions(tuple(blocks), own), tuple(names), None if origin is None else Origin(*origin),
        None if choice is None else choice_of(choice),
    )


def choice_of(given: list[Any]) -> Choice:
    """A definition's default and values."""
    name, default, values, multi, sticky = given
    return Choice(name, tuple(default), None if values is None else tuple(values), multi, sticky)


def packed(recipe: Recipe) -> list[Any]:
    """A recipe as a list."""
    left_out = [[each.file, each.line, each.directive, each.text, each.kind, each.detail] for each in recipe.left_out]
    rows = [packed_row(row) for row in recipe.rows]
    return [recipe.name, recipe.file, recipe.class_name, rows, left_out, recipe.bases, sorted(recipe.lost_variants)]


def recipe_of(given: list[Any]) -> Recipe:
    """The recipe of such a list."""
    name, file, class_name, rows, left_out, bases, lost = given
    return Recipe(name, file, class_name, [row_of(row) for row in rows], [LeftOut(*each) for each in left_out], bases, set(lost))


def shown(value: Any) -> Any:
    """A recipe, or a part of one, as objects with names, for programs."""
    if hasattr(value, "_asdict"):
        return {name: shown(each) for name, each in value._asdict().items()}
    if is_dataclass(value):
        return {each.name: shown(getattr(value, each.name)) for each in fields(value)}
    if isinstance(value, (list, tuple)):
        return [shown(each) for each in value]
    return sorted(value) if isinstance(value, (set, frozenset)) else value


def origins(recipe: Recipe) -> str:
    """Where each directive comes from, as JSON, in the order in which the program numbers them."""
    listed = []
    for row in recipe.rows:
        from_spack: Optional[Origin] = row.origin
        known: dict[str, Any] = {"directive": row.directive}
        if from_spack is not None:
            known.update({"file": from_spack.file, "line": from_spack.line, "text": from_spack.text, "msg": from_spack.message})
        listed.append(known)
    return json.dumps({"version": 1, "directives": listed}) + "\n"
