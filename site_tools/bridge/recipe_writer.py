"""Recipes of the profile as text.

Writes rows in their order, in `with when` blocks where they stood in one; writes no row that was not given.
"""
from .rows import Recipe, Row, VariantRow


def governed(rows: list[Row | VariantRow]) -> list[Row | VariantRow]:
    """The rows without variants that a later definition under the same conditions replaces, and without repeats."""
    last = {}
    for place, each in enumerate(rows):
        if isinstance(each, VariantRow):
            last[each.name, each.row.conditions.all()] = place
    kept = []
    seen: set[Row] = set()
    for place, each in enumerate(rows):
        if isinstance(each, VariantRow):
            if last[each.name, each.row.conditions.all()] == place:
                kept.append(each)
        elif each not in seen:
            seen.add(each)
            kept.append(each)
    return kept


def one_of_each_version(rows: list[Row | VariantRow]) -> list[Row | VariantRow]:
    """The rows with one row for a version that is declared twice: as in Spack, the last one counts."""
    last = {each.arguments[0]: each for each in rows if isinstance(each, Row) and each.directive == "version"}
    return [last.pop(each.arguments[0], None) if isinstance(each, Row) and each.directive == "version" else each for each in rows]


def settled(rows: list[Row | VariantRow]) -> list[Row]:
    """The rows that are written, those that a variant brings right behind it."""
    found: list[Row] = []
    for each in one_of_each_version(governed(rows)):
        if isinstance(each, VariantRow):
            found += [each.row, *each.rules]
        elif each is not None:
            found.append(each)
    return found


def call_text(row: Row) -> str:
    """The directive as a call."""
    own = row.conditions.own
    words = list(row.arguments) + ([f'when="{own}"'] if own else [])
    return f"{row.directive}({', '.join(words)})"


def lines_of(rows: list[Row], depth: int) -> list[str]:
    """The rows as lines, each `with when` around the rows beside each other that share it."""
    found: list[str] = []
    place = 0
    while place < len(rows):
        blocks = rows[place].conditions.blocks[depth:]
        if not blocks:
            found.append("    " * (depth + 1) + call_text(rows[place]))
            place += 1
            continue
        front = rows[place].conditions.blocks[: depth + 1]
        end = place
        while end < len(rows) and rows[end].conditions.blocks[: depth + 1] == front:
            end += 1
        found.append("    " * (depth + 1) + f'with when("{blocks[0]}"):')
        found += lines_of(rows[place:end], depth + 1)
        place = end
    return found


def recipe_text(recipe: Recipe) -> str:
    """The whole file."""
    lines = lines_of(recipe.rows, 0) or ["    pass"]
    head = f"# Written by site_tools/import_repo from {recipe.file}"
    note = "." if recipe.is_whole() else ", with parts left out (see the report)."
    return "\n".join([head + note, f"class {recipe.class_name}(Package):", *lines]) + "\n"
