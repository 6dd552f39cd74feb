"""The directives of a recipe of the profile, each with its number, place and values; as docs/formats/recipes.md numbers them.

Reads by Python's `ast` and runs nothing. Of a file that Python cannot read it has no row.
"""
import ast
from dataclasses import dataclass, field
from pathlib import Path
from typing import Any, Iterator, Optional

DIRECTIVES = ("version", "variant", "depends_on", "provides", "conflicts", "requires")


@dataclass(frozen=True)
class Directive:
    """A directive: its number in the recipe from 0, its word, its place, its text, its values and the conditions around it."""

    number: int
    word: str
    line: int
    column: int
    text: str
    values: tuple[Any, ...] = ()
    keywords: dict[str, Any] = field(default_factory=dict)
    conditions: tuple[str, ...] = ()

    def first(self) -> str:
        """The first value, as a text."""
        return str(self.values[0]) if self.values and self.values[0] is not None else ""


def literal(node: ast.AST) -> Any:
    """The value of an argument; None where it is no literal."""
    try:
        return ast.literal_eval(node)
    except (ValueError, TypeError, SyntaxError, MemoryError, RecursionError):
        return None


def block_condition(item: ast.withitem) -> Optional[str]:
    """The text of `when("..")`."""
    call = item.context_expr
    if isinstance(call, ast.Call) and isinstance(call.func, ast.Name) and call.func.id == "when" and call.args:
        value = literal(call.args[0])
        return value if isinstance(value, str) else None
    return None


def calls(body: list[ast.stmt], around: tuple[str, ...]) -> Iterator[tuple[ast.Call, tuple[str, ...]]]:
    """The calls of directives in a block, with the conditions of the blocks around."""
    for each in body:
        if isinstance(each, ast.With):
            own = tuple(text for text in map(block_condition, each.items) if text)
            yield from calls(each.body, around + own)
        elif isinstance(each, ast.Expr) and isinstance(each.value, ast.Call) and isinstance(each.value.func, ast.Name):
            if each.value.func.id in DIRECTIVES:
                yield each.value, around


def source(lines: list[bytes], call: ast.Call) -> str:
    """The text of a call on one line."""
    first, last = call.lineno - 1, (call.end_lineno or call.lineno) - 1
    if first == last:
        text = lines[first][call.col_offset : call.end_col_offset]
    else:
        text = b"\n".join([lines[first][call.col_offset :], *lines[first + 1 : last], lines[last][: call.end_col_offset]])
    return " ".join(text.decode("utf-8", "replace").split())


def directives(data: bytes) -> list[Directive]:
    """The directives of a recipe, in order."""
    try:
        tree = ast.parse(data)
    except (SyntaxError, ValueError, MemoryError, RecursionError):
        return []
    classes = [each for each in tree.body if isinstance(each, ast.ClassDef) and not each.name.endswith("Builder")]
    found: list[Directive] = []
    lines = data.split(b"\n")
    for call, around in calls(classes[0].body, ()) if classes else ():
        keywords = {each.arg: literal(each.value) for each in call.keywords if each.arg}
        own = keywords.get("when")
        conditions = around + ((own,) if isinstance(own, str) and own.strip() else ())
        word = call.func.id if isinstance(call.func, ast.Name) else ""
        values = tuple(literal(each) for each in call.args)
        place = (call.lineno, call.col_offset + 1, source(lines, call))
        found.append(Directive(len(found), word, *place, values, keywords, conditions))
    return found


def read(repo: Path, name: str) -> list[Directive]:
    """The directives of a package's recipe; none where it has none that can be read."""
    path = repo / "packages" / name / "package.py"
    try:
        return directives(path.read_bytes())
    except OSError:
        return []
