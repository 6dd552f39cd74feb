"""What stands around a directive: the conditions and default arguments of the `with` blocks that it is in; and loops in short form.

Reads the items of a `with`; walks no body.
"""
import ast
from dataclasses import dataclass, replace
from typing import Any, Optional

from .directives import Call
from .effects import called_name
from .literals import Evaluator
from .rows import Cannot
from .spec_text import Dialect, NotInProfile
from .values import Names, NotLiteral, source


@dataclass(frozen=True)
class Around:
    """What stands around a statement: conditions of blocks, default arguments, and why nothing in it can be said."""

    blocks: tuple[str, ...] = ()
    defaults: tuple[tuple[str, Any], ...] = ()
    refused: Optional[tuple[str, str]] = None
    never: bool = False


def with_item(node: ast.expr, names: Names, around: Around, dialect: Dialect) -> Around:
    """What one item of a `with` adds to what stands around: `when(..)`, `default_args(..)`, also by their full names."""
    name = called_name(node)
    try:
        if isinstance(node, ast.Call) and name == "when" and name not in names:
            return with_when(Evaluator(names).called(lambda *values, **words: [*values, *words.values()], node), around, dialect)
        if isinstance(node, ast.Call) and name == "default_args" and name not in names:
            words = Evaluator(names).called(dict, node)
            return replace(around, defaults=tuple({**dict(around.defaults), **words}.items()))
        raise Cannot("a `with` that is not followed", f"`{source(node)}`")
    except NotLiteral as fault:
        reason = ("a condition that is computed", str(fault))
    except (Cannot, NotInProfile) as fault:
        reason = (fault.kind, fault.detail)
    return replace(around, refused=around.refused or reason)


def with_when(values: list[Any], around: Around, dialect: Dialect) -> Around:
    """The blocks with one more condition."""
    if len(values) != 1:
        raise Cannot("a `with` that is not followed", "`when` of other than one condition")
    if isinstance(values[0], bool):
        return replace(around, never=around.never or not values[0])
    text = Call("when", [], {}, (), dialect).condition(values[0])
    return replace(around, blocks=around.blocks + ((text,) if text else ()))


def loops_of(node: ast.ListComp | ast.SetComp) -> list[ast.stmt]:
    """The loops that a comprehension stands for."""
    body: list[ast.stmt] = [ast.copy_location(ast.Expr(node.elt), node.elt)]
    for each in reversed(node.generators):
        for test in reversed(each.ifs):
            body = [ast.copy_location(ast.If(test, body, []), node)]
        body = [ast.copy_location(ast.For(each.target, each.iter, body, []), node)]
    return body
