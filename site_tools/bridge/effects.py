"""What a part of a recipe may change: the name that a call calls, whether lists may change in place by it, and what is forgotten then.

Errs towards a change: what is not known to change nothing may change each list and dictionary.
"""
import ast
from collections import ChainMap
from typing import Any

from . import directives
from .known_calls import CHANGES
from .values import MACHINE, Function, Names, Unknown, dotted


def called_name(node: ast.expr) -> str:
    """The name of the function that a call calls, `spack.directives.version` too; empty where there is none."""
    function = node.func if isinstance(node, ast.Call) else None
    if isinstance(function, ast.Attribute) and dotted(function).startswith(("spack.", "spack_repo.")):
        return function.attr
    return function.id if isinstance(function, ast.Name) else ""


def has_changeable(value: Any) -> bool:
    """Whether a value is, or holds, a list or a dictionary."""
    if isinstance(value, tuple):
        return any(isinstance(each, (list, dict, tuple)) and has_changeable(each) for each in value)
    return isinstance(value, (list, dict))


def may_change(node: ast.AST, names: Names) -> bool:
    """Whether a part of a statement may change a list in place: a call that is no directive, `a[b] = c`, `a += b`."""
    if isinstance(node, ast.Call):
        if is_harmless(node, names):
            return False
        return called_name(node) not in directives.DIRECTIVES.keys() | directives.PASSED_OVER | {"when", "default_args"}
    return isinstance(node, ast.AugAssign) or isinstance(node, (ast.Subscript, ast.Attribute)) and not isinstance(node.ctx, ast.Load)


def is_harmless(node: ast.Call, names: Names) -> bool:
    """Whether a call asks the machine, or is that of a method of a text that stands there: neither changes a list."""
    function = node.func
    is_text = isinstance(function, ast.Attribute) and isinstance(function.value, ast.Constant) and isinstance(function.value.value, str)
    return is_text or f"{dotted(function)}()" in MACHINE and dotted(function).partition(".")[0] not in names


def forget(statement: ast.AST, names: Names, why: str) -> None:
    """Makes the names that a statement gives or could change unknown."""
    if any(may_change(each, names) for each in ast.walk(statement)):
        forget_changeable(names)
    for node in ast.walk(statement):
        if isinstance(node, (ast.Subscript, ast.Attribute)) and not isinstance(node.ctx, ast.Load):
            forget_base(node, names, why)
        if isinstance(node, ast.Name) and isinstance(node.ctx, (ast.Store, ast.Del)):
            names[node.id] = Unknown(why)


def forget_changeable(names: Names) -> None:
    """Makes the lists and dictionaries unknown, since a call of a function of the recipe may change any of them."""
    for name in list(names):
        if has_changeable(names[name]):
            names[name] = Unknown("may be changed by a call")


def forget_base(node: ast.expr, names: Names, why: str) -> None:
    """Makes the name in front of `.a` or `[a]` unknown."""
    while isinstance(node, (ast.Subscript, ast.Attribute)):
        node = node.value
    if isinstance(node, ast.Name):
        names[node.id] = Unknown(why)


def forget_as(inner: ChainMap, names: Names) -> None:
    """Forgets lists where the names of an inner scope became unknown."""
    if any(isinstance(value, Unknown) for value in inner.maps[0].values()):
        forget_changeable(names)


def makes_directives(node: ast.AST, names: Names) -> bool:
    """Whether an expression calls a function of the recipe in which directives stand."""
    called = [names.get(called_name(each)) for each in ast.walk(node) if isinstance(each, ast.Call)]
    bodies = [ast.walk(each.node) for each in called if isinstance(each, Function)]
    return any(called_name(each) in directives.DIRECTIVES for body in bodies for each in body if isinstance(each, ast.Call))


def is_set_allowed(statement: ast.For) -> bool:
    """Whether a loop may run over a set: nothing in it keeps what would show the order."""
    changing = frozenset().union(*CHANGES.values())
    for node in [inner for each in statement.body for inner in ast.walk(each)]:
        if isinstance(node, (ast.Break, ast.Return, ast.NamedExpr)) or isinstance(node, ast.Attribute) and node.attr in changing:
            return False
        if isinstance(node, ast.Name) and isinstance(node.ctx, ast.Store):
            return False
    return True


def forget_set(statement: ast.For, values: list[Any], names: Names) -> None:
    """Forgets the name that a loop over several values leaves, where these may have been a set's."""
    if len(values) > 1 and not isinstance(statement.iter, (ast.List, ast.Tuple)):
        for node in ast.walk(statement.target):
            if isinstance(node, ast.Name):
                names[node.id] = Unknown("is what a loop ended with")
