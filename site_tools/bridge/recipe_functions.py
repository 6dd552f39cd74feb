"""The values of functions that a recipe defines, by walking their bodies.

Follows assignments, loops, `if`, `return` and changes of lists; what else stands in a body makes the value unknown.
Nothing of the recipe is run.
"""
import ast
from collections import ChainMap
from typing import Any, Iterator, Optional

from .known_calls import CHANGES, LONGEST, weight
from .literals import STEPS, Evaluator, bind
from .values import Function, Names, NotLiteral, Unknown, dotted, source

DEEPEST = 30  # calls within each other


class Returned(Exception):
    """The end of a function, with its value."""

    def __init__(self, value: Any) -> None:
        super().__init__()
        self.value = value


class Continued(Exception):
    """`continue` of the innermost loop."""


class Broken(Exception):
    """`break` of the innermost loop."""


DEPTH = [0]


def scope_of(function: Function, positional: list[Any], words: dict[str, Any]) -> Names:
    """The names in a function's body for these arguments; `NotLiteral` where they do not fit."""
    node, given = function.node, function.node.args
    if node.decorator_list:
        raise NotLiteral(f"`{node.name}`, a function with a decorator")
    places = [each.arg for each in given.posonlyargs + given.args]
    found: dict[str, Any] = {}
    evaluator = Evaluator(function.names)
    for name, default in zip(places[len(places) - len(given.defaults) :], given.defaults):
        found[name] = evaluator.value(default)
    for name, default in zip([each.arg for each in given.kwonlyargs], given.kw_defaults):
        if default is not None:
            found[name] = evaluator.value(default)
    found.update(zip(places, positional))
    rest, others = tuple(positional[len(places) :]), {}
    for name, value in words.items():
        (found if name in places + [each.arg for each in given.kwonlyargs] else others)[name] = value
    if given.vararg:
        found[given.vararg.arg] = rest
    if given.kwarg:
        found[given.kwarg.arg] = others
    missing = [name for name in places + [each.arg for each in given.kwonlyargs] if name not in found]
    if missing or rest and not given.vararg or others and not given.kwarg:
        raise NotLiteral(f"`{node.name}`, with other arguments than it takes")
    return ChainMap(found, function.names)  # type: ignore[arg-type]


def value_of(function: Function, positional: list[Any], words: dict[str, Any]) -> Any:
    """What a function gives for these arguments."""
    if DEPTH[0] >= DEEPEST:
        raise NotLiteral(f"`{function.node.name}`, calls too deep")
    if any(isinstance(node, (ast.Yield, ast.YieldFrom, ast.Await)) for node in ast.walk(function.node)):
        raise NotLiteral(f"`{function.node.name}`, a generator")
    DEPTH[0] += 1
    try:
        run_body(function.node.body, scope_of(function, positional, words))
    except Returned as end:
        return end.value
    except NotLiteral:
        forget_changed(function.names)
        raise
    finally:
        DEPTH[0] -= 1
    return None


def forget_changed(names: Names) -> None:
    """Makes lists and dictionaries unknown, which a function may have changed before it could not be followed."""
    for name in list(names):
        if isinstance(names[name], (list, dict)):
            names[name] = Unknown("may be changed by a function")


def run_body(body: list[ast.stmt], names: Names) -> None:
    """Walks the statements of a function."""
    for statement in body:
        STEPS.spend(1)
        if isinstance(statement, ast.Return):
            raise Returned(None if statement.value is None else Evaluator(names).value(statement.value))
        if isinstance(statement, ast.Assign):
            value = Evaluator(names).value(statement.value)
            for target in statement.targets:
                bind(target, value, names)
        elif isinstance(statement, ast.AnnAssign) and statement.value is not None:
            bind(statement.target, Evaluator(names).value(statement.value), names)
        elif isinstance(statement, ast.AugAssign):
            add_to(statement, names)
        elif isinstance(statement, ast.If):
            run_body(statement.body if Evaluator(names).value(statement.test) else statement.orelse, names)
        elif isinstance(statement, ast.For):
            run_loop(statement, names)
        elif isinstance(statement, ast.Continue):
            raise Continued
        elif isinstance(statement, ast.Break):
            raise Broken
        elif not (isinstance(statement, ast.Pass) or isinstance(statement, ast.Expr) and changes(statement.value, names)):
            raise NotLiteral(f"`{source(statement)[:80]}` in a function")


def run_loop(statement: ast.For, names: Names) -> None:
    """A loop of a function."""
    try:
        for value in entries(statement, names):
            bind(statement.target, value, names)
            try:
                run_body(statement.body, names)
            except Continued:
                continue
    except Broken:
        return
    run_body(statement.orelse, names)


def entries(statement: ast.For, names: Names, with_sets: bool = False) -> Iterator[Any]:
    """What a loop runs over; `NotLiteral` where that is too long or unknown."""
    evaluator = Evaluator(names)
    values = evaluator.value(statement.iter) if with_sets else evaluator.ordered(statement.iter)
    if not isinstance(values, (list, tuple, dict, str)) or len(values) > LONGEST:
        raise NotLiteral(f"`{source(statement.iter)}`, which a loop runs over")
    return iter(list(values))


def add_to(statement: ast.AugAssign, names: Names) -> None:
    """`a += b`, which changes a list in place as Python does."""
    if not isinstance(statement.target, ast.Name) or not isinstance(statement.op, ast.Add):
        raise NotLiteral(f"`{source(statement)}`")
    old = Evaluator(names).value(ast.Name(statement.target.id, ast.Load()))
    more = Evaluator(names).value(statement.value)
    try:
        if weight(more, id(old)) + weight(old) > 1_000_000:
            raise ValueError("a value that is too large")
        STEPS.spend(weight(more) // 16)
        old += more
    except (TypeError, ValueError) as fault:
        raise NotLiteral(f"`{source(statement)}` ({fault})") from fault
    names[statement.target.id] = old


def changes(node: ast.expr, names: Names) -> bool:
    """Whether an expression that stands alone is a text, or a change of a known list or dictionary, which is made."""
    if isinstance(node, ast.Constant):
        return True
    owner = owner_of(node, names)
    if owner is None or not isinstance(node, ast.Call) or not isinstance(node.func, ast.Attribute):
        return False

    def change(*positional: Any, **words: Any) -> None:
        """Makes the change, where nothing becomes a part of itself."""
        total = sum(weight(each, id(owner)) for each in [*positional, *words.values()]) + len(owner)
        if total > 1_000_000:
            raise ValueError("a value that is too large")
        STEPS.spend(total // 16)
        getattr(owner, node.func.attr)(*positional, **words)  # type: ignore[attr-defined]

    try:
        Evaluator(names).called(change, node)
    except NotLiteral:
        raise
    except (TypeError, ValueError, AttributeError) as fault:
        raise NotLiteral(f"`{source(node)}` ({fault})") from fault
    return True


def owner_of(node: ast.expr, names: Names) -> Optional[Any]:
    """The known list or dictionary that a call would change; None where it is no such call."""
    if not isinstance(node, ast.Call) or not isinstance(node.func, ast.Attribute) or not dotted(node.func.value):
        return None
    owner = names.get(dotted(node.func.value))
    return owner if node.func.attr in CHANGES.get(type(owner), ()) else None


Function.run = staticmethod(value_of)  # type: ignore[assignment]
