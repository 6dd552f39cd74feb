"""The computed arguments of a directive's call.

Computes those that have a meaning; the others are not looked at.
"""
import ast
from dataclasses import dataclass
from typing import Any

from . import directives
from .blocks import Around
from .directives import Call
from .literals import Evaluator
from .rows import Cannot
from .spec_text import Dialect
from .variant_values import FreeValues
from .values import Function, Names, NotLiteral, source


@dataclass(frozen=True)
class Given:
    """What is known of the repository and the site where a class is read."""

    dialect: Dialect
    has_python_venv: bool
    site_values: dict[str, tuple[str, ...]]


def computed(node: ast.Call, name: str, names: Names, around: Around, given: Given) -> Call:
    """The arguments of a call, those that have a meaning computed."""
    evaluator = Evaluator(names)
    positional = evaluator.items(node.args[: directives.POSITIONAL.get(name, len(node.args))])
    keywords = dict(around.defaults)
    for each in node.keywords:
        if each.arg is None:
            keywords.update(evaluator.value(each.value))
        elif each.arg == "validator":
            keywords["validator"] = True
        elif each.arg in directives.KEYWORDS[name]:
            keywords[each.arg] = keyword(each, evaluator)
        elif name != "version" and each.arg not in directives.UNREAD.get(name, ()):
            raise Cannot("a keyword that the profile has not", f"`{each.arg}`")
    for place, word in enumerate(directives.NAMED_PLACES.get(name, ()), start=1):
        if place < len(positional):
            keywords.setdefault(word, positional[place])
    return Call(name, positional, keywords, around.blocks, given.dialect, given.has_python_venv, given.site_values)


def keyword(each: ast.keyword, evaluator: Evaluator) -> Any:
    """The value of a keyword; values that a function tests have a reason of their own."""
    try:
        found = evaluator.value(each.value)
        if isinstance(found, Function):
            raise NotLiteral(f"`{source(each.value)}`, a function")
        return found
    except NotLiteral as fault:
        if each.arg == "values":
            return FreeValues(str(fault))
        raise


def message_of(node: ast.Call, names: Names) -> str | None:
    """The `msg` of a call, where it has one: its value, or as it is written."""
    for each in node.keywords:
        if each.arg == "msg":
            try:
                found = Evaluator(names).value(each.value)
            except NotLiteral:
                return source(each.value)
            return None if found is None else " ".join(str(found).split())
    return None
