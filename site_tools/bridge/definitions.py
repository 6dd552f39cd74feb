"""What functions, classes and imports in a recipe make of names.

A function is kept for calls by its name; what is imported from modules that are not Spack's is unknown.
"""
import ast
from collections import ChainMap
from typing import TYPE_CHECKING, Any

from .values import Function, Names, Unknown

if TYPE_CHECKING:
    from .blocks import Around
    from .class_reader import ClassReader

KNOWN_MODULES = ("spack", "spack_repo", "itertools", "llnl", "typing")


def take_function(reader: "ClassReader", statement: ast.FunctionDef, names: Names, _around: "Around") -> None:
    """A function: it may be called by its name; it sees the names of the file."""
    of_file = names.maps[-1] if isinstance(names, ChainMap) else names
    names[statement.name] = Function(statement, of_file)
    take_globals(reader, statement, names)


def take_definition(reader: "ClassReader", statement: Any, names: Names, _around: "Around") -> None:
    """A nested class or an asynchronous function: not looked into, its name is unknown."""
    names[statement.name] = Unknown("is a class")
    take_globals(reader, statement, names)


def take_globals(reader: "ClassReader", statement: ast.AST, names: Names) -> None:
    """Names that a function may change by `global`."""
    if reader.text and "global" not in reader.text:
        return
    for node in ast.walk(statement):
        if isinstance(node, ast.Global):
            for name in node.names:
                names[name] = Unknown("may be changed by a function")


def take_names(reader: "ClassReader", statement: ast.ImportFrom, names: Names, _around: "Around") -> None:
    """`from a import b`: names of Spack mean what they mean; those of other modules are unknown, also where one is a directive's."""
    module = (statement.module or "").split(".")[0]
    if module in KNOWN_MODULES or statement.level:
        return
    for each in statement.names:
        if each.name == "*":
            reader.list_left_out(statement, "import", "an import of all names of a module that is not Spack's", module)
        else:
            names[each.asname or each.name] = Unknown(f"is imported from {statement.module}")


def take_module(_reader: "ClassReader", statement: ast.Import, names: Names, _around: "Around") -> None:
    """`import a`: a module under another name is unknown."""
    for each in statement.names:
        if each.asname and each.asname != each.name:
            names[each.asname] = Unknown(f"is the module {each.name}")


def skip(_reader: "ClassReader", _statement: ast.stmt, _names: Names, _around: "Around") -> None:
    """`pass`: no effect on rows."""


def copied(names: dict[str, Any], found: dict[str, Any]) -> dict[str, Any]:
    """Functions of a copy of a file's names, which see that copy."""
    for name, value in names.items():
        if isinstance(value, Function):
            found[name] = Function(value.node, found)
    return found
