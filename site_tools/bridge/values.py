"""What stands for the values of a recipe's names that are no literals, and how expressions are shown.

Data, and texts of expressions; computes no value.
"""
import ast
from typing import Any, Callable, MutableMapping, Optional

Names = MutableMapping[str, Any]


class NotLiteral(ValueError):
    """An expression whose value does not follow from the text: the expression, and why."""


class Unknown:
    """What stands for a name whose value could not be computed."""

    def __init__(self, why: str) -> None:
        self.why = why


class ClassValue:
    """A class whose attributes may be asked for, as `CudaPackage.cuda_arch_values`."""

    def __init__(self, names: Names) -> None:
        self.names = names


class Function:
    """A function of a recipe, and the names that it sees; `run` gives its value for some arguments."""

    run: Optional[Callable[["Function", list[Any], dict[str, Any]], Any]] = None

    def __init__(self, node: ast.FunctionDef, names: Names) -> None:
        self.node, self.names = node, names

    def __deepcopy__(self, _memo: object) -> "Function":
        """Itself: a copy of a file's names gets its functions by `definitions.copied`."""
        return self


# What a recipe may ask of the machine that it is for.
MACHINE = frozenset({"sys.platform", "platform.machine()", "platform.system()"})


def why_computed(fault: str) -> str:
    """Why a name has no value, by the fault of its expression: what the caller can say is named through all that is made of it."""
    by_target = "`platform.machine()`, which --target says"
    return f"is made of {by_target}" if fault.endswith(by_target) else "has a value that is computed"


def dotted(node: ast.expr) -> str:
    """`a.b.c` as it is written; empty where it is no row of names."""
    names: list[str] = []
    while isinstance(node, ast.Attribute):
        names.append(node.attr)
        node = node.value
    return ".".join([node.id, *reversed(names)]) if isinstance(node, ast.Name) else ""


def source(node: ast.AST) -> str:
    """The expression as text, on one line."""
    return " ".join(ast.unparse(node).split())
