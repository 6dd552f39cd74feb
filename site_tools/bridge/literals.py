"""Values of literal expressions in a recipe, by Python's `ast`.

Computes what follows from the text alone: literals, names that were given literals, arithmetic of texts and numbers,
f-strings, comprehensions, and a few calls without effects. It never calls a function of a recipe and never imports;
what it cannot compute it refuses by `NotLiteral`, with the expression.
"""
import ast
import operator
from collections import ChainMap
from typing import Any, Callable

from .known_calls import FUNCTIONS, LONGEST, METHODS, MODULES, ORDERLESS, Steps, TooMuch, Unordered
from .known_calls import check_call, check_template, weight
from .values import MACHINE, ClassValue, Function, Names, NotLiteral, Unknown, dotted, source

STEPS = Steps()


BINARY: dict[type, Callable[[Any, Any], Any]] = {
    ast.Add: operator.add, ast.Sub: operator.sub, ast.Mult: operator.mul, ast.FloorDiv: operator.floordiv,
    ast.Mod: operator.mod, ast.BitOr: operator.or_, ast.BitAnd: operator.and_,
}
COMPARISONS: dict[type, Callable[[Any, Any], bool]] = {
    ast.Eq: operator.eq, ast.NotEq: operator.ne, ast.Lt: operator.lt, ast.LtE: operator.le, ast.Gt: operator.gt,
    ast.GtE: operator.ge, ast.In: lambda a, b: a in b, ast.NotIn: lambda a, b: a not in b,
    ast.Is: operator.is_, ast.IsNot: operator.is_not,
}
class Evaluator:
    """Computes expressions over a table of names."""

    def __init__(self, names: Names) -> None:
        self.names = names

    def value(self, node: ast.expr) -> Any:
        """The value of an expression; `NotLiteral` where it does not follow from the text."""
        kind = type(node)
        if kind is ast.Constant:
            return node.value  # type: ignore[attr-defined]
        STEPS.spend(1)
        method = METHOD_OF.get(kind)
        if method is None:
            raise NotLiteral(f"`{source(node)}`")
        try:
            found = method(self, node)
            if kind is not ast.Name and isinstance(found, (str, list, tuple, dict)):
                STEPS.spend(weight(found) // 16)
            return found
        except (NotLiteral, TooMuch, RecursionError):
            raise
        except Exception as fault:  # a wrong expression is no literal, whatever is wrong with it
            raise NotLiteral(f"`{source(node)}` ({fault})") from fault

    def of_name(self, node: ast.Name) -> Any:
        """What the name was given."""
        found = self.names.get(node.id, Unknown("is given nowhere in the recipe"))
        if isinstance(found, Unknown):
            raise NotLiteral(f"`{node.id}`, which {found.why}")
        return found

    def of_attribute(self, node: ast.Attribute) -> Any:
        """`sys.platform`, and the attribute of a class that was read."""
        if dotted(node) in MACHINE:
            return self.machine(dotted(node))
        owner = self.value(node.value)
        if isinstance(owner, ClassValue):
            return Evaluator(owner.names).value(ast.Name(node.attr, ast.Load()))
        raise NotLiteral(f"`{source(node)}`")

    def machine(self, name: str) -> Any:
        """What the importer was told of the machine, by the name in a recipe."""
        found = self.names.get(name) if name.partition(".")[0] not in self.names else None
        if found is None:
            raise NotLiteral(f"`{name}`, which --target says")
        return found

    def items(self, nodes: list[ast.expr]) -> list[Any]:
        """The values of expressions beside each other, `*list` spread out."""
        found: list[Any] = []
        for node in nodes:
            if isinstance(node, ast.Starred):
                found.extend(self.ordered(node.value))
            else:
                found.append(self.value(node))
        return found

    def of_tuple(self, node: ast.Tuple) -> tuple:
        """A tuple."""
        return tuple(self.items(node.elts))

    def of_list(self, node: ast.List) -> list:
        """A list."""
        return self.items(node.elts)

    def of_set(self, node: ast.Set) -> Unordered:
        """A set."""
        return Unordered(dict.fromkeys(self.items(node.elts)))

    def ordered(self, node: ast.expr) -> Any:
        """A value whose order is looked at: a set has none."""
        found = self.value(node)
        if isinstance(found, Unordered) and len(found) > 1:
            raise NotLiteral(f"`{source(node)}`, a set in some order")
        return found

    def of_dict(self, node: ast.Dict) -> dict:
        """A dictionary, `**other` spread out."""
        found: dict = {}
        for each, value in zip(node.keys, node.values):
            found.update(self.value(value) if each is None else {self.value(each): self.value(value)})
        return found

    def of_joinedstr(self, node: ast.JoinedStr) -> str:
        """An f-string."""
        parts = [self.value(part) for part in node.values]
        return "".join(str(part) for part in parts if weight(part))

    def of_formattedvalue(self, node: ast.FormattedValue) -> str:
        """One `{..}` of an f-string."""
        if node.conversion != -1:
            raise NotLiteral(f"`{source(node.value)}` with a conversion")
        value, form = self.value(node.value), self.value(node.format_spec) if node.format_spec else ""
        check_template("{0:" + form + "}")
        return format(value, form) if weight(value) or form else ""

    def of_binop(self, node: ast.BinOp) -> Any:
        """`a + b` and the like."""
        left, right = self.ordered(node.left), self.ordered(node.right)
        numbers = [each for each in (left, right) if isinstance(each, int)]
        if isinstance(node.op, ast.Mult) and max(numbers + [0]) > LONGEST:
            raise NotLiteral(f"`{source(node)}` (too long)")
        if isinstance(left, str) and isinstance(node.op, ast.Mod):
            check_template(left)
            weight(right)
        return BINARY[type(node.op)](left, right)

    def of_unaryop(self, node: ast.UnaryOp) -> Any:
        """`not a`, `-a`."""
        value = self.value(node.operand)
        return (not value) if isinstance(node.op, ast.Not) else -value

    def of_boolop(self, node: ast.BoolOp) -> Any:
        """`a and b`, `a or b`."""
        wanted = isinstance(node.op, ast.Or)
        for part in node.values:
            value = self.value(part)
            if bool(value) == wanted:
                break
        return value

    def of_compare(self, node: ast.Compare) -> bool:
        """`a < b <= c`."""
        left = self.value(node.left)
        for sign, part in zip(node.ops, node.comparators):
            right = self.value(part)
            if not COMPARISONS[type(sign)](left, right):
                return False
            left = right
        return True

    def of_ifexp(self, node: ast.IfExp) -> Any:
        """`a if b else c`."""
        return self.value(node.body if self.value(node.test) else node.orelse)

    def of_subscript(self, node: ast.Subscript) -> Any:
        """`a[b]`, `a[b:c]`."""
        return self.ordered(node.value)[self.value(node.slice)]

    def of_slice(self, node: ast.Slice) -> slice:
        """`b:c` in brackets."""
        return slice(*[None if end is None else self.value(end) for end in (node.lower, node.upper, node.step)])

    def of_call(self, node: ast.Call) -> Any:
        """A call of a function without effects, or of a method of a text, a list or a dictionary."""
        place = dotted(node.func)
        front, _, name = place.rpartition(".")
        if place + "()" in MACHINE and not node.args and not node.keywords:
            return self.machine(place + "()")
        if front.partition(".")[0] in MODULES and name in FUNCTIONS and front.partition(".")[0] not in self.names:
            return self.called(FUNCTIONS[name], node, name in ORDERLESS)
        if isinstance(node.func, ast.Attribute):
            owner = self.value(node.func.value)
            if isinstance(owner, ClassValue) and isinstance(owner.names.get(node.func.attr), Function):
                return self.run_function(owner.names[node.func.attr], node)
            if node.func.attr in METHODS.get(type(owner), ()):
                found = self.called(getattr(owner, node.func.attr), node, owner=owner)
                return list(found) if isinstance(owner, dict) and node.func.attr != "get" else found
        elif place in FUNCTIONS and place not in self.names:
            return self.called(FUNCTIONS[place], node, place in ORDERLESS)
        elif isinstance(self.names.get(place), Function):
            return self.run_function(self.names[place], node)
        raise NotLiteral(f"`{source(node)}`, a call")

    def run_function(self, function: Function, node: ast.Call) -> Any:
        """The value of a function of the recipe."""
        if Function.run is None:
            raise NotLiteral(f"`{source(node)}`, a call")
        return self.called(lambda *given, **words: Function.run(function, list(given), words), node)  # type: ignore[misc]

    def called(self, function: Callable[..., Any], node: ast.Call, orderless: bool = False, owner: Any = None) -> Any:
        """What a known function gives for the arguments, sets among them only where their order does not matter."""
        words: dict[str, Any] = {}
        for each in node.keywords:
            words.update(self.value(each.value) if each.arg is None else {each.arg: self.value(each.value)})
        positional = self.items(node.args)
        if not orderless and any(isinstance(each, Unordered) and len(each) > 1 for each in [*positional, *words.values()]):
            raise NotLiteral(f"`{source(node)}`, a set in some order")
        check_call(owner, node.func.attr if isinstance(node.func, ast.Attribute) else "", positional, words)
        return function(*positional, **words)

    def comprehended(self, node: Any, result: Callable[["Evaluator"], Any]) -> list:
        """The results of a comprehension."""
        found: list[Any] = []

        def run(rest: list[ast.comprehension], names: Names) -> None:
            """Runs the loops that are left."""
            inner = Evaluator(names)
            if not rest:
                found.append(result(inner))
                return
            for value in inner.ordered(rest[0].iter):
                bound = ChainMap({}, names)  # type: ignore[arg-type]
                STEPS.spend(1)
                bind(rest[0].target, value, bound)
                if all(Evaluator(bound).value(test) for test in rest[0].ifs):
                    run(rest[1:], bound)

        run(node.generators, self.names)
        return found

    def of_listcomp(self, node: ast.ListComp) -> list:
        """`[a for b in c]`."""
        return self.comprehended(node, lambda inner: inner.value(node.elt))

    of_generatorexp = of_listcomp

    def of_setcomp(self, node: ast.SetComp) -> Unordered:
        """`{a for b in c}`."""
        return Unordered(dict.fromkeys(self.comprehended(node, lambda inner: inner.value(node.elt))))

    def of_dictcomp(self, node: ast.DictComp) -> dict:
        """`{a: b for c in d}`."""
        return dict(self.comprehended(node, lambda inner: (inner.value(node.key), inner.value(node.value))))


METHOD_OF: dict[type, Callable[[Evaluator, Any], Any]] = {
    kind: getattr(Evaluator, f"of_{kind.__name__.lower()}")
    for kind in (
        ast.Name, ast.Attribute, ast.Tuple, ast.List, ast.Set, ast.Dict, ast.JoinedStr, ast.FormattedValue, ast.BinOp, ast.UnaryOp,
        ast.BoolOp, ast.Compare, ast.IfExp, ast.Subscript, ast.Slice, ast.Call, ast.ListComp, ast.GeneratorExp, ast.SetComp, ast.DictComp,
    )
}


def bind(target: ast.expr, value: Any, names: Names) -> None:
    """Gives names their values, as an assignment or a loop does."""
    if isinstance(target, ast.Name):
        names[target.id] = value
    elif isinstance(target, (ast.Tuple, ast.List)) and not any(isinstance(each, ast.Starred) for each in target.elts):
        parts = list(value)
        if len(parts) != len(target.elts):
            raise NotLiteral(f"`{source(target)}` with another number of values")
        for each, part in zip(target.elts, parts):
            bind(each, part, names)
    else:
        raise NotLiteral(f"`{source(target)}`, to which something is assigned")
