"""The rows of a class: its body walked as Python would run it, as far as that follows from the text.

Assignments, loops over literal lists, `if` on literals, `with when`, `with default_args` and calls of the recipe's own
functions are followed; methods are not looked into. A statement that cannot be followed makes every directive in it left
out and listed, and every name that it gives unknown.
"""
import ast
from collections import ChainMap
from dataclasses import dataclass, field, replace
from typing import Any, Callable, Optional, Union

from . import arguments, directives
from .blocks import Around, loops_of, with_item
from .effects import called_name, forget, forget_as, forget_base, forget_changeable, forget_set, is_set_allowed, makes_directives
from .known_calls import LONGEST, TooMuch
from .literals import STEPS, Evaluator, bind
from .definitions import skip, take_definition, take_function, take_module, take_names
from .recipe_functions import Broken, Continued, Returned, add_to, changes, entries, scope_of
from .rows import Cannot, LeftOut, Origin, Row, VariantRow
from .source_texts import SourceText
from .spec_text import Dialect, NotInProfile
from .values import Function, Names, NotLiteral, Unknown, source, why_computed

MOST_ROWS = 50_000
DEEPEST = 20  # calls of the recipe's functions within each other
ENDS = (ast.Break, ast.Continue, ast.Return)


class Doubtful(Exception):
    """A loop or a function whose end cannot be known: nothing in it is taken."""


@dataclass
class ClassReader:
    """Reads class bodies of one file into rows."""

    file: str
    dialect: Dialect
    has_python_venv: bool = False
    text: str = ""
    rows: list[Union[Row, VariantRow]] = field(default_factory=list)
    left_out: list[LeftOut] = field(default_factory=list)
    lost_variants: set[str] = field(default_factory=set)
    site_values: dict[str, tuple[str, ...]] = field(default_factory=dict)
    depth: int = 0
    loops: int = 0
    lines: Optional[SourceText] = None

    def run(self, body: list[ast.stmt], names: Names, around: Around = Around()) -> None:
        """Walks statements in order."""
        for statement in body:
            STEPS.spend(1)
            step = STATEMENTS.get(type(statement), ClassReader.unfollowed)
            step(self, statement, names, around)
            if len(self.rows) > MOST_ROWS:
                raise TooMuch("too many directives", f"more than {MOST_ROWS}")

    def text_of(self, node: ast.AST) -> str:
        """A part of the file as it is written, on one line."""
        if not self.text:
            return source(node)
        self.lines = self.lines or SourceText(self.text)
        return self.lines.part(node) or source(node)

    def list_left_out(self, node: ast.AST, name: str, kind: str, detail: str) -> None:
        """Notes what is not taken."""
        STEPS.spend(20)
        self.left_out.append(LeftOut(self.file, getattr(node, "lineno", 0), name, self.text_of(node), kind, detail))

    def unfollowed(self, statement: ast.stmt, names: Names, around: Around) -> None:
        """A statement whose effect does not follow from the text: all in it is left out."""
        self.ends_inside(statement)
        word = type(statement).__name__.lower()
        inner = replace(around, refused=around.refused or ("a statement that is not followed", f"in `{word}`"))
        self.leave_out_inside(statement, names, inner)

    def leave_out_inside(self, statement: ast.AST, names: Names, around: Around) -> None:
        """Lists the directives inside, and forgets the names that are given inside."""
        if around.refused is None:
            around = replace(around, refused=("a statement that is not followed", ""))
        for node in ast.walk(statement):
            if isinstance(node, ast.Call) and called_name(node) in directives.DIRECTIVES:
                self.call(node, names, around)
            elif isinstance(node, ast.Call) and makes_directives(node, names):
                self.list_left_out(node, "call", *(around.refused or ("", "")))
        forget(statement, names, "is given in a statement that is not followed")

    def ends_inside(self, statement: ast.AST) -> None:
        """Raises `Doubtful` where a loop or a function around a statement may end in it."""
        if (self.loops or self.depth) and any(isinstance(node, ENDS) for node in ast.walk(statement)):
            raise Doubtful

    def assign(self, statement: ast.Assign, names: Names, around: Around) -> None:
        """`a = b`: the value where it can be computed, else unknown."""
        try:
            value = Evaluator(names).value(statement.value)
            for target in statement.targets:
                bind(target, value, names)
        except (NotLiteral, TypeError, ValueError) as fault:
            if isinstance(fault, TooMuch):
                raise
            if makes_directives(statement.value, names) and not around.never:
                self.list_left_out(statement, "call", "a call that is not followed", str(fault))
            forget(statement, names, why_computed(str(fault)))

    def assign_annotated(self, statement: ast.AnnAssign, names: Names, around: Around) -> None:
        """`a: T = b`."""
        if statement.value is not None:
            self.assign(ast.Assign([statement.target], statement.value), names, around)

    def assign_more(self, statement: ast.AugAssign, names: Names, around: Around) -> None:
        """`a += b`, which changes a list in place as Python does."""
        try:
            add_to(statement, names)
        except NotLiteral:
            forget_base(statement.target, names, "is changed by what is computed")
            forget(statement, names, "is changed by what is computed")

    def expression(self, statement: ast.Expr, names: Names, around: Around) -> None:
        """A directive, a text, a comprehension of directives, or a call that is none of these."""
        node = statement.value
        if isinstance(node, ast.Constant):
            return
        name = called_name(node)
        if isinstance(node, ast.Call) and name in directives.DIRECTIVES and name not in names:
            self.call(node, names, around)
        elif isinstance(node, (ast.ListComp, ast.SetComp)):
            self.comprehension(node, names, around)
        elif isinstance(node, ast.Call) and isinstance(names.get(name), Function) and not around.refused:
            self.own_function(node, names[name], names, around)
        elif name not in directives.PASSED_OVER or name in names:
            self.other_call(node, names)

    def comprehension(self, node: Union[ast.ListComp, ast.SetComp], names: Names, around: Around) -> None:
        """`[directive(a) for a in b]` as a statement: the loops that it stands for, with names of their own."""
        inner: ChainMap = ChainMap({}, names)  # type: ignore[arg-type]
        self.run(loops_of(node), inner, around)
        forget_as(inner, names)

    def own_function(self, node: ast.Call, function: Function, names: Names, around: Around) -> None:
        """A call of a function of the recipe, whose body may make directives."""
        mark, outer = self.mark(), (self.loops, self.depth)
        try:
            if self.depth >= DEEPEST:
                raise NotLiteral("calls too deep")
            scope = Evaluator(names).called(lambda *given, **words: scope_of(function, list(given), words), node)
            self.loops, self.depth = 0, self.depth + 1
            try:
                self.run(function.node.body, scope, around)
            except Returned:
                pass
            forget_as(scope, names)
            forget_as(scope, function.names)
        except (NotLiteral, Doubtful, TypeError) as fault:
            self.take_back(mark)
            self.list_left_out(node, "call", "a call that is not followed", str(fault) or "it may end before its end")
            forget_changeable(names)
            forget_changeable(function.names)
        finally:
            self.loops, self.depth = outer

    def mark(self) -> tuple[int, int, set[str]]:
        """How far the rows and the list go."""
        return len(self.rows), len(self.left_out), set(self.lost_variants)

    def take_back(self, mark: tuple[int, int, set[str]]) -> None:
        """Drops what came after a mark."""
        del self.rows[mark[0] :], self.left_out[mark[1] :]
        self.lost_variants = mark[2]

    def other_call(self, node: ast.expr, names: Names) -> None:
        """A call whose effect is not known: a list may change by it, a directive may stand in what it runs."""
        known = [each.id for each in ast.walk(node) if isinstance(each, ast.Name) and each.id in names]
        try:
            if changes(node, names):
                return
        except NotLiteral:
            pass
        owner = node.func.value if isinstance(node, ast.Call) and isinstance(node.func, ast.Attribute) else None
        if not (isinstance(owner, ast.Name) and owner.id in known):
            self.list_left_out(node, "call", "a call that is no directive", "it is not run")
        forget_changeable(names)
        for name in known:
            names[name] = Unknown("may be changed by a call")

    def call(self, node: ast.Call, names: Names, around: Around) -> None:
        """A directive: its rows, or why it has none."""
        name = called_name(node)
        if around.never:
            return
        try:
            if around.refused:
                raise Cannot(*around.refused)
            given = arguments.Given(self.dialect, self.has_python_venv, self.site_values)
            call = arguments.computed(node, name, names, around, given)
            rows = directives.DIRECTIVES[name](call)
        except NotLiteral as fault:
            return self.refuse(node, name, names, "an argument that is computed", str(fault))
        except TooMuch:
            raise
        except (Cannot, NotInProfile) as fault:
            return self.refuse(node, name, names, fault.kind, fault.detail)
        origin = Origin(self.file, node.lineno, self.text_of(node), arguments.message_of(node, names))
        self.rows += [self.with_origin(row, origin) for row in rows]
        for lost in ("sticky", "validator"):
            if rows and call.keywords.get(lost):
                call.notes.append((lost, f"`{lost}` of a variant", "the variant is taken without it"))
        for note in call.notes:
            self.list_left_out(node, *note)
        return None

    def with_origin(self, row: Union[Row, VariantRow], origin: Origin) -> Union[Row, VariantRow]:
        """The row with where it comes from."""
        if isinstance(row, VariantRow):
            return VariantRow(row.name, row.row.of(origin), tuple(rule.of(origin) for rule in row.rules))
        return row.of(origin)

    def refuse(self, node: ast.Call, name: str, names: Names, kind: str, detail: str) -> None:
        """Lists a directive that is left out, and remembers the variant that is lost with it."""
        self.list_left_out(node, name, kind, detail)
        for each in ast.walk(node):
            if isinstance(each, ast.NamedExpr):
                names[each.target.id] = Unknown("is given in an argument that is not followed")
        if any(isinstance(names.get(called_name(each)), Function) for each in ast.walk(node) if isinstance(each, ast.Call)):
            forget_changeable(names)
        first = node.args[0] if node.args else None
        if name == "variant" and first is not None:
            try:
                self.lost_variants.add(str(Evaluator(names).value(first)))
            except NotLiteral:
                pass

    def loop(self, statement: ast.For, names: Names, around: Around) -> None:
        """`for a in b`, run for each value where the list follows from the text."""
        mark = self.mark()
        try:
            values = list(entries(statement, names, is_set_allowed(statement)))
        except (NotLiteral, TypeError) as fault:
            refused = around.refused or ("a loop over what is computed", str(fault))
            return self.leave_out_inside(statement, names, replace(around, refused=refused))
        self.loops += 1
        try:
            for value in values:
                bind(statement.target, value, names)
                self.turn(statement.body, names, around)
        except Broken:
            return None
        except (NotLiteral, TypeError, Doubtful):
            self.take_back(mark)
            refused = around.refused or ("a statement that is not followed", "in `for`")
            return self.leave_out_inside(statement, names, replace(around, refused=refused))
        finally:
            self.loops -= 1
            forget_set(statement, values, names)
        return self.run(statement.orelse, names, around)

    def turn(self, body: list[ast.stmt], names: Names, around: Around) -> None:
        """One turn of a loop."""
        try:
            self.run(body, names, around)
        except Continued:
            pass

    def branch(self, statement: ast.If, names: Names, around: Around) -> None:
        """`if a`, where `a` follows from the text; else both branches are left out."""
        try:
            holds = Evaluator(names).value(statement.test)
        except NotLiteral as fault:
            self.ends_inside(statement)
            refused = around.refused or ("an `if` on what is computed", str(fault))
            return self.leave_out_inside(statement, names, replace(around, refused=refused))
        return self.run(statement.body if holds else statement.orelse, names, around)

    def block(self, statement: ast.With, names: Names, around: Around) -> None:
        """`with when(..)`, `with default_args(..)`, also several in one line."""
        for item in statement.items:
            around = with_item(item.context_expr, names, around, self.dialect)
        self.run(statement.body, names, around)

    def end(self, statement: ast.stmt, names: Names, around: Around) -> None:
        """`break`, `continue` and `return`, of a loop or function that is followed."""
        if not self.loops and not self.depth:
            return
        if isinstance(statement, ast.Return):
            if statement.value is not None and not isinstance(statement.value, ast.Constant):
                self.assign(ast.Assign([], statement.value), names, around)
            raise Returned(None)
        raise Broken if isinstance(statement, ast.Break) else Continued


STATEMENTS: dict[type, Callable[..., None]] = {
    ast.Assign: ClassReader.assign, ast.AnnAssign: ClassReader.assign_annotated, ast.AugAssign: ClassReader.assign_more,
    ast.Expr: ClassReader.expression, ast.For: ClassReader.loop, ast.If: ClassReader.branch, ast.With: ClassReader.block,
    ast.Break: ClassReader.end, ast.Continue: ClassReader.end, ast.Return: ClassReader.end, ast.FunctionDef: take_function,
    ast.AsyncFunctionDef: take_definition, ast.ClassDef: take_definition, ast.Pass: skip, ast.Import: take_module,
    ast.ImportFrom: take_names,
}
