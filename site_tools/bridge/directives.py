"""What each directive of Spack is in the profile: one function for each.

A function gets the computed arguments and gives the rows that say exactly the same, or raises `Cannot` (or
`NotInProfile`) with the reason. It never writes a weaker or a stronger directive in place of one.
"""
from dataclasses import dataclass, field, replace
from typing import Any, Callable, Optional, Union

from . import signs, spec_memory, spec_text
from .rows import Cannot, Conditions, Row, VariantRow, listed, quoted
from .spec_text import Dialect
from .variants import VariantReader
from .versions import Version

LANGUAGES = ("c", "cxx", "fortran")
KINDS = ("build", "link", "run", "test")
Rows = list[Union[Row, VariantRow]]

# What says nothing about which graphs are right.
PASSED_OVER = frozenset(
    "license maintainers patch resource filter_compiler_wrappers redistribute can_splice executables print".split()
)
# Keywords that are computed; of all others the value is not looked at.
KEYWORDS: dict[str, frozenset[str]] = {
    "version": frozenset({"preferred", "deprecated"}),
    "variant": frozenset({"default", "values", "multi", "when", "sticky", "validator"}),
    "depends_on": frozenset({"type", "when"}),
    "extends": frozenset({"type", "when"}),
    "provides": frozenset({"when"}),
    "conflicts": frozenset({"when"}),
    "requires": frozenset({"policy", "when"}),
    "build_system": frozenset({"default", "when"}),
    "generator": frozenset({"default"}),
}
# What else a directive may be given: it has no meaning for what is chosen.
UNREAD: dict[str, frozenset[str]] = {
    "variant": frozenset({"description"}),
    "depends_on": frozenset({"patches"}),
    "extends": frozenset({"patches"}),
    "conflicts": frozenset({"msg"}),
    "requires": frozenset({"msg"}),
}
POSITIONAL: dict[str, int] = {"version": 1}  # of the positional values of a version the first alone is computed
NAMED_PLACES: dict[str, tuple[str, ...]] = {"variant": ("default",), "conflicts": ("when",), "depends_on": ("when", "type")}


@dataclass(frozen=True)
class Call:
    """A call of a directive: its positional values, its keywords, the conditions of the blocks around it."""

    name: str
    positional: list[Any]
    keywords: dict[str, Any]
    blocks: tuple[str, ...]
    dialect: Dialect
    has_python_venv: bool = False
    site_values: dict[str, tuple[str, ...]] = field(default_factory=dict)
    notes: list[tuple[str, str, str]] = field(default_factory=list)  # what is said in part: directive, kind, detail

    def text(self, place: int = 0) -> str:
        """A positional value that has to be a text."""
        value = self.positional[place] if place < len(self.positional) else None
        if not isinstance(value, (str, Version)):
            raise Cannot("an argument that is no text", f"`{value}`")
        return str(value)

    def condition(self, value: Any) -> str:
        """A condition in the profile's words."""
        if not isinstance(value, str):
            raise Cannot("a condition that is no text", f"`{value}`")
        return spec_memory.condition_text(value, self.dialect)

    def conditions(self) -> Optional[Conditions]:
        """All conditions of this call; None where one of them never holds."""
        when = self.keywords.get("when")
        if when is False:
            return None
        own = None if when is None or when is True else self.condition(when)
        if len(self.blocks) > 16:
            raise Cannot("more than 16 blocks", "")
        return Conditions(self.blocks, own if own and own not in self.blocks else None)


def kinds_of(given: Any) -> tuple[str, ...]:
    """The kinds of a dependency, in the order that the profile has them."""
    given = KINDS if given == "all" else given
    texts = (given,) if isinstance(given, str) else tuple(given if given is not None else ("build", "link"))
    if not texts or not set(texts) <= set(KINDS):
        raise Cannot("a kind of dependency that is none", f"`{given}`")
    return tuple(kind for kind in KINDS if kind in texts)


def version(call: Call) -> Rows:
    """`version`: the text, and whether it is preferred or deprecated."""
    if call.blocks or call.keywords.get("when") is not None:
        raise Cannot("a version under a condition", "")
    if not signs.is_version(call.text()):
        raise Cannot("a version that is none", f"`{call.text()}`")
    words = [f"{name}=True" for name in ("preferred", "deprecated") if call.keywords.get(name)]
    return [Row("version", (quoted(call.text()), *words))]


def variant(call: Call) -> Rows:
    """`variant`, as variants.py has it."""
    conditions = call.conditions()
    if conditions is None:
        return []
    name = call.positional[0] if call.positional else None
    reader = VariantReader(name, call.keywords, conditions, call.condition, call.site_values)
    rows: Rows = [reader.read()]
    if reader.allowed_of_any:
        what = f"these are allowed, which the site names: {', '.join(reader.allowed_of_any)}"
        call.notes.append(("values", "values that are any text", what))
    return rows


def depends_on(call: Call, standard: Any = None) -> Rows:
    """`depends_on`, with its kinds where they are not build and link."""
    conditions = call.conditions()
    kinds = kinds_of(call.keywords.get("type", standard))
    spec, text = spec_memory.dependency_text(call.text(), call.dialect)
    if conditions is None:
        return []
    words: tuple[str, ...] = ()
    if kinds != ("build", "link"):
        words = (f"type={quoted(kinds[0]) if len(kinds) == 1 else listed(list(kinds))}",)
    is_language = spec.top.name in LANGUAGES and spec.top == spec_text.Part(spec.top.name)
    names = () if is_language or kinds == ("test",) else (str(spec.top.name),)
    return [Row("depends_on", (quoted(text), *words), conditions, names)]


def extends(call: Call) -> Rows:
    """`extends`: a dependency to build and run with; Python brings its environment where the repository has one."""
    rows = depends_on(replace(call, name="depends_on"), standard=("build", "run"))
    if rows and call.has_python_venv and spec_text.read_dependency(call.text(), call.dialect).top.name == "python":
        rows += depends_on(replace(call, positional=["python-venv"]), standard=("build", "run"))
    return rows


def provides(call: Call) -> Rows:
    """`provides`: names with versions, under a condition without `^`."""
    conditions = call.conditions()
    specs = [spec_text.read_provision(call.text(place), call.dialect) for place in range(len(call.positional))]
    if conditions is None or not specs:
        return []
    if any("^" in text for text in conditions.all()):
        raise Cannot("`^` where the profile has none", "in the condition of what is provided")
    return [Row("provides", tuple(quoted(spec.text()) for spec in specs), conditions, tuple(str(spec.top.name) for spec in specs))]


def conflicts(call: Call) -> Rows:
    """`conflicts`: a condition that may not hold."""
    conditions = call.conditions()
    text = call.condition(call.text())
    return [] if conditions is None else [Row("conflicts", (quoted(text),), conditions)]


def requires(call: Call) -> Rows:
    """`requires`: conditions of which exactly one holds, or at least one."""
    conditions = call.conditions()
    texts = tuple(quoted(call.condition(call.text(place))) for place in range(len(call.positional)))
    policy = call.keywords.get("policy", "one_of")
    if policy not in ("one_of", "any_of") or not texts:
        raise Cannot("a policy that is none", f"`{policy}`")
    words = ('policy="any_of"',) if policy == "any_of" else ()
    return [] if conditions is None else [Row("requires", texts + words, conditions)]


def build_system(call: Call) -> Rows:
    """`build_system`: the variant of that name."""
    default = call.keywords.get("default")
    flat = [each for value in call.positional for each in (value if isinstance(value, tuple) else (value,))]
    if default is None:
        if len(flat) != 1:
            raise Cannot("a default that is none of the values", "several build systems")
        default = getattr(flat[0], "value", flat[0])
    return variant(replace(call, positional=["build_system"], keywords={"default": default, "values": flat, "multi": False}))


def generator(call: Call) -> Rows:
    """`generator` of CMake: a variant where CMake builds, and conflicts with what is not named."""
    names = [call.text(place) for place in range(len(call.positional))]
    keywords = {"default": call.keywords.get("default") or names[0], "values": ("make", "ninja"), "when": "build_system=cmake"}
    rows = variant(replace(call, positional=["generator"], keywords=keywords))
    others = [name for name in ("make", "ninja") if name not in names]
    return rows + [Row("conflicts", (quoted(f"generator={name}"),), Conditions(call.blocks)) for name in others]


DIRECTIVES: dict[str, Callable[[Call], Rows]] = {
    "version": version, "variant": variant, "depends_on": depends_on, "extends": extends, "provides": provides,
    "conflicts": conflicts, "requires": requires, "build_system": build_system, "generator": generator,
}
