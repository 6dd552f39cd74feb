"""What an import gives: the rows of a recipe, and what was left out.

Data, and how it is quoted.
"""
from dataclasses import dataclass, field
from typing import NamedTuple, Optional


def quoted(text: str) -> str:
    """A text as a string of a recipe."""
    return '"' + text.replace("\\", "\\\\").replace('"', '\\"') + '"'


def unquoted(text: str) -> str:
    """The text that `quoted` wrote so."""
    return text[1:-1].replace('\\"', '"').replace("\\\\", "\\")


def listed(texts: list[str]) -> str:
    """Texts as a tuple of a recipe."""
    return "(" + ", ".join(map(quoted, texts)) + ("," if len(texts) == 1 else "") + ")"


class Cannot(ValueError):
    """Something of a recipe that the profile cannot say: a kind of reason, and what it is here."""

    def __init__(self, kind: str, detail: str) -> None:
        super().__init__(f"{kind}: {detail}")
        self.kind, self.detail = kind, detail


class Conditions(NamedTuple):
    """The conditions of the blocks around a directive, the outermost first, and its own."""

    blocks: tuple[str, ...] = ()
    own: Optional[str] = None

    def all(self) -> frozenset[str]:
        """All of them, as a set: they hold together in any order."""
        return frozenset(self.blocks + ((self.own,) if self.own else ()))

    def with_own_as_block(self) -> tuple[str, ...]:
        """The same with the own one as the innermost block."""
        return self.blocks + ((self.own,) if self.own else ())


class Origin(NamedTuple):
    """Where a row comes from: file and line of Spack's, the text there, and the message that Spack would show."""

    file: str
    line: int
    text: str
    message: Optional[str] = None


class Choice(NamedTuple):
    """What a definition of a variant says: default and values; without values it is true or false."""

    name: str
    default: tuple[str, ...]
    values: Optional[tuple[str, ...]] = None
    multi: bool = False
    sticky: bool = False

    def all_values(self) -> tuple[str, ...]:
        """The values that it allows."""
        return ("true", "false") if self.values is None else self.values

    def arguments(self) -> tuple[str, ...]:
        """The arguments of a `variant` of the profile."""
        if self.values is None:
            return (quoted(self.name), f"default={self.default[0].title()}")
        default = quoted(self.default[0]) if len(self.default) == 1 else listed(list(self.default))
        words = (quoted(self.name), f"default={default}", f"values={listed(list(self.values))}")
        return words + (("multi=True",) if self.multi else ())


@dataclass(frozen=True)
class Row:
    """One directive of the recipe that is written: its name, its arguments as text, its conditions."""

    directive: str
    arguments: tuple[str, ...]
    conditions: Conditions = Conditions()
    names: tuple[str, ...] = ()  # the packages that it names (of provides: the virtuals)
    origin: Optional[Origin] = field(default=None, compare=False)
    choice: Optional[Choice] = field(default=None, compare=False)  # of a variant

    def of(self, origin: Optional[Origin]) -> "Row":
        """The same with where it comes from."""
        return Row(self.directive, self.arguments, self.conditions, self.names, origin, self.choice)


@dataclass(frozen=True)
class VariantRow:
    """A definition of a variant, with the rows that say what its values may not be together."""

    name: str
    row: Row
    rules: tuple[Row, ...] = ()


class LeftOut(NamedTuple):
    """Something that was not taken: where it stands, its text, and why."""

    file: str
    line: int
    directive: str
    text: str
    kind: str
    detail: str
    is_note: bool = False  # a note changes nothing in what the recipe says


@dataclass
class Recipe:
    """A package as it is written, and what was left out of it."""

    name: str
    file: str
    class_name: str
    rows: list[Row] = field(default_factory=list)
    left_out: list[LeftOut] = field(default_factory=list)
    bases: list[str] = field(default_factory=list)
    lost_variants: set[str] = field(default_factory=set)

    def is_whole(self) -> bool:
        """Whether nothing was left out."""
        return all(each.is_note for each in self.left_out)
