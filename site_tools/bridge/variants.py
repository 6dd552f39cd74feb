"""What a `variant` of Spack is in the profile.

A variant whose values are a finite set is written with exactly these; `conditional` values become `requires`, values
that exclude each other become `conflicts`. A variant whose values a function tests is refused.
"""
from typing import Any, Optional

from . import signs
from .rows import Cannot, Choice, Conditions, Row, VariantRow, quoted
from .variant_values import Conditional, DisjointSets, FreeValues


def flat(values: Any) -> list[Any]:
    """Values in order, those of `conditional(..)` spread out."""
    if isinstance(values, (str, int)):
        return [values]
    found: list[Any] = []
    for value in values:
        found.extend(flat(value) if isinstance(value, (tuple, list)) else [value])
    return found


def checked(value: Any) -> str:
    """A value as text, refused where the profile cannot write it."""
    text = signs.as_value(value)
    if not signs.is_value(text):
        raise Cannot("a value beyond the profile", f"`{text}`")
    return text


MOST_PAIRS = 20_000  # of values that exclude each other: a conflict for each


class VariantReader:
    """Reads one call of `variant`, its arguments computed."""

    def __init__(self, name: Any, given: dict[str, Any], conditions: Conditions, condition_of: Any, site_values: dict) -> None:
        self.name, self.given, self.conditions, self.condition_of = name, given, conditions, condition_of
        self.rules: list[Row] = []
        self.site_values: tuple[str, ...] = site_values.get(name, ()) if isinstance(name, str) else ()
        self.allowed_of_any: tuple[str, ...] = ()  # where the variant takes any text: the values that the site names

    def read(self) -> VariantRow:
        """The definition, and its rules."""
        if not isinstance(self.name, str) or not signs.is_name(self.name) or self.name in signs.KEYS | signs.FLAGS:
            raise Cannot("a name that is no variant of the profile", f"`{self.name}`")
        values = self.given.get("values")
        if values is None or isinstance(values, (tuple, list)) and set(map(str, values)) == {"True", "False"}:
            choice = self.read_bool()
        elif isinstance(values, DisjointSets):
            choice = self.read_sets(values)
        elif isinstance(values, FreeValues):
            choice = self.read_any("values that a function tests", values.why)
        elif isinstance(values, (tuple, list, str, int)):
            choice = self.read_list(flat(values))
        else:
            choice = self.read_any("values that are no list", "")
        return VariantRow(self.name, Row("variant", choice.arguments(), self.conditions, choice=choice), tuple(self.rules))

    def read_bool(self) -> Choice:
        """A truth value; without `values`, another default means any value at all."""
        default = str(self.given.get("default")).lower()
        if default not in ("true", "false"):
            return self.read_any("values that are any text", f"default `{self.given.get('default')}`")
        return Choice(self.name, (default,), sticky=self.is_sticky())

    def read_any(self, kind: str, why: str) -> Choice:
        """Any text: its default, and the values that the site names; `Cannot` where it names none."""
        default = self.given.get("default")
        wanted = [signs.as_value(each) for each in (default if isinstance(default, (tuple, list)) else [default])]
        if not self.site_values or default is None:
            raise Cannot(kind, why)
        allowed = list(dict.fromkeys(map(checked, [*wanted, *self.site_values])))
        self.allowed_of_any = tuple(allowed)
        return self.shape(allowed, default, self.given.get("multi") is True)

    def is_sticky(self) -> bool:
        """Whether Spack keeps the default where nobody names the variant."""
        return bool(self.given.get("sticky"))

    def read_list(self, values: list[Any]) -> Choice:
        """A list of values, some with a condition."""
        allowed: list[str] = []
        for value in values:
            when = value.when if isinstance(value, Conditional) else True
            if when is False or when is None and isinstance(value, Conditional):
                continue
            text = checked(value.value if isinstance(value, Conditional) else value)
            allowed.append(text)
            if when is not True:
                self.rules.append(self.rule("requires", self.condition_of(when), f"{self.name}={text}"))
        return self.shape(allowed, self.given.get("default"), self.given.get("multi") is True)

    def read_sets(self, values: DisjointSets) -> Choice:
        """Sets of which a node takes one: values of two of them conflict."""
        sets = [[checked(value) for value in each] for each in values.sets]
        pairs = (sum(map(len, sets)) ** 2 - sum(len(each) ** 2 for each in sets)) // 2
        if pairs > MOST_PAIRS:
            raise Cannot("a variant with too many values that exclude each other", f"more than {MOST_PAIRS} pairs")
        for place, each in enumerate(sets):
            for value in each:
                for other in [other for later in sets[place + 1 :] for other in later]:
                    pair = ",".join(sorted((value, other)))
                    self.rules.append(self.rule("conflicts", f"{self.name}={pair}", None))
        default = self.given.get("default")
        return self.shape([value for each in sets for value in each], values.default if default is None else default, True)

    def rule(self, directive: str, text: str, own: Optional[str]) -> Row:
        """A rule that holds where this definition does."""
        own_text = own and self.condition_of(own)
        blocks = self.conditions.with_own_as_block() if own_text else self.conditions.blocks
        return Row(directive, (quoted(text),), Conditions(blocks, own_text or self.conditions.own))

    def shape(self, allowed: list[str], default: Any, multi: bool) -> Choice:
        """A definition with these values."""
        wanted = list(default) if isinstance(default, (tuple, list)) else [default]
        if multi and isinstance(default, str):
            wanted = default.split(",")
        chosen = list(dict.fromkeys(signs.as_value(each).strip() for each in wanted))
        allowed = list(dict.fromkeys(allowed))
        if default is None or not chosen or not set(chosen) <= set(allowed) or len(chosen) != 1 and not multi:
            raise Cannot("a default that is none of the values", f"`{default}`")
        return Choice(self.name, tuple(chosen), tuple(allowed), multi, self.is_sticky())
