"""The values of variants that Spack builds by calls: `conditional`, `any_combination_of`, `disjoint_sets`.

Keeps what such a call says as data; what it means in the profile is said in `variants.py`.
"""
from dataclasses import dataclass, field
from typing import Any, Optional


@dataclass(frozen=True)
class Conditional:
    """A value that is allowed only where a condition holds."""

    value: Any
    when: Any


@dataclass(frozen=True)
class FreeValues:
    """Values that a function tests, with what stands there."""

    why: str


def conditional(*values: Any, when: Any) -> tuple[Conditional, ...]:
    """`conditional("a", "b", when="@2:")`: each value with the condition."""
    return tuple(Conditional(value, when) for value in values)


@dataclass
class DisjointSets:
    """Values in sets, of which a node takes some of one set alone."""

    sets: list[tuple[str, ...]]
    default: Optional[str] = None
    notes: list[str] = field(default_factory=list)

    def with_default(self, default: Any) -> "DisjointSets":
        """The same with another default."""
        return DisjointSets(self.sets, default if isinstance(default, str) else ",".join(map(str, default)))

    def with_error(self, _message: str) -> "DisjointSets":
        """The same: a message has no meaning for what is chosen."""
        return self

    def with_non_feature_values(self, *_values: str) -> "DisjointSets":
        """The same: it speaks of the build alone."""
        return self

    def allow_empty_set(self) -> "DisjointSets":
        """With one more set, of `none` alone."""
        if ("none",) in self.sets:
            return self
        return DisjointSets([("none",)] + self.sets, self.default or "none")

    def prohibit_empty_set(self) -> "DisjointSets":
        """Without the set of `none`."""
        return DisjointSets([each for each in self.sets if each != ("none",)], self.default)


def texts(values: Any) -> tuple[str, ...]:
    """Values as texts."""
    return tuple(map(str, values))


def disjoint_sets(*sets: Any) -> DisjointSets:
    """`disjoint_sets(("a",), ("b", "c"))`; as in Spack the empty set is allowed, as `none`."""
    return DisjointSets([texts(each) for each in sets]).allow_empty_set().with_default("none")


def any_combination_of(*values: Any) -> DisjointSets:
    """Some of the values, or `none`, which is the default."""
    return DisjointSets([("none",), texts(values)], "none")


def auto_or_any_combination_of(*values: Any) -> DisjointSets:
    """Some of the values, or `auto`, which is the default."""
    return DisjointSets([("auto",), texts(values)], "auto")
