"""The 31 numbers of a cost vector in words, as docs/RULES.md has them."""
import textwrap
from typing import Callable, Optional

WORDS = (
    "deprecated versions", "places that roots' versions stand behind the preferred ones",
    "values of roots' variants that are no default", "places that roots stand behind as providers",
    "default values of roots' variants that are not used", "values of others' variants that are no default",
    "places that others stand behind as providers", "edges between two compilers", "edges between two operating systems",
    "places that operating systems stand behind", "places that others' versions stand behind the preferred ones",
    "default values of others' variants that are not used", "places that compilers stand behind",
    "edges between two targets", "places that targets stand behind",
)


class NoVector(ValueError):
    """A text without a line of 31 numbers."""


def read(text: str) -> list[int]:
    """The numbers of the last line `vector ..` in a text."""
    lines = [line.split()[1:] for line in text.splitlines() if line.startswith("vector ")]
    if not lines or len(lines[-1]) != 31 or not all(word.isdigit() for word in lines[-1]):
        raise NoVector("there is no line `vector` with 31 numbers")
    return [int(word) for word in lines[-1]]


def names() -> list[str]:
    """The words of all numbers, in order."""
    return [f"to build: {words}" for words in WORDS] + ["packages to build"] + [f"not to build: {words}" for words in WORDS]


def lines(vector: list[int], reason_of: Callable[[int, int], Optional[str]], everything: bool = False) -> list[str]:
    """The numbers in words with their reasons, the heaviest first; those that are 0 only where all are asked for."""
    found = []
    for place, (number, name) in enumerate(zip(vector, names()), start=1):
        if number or everything:
            found.append(f"{place:4}. {number:6}  {name}")
        reason = reason_of(place, number) if number else None
        indent = " " * 14
        found += textwrap.wrap(reason or "", 110, initial_indent=indent, subsequent_indent=indent, break_on_hyphens=False)
    return found
