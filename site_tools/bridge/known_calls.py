"""The functions and methods that a recipe's expressions may call, and how much they may cost.

All are without effects, and each refuses by `ValueError` what would be too long before it is made; `Steps` counts what
the reading of one file has cost. Nothing here looks at a recipe.
"""
import itertools
import re
from typing import Any, Callable, Iterable

from . import variant_values as values_of
from .rows import Cannot
from .versions import Version

LONGEST = 10_000  # entries of a list that a loop may run over, and signs of a number's width
LARGEST = 1_000_000  # entries and signs that a value may have in all
DEEPEST = 40  # lists within each other
MOST_STEPS = 1_000_000  # evaluations of one file, a long value counting as several


class TooMuch(Cannot):
    """A file that would take too long to read."""


class Steps:
    """Counts evaluations, and ends a file that has too many."""

    def __init__(self, most: int = MOST_STEPS) -> None:
        self.left = self.most = most

    def begin(self) -> None:
        """Begins another file."""
        self.left = self.most

    def spend(self, count: int) -> None:
        """Counts some steps; `TooMuch` where there were too many."""
        self.left -= count
        if self.left < 0:
            raise TooMuch("a file that takes too many steps to read", f"more than {self.most}")


class Unordered(tuple):
    """A set: it may be looped over, sorted, counted and searched; what would show its order is refused."""


def weight(value: Any, forbidden: int = 0, depth: int = 0) -> int:
    """How many entries and signs a value has, what is shared counted each time; `ValueError` where it is too large."""
    if isinstance(value, str):
        return len(value)
    if not isinstance(value, (list, tuple, dict)):
        return 1
    if id(value) == forbidden or depth > DEEPEST:
        raise ValueError("a list within itself, or too deep")
    total = 1
    for each in value.items() if isinstance(value, dict) else value:
        total += weight(each, forbidden, depth + 1) if isinstance(each, (list, tuple, dict)) else len(each) if isinstance(each, str) else 1
        if total > LARGEST:
            raise ValueError("a value that is too large")
    return total


def short_range(*ends: int) -> list[int]:
    """`range`, refused where it is long."""
    found = range(*ends)
    if len(found) > LONGEST:
        raise ValueError("a range that is too long")
    return list(found)


def shortened(found: Iterable[Any], each: int) -> list[Any]:
    """The first entries of what may be many; refused where all together are too large."""
    most = LARGEST // max(each, 1)
    kept = list(itertools.islice(found, most + 1))
    if len(kept) > most:
        raise ValueError("too many combinations")
    return kept


def product(*lists: Any, repeat: int = 1) -> list[Any]:
    """`itertools.product`."""
    return shortened(itertools.product(*lists, repeat=small(repeat)), max(len(lists), 1) * repeat)


def permutations(given: Any, length: Any = None) -> list[Any]:
    """`itertools.permutations`."""
    return shortened(itertools.permutations(given, None if length is None else small(length)), len(given))


def combinations(given: Any, length: int) -> list[Any]:
    """`itertools.combinations`."""
    return shortened(itertools.combinations(given, small(length)), length)


def with_replacement(given: Any, length: int) -> list[Any]:
    """`itertools.combinations_with_replacement`."""
    return shortened(itertools.combinations_with_replacement(given, small(length)), length)


def small(number: int) -> int:
    """A number that is used as a count of lists."""
    if not 0 <= number <= 100:
        raise ValueError("a count that is too large")
    return number


def plain_text(value: Any = "") -> str:
    """`str`, of what has a short text."""
    return str(value) if weight(value) else ""


def number(text: Any = 0, base: Any = None) -> int:
    """`int`, of a text or a number."""
    return int(text) if base is None else int(text, base)


FUNCTIONS: dict[str, Callable[..., Any]] = {
    "str": plain_text, "int": number, "len": len, "list": list, "tuple": tuple, "dict": dict, "sorted": sorted,
    "set": lambda given=(): Unordered(dict.fromkeys(given)), "frozenset": lambda given=(): Unordered(dict.fromkeys(given)),
    "zip": lambda *lists: list(zip(*lists)), "enumerate": lambda *given, **start: list(enumerate(*given, **start)),
    "reversed": lambda given: list(reversed(given)), "min": min, "max": max, "any": any, "all": all, "bool": bool,
    "sum": sum, "abs": abs, "range": short_range, "product": product, "permutations": permutations, "combinations": combinations,
    "combinations_with_replacement": with_replacement, "chain": lambda *lists: list(itertools.chain(*lists)),
    "from_iterable": lambda lists: list(itertools.chain(*lists)), "zip_longest": lambda *lists, fillvalue=None: list(
        itertools.zip_longest(*lists, fillvalue=fillvalue)), "islice": lambda given, *ends: list(itertools.islice(given, *ends)),
    "Version": Version, "ver": Version, "conditional": values_of.conditional, "any_combination_of": values_of.any_combination_of,
    "auto_or_any_combination_of": values_of.auto_or_any_combination_of, "disjoint_sets": values_of.disjoint_sets,
}
MODULES = frozenset({"spack", "spack_repo", "itertools", "llnl"})  # what may stand in front of a function's name
ORDERLESS = frozenset("set frozenset sorted len min max any all bool sum".split())
# What a function may be called by alone: the others stand behind the name of their module, or are imported from it.
METHODS: dict[type, frozenset[str]] = {
    str: frozenset("format join split rsplit replace lower upper title capitalize strip lstrip rstrip startswith endswith "
                   "partition rpartition isdigit isalpha count find index removeprefix removesuffix zfill".split()),
    dict: frozenset("items keys values get".split()),
    list: frozenset({"index", "count", "copy"}),
    tuple: frozenset({"index", "count"}),
    Version: frozenset({"up_to"}),
    values_of.DisjointSets: frozenset(
        "with_default with_error with_non_feature_values allow_empty_set prohibit_empty_set".split()
    ),
}
# Methods that change a list, a dictionary or a set in place, where one stands as a statement.
CHANGES: dict[type, frozenset[str]] = {
    list: frozenset("append extend insert remove sort reverse".split()),
    dict: frozenset({"update", "setdefault"}),
}


def check_call(owner: Any, name: str, positional: list[Any], words: dict[str, Any]) -> None:
    """Refuses a method of a text whose result would be too long."""
    if not isinstance(owner, str):
        return
    if name == "format":
        check_template(owner)
        for each in [*positional, *words.values()]:
            weight(each)
    length = 0
    if name == "join":
        length = sum(len(each) + len(owner) for each in positional[0])
    if name == "replace":
        length = len(owner) + (owner.count(positional[0]) if positional[0] else len(owner) + 1) * len(positional[1])
    if name == "zfill":
        length = positional[0]
    if length > LARGEST:
        raise ValueError("a text that is too long")


def check_template(text: str) -> None:
    """Refuses a template with a width of more than four digits, or one that is computed."""
    if re.search(r"\{[^{}]*[:.][^{}]*\d{5}|%[^a-zA-Z%]*(?:\d{5}|\*)|\{[^{}]*:[^{}]*\{", text):
        raise ValueError("a width that is too large or computed")
