"""The order of versions and the texts of sets of versions, as docs/formats/versions.md has them.

Compares and checks; never says which versions a package has.
"""
import functools
import re
from typing import Optional

from . import signs

SPECIAL = ("stable", "trunk", "head", "master", "main", "develop")
PRE = ("alpha", "beta", "rc")


class BadList(ValueError):
    """A text that is no set of versions, with the reason in words."""


def components(text: str) -> list[str]:
    """The pieces of a version: cut at `.`, `-`, `_` and between digits and letters."""
    return re.findall(r"[0-9]+|[A-Za-z]+", text)


def rank(piece: str) -> tuple:
    """Where a piece stands: the special words above numbers above other pieces."""
    if piece in SPECIAL:
        return (2, SPECIAL.index(piece), "")
    if piece.isdigit() and len(piece) <= 18:
        return (1, int(piece), "")
    return (0, 0, piece)


def key(text: str) -> tuple:
    """A key by which versions sort: release, pre-release, bytes."""
    pieces = components(text)
    pre = (len(PRE), 0)
    if len(pieces) >= 2 and pieces[-2] in PRE and pieces[-1].isdigit() and len(pieces[-1]) <= 18:
        pre = (PRE.index(pieces[-2]), int(pieces[-1]))
        pieces = pieces[:-2]
    return (tuple(rank(piece) for piece in pieces), pre, text)


def is_prefix(front: str, text: str) -> bool:
    """Whether the components of `front` are the first ones of `text`."""
    first, all_of = [list(map(rank, components(each))) for each in (front, text)]
    return all_of[: len(first)] == first


def item_contains(item: str, version: str) -> bool:
    """Whether one item of a set (`=1.2`, `1.2`, `1.2:1.4`) contains the version."""
    if item.startswith("="):
        return item[1:] == version
    if ":" not in item:
        return is_prefix(item, version)
    low, high = item.split(":")
    above = not low or key(low) <= key(version)
    return above and (not high or key(version) <= key(high) or is_prefix(high, version))


def contains(text: str, version: str) -> bool:
    """Whether a set of versions, given as its text, contains the version."""
    return any(item_contains(item, version) for item in text.split(","))


def read_list(text: str) -> str:
    """The text of a set of versions, checked; `BadList` where it is none."""
    version = signs.VERSION
    for item in text.split(","):
        if re.fullmatch(rf"={version}|{version}|(?:{version})?:(?:{version})?", item) is None:
            raise BadList(f"`{item}` is no version and no range")
        low, colon, high = item.partition(":")
        if colon and low and high and key(low) > key(high) and not is_prefix(high, low):
            raise BadList(f"the range `{item}` holds no version")
    return text


def single(text: Optional[str]) -> Optional[str]:
    """The version that a set of one item `w` or `=w` names, else None."""
    if text is None or "," in text or ":" in text:
        return None
    return text.removeprefix("=")


@functools.total_ordering
class Version:
    """A version in a recipe's expressions: it compares as versions do, and shows as its text."""

    def __init__(self, text: object) -> None:
        self.text = str(text)
        if not signs.is_version(self.text):
            raise ValueError(f"{self.text} is no version")

    def __str__(self) -> str:
        return self.text

    def __eq__(self, other: object) -> bool:
        return isinstance(other, Version) and key(self.text) == key(other.text)

    def __lt__(self, other: "Version") -> bool:
        if set(PRE) & set(components(self.text) + components(other.text)):
            raise ValueError("Spack's releases order alpha, beta and rc differently")
        return key(self.text) < key(other.text)

    def __hash__(self) -> int:
        return hash(self.text)

    def up_to(self, count: int) -> "Version":
        """The front of that many components, with the signs between them."""
        ends = [found.end() for found in re.finditer(r"[0-9]+|[A-Za-z]+", self.text)]
        if not 0 < count <= len(ends):
            raise ValueError("not that many components")
        return Version(self.text[: ends[count - 1]])
