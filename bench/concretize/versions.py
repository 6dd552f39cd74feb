"""What sets of versions contain, which overlap, and what versions weigh: by the keys of the second reading of versions."""
import functools
import os
import sys

sys.path.insert(0, os.path.dirname(os.path.dirname(os.path.abspath(__file__))))
import spec_fronts  # noqa: E402
from spec_fronts import SPECIAL  # noqa: E402

order_key = functools.lru_cache(None)(spec_fronts.order_key)
is_prefix = functools.lru_cache(None)(spec_fronts.is_prefix)


def is_special(version):
    return any(rank == 2 for rank, _, _ in spec_fronts.components(version))


def ends(item):
    """The ends of a range, `` where one is not written; `w` and `=w` count as `w:w`."""
    low, colon, high = item.lstrip("=").partition(":")
    return (low, high) if colon else (low, low)


def is_under(version, high):
    return order_key(version) <= order_key(high) or is_prefix(high, version)


def item_contains(item, version):
    if item[0] == "=":
        return item[1:] == version
    if ":" not in item:
        return is_prefix(item, version)
    low, high = ends(item)
    return (low == "" or order_key(low) <= order_key(version)) and (high == "" or is_under(version, high))


def contains(items, version):
    """Whether a set contains a version; one that is not written contains each."""
    return items is None or any(item_contains(item, version) for item in items)


def items_overlap(one, other):
    if one[0] == "=":
        return item_contains(other, one[1:])
    if other[0] == "=":
        return item_contains(one, other[1:])
    (low, high), (lower, higher) = ends(one), ends(other)
    return (low == "" or higher == "" or is_under(low, higher)) and (lower == "" or high == "" or is_under(lower, high))


def overlap(one, other):
    """Whether two sets overlap; one that is not written overlaps each."""
    return one is None or other is None or any(items_overlap(a, b) for a in one for b in other)


def weights(rows, preferred):
    """For each declared version its place in the sort. `preferred` are the settings' sets, and rows are (text, preferred, deprecated)."""

    def rank(row):
        place = next((i for i, items in enumerate(preferred) if contains(items, row[0])), len(preferred))
        return place, not row[1], row[2], is_special(row[0])

    newest_first = sorted(rows, key=lambda row: order_key(row[0]), reverse=True)
    return {row[0]: place for place, row in enumerate(sorted(newest_first, key=rank))}
