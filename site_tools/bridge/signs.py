"""The signs of the profile: which texts are names, versions and values.

Says whether a text has a form; never changes a text but for `True` and `False` among values.
"""
import re

NAME = r"[A-Za-z0-9_][A-Za-z0-9_-]*"
VERSION = r"[A-Za-z0-9_][A-Za-z0-9_.-]*"
VALUE = r"[A-Za-z0-9_\-+.:/]+"

FLAGS = frozenset({"cflags", "cxxflags", "fflags", "cppflags", "ldflags", "ldlibs"})
KEYS = frozenset({"platform", "os", "target", "arch"})


def is_name(text: str) -> bool:
    """Whether the text is a NAME: letters, digits, `_`, `-`, not beginning with `-`."""
    return re.fullmatch(NAME, text) is not None


def is_version(text: str) -> bool:
    """Whether the text is a VERSION."""
    return re.fullmatch(VERSION, text) is not None


def is_value(text: str) -> bool:
    """Whether the text is a VALUE."""
    return re.fullmatch(VALUE, text) is not None


def as_value(value: object) -> str:
    """A value as the program reads it: `True` and `False` are `true` and `false`."""
    text = str(value)
    return text.lower() if text in ("True", "False") else text
