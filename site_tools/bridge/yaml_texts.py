"""YAML files as texts, lists and maps with lines.

Needs python3-yaml, for its parser alone: a scalar stays the text that is written, so `1.10` does not become 1.1. Where
YAML itself would read another number than is written, the reader of the value is told. What an alias stands for counts
each time; a file that is too large, too deep or an alias within itself is refused.
"""
from pathlib import Path
from typing import Any, Iterator, Optional, Union

MOST_BYTES = 4 * 1024 * 1024
MOST_VALUES = 200_000  # with what aliases stand for
DEEPEST = 60


class NoYaml(RuntimeError):
    """python3-yaml is not installed."""


class Text(str):
    """A scalar with its line and whether it stood without quotes."""

    line: int
    plain: bool

    def is_changed_number(self) -> bool:
        """Whether YAML reads this text, as it stands, as a number that is written otherwise: 1.10, 007, 1_0."""
        if not self.plain:
            return False
        for read in (int, float):
            try:
                return str(read(self)) != str(self)
            except ValueError:
                continue
        return False


class Map(dict):
    """A map with its line; a key that Spack writes with a second colon (`all::`) stands without it."""

    line: int


Value = Union[Text, Map, list]


class Builder:
    """Makes values of the parser's events, without recursion."""

    def __init__(self) -> None:
        self.open: list[tuple[Any, list[Any], Optional[str], int]] = []  # the value, its key where it is a map, anchor, count before
        self.anchors: dict[str, tuple[Any, int]] = {}
        self.count = 0
        self.root: Any = None
        self.has_root = False

    def add(self, value: Any, anchor: Optional[str], count: int) -> None:
        """Adds a whole value to the one that is open."""
        self.count += count
        if self.count > MOST_VALUES:
            raise ValueError(f"more than {MOST_VALUES} values, with what aliases stand for")
        if anchor is not None:
            self.anchors[anchor] = (value, count)
        if not self.open:
            self.root, self.has_root = (self.root, True) if self.has_root else (value, True)
            return
        owner, key, _, _ = self.open[-1]
        if isinstance(owner, list):
            owner.append(value)
        elif not key:
            key.append(value)
        else:
            name = Text(str(key[0]).rstrip(":") if isinstance(key[0], Text) else "")
            name.line, name.plain = getattr(key[0], "line", 0), True
            owner[name] = value
            key.clear()

    def begin(self, value: Any, anchor: Optional[str]) -> None:
        """Opens a list or a map."""
        if len(self.open) >= DEEPEST:
            raise ValueError(f"lists and maps nest deeper than {DEEPEST}")
        self.open.append((value, [], anchor, self.count))

    def end(self) -> None:
        """Closes the list or map that is open."""
        value, _, anchor, before = self.open.pop()
        inner = self.count - before
        self.count = before
        self.add(value, anchor, inner + 1)

    def alias(self, anchor: str) -> None:
        """Adds what an alias stands for."""
        if anchor not in self.anchors:
            raise ValueError(f"an alias of what is not there, or within itself: `*{anchor[:40]}`")
        value, count = self.anchors[anchor]
        self.add(value, None, count)


def take(event: Any, kind: str, builder: Builder) -> None:
    """Takes one event of the parser."""
    if kind == "ScalarEvent":
        text = Text(event.value)
        text.line, text.plain = event.start_mark.line + 1, event.style is None or event.style == ""
        builder.add(text, event.anchor, 1)
    elif kind == "SequenceStartEvent":
        builder.begin([], event.anchor)
    elif kind == "MappingStartEvent":
        value = Map()
        value.line = event.start_mark.line + 1
        builder.begin(value, event.anchor)
    elif kind in ("SequenceEndEvent", "MappingEndEvent"):
        builder.end()
    elif kind == "AliasEvent":
        builder.alias(event.anchor)


def read(text: str) -> Value:
    """A file of YAML."""
    try:
        import yaml
    except ImportError as fault:
        raise NoYaml("python3-yaml is not installed (apt install python3-yaml)") from fault
    if len(text) > MOST_BYTES:
        raise ValueError(f"more than {MOST_BYTES} signs")
    builder = Builder()
    try:
        for event in yaml.parse(text, Loader=getattr(yaml, "CSafeLoader", yaml.SafeLoader)):
            take(event, type(event).__name__, builder)
    except yaml.YAMLError as fault:
        mark = getattr(fault, "problem_mark", None)
        raise ValueError(f"no YAML: line {mark.line + 1 if mark else 1}") from fault
    return builder.root if builder.has_root else Map()


def read_file(path: Path) -> Value:
    """The same of a file; `ValueError` where it is no regular file in UTF-8."""
    if path.exists() and not path.is_file():
        raise ValueError("no regular file")
    if path.stat().st_size > MOST_BYTES:
        raise ValueError(f"more than {MOST_BYTES} bytes")
    return read(path.read_text("utf-8"))


def line_of(value: Any) -> int:
    """The line where a value begins; 0 where it is empty."""
    for _ in range(DEEPEST):
        if not isinstance(value, list):
            return getattr(value, "line", 0)
        if not value:
            return 0
        value = value[0]
    return 0


def texts(value: Any) -> Iterator[Text]:
    """A text, or the texts of a list."""
    for each in value if isinstance(value, list) else [value]:
        if isinstance(each, Text):
            yield each
