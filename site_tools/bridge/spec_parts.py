"""Specs of the profile as data: which parts a text has, and what each asks for.

Reads texts that the program reads (docs/formats/specs.md); of any other text it says nothing, and gives no part.
"""
import re
from dataclasses import dataclass, field
from typing import Iterator, Optional

from . import signs

LIST = r"[A-Za-z0-9_.\-=:]+(?:,[A-Za-z0-9_.\-=:]+)*"
ITEM = re.compile(
    rf"""(?P<below>\^\s*(?P<below_name>{signs.NAME}))|@(?P<versions>{LIST})|(?P<sign>[+~-])(?P<flag>{signs.NAME})
    |%(?P<compiler>{signs.NAME})(?:@(?P<compiler_versions>{LIST}))?
    |(?P<key>{signs.NAME})=(?P<values>[A-Za-z0-9_\-+.:/]*(?:,[A-Za-z0-9_\-+.:/]*)*)|(?P<name>{signs.NAME})""",
    re.X,
)


@dataclass
class Part:
    """What a text asks of one package; what is not asked is empty."""

    name: str = ""
    versions: str = ""
    variants: dict[str, tuple[str, ...]] = field(default_factory=dict)
    compiler: Optional[tuple[str, str]] = None
    platform: str = ""
    os: str = ""
    targets: tuple[str, ...] = ()

    def constraints(self) -> Iterator[tuple[str, str]]:
        """What is asked for, each with its kind and as a text that can stand behind the name."""
        if self.versions:
            yield "version", f"@{self.versions}"
        for name, values in sorted(self.variants.items()):
            flags = {("true",): f" +{name}", ("false",): f" ~{name}"}
            yield "variant", flags.get(values, f" {name}={','.join(values)}")
        if self.compiler:
            yield "compiler", " %" + self.compiler[0] + (f"@{self.compiler[1]}" if self.compiler[1] else "")
        if self.platform:
            yield "platform", f" platform={self.platform}"
        if self.os:
            yield "os", f" os={self.os}"
        if self.targets:
            yield "target", f" target={','.join(self.targets)}"


def set_pair(part: Part, key: str, values: str) -> None:
    """Sets `key=values` of a part."""
    if key == "platform":
        part.platform = values
    elif key == "os":
        part.os = values
    elif key == "target":
        part.targets = tuple(values.split(","))
    elif key == "arch" and values.count("-") == 2:
        part.platform, part.os, target = values.split("-")
        part.targets = (target,)
    else:
        part.variants[key] = tuple(sorted({signs.as_value(value) for value in values.split(",")}))


def parts(text: str) -> list[list[Part]]:
    """The specs of a text, each as its own part and those behind `^`; a text without a name in front begins with an empty part."""
    specs: list[list[Part]] = [[Part()]]
    place = 0
    while True:
        while place < len(text) and text[place].isspace():
            place += 1
        found = ITEM.match(text, place)
        if found is None:
            return [spec for spec in specs if spec != [Part()]]
        place = found.end()
        part = specs[-1][-1]
        if found["below"]:
            specs[-1].append(Part(found["below_name"]))
        elif found["versions"]:
            part.versions = found["versions"].rstrip(",")
        elif found["sign"]:
            part.variants[found["flag"]] = ("true",) if found["sign"] == "+" else ("false",)
        elif found["compiler"]:
            part.compiler = (found["compiler"], found["compiler_versions"] or "")
        elif found["key"]:
            set_pair(part, found["key"], found["values"])
        elif specs == [[Part()]]:
            part.name = found["name"]
        else:
            specs.append([Part(found["name"])])


def text_of(spec: list[Part]) -> str:
    """A spec as a text."""
    return " ^".join(part.name + "".join(text for _, text in part.constraints()) for part in spec)
