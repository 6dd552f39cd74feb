"""The lines of refusals as data: what each is about, its name, and its fields (docs/formats/texts.md).

Reads what the program says on standard error; whatever stands around such a line in a log is passed over.
"""
import re
from dataclasses import dataclass, field
from typing import Iterator, Optional

STATUS = {"usage": 2, "bad input": 4, "read fault": 5, "write fault": 6, "too large": 7, "refused": 8, "no memory": 9}
ANSWERS = {2: "Usage", 4: "BadInput", 5: "ReadFault", 6: "WriteFault", 7: "TooLarge", 8: "Refused", 9: "NoMemory"}
LINE = re.compile(r"(usage|bad input|read fault|write fault|too large|refused): (.*)|(no memory)$", re.S)
POINTERS = ("UnknownKey", "WrongKind", "Empty", "TwiceNamed", "BadExternal")
INNER = re.compile(r"Spec (.*) (Expected|BadVersion|TwiceSet|Unsupported) ([0-9]+)(?: ([A-Za-z]+))?", re.S)
ROOT = re.compile(r"root ([0-9]{1,6}): ")
ABOUT = re.compile(r"(settings|database|specs|lock|names|certificate|recipe [A-Za-z0-9_-]+): (.*)", re.S)


@dataclass(frozen=True)
class Fault:
    """A refusal: its status, the whole line, what it is about (a file, or empty), of a recipe the package, its words, and of a
    file of one root of many the root's number."""

    status: int
    line: str
    about: str
    package: str = ""
    words: list[str] = field(default_factory=list)
    root: Optional[int] = None

    def name(self) -> str:
        """The name of the fault, as `Unsupported`."""
        return self.words[0] if self.words else ""

    def number(self, place: int) -> Optional[int]:
        """A field that is a number."""
        word = self.words[place] if place < len(self.words) else ""
        return int(word) if re.fullmatch(r"[0-9]{1,19}", word) else None

    def rest(self, place: int) -> str:
        """The fields from a place on, as they stand in the line."""
        return " ".join(self.words[place:])

    def fields(self) -> list[str]:
        """The fields behind the name. A pointer is one, whatever blanks the keys have that it is made of."""
        if self.about not in ("settings", "database", "lock"):
            return self.words[1:]
        inner = INNER.fullmatch(self.rest(0))
        if inner:
            return [each for each in inner.groups() if each is not None]
        return [self.rest(1)] if self.name() in POINTERS and self.words[1:] else self.words[1:]


def read(line: str) -> Optional[Fault]:
    """The refusal that a line says; None where it says none."""
    found = LINE.match(line.removesuffix("\n"))
    if found is None:
        return None
    front = found[1] or found[3]
    status, rest = STATUS[front], found[2] or ""
    if front == "bad input":
        about = ABOUT.match(rest)
        if about:
            first, _, package = about[1].partition(" ")
            return Fault(status, line, first, package, about[2].split(" "))
        return Fault(status, line, "missing", "", [rest.removeprefix("missing ")])
    if front == "refused":
        one = ROOT.match(rest)
        first, _, behind = rest[one.end() if one else 0 :].partition(" ")
        return Fault(status, line, first, "", behind.split(" "), int(one[1]) if one else None)
    if front == "too large":
        first, _, behind = rest.partition(" ")
        return Fault(status, line, "large", behind, [rest])
    return Fault(status, line, front.split()[0], "", [rest])


def read_log(text: str) -> Iterator[Fault]:
    """The refusals in a log, in order; what other programs put before a line on it is passed over."""
    usage = "usage: spack_concretize .*|usage: .+ and .+ are one file"
    pattern = re.compile(rf"({usage}|(?:bad input|read fault|write fault|too large|refused): .*|no memory)$", re.M)
    for found in pattern.finditer(text):
        fault = read(found.group())
        if fault:
            yield fault
