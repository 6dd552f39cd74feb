"""Texts of others as they can be shown: control bytes escaped, long ones cut; and a place in a text with its line.

Shows; changes nothing of what the texts mean.
"""
from dataclasses import dataclass

LONGEST = 200
AROUND = 60


def shown(text: str, longest: int = LONGEST) -> str:
    """A text on one line: what a terminal would act on as `\\u001b`, and cut where it is long."""
    cut = text if len(text) <= longest else text[:longest] + "..."
    return "".join(sign if sign.isprintable() else f"\\u{ord(sign):04x}" for sign in cut)


@dataclass(frozen=True)
class Place:
    """A place in a file: its line and column from 1, where a column is a sign and no byte, and the text of the line."""

    file: str
    line: int
    column: int
    text: str

    def head(self) -> str:
        """`FILE:LINE:COLUMN`, as compilers say it."""
        return f"{shown(self.file)}:{self.line}:{self.column}"

    def lines(self) -> list[str]:
        """The place, the text of the line around it, and a sign below the column."""
        start = max(0, self.column - 1 - AROUND)
        front, rest = self.text[start : self.column - 1], self.text[self.column - 1 : self.column - 1 + 2 * AROUND]
        front, rest = shown(front.replace("\t", " ")), shown(rest.replace("\t", " "))
        mark = "..." if start else ""
        return [f"{self.head()}:", f"    {mark}{front}{rest}", "    " + " " * (len(mark) + len(front)) + "^"]


def place_at(file: str, data: bytes, offset: int) -> Place:
    """The place of a byte in a file, where the file has it; else its end."""
    offset = min(offset, len(data))
    start = data.rfind(b"\n", 0, offset) + 1
    end = data.find(b"\n", offset)
    text = data[start : len(data) if end < 0 else end]
    column = len(data[start:offset].decode("utf-8", "replace")) + 1
    return Place(file, data.count(b"\n", 0, offset) + 1, column, text.decode("utf-8", "replace").rstrip("\r"))
