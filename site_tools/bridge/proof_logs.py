"""Logs of docs/formats/proof_log.md: their lines as they are written, and leaving out the lines that nothing rests on."""
import re
from dataclasses import dataclass, field
from typing import Iterator

NUMBER, ID = rb"(?:0|[1-9][0-9]{0,19})", rb"[1-9][0-9]{0,19}"
HEAD = re.compile(rb"p 1 (N) (N) (N)".replace(b"N", NUMBER))
# Each kind of line; its id, and the ids of its chain.
LINE = re.compile(
    rb"l (?P<l>N) (?:-?I )*0 (?P<of_l>(?:I )+)0|o (?P<o>N) N (?P<of_o>(?:I )+)0|z (?P<z>N) N|u (?P<of_u>(?:I )+)0|[se]"
    .replace(b"N", NUMBER).replace(b"I", ID)
)


class NoLog(ValueError):
    """A text that is no log."""


@dataclass
class Line:
    """A line behind the first: its kind, and what a line of this kind has."""

    kind: str
    id: int = 0
    literals: list[int] = field(default_factory=list)
    bit: int = 0
    chain: list[int] = field(default_factory=list)

    def text(self) -> str:
        """The line as it is written."""
        words: list[object] = [self.kind]
        if self.kind in "lzo":
            words.append(self.id)
        if self.kind == "l":
            words += [*self.literals, 0]
        if self.kind in "zo":
            words.append(self.bit)
        if self.kind in "lou":
            words += [*self.chain, 0]
        return " ".join(map(str, words)) + "\n"


@dataclass
class Log:
    """A log: the numbers of variables, clauses and bits, and the lines."""

    counts: tuple[int, int, int]
    lines: list[Line]

    def text(self) -> str:
        """The whole text."""
        return "p 1 {} {} {}\n".format(*self.counts) + "".join(line.text() for line in self.lines)


@dataclass
class Kept:
    """What is left of a log, how many of its learnt clauses these are, and how many ids stand in its chains."""

    text: bytes
    learnt: int
    of_learnt: int
    ids: int


def parts_of(line: bytes, number: int) -> tuple[int, list[int]]:
    """The id of a line, or 0, and its chain; `NoLog` where it is no line."""
    found = LINE.fullmatch(line)
    if found is None:
        raise NoLog(f"line {number} is no line of a log")
    chain = found["of_l"] or found["of_o"] or found["of_u"] or b""
    return int(found["l"] or found["o"] or found["z"] or 0), list(map(int, chain.split()))


def read(data: bytes) -> tuple[int, list[bytes], list[int]]:
    """How many clauses there are, the lines behind the first, and for each clause that these state the place of its line.

    `NoLog` with the number of the first line that is wrong: ids have to go on without a gap, and to be known where chains name them."""
    head, *lines = data.split(b"\n")
    found = HEAD.fullmatch(head)
    if not found or not lines or lines.pop() != b"":
        raise NoLog("the last line has no end" if found else "line 1 is no `p` line")
    first, stated = int(found[2]), []
    for place, line in enumerate(lines):
        number, chain = parts_of(line, place + 2)
        known = first + len(stated)
        if chain and max(chain) > known:
            raise NoLog(f"line {place + 2} has an id that is not known before it")
        if line[0] in b"lzo":
            if number != known + 1:
                raise NoLog(f"line {place + 2} has the id {number}, and {known + 1} is next")
            stated.append(place)
    return first, lines, stated


def needed_of(first: int, lines: list[bytes], stated: list[int]) -> bytearray:
    """For each line whether an `o` or `u` rests on it, or it is none that may be left out: the last lines first."""
    needed = bytearray(line[0] not in b"l" for line in lines)
    for place in range(len(lines) - 1, -1, -1):
        if needed[place]:
            for each in parts_of(lines[place], place + 2)[1]:
                if each > first:
                    needed[stated[each - first - 1]] = 1
    return needed


def anew(first: int, lines: list[bytes], needed: bytearray) -> Iterator[tuple[bytes, int]]:
    """The lines that are kept, with ids that go on without a gap, and how many ids are in the chain of each."""
    numbers: list[int] = []  # the new id of each stated clause
    next_id = first + 1
    for place, line in enumerate(lines):
        if needed[place]:
            number, chain = parts_of(line, place + 2)
            words = [str(each if each <= first else numbers[each - first - 1]).encode() for each in chain]
            front = line[:len(line) - sum(len(str(each)) + 1 for each in chain) - 1] if chain else line
            if number:
                kind, _, rest = front.split(b" ", 2)
                front = b"%c %d %s" % (kind[0], next_id, rest)
            yield (b"%s%s 0" % (front, b" ".join(words)) if chain else front) + b"\n", len(chain)
        if line[0] in b"lzo":
            numbers.append(next_id)
            next_id += needed[place]


def trimmed(data: bytes) -> Kept:
    """A log without the learnt lines that no line `o` or `u` rests on. A spent log stays: each of its lines counts."""
    first, lines, stated = read(data)
    is_spent = any(line == b"s" for line in lines)
    needed = bytearray(b"\1") * len(lines) if is_spent else needed_of(first, lines, stated)
    learnt = [needed[place] for place in stated if lines[place][0] in b"l"]
    texts, ids = [data[:data.index(b"\n") + 1]], 0
    for text, count in anew(first, lines, needed):
        texts.append(text)
        ids += count
    return Kept(b"".join(texts), sum(learnt), len(learnt), ids)
