"""The rules of docs/formats/proof_log.md, line by line, for each kind of log; the lines are read here, apart from what writes logs."""
import re
from dataclasses import dataclass, field
from typing import Optional

from .dimacs import Problem
from .resolution import Clauses

NUMBER = re.compile(r"-?[1-9][0-9]{0,19}|0")
Chain = list[int]


class Wrong(ValueError):
    """The first line that is wrong, by its number, and the rule that it breaks."""


@dataclass
class Found:
    """What a right log shows: its last line (`e`, `u` or `s`), what it is over, the bits that it settles, how many clauses it learns."""

    end: str
    is_of_rules: bool
    values: list[bool] = field(default_factory=list)
    learnt: int = 0


def numbers_of(words: list[str]) -> list[int]:
    """Numbers as a log spells them: decimal, without leading zeros, below 2^64."""
    numbers = [int(word) for word in words if NUMBER.fullmatch(word)]
    if len(numbers) < len(words) or any(abs(number) >= 1 << 64 for number in numbers):
        raise ValueError("BadLine")
    return numbers


def chain_of(numbers: list[int]) -> Chain:
    """A chain: at least one id, and a 0 behind it."""
    if len(numbers) < 2 or numbers[-1] != 0 or min(numbers[:-1]) < 1:
        raise ValueError("BadLine")
    return numbers[:-1]


def literals_of(numbers: list[int]) -> tuple[list[int], list[int]]:
    """Literals in rising order of variables up to a 0, and what stands behind it."""
    if 0 not in numbers:
        raise ValueError("BadLine")
    place = numbers.index(0)
    found = numbers[:place]
    if any(abs(one) >= abs(other) for one, other in zip(found, found[1:])):
        raise ValueError("BadLine")
    return found, numbers[place + 1:]


@dataclass
class Line:
    """A line of a log: its kind, and what stands in it."""

    kind: str
    id: int = 0
    literals: list[int] = field(default_factory=list)
    bit: int = 0
    chain: Optional[Chain] = None


def line_of(text: str) -> Line:
    """The line that a text spells."""
    kind, *words = text.split(" ")
    numbers = numbers_of(words)
    if kind in ("e", "s") and not numbers:
        return Line(kind)
    if kind == "p" and len(numbers) == 4 and numbers[0] == 1 and min(numbers) >= 0:
        return Line(kind)
    if kind == "u":
        return Line(kind, chain=chain_of(numbers))
    if kind == "l" and numbers and numbers[0] >= 0:
        literals, behind = literals_of(numbers[1:])
        return Line(kind, numbers[0], literals, chain=chain_of(behind))
    if kind == "z" and len(numbers) == 2 and min(numbers) >= 0:
        return Line(kind, numbers[0], bit=numbers[1])
    if kind == "o" and len(numbers) > 2 and min(numbers) >= 0:
        return Line(kind, numbers[0], bit=numbers[1], chain=chain_of(numbers[2:]))
    raise ValueError("BadLine")


class Usefulness:
    """The clauses that are known, propagated, to tell whether a clause is useful."""

    def __init__(self, variables: int) -> None:
        self.variables, self.clauses = variables, Clauses(variables)
        self.is_false = False

    def know(self, clause: frozenset[int]) -> None:
        """Makes a clause known."""
        slot = self.clauses.attach(self.clauses.add(clause))
        self.is_false = self.is_false or slot is not None or self.clauses.propagate() is not None

    def is_useful(self, clause: frozenset[int]) -> bool:
        """Whether for some literal propagation from the negations of the others gives nothing of it, and no false clause."""
        return not self.is_false and any(self.is_open(literal, clause) for literal in clause)

    def is_open(self, literal: int, clause: frozenset[int]) -> bool:
        """Whether it is this literal."""
        length = len(self.clauses.trail)
        false = self.clauses.assume_none(clause - {literal})
        if false is None:
            false = self.clauses.propagate()
        is_open = false is None and self.clauses.value[literal] == 0
        self.clauses.undo(length)
        return is_open


class Rules:
    """A log that is being checked, over the clauses of a print of `encode_dimacs`."""

    def __init__(self, problem: Problem, text: str) -> None:
        self.head, *self.lines = text.split("\n")
        every = (problem.variables, len(problem.clauses), len(problem.bits()))
        self.is_of_all, self.is_of_rules = (self.head == "p 1 {} {} {}".format(*each) for each in (every, (*problem.rules, 0)))
        self.variables, count = every[:2] if self.is_of_all else problem.rules
        self.bits = problem.bits() if self.is_of_all else []
        self.known = dict(enumerate(map(frozenset, problem.clauses[:count]), 1))
        self.rivals = set(self.known.values())
        self.values: list[bool] = []
        self.learnt = 0
        self.last = ""
        self.usefulness: Optional[Usefulness] = None
        if self.lines[-2:] == ["s", ""]:
            self.usefulness = Usefulness(self.variables)
            for clause in self.known.values():
                self.usefulness.know(clause)

    def check(self) -> Found:
        """What the log shows; `Wrong` where a line breaks a rule."""
        number = 1
        try:
            self.begin()
            for number, line in enumerate(self.lines[:-1], 2):
                self.take(line_of(line))
            number = len(self.lines) + 1
            if self.lines[-1] != "":
                raise ValueError("BadLine")
            if self.last == "":
                raise ValueError("Unfinished")
        except ValueError as fault:
            raise Wrong(f"line {number} {fault}") from fault
        return Found(self.last, self.is_of_rules, self.values, self.learnt)

    def begin(self) -> None:
        """The first line."""
        if not self.lines:
            raise ValueError("BadLine" if self.head else "Unfinished")
        line_of(self.head)
        if not (self.is_of_all or self.is_of_rules):
            raise ValueError("WrongCounts")

    def take(self, line: Line) -> None:
        """A further line."""
        if self.last or line.kind == "p":
            raise ValueError("OutOfOrder")
        if line.kind == "l":
            self.learn(line.id, frozenset(line.literals), line.chain or [])
        elif line.kind in ("z", "o"):
            self.settle(line.id, line.bit, line.chain)
        else:
            self.end(line.kind)
            self.derive(line.chain or [], frozenset())

    def end(self, kind: str) -> None:
        """A last line: `e` where all bits are settled, `u` over the rules alone, `s` behind a learnt clause."""
        is_due = {"e": self.is_of_all and len(self.values) == len(self.bits), "u": self.is_of_rules, "s": self.learnt > 0}
        if not is_due[kind]:
            raise ValueError("OutOfOrder")
        self.last = kind

    def learn(self, number: int, clause: frozenset[int], chain: Chain) -> None:
        """A learnt clause."""
        self.next(number)
        self.derive(chain, clause)
        if clause in self.rivals:
            raise ValueError("NotNew")
        if self.usefulness and max(map(abs, clause), default=0) > self.variables:
            raise ValueError(f"has a variable above {self.variables}")
        if self.usefulness and not self.usefulness.is_useful(clause):
            raise ValueError("is not useful")
        self.rivals.add(clause)
        self.learnt += 1
        self.know(clause)

    def settle(self, number: int, bit: int, chain: Optional[Chain]) -> None:
        """The next bit: 0 without a chain, and 1 with one."""
        self.next(number)
        if bit != len(self.values) or bit >= len(self.bits):
            raise ValueError("OutOfOrder")
        clause = frozenset([-self.bits[bit] if chain is None else self.bits[bit]])
        if chain is not None:
            self.derive(chain, clause)
        self.values.append(chain is not None)
        self.know(clause)

    def next(self, number: int) -> None:
        """An id has to be the next one."""
        if number != len(self.known) + 1:
            raise ValueError("OutOfOrder")

    def know(self, clause: frozenset[int]) -> None:
        """Makes a clause known."""
        self.known[len(self.known) + 1] = clause
        if self.usefulness:
            self.usefulness.know(clause)

    def derive(self, chain: Chain, stated: frozenset[int]) -> None:
        """A chain, if there is one, has to derive a clause that is contained in what is stated."""
        if any(number not in self.known for number in chain):
            raise ValueError("UnknownId")
        left = set(self.known[chain[0]]) if chain else set()
        for number in chain[1:]:
            clause = self.known[number]
            pivots = [literal for literal in clause if -literal in left]
            if len(pivots) != 1:
                raise ValueError("TwoPivots" if pivots else "NoPivot")
            left |= clause
            left -= {pivots[0], -pivots[0]}
        if not left <= stated:
            raise ValueError("NotContained")
