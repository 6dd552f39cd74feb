"""What `encode_dimacs` prints, as data: clauses, the bits of the costs, and what the literals stand for; and a solver's model.

Reads by the comments alone (docs/ENCODING.md, "To look at them"); no number of a variable is taken as known.
"""
import re
from dataclasses import dataclass, field
from pathlib import Path

KINDS = ("build", "link", "run")
ATTRIBUTES = ("origin", "version", "compiler", "os", "target", "prefix")


class NoClauses(ValueError):
    """A file that is no print of `encode_dimacs`, or a model that is none of it."""


@dataclass
class Choices:
    """What a name may have: for each attribute and each variant its values with their literals."""

    node: int
    attributes: dict[str, list[tuple[str, int]]] = field(default_factory=lambda: {each: [] for each in ATTRIBUTES})
    variants: dict[str, list[tuple[str, int]]] = field(default_factory=dict)


@dataclass
class Problem:
    """A print: literals as in it, variables from 1."""

    variables: int = 0
    clauses: list[list[int]] = field(default_factory=list)
    rules: tuple[int, int] = (0, 0)  # how many variables and clauses are those of the rules
    numbers: list[tuple[str, int, list[int]]] = field(default_factory=list)  # spelling, greatest value, literals
    names: dict[str, Choices] = field(default_factory=dict)
    edges: dict[tuple[str, str], dict[str, int]] = field(default_factory=dict)  # (parent, child): kind: literal
    named: dict[tuple[str, str], list[tuple[str, int]]] = field(default_factory=dict)  # (parent, child): virtuals that the edge may name
    providers: dict[str, list[tuple[str, int]]] = field(default_factory=dict)
    roots: dict[int, str] = field(default_factory=dict)  # the canonical texts of the requested specs

    def bits(self) -> list[int]:
        """The literals of the bits: those of all numbers, one after the other."""
        return [literal for _, _, literals in self.numbers for literal in literals]

    def costs(self, values: list[bool]) -> list[int]:
        """The numbers that the bits spell."""
        found, place = [], 0
        for spelling, _, literals in self.numbers:
            part = values[place:place + len(literals)]
            place += len(literals)
            found.append(sum(part) if spelling == "unary" else int("".join("01"[bit] for bit in part) or "0", 2))
        return found


def read_comment(problem: Problem, words: str) -> None:
    """Takes what a comment says."""
    first, kind, rest = (words.split(" ", 2) + ["", ""])[:3]
    if first == "rules":
        problem.rules = (int(kind), int(rest))
    elif first == "number":
        spelling, top, *literals = rest.split()
        if int(kind) != len(problem.numbers) + 1 or literals.pop() != "0" or spelling not in ("unary", "binary"):
            raise ValueError("not the next number")
        problem.numbers.append((spelling, int(top), list(map(int, literals))))
    elif first == "clause":
        found = re.fullmatch(r"demand \d+ root (\d+) (.*)", rest)
        if found:
            problem.roots[int(found[1])] = found[2]
    elif kind == "node":
        problem.names[rest] = Choices(int(first))
    elif kind in ATTRIBUTES:
        name, value = rest.split(" ", 1)
        problem.names[name].attributes[kind].append((value, int(first)))
    elif kind == "variant":
        name, value = rest.split(" ", 1)
        variant, value = value.split("=", 1)
        problem.names[name].variants.setdefault(variant, []).append((value, int(first)))
    elif kind == "edge":
        parent, child, which = rest.split(" ")
        problem.edges.setdefault((parent, child), {})[which] = int(first)
    elif kind == "names":
        parent, child, virtual = rest.split(" ")
        problem.named.setdefault((parent, child), []).append((virtual, int(first)))
    elif kind == "provider":
        virtual, package = rest.split(" ")
        problem.providers.setdefault(virtual, []).append((package, int(first)))


def read(path: Path) -> Problem:
    """The print in a file; `NoClauses` where it is none."""
    problem, size = Problem(), -1
    number = 0
    try:
        for number, line in enumerate(path.read_text("utf-8").split("\n"), 1):
            if line.startswith("c "):
                read_comment(problem, line[2:])
            elif line.startswith("p cnf "):
                problem.variables, size = map(int, line.split()[2:])
            elif line:
                *literals, end = map(int, line.split())
                if end != 0 or any(not 0 < abs(literal) <= problem.variables for literal in literals):
                    raise ValueError("no clause")
                problem.clauses.append(literals)
    except (ValueError, KeyError) as fault:
        raise NoClauses(f"{path}:{number}: no line of encode_dimacs ({fault})") from fault
    if len(problem.clauses) != size or problem.rules == (0, 0) or problem.rules[1] > size:
        raise NoClauses(f"{path}: not the whole print of encode_dimacs: no `c rules`, or not as many clauses as `p cnf` says")
    if any(not 0 < abs(bit) <= problem.variables for bit in problem.bits()):
        raise NoClauses(f"{path}: a bit of `c number` is no literal")
    return problem


def read_model(text: str, problem: Problem) -> list[bool]:
    """The values of a model by variable (place 0 stands for none): `v` lines, or literals alone, as solvers write them."""
    lines = text.splitlines()
    shown = [line[1:] for line in lines if line.startswith("v")] or [
        line for line in lines if line and line[0] in "-0123456789"]
    values = [False] * (problem.variables + 1)
    try:
        for literal in (int(word) for line in shown for word in line.split()):
            if abs(literal) <= problem.variables:
                values[abs(literal)] = literal > 0
    except ValueError as fault:
        raise NoClauses(f"the model has no literal: {fault}") from fault
    for place, clause in enumerate(problem.clauses, 1):
        if not any(values[abs(literal)] == (literal > 0) for literal in clause):
            raise NoClauses(f"the model does not meet the clause {place}")
    return values


def is_true(values: list[bool], literal: int) -> bool:
    """Whether a model makes a literal true."""
    return values[abs(literal)] == (literal > 0)
