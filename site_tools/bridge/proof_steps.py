"""Refutations that solvers write: DRAT, as text or binary, and LRAT; as lists of steps.

Only what is added by unit propagation can become a line of a log; a RAT step is told by its place where it is met.
"""
from dataclasses import dataclass, field


class NoProof(ValueError):
    """A text that is no refutation in these formats, or one that cannot become a log."""


@dataclass
class Step:
    """A clause that is added, or deleted. LRAT has the step's own number and hints; `place` is its line or number in the file."""

    literals: list[int]
    place: int
    is_deletion: bool = False
    number: int = 0
    hints: list[int] = field(default_factory=list)


def is_binary(data: bytes) -> bool:
    """Whether bytes are binary DRAT: each step ends with a zero byte, which no text has."""
    return b"\0" in data


def read_binary(data: bytes) -> list[Step]:
    """The steps of binary DRAT: `a` or `d`, literals as numbers 2v or 2v + 1 of seven bits a byte, and a zero."""
    steps: list[Step] = []
    place = 0
    while place < len(data):
        kind = data[place]
        place += 1
        if kind not in b"ad":
            raise NoProof(f"byte {place}: no step of binary DRAT (binary LRAT is not read: let the solver write it as text)")
        literals = []
        while True:
            number, shift = 0, 0
            while True:
                if place >= len(data):
                    raise NoProof("the proof ends within a step")
                byte = data[place]
                place += 1
                number |= (byte & 127) << shift
                shift += 7
                if byte < 128:
                    break
            if number == 0:
                break
            literals.append(-(number >> 1) if number & 1 else number >> 1)
        steps.append(Step(literals, len(steps) + 1, kind == ord("d")))
    return steps


def read_text(text: str) -> tuple[list[Step], bool]:
    """The steps of a text, and whether it is LRAT: there a line of an added clause has two zeros."""
    steps: list[Step] = []
    is_lrat = False
    for place, line in enumerate(text.splitlines(), 1):
        words = line.split()
        if not words or words[0] == "c":
            continue
        try:
            if len(words) > 1 and words[1] == "d":  # a deletion of LRAT, which a log has not
                is_lrat = True
                continue
            is_deletion = words[0] == "d"
            numbers = list(map(int, words[1:] if is_deletion else words))
            if numbers[-1] != 0:
                raise ValueError("no zero at its end")
            zeros = numbers.count(0)
            if zeros == 2 and not is_deletion:
                is_lrat = True
                cut = numbers.index(0)
                steps.append(Step(numbers[1:cut], place, number=numbers[0], hints=numbers[cut + 1:-1]))
            elif zeros == 1 and not is_lrat:
                steps.append(Step(numbers[:-1], place, is_deletion))
            else:
                raise ValueError("neither DRAT nor LRAT")
        except (ValueError, IndexError) as fault:
            raise NoProof(f"line {place}: {fault}") from fault
    return steps, is_lrat


def read(data: bytes) -> tuple[list[Step], bool]:
    """The steps of a proof, and whether they have hints (LRAT)."""
    if is_binary(data):
        return read_binary(data), False
    return read_text(data.decode("ascii"))
