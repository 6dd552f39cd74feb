"""Refutations that a solver wrote, made into lines of a log: over the clauses, and over clauses with a bit that is assumed to be false.

DRAT is gone through backwards, so only lemmas that the end rests on are looked at, and become lines. Where a bit is assumed to be
false, a lemma whose chain uses that gets the bit's literal; the assumption itself has no id.
"""
from typing import Optional

from .proof_logs import Line, Log
from .proof_steps import NoProof, Step
from .resolution import DECIDED, Clauses

Chain = tuple[list[int], set[int]]


class Refuter:
    """Clauses with ids, the lines that were written, and the ids of the clauses that these stated."""

    def __init__(self, variables: int, clauses: list[list[int]], bits: int) -> None:
        self.log = Log((variables, len(clauses), bits), [])
        self.variables = variables
        self.clauses = Clauses(variables)
        self.ids: list[int] = []  # the id of each slot that stays
        self.known: dict[tuple[int, ...], int] = {}
        self.next_id = len(clauses) + 1
        self.conflict: Optional[int] = None
        self.places: dict[int, int] = {}  # where the step of a slot stands in its proof
        for place, clause in enumerate(clauses, 1):
            self.known.setdefault(tuple(sorted(set(clause))), place)
            self.stay(clause, place)
        self.settle()

    def stay(self, literals: list[int], number: int) -> None:
        """Adds a clause that stays."""
        false = self.clauses.attach(self.clauses.add(literals))
        self.ids.append(number)
        self.conflict = false if self.conflict is None else self.conflict

    def settle(self) -> None:
        """Propagates what stays."""
        if self.conflict is None:
            self.conflict = self.clauses.propagate()

    def zero(self, bit: int, literal: int) -> None:
        """Writes that a bit is 0."""
        self.log.lines.append(Line("z", self.next_id, bit=bit))
        self.stay([-literal], self.next_id)
        self.next_id += 1
        self.settle()

    def one(self, bit: int, literal: int, steps: list[Step]) -> bool:
        """Writes that a bit is 1, by a refutation of the clauses and the bit's negation; False where the steps are none."""
        chain = self.refute(steps, -literal)
        if chain is None:
            return False
        self.log.lines.append(Line("o", self.next_id, bit=bit, chain=chain))
        self.stay([literal], self.next_id)
        self.next_id += 1
        self.settle()
        return True

    def unsat(self, steps: list[Step]) -> bool:
        """Writes a refutation of the clauses; False where the steps are none."""
        chain = self.refute(steps, None)
        if chain is not None:
            self.log.lines.append(Line("u", chain=chain))
        return chain is not None

    def end(self) -> None:
        """Writes that all bits are settled."""
        self.log.lines.append(Line("e"))

    def refute(self, steps: list[Step], assumed: Optional[int]) -> Optional[list[int]]:
        """Writes the lemmas that a refutation rests on, and gives the chain of its end; None where the steps do not get there."""
        clauses, count, length = self.clauses, len(self.clauses.lits), len(self.clauses.trail)
        false = self.conflict
        if false is None and assumed is not None:
            if clauses.value[assumed] < 0:
                false = clauses.reason[abs(assumed)]
            elif clauses.value[assumed] == 0:
                clauses.assign(assumed, DECIDED)
                false = clauses.propagate()
        false, events = self.forward(steps, false)
        chain = None
        if false is not None:
            last = clauses.chain(false)
            chains = self.backward(events, last)
            chain = self.written(chains, last, assumed)
        for slot, _, is_deletion in reversed(events if false is None else []):
            clauses.is_live[slot] = is_deletion
        clauses.undo(length)
        clauses.forget(count)
        return chain

    def forward(self, steps: list[Step], false: Optional[int]) -> tuple[Optional[int], list[tuple[int, int, bool]]]:
        """Adds and deletes up to the first conflict: the slot that is false, and what was done, with the trail's length before."""
        clauses = self.clauses
        slots: dict[tuple[int, ...], list[int]] = {}
        events: list[tuple[int, int, bool]] = []
        if any(step.is_deletion for step in steps):
            for slot, literals in enumerate(clauses.lits):
                slots.setdefault(tuple(sorted(literals)), []).append(slot)
        for step in steps:
            if false is not None:
                break
            if any(abs(literal) > self.variables for literal in step.literals):
                raise NoProof(f"step {step.place}: a variable above {self.variables}: a definition cannot become a line of a log")
            key = tuple(sorted(set(step.literals)))
            if step.is_deletion:
                slot = slots[key].pop() if slots.get(key) else None
                # A clause that gave a value stays, as solvers mean it.
                if slot is not None and clauses.is_live[slot] and not any(
                    clauses.value[literal] > 0 and clauses.reason[abs(literal)] == slot for literal in clauses.lits[slot]
                ):
                    clauses.is_live[slot] = False
                    events.append((slot, len(clauses.trail), True))
                continue
            slot = clauses.add(step.literals)
            slots.setdefault(key, []).append(slot)
            events.append((slot, len(clauses.trail), False))
            false = clauses.attach(slot)
            if false is None:
                false = clauses.propagate()
            self.places[slot] = step.place
        return false, events

    def backward(self, events: list[tuple[int, int, bool]], last: Chain) -> list[tuple[int, Chain]]:
        """The chains of the lemmas that the end rests on, the first lemma first; undoes the events."""
        clauses, needed = self.clauses, set(last[0])
        found: list[tuple[int, Chain]] = []
        for slot, length, is_deletion in reversed(events):
            if is_deletion:
                clauses.is_live[slot] = True
                continue
            clauses.undo(length)
            clauses.is_live[slot] = False
            if slot not in needed:
                continue
            false = clauses.assume_none(clauses.lits[slot])
            false = clauses.propagate() if false is None else false
            if false is None or false == DECIDED:
                raise NoProof(f"step {self.places[slot]}: unit propagation does not give it (a RAT step cannot become a line of a log)")
            chain = clauses.chain(false)
            needed.update(chain[0])
            found.append((slot, chain))
            clauses.undo(length)
            clauses.head = length
        return found[::-1]

    def written(self, chains: list[tuple[int, Chain]], last: Chain, assumed: Optional[int]) -> list[int]:
        """Writes the lines of lemmas, and gives the ids of the end's chain."""
        ids: dict[int, int] = {}
        assuming: set[int] = set()  # the slots whose clauses hold where the assumption does

        def id_of(slot: int) -> int:
            """The id of a lemma that was written, or of a clause that stays."""
            return ids[slot] if slot in ids else self.ids[slot]

        for slot, (chain, left) in chains:
            literals = set(self.clauses.lits[slot])
            if assumed is not None and (-assumed in left or not assuming.isdisjoint(chain)):
                assuming.add(slot)
                literals.add(-assumed)
            key = tuple(sorted(literals))
            if key not in self.known:
                self.known[key] = self.next_id
                self.log.lines.append(
                    Line("l", self.next_id, sorted(literals, key=abs), chain=[id_of(each) for each in chain])
                )
                self.next_id += 1
            ids[slot] = self.known[key]
        return [id_of(slot) for slot in last[0]]


def log_by_hints(variables: int, clauses: list[list[int]], steps: list[Step]) -> Log:
    """The log of a refutation with hints (LRAT). A hint that is not needed is left out, and a clause that stands already keeps its id."""
    looked = Clauses(variables)
    slots = {number: looked.add(clause) for number, clause in enumerate(clauses, 1)}
    ids = {slot: number for number, slot in slots.items()}
    known: dict[tuple[int, ...], int] = {}
    for number, clause in enumerate(clauses, 1):
        known.setdefault(tuple(sorted(set(clause))), number)
    log = Log((variables, len(clauses), 0), [])
    next_id = len(clauses) + 1
    for step in steps:
        if any(hint not in slots for hint in step.hints) or any(abs(literal) > variables for literal in step.literals):
            raise NoProof(f"line {step.place}: a hint that names no clause (a RAT step?), or a variable too large")
        false = looked.assume_none(step.literals)
        for hint in step.hints:
            free = [literal for literal in looked.lits[slots[hint]] if looked.value[literal] >= 0]
            if false is None and not free:
                false = slots[hint]
            elif false is None and len(free) == 1 and looked.value[free[0]] == 0:
                looked.assign(free[0], slots[hint])
        if false is None or false == DECIDED:
            raise NoProof(f"line {step.place}: its hints do not give it")
        chain = [ids[slot] for slot in looked.chain(false)[0]]
        looked.undo(0)
        if not step.literals:
            log.lines.append(Line("u", chain=chain))
            return log
        slot = slots[step.number] = looked.add(step.literals)
        key = tuple(sorted(set(step.literals)))
        if key not in known:
            known[key] = next_id
            log.lines.append(Line("l", next_id, sorted(set(step.literals), key=abs), chain=chain))
            next_id += 1
        ids[slot] = known[key]
    raise NoProof("the empty clause is not among its steps")
