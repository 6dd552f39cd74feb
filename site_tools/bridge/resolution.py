"""Unit propagation over clauses, and the chains of resolution steps that it gives.

A conflict by propagation is undone from its end: the falsified clause first, then for each literal of what is left the clause that made
it false, the last one first. Each of these has one variable with the other sign, as a log asks.
"""
import heapq
from typing import Iterable, Optional

DECIDED = -1  # the reason of what was assumed


class Clauses:
    """Clauses by slots, values, and the trail of what is true. Lists by literals: a negative one counts from the end."""

    def __init__(self, variables: int) -> None:
        self.value = [0] * (2 * variables + 1)
        self.watching: list[list[int]] = [[] for _ in range(2 * variables + 1)]
        self.reason = [DECIDED] * (variables + 1)
        self.place = [0] * (variables + 1)
        self.trail: list[int] = []
        self.head = 0
        self.lits: list[list[int]] = []
        self.is_live: list[bool] = []

    def assign(self, literal: int, reason: int) -> None:
        """Makes a literal true."""
        self.value[literal], self.value[-literal] = 1, -1
        self.reason[abs(literal)] = reason
        self.place[abs(literal)] = len(self.trail)
        self.trail.append(literal)

    def undo(self, length: int) -> None:
        """Takes values back until the trail has this length."""
        for literal in self.trail[length:]:
            self.value[literal] = self.value[-literal] = 0
        del self.trail[length:]
        self.head = min(self.head, length)

    def add(self, literals: Iterable[int]) -> int:
        """A slot for a clause, which nothing propagates yet."""
        self.lits.append(list(dict.fromkeys(literals)))
        self.is_live.append(False)
        return len(self.lits) - 1

    def attach(self, slot: int) -> Optional[int]:
        """Lets a clause take part: watches its two literals that are false last; answers the slot where it is false."""
        clause = self.lits[slot]
        if any(-literal in clause for literal in clause):
            return None  # it is true of itself, and says nothing
        clause.sort(key=lambda literal: (0, 0) if self.value[literal] >= 0 else (1, -self.place[abs(literal)]))
        self.is_live[slot] = True
        if len(clause) > 1:
            self.watching[clause[0]].append(slot)
            self.watching[clause[1]].append(slot)
        if not clause or self.value[clause[0]] < 0:
            return slot
        if self.value[clause[0]] == 0 and (len(clause) == 1 or self.value[clause[1]] < 0):
            self.assign(clause[0], slot)
        return None

    def propagate(self) -> Optional[int]:
        """Assigns what follows; the slot of a clause that is false, where there is one. A clause that is not true watches another literal
        in the place of one that became false, where it has one that is not false."""
        value, watching, trail = self.value, self.watching, self.trail
        while self.head < len(trail):
            false = -trail[self.head]
            self.head += 1
            slots, kept = watching[false], []
            watching[false] = kept
            for number, slot in enumerate(slots):
                if not self.is_live[slot]:
                    kept.append(slot)
                    continue
                clause = self.lits[slot]
                first = clause[0]
                if first == false:
                    first = clause[0] = clause[1]
                    clause[1] = false
                if value[first] > 0:
                    kept.append(slot)
                    continue
                for place in range(2, len(clause)):
                    literal = clause[place]
                    if value[literal] >= 0:
                        clause[1], clause[place] = literal, false
                        watching[literal].append(slot)
                        break
                else:
                    kept.append(slot)
                    if value[first] < 0:
                        kept.extend(slots[number + 1:])
                        return slot
                    self.assign(first, slot)
        return None

    def assume_none(self, literals: Iterable[int]) -> Optional[int]:
        """Assumes that all literals of a clause are false; the slot of the clause that made one of them true before, if any did."""
        for literal in literals:
            if self.value[literal] > 0:
                return self.reason[abs(literal)]
            if self.value[literal] == 0:
                self.assign(-literal, DECIDED)
        return None

    def chain(self, slot: int) -> tuple[list[int], set[int]]:
        """The chain of slots from a clause that is false, or whose one true literal it made so; and the literals that are left."""
        chain, heap, seen = [slot], [], set()
        left: set[int] = set()
        new = self.lits[slot]
        while True:
            for literal in new:
                variable = abs(literal)
                if variable in seen:
                    continue
                seen.add(variable)
                if self.value[literal] > 0 or self.reason[variable] == DECIDED:
                    left.add(literal)
                else:
                    heapq.heappush(heap, (-self.place[variable], variable))
            if not heap:
                return chain, left
            _, variable = heapq.heappop(heap)
            chain.append(self.reason[variable])
            new = self.lits[chain[-1]]

    def forget(self, count: int) -> None:
        """Takes away all slots but the first ones; nothing may be assigned by the others."""
        for literal, slots in enumerate(self.watching):
            if any(slot >= count for slot in slots):
                self.watching[literal] = [slot for slot in slots if slot < count]
        del self.lits[count:], self.is_live[count:]
