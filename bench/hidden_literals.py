#!/usr/bin/env python3
"""Counts the hidden literals of clauses that are printed, outside the gate.

    ./encode_dimacs REPO SETTINGS DATABASE SPEC.. | bench/hidden_literals.py [--all] [--lines N]

A literal of a clause is hidden where a clause of two says that it implies another literal of the same clause: without it the clause
says the same, and unit propagation sees more. Those of the rules are counted, with --all those of the totals too: first how many
clauses have one, and of how many variables nothing but the clauses of their own definition speaks (dead gates); then, most frequent
first, what the hidden literal and the implied one stand for, the length of the clause, and a clause that is one.
"""
import argparse
import collections
import sys


def read(lines):
    """What literals of the table stand for, the clauses, how many of them are the rules', and the table's variables."""
    names, clauses, rules = {}, [], 0
    for line in lines:
        words = line.split()
        if words[:2] == ["c", "rules"]:
            rules = int(words[3])
        elif words[0] == "c" and words[1].lstrip("-").isdigit():
            names.setdefault(abs(int(words[1])), words[2] + (" " + words[-1] if words[2] == "edge" else ""))
        elif words[0] not in ("c", "p"):
            clauses.append([int(word) for word in words[:-1]])
    return names, clauses, rules


def hidden_in(clause, follows):
    """Pairs of a literal of the clause and another one that follows from it."""
    inside = set(clause)
    for lit in clause:
        implied = next((other for other in follows[lit] if other in inside), None)
        if implied is not None:
            yield lit, implied


def dead_gates(names, clauses):
    """Variables outside the table that stand in the clauses of their own definition alone: "any of these", both ways."""
    found = collections.defaultdict(list)
    for clause in clauses:
        for lit in clause:
            if abs(lit) not in names:
                found[abs(lit)].append(clause)

    def is_dead(variable):
        long = [clause for clause in found[variable] if len(clause) > 2]
        if len(long) != 1:
            return False
        own = next(lit for lit in long[0] if abs(lit) == variable)
        short = {frozenset((-own, -lit)) for lit in long[0] if lit != own}
        return len(found[variable]) == 1 + len(short) and {frozenset(c) for c in found[variable] if len(c) == 2} == short

    return sum(map(is_dead, found))


def main():
    words = argparse.ArgumentParser(description=__doc__, formatter_class=argparse.RawDescriptionHelpFormatter)
    words.add_argument("--all", action="store_true", help="the clauses of the totals too")
    words.add_argument("--lines", type=int, default=25, help="how many kinds are listed")
    asked = words.parse_args()
    names, clauses, rules = read(sys.stdin)
    if not asked.all:
        clauses = clauses[:rules]
    follows = collections.defaultdict(set)
    for clause in clauses:
        if len(clause) == 2:
            follows[-clause[0]].add(clause[1])
            follows[-clause[1]].add(clause[0])

    def told(lit):
        return ("-" if lit < 0 else "") + names.get(abs(lit), "gate")

    kinds, shown, touched = collections.Counter(), {}, 0
    for clause in clauses:
        pairs = list(hidden_in(clause, follows)) if len(clause) > 2 else []
        touched += bool(pairs)
        for lit, implied in pairs:
            kind = (told(lit), told(implied), len(clause))
            kinds[kind] += 1
            shown.setdefault(kind, clause)
    print(f"{len(clauses)} clauses, {touched} with hidden literals, {sum(kinds.values())} of these; {dead_gates(names, clauses)} dead gates")
    for kind, count in kinds.most_common(asked.lines):
        print(f"{count:8} {kind[0]}, then {kind[1]}, in clauses of {kind[2]}: {shown[kind]}")


main()
