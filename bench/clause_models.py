#!/usr/bin/env python3
"""Compares the clauses that the built crates write with what they are to mean, by trying all assignments.

    bench/clause_models.py [COUNT] [SEED]        (PROGRAM=FILE takes another build of crates/clause_rows)

COUNT random rows of each kind (300) are answered by the program `clause_rows`. For each row, every assignment of the old
variables is extended over the clauses by a small solver of this script, which shares nothing with the crates: a definition
must have exactly one extension, and its literals must be true as the formula, the comparison or the sum is, computed here;
an assertion must have an extension exactly where the formula is true; a demand's clause must hold exactly there; totals must
be spelled, highest bit first, in unary up to a greatest sum of 64 and in binary above. For a digraph of up to 6 numbers every
choice of nodes and arcs in which an arc's two nodes are chosen must have an extension exactly where it has no cycle and every
chosen node is a root or ends a path from one, and none in which a path literal is not true exactly where chosen arcs lead.
It ends with the number of rows and assignments that were compared, or at the first that differs.
"""
import itertools
import os
import random
import subprocess
import sys

TOP = os.path.join(os.path.dirname(os.path.abspath(__file__)), "..")
PROGRAM = os.environ.get("PROGRAM", os.path.join(TOP, "crates", "clause_rows", "out", "clause_rows"))
COUNT = int(sys.argv[1]) if len(sys.argv) > 1 else 300
RANDOM = random.Random(int(sys.argv[2]) if len(sys.argv) > 2 else 1)


def lit(variables):
    return RANDOM.choice((1, -1)) * RANDOM.randint(1, variables)


def lits(variables, count):
    return [lit(variables) for _ in range(count)]


def holds(values, literal):
    return values[abs(literal)] == (literal > 0)


def number(values, bits):
    result = 0
    for bit in bits:
        result = 2 * result + holds(values, bit)
    return result


def models(values, clauses, variables, most=2):
    """Up to so many extensions of the values to all variables that meet the clauses."""
    values = dict(values)
    while True:
        unit = None
        for clause in clauses:
            free = []
            for literal in clause:
                if abs(literal) not in values:
                    free.append(literal)
                elif holds(values, literal):
                    break
            else:
                if not free:
                    return []
                if len(set(free)) == 1:
                    unit = free[0]
                    break
        if unit is None:
            break
        values[abs(unit)] = unit > 0
    for variable in range(1, variables + 1):
        if variable not in values:
            found = []
            for value in (False, True):
                if len(found) < most:
                    found += models({**values, variable: value}, clauses, variables, most - len(found))
            return found[:most]
    return [values]


def formula(variables, depth):
    """A formula's words, and the function that evaluates it."""
    kind = RANDOM.randrange(8) if depth else 0
    if kind <= 1:
        literal = lit(variables)
        return [str(literal)], lambda values: holds(values, literal)
    if kind == 2:
        words, value = formula(variables, depth - 1)
        return words + ["!"], lambda values: not value(values)
    if kind == 3:
        (front, first), (back, second) = formula(variables, depth - 1), formula(variables, depth - 1)
        return front + back + [">"], lambda values: not first(values) or second(values)
    if kind == 4:
        some = lits(variables, RANDOM.randrange(1, 4))
        return ["^" + ",".join(map(str, some))], lambda values: sum(holds(values, x) for x in some) == 1
    parts = [formula(variables, depth - 1) for _ in range(RANDOM.randrange(4))]
    words = [word for part in parts for word in part[0]]
    test, sign = (any, "|") if kind % 2 else (all, "&")
    return words + [sign + str(len(parts))], lambda values: test(part[1](values) for part in parts)


def row(kind):
    """The row's line, how many variables it has, and what is to hold of its answer under an assignment."""
    variables = RANDOM.randrange(1, 6)
    some = lits(variables, RANDOM.randrange(6))
    if kind == "clause":
        return some, variables, None
    terms = [(RANDOM.randrange(9), x) for x in some]
    words = ["%d*%d" % term for term in terms]
    return words, variables, lambda v, a: number(v, a) == sum(w for w, x in terms if holds(v, x))


def spelled(top, number):
    """The bits of a sum of at most `top`."""
    if top <= 64:
        return [number >= k for k in range(top, 0, -1)]
    return [bool(number >> k & 1) for k in range(top.bit_length() - 1, -1, -1)]


def totals():
    """A line of random lists of terms, how many variables it has, and what is to hold of its bits."""
    variables = RANDOM.randrange(1, 6)
    most = RANDOM.choice((3, 9, 40))
    lists = [[(RANDOM.randrange(most), x) for x in lits(variables, RANDOM.randrange(5))] for _ in range(RANDOM.randrange(4))]
    words = [",".join("%d*%d" % term for term in terms) or "-" for terms in lists]

    def right(values, bits):
        wanted = []
        for terms in lists:
            wanted += spelled(sum(w for w, _x in terms), sum(w for w, x in terms if holds(values, x)))
        return [holds(values, bit) for bit in bits] == wanted

    return words, variables, right


def spelling():
    """A line that asks for the bits of a vector, and the words of its answer."""
    tops = [RANDOM.choice((0, 1, 5, 63, 64, 65, 200)) for _ in range(RANDOM.randrange(4))]
    vector = [RANDOM.randrange(top + 2) if RANDOM.random() < 0.3 else RANDOM.randrange(top + 1) for top in tops]
    words = [",".join(map(str, vector)) or "-"] + ["%d*1" % top if top else "-" for top in tops]
    if any(number > top for number, top in zip(vector, tops)):
        return words, ["none"]
    return words, [str(int(bit)) for number, top in zip(vector, tops) for bit in spelled(top, number)]


def digraph():
    """Roots, arcs and asked pairs of a digraph of up to six numbers."""
    size = RANDOM.randrange(1, 7)
    arcs = [(RANDOM.randrange(size), RANDOM.randrange(size)) for _ in range(RANDOM.randrange(min(2 * size, 9) + 1))]
    roots = RANDOM.sample(range(size), RANDOM.randrange(1, size + 1) if RANDOM.random() < 0.5 else 1)
    asked = [(RANDOM.randrange(size), RANDOM.randrange(size)) for _ in range(RANDOM.randrange(5))]
    return size, roots, arcs, asked


def levels_line(size, roots, arcs, asked):
    """Nodes have the variables from 1 on, arcs those behind them."""
    words = [",".join(str(i + 1) for i in range(size))]
    words.append(",".join(map(str, roots)) or "-")
    words.append(",".join("%d>%d=%d" % (p, c, size + 1 + k) for k, (p, c) in enumerate(arcs)) or "-")
    words.append(",".join("%d>%d" % pair for pair in asked) or "-")
    return "levels %d %s" % (size + len(arcs), " ".join(words))


def reached(size, arcs):
    """Where one arc or more lead to from each number."""
    seen = [set() for _ in range(size)]
    for start in range(size):
        waiting = [c for p, c in arcs if p == start]
        while waiting:
            place = waiting.pop()
            if place not in seen[start]:
                seen[start].add(place)
                waiting += [c for p, c in arcs if p == place]
    return seen


def compare_levels(rows, texts):
    """How many choices were compared, and how many of them have a model; None at the first that differs."""
    tried, sound = 0, 0
    for (size, roots, arcs, asked), text in zip(rows, texts):
        head, tail = text.split(";", 1)
        _none, total, clauses, _demands = read(";" + tail)
        paths = [None if word == "none" else int(word) for word in head.split()]
        possible = reached(size, arcs)
        if [path is None for path in paths] != [q not in possible[p] for p, q in asked]:
            return print("differs: %s" % text)
        for bits in itertools.product((False, True), repeat=size + len(arcs)):
            nodes = [i for i in range(size) if bits[i]]
            chosen = [arc for k, arc in enumerate(arcs) if bits[size + k]]
            if any(not (bits[p] and bits[c]) for p, c in chosen):
                continue
            tried += 1
            leads = reached(size, chosen)
            good = all(p not in leads[p] for p in range(size))
            good = good and all(i in roots or any(bits[r] and i in leads[r] for r in roots) for i in nodes)
            old = dict(zip(range(1, size + len(arcs) + 1), bits))
            wrong = [-path if q in leads[p] else path for path, (p, q) in zip(paths, asked) if path is not None]
            sound += good
            if bool(models(old, clauses, total, 1)) != good or models(old, clauses + [wrong], total, 1):
                return print("differs: %s %s\n  %s" % ((size, roots, arcs, asked), bits, text))
    return tried, sound


def answers(lines):
    """The program's answers."""
    out = subprocess.run([PROGRAM], input="\n".join(lines) + "\n", capture_output=True, text=True, check=True).stdout
    texts = out.splitlines()
    assert len(texts) == len(lines), (len(texts), len(lines))
    return texts


def read(text):
    """The answer's words, the variables, the clauses of the structure and those of the demand."""
    answer, variables, rest = text.split(";")
    clauses, demands, clause, demanded = [], [], [], False
    for word in rest.split():
        if word.startswith("d"):
            demanded = True
        elif word == "0":
            (demands if demanded else clauses).append(clause)
            clause, demanded = [], False
        else:
            clause.append(int(word))
    words = answer.split()
    values = words if words in (["true"], ["false"]) else [int(word) for word in words]
    return values, int(variables), clauses, demands


def main():
    lines, checks = [], []
    for kind in ("clause", "digits"):
        for _ in range(COUNT):
            words, variables, test = row(kind)
            lines.append(" ".join([kind, str(variables)] + [str(word) for word in words]))
            checks.append((kind, variables, words, test))
    for _ in range(COUNT):
        words, variables, test = totals()
        lines.append(" ".join(["totals", str(variables)] + words))
        checks.append(("totals", variables, words, test))
    for kind in ("define", "assert", "demand"):
        for _ in range(COUNT):
            variables = RANDOM.randrange(1, 6)
            words, value = formula(variables, 4)
            lines.append(" ".join([kind, str(variables)] + words))
            checks.append((kind, variables, words, value))
    texts = answers(lines)
    tried = 0
    for line, text, (kind, variables, words, test) in zip(lines, texts, checks):
        answer, total, clauses, demands = read(text)
        for bits in itertools.product((False, True), repeat=variables):
            tried += 1
            old = dict(zip(range(1, variables + 1), bits))
            found = models(old, clauses, total)
            if kind == "clause":
                both = any(-x in words for x in words)
                right = answer == ["false" if both else "true"]
                right = right and bool(found) == (both or any(holds(old, x) for x in words))
                right = right and all(c == sorted(set(c), key=abs) for c in clauses)
            elif kind == "assert":
                right = bool(found) == test(old)
            elif len(found) != 1:
                right = False
            elif kind == "define":
                value = answer == ["true"] if answer in (["true"], ["false"]) else holds(found[0], answer[0])
                right = value == test(old)
            elif kind == "demand":
                right = all(any(holds(found[0], x) for x in clause) for clause in demands) == test(old)
            else:
                right = test(found[0], answer)
            if not right:
                print("differs: %s\n  answer %s\n  at %s: %s" % (line, text, bits, found))
                return 1
    print("%d rows, %d assignments: all as they should be" % (len(lines), tried))
    spellings = [spelling() for _ in range(COUNT)]
    for (words, wanted), text in zip(spellings, answers(["spell 1 " + " ".join(words) for words, _wanted in spellings])):
        if text.split(";")[0].split() != wanted:
            print("differs: %s\n  answer %s" % (words, text))
            return 1
    print("%d vectors: all as they should be" % len(spellings))
    rows = [digraph() for _ in range(4 * COUNT)]
    counts = compare_levels(rows, answers([levels_line(*row) for row in rows]))
    if counts is None:
        return 1
    print("%d digraphs, %d choices, of which %d have models: all as they should be" % (len(rows), *counts))
    return 0


sys.exit(main())
