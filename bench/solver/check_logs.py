#!/usr/bin/env python3
"""Checks what `log_rows` answered, line by line and by itself: check_logs.py ROWS ANSWERS [--sat SOLVER].

Each row is a problem of `sets.py`, each answer ends with a line `--`. Every log is checked: ids, bits in order, exactly one
pivot a step, containment, no learnt clause that an input or earlier learnt one equals, and of a spent log the count and that
unit propagation does not give a learnt clause. Every model is checked. Up to 16 variables all assignments are tried for the
least bits; else, with --sat, a SAT solver (minisat or cadical) is asked for each bit in turn.
"""
import subprocess, sys, tempfile


def parse(words):
    numbers = list(map(int, words))
    end = numbers.index(0)
    bits, clauses, lits = numbers[:end], [], []
    for n in numbers[end + 1:]:
        if n:
            lits.append(n)
            continue
        if not any(-l in lits for l in lits):
            clauses.append(frozenset(lits))
        lits = []
    return bits, clauses


class Units:
    """Unit propagation over clauses that grow, by the places of each literal."""

    def __init__(self, clauses):
        self.clauses, self.places, self.single, self.empty = [], {}, [], False
        for clause in clauses:
            self.add(clause)

    def add(self, clause):
        for l in clause:
            self.places.setdefault(l, []).append(len(self.clauses))
        if len(clause) == 1:
            self.single.extend(clause)
        self.empty = self.empty or not clause
        self.clauses.append(clause)

    def follow(self, value, queue):
        """Adds what follows from the literals of a queue, and says whether no clause is false."""
        while queue:
            l = queue.pop()
            if -l in value:
                return False
            if l in value:
                continue
            value.add(l)
            for place in self.places.get(-l, ()):
                free = None
                for k in self.clauses[place]:
                    if k in value or (free is not None and -k not in value and k != free):
                        break
                    if -k not in value:
                        free = k
                else:
                    if free is None:
                        return False
                    queue.append(free)
        return True

    def is_useful(self, clause):
        """Whether for some literal the negations of the others give it no value, and no false clause."""
        start = set()
        if self.empty or not self.follow(start, list(self.single)):
            return False
        for x in clause:
            value = set(start)
            if self.follow(value, [-l for l in clause if l != x]) and x not in value and -x not in value:
                return True
        return False


class Log:
    def __init__(self, variables, bits, clauses):
        self.variables, self.bits, self.known, self.values = variables, bits, list(clauses), []
        self.rivals, self.learnt, self.end, self.units = set(clauses), 0, None, Units(clauses)

    def know(self, clause):
        self.known.append(clause)
        self.units.add(clause)

    def derive(self, chain, stated):
        assert chain and all(1 <= i <= len(self.known) for i in chain), "ids"
        have = set(self.known[chain[0] - 1])
        for i in chain[1:]:
            other = self.known[i - 1]
            pivots = [l for l in have if -l in other]
            assert len(pivots) == 1, f"{len(pivots)} pivots"
            have = (have | other) - {pivots[0], -pivots[0]}
        assert have <= stated, "containment"

    def line(self, words, check_useful):
        kind, numbers = words[0], list(map(int, words[1:]))
        assert self.end is None, "a line after the end"
        if kind in "lzo":
            assert numbers[0] == len(self.known) + 1, "id"
        if kind == "l":
            zero = numbers.index(0)
            lits = numbers[1:zero]
            assert [abs(l) for l in lits] == sorted({abs(l) for l in lits}), "order"
            assert all(abs(l) <= self.variables for l in lits), "range"
            clause = frozenset(lits)
            self.derive(numbers[zero + 1:-1], clause)
            assert clause not in self.rivals, "not new"
            if check_useful:
                assert self.units.is_useful(clause), "not useful"
            self.rivals.add(clause)
            self.know(clause)
            self.learnt += 1
        elif kind in "zo":
            assert numbers[1] == len(self.values), "bit"
            lit = self.bits[numbers[1]]
            if kind == "o":
                self.derive(numbers[2:-1], frozenset([lit]))
            self.know(frozenset([lit if kind == "o" else -lit]))
            self.values.append(kind == "o")
        else:
            self.end = kind
            if kind == "u":
                self.derive(numbers[:-1], frozenset())


def least_by_force(variables, bits, clauses):
    """Over all assignments at once: a number has one binary digit for each of them."""
    size = 1 << variables
    everywhere = (1 << size) - 1
    column = {}
    for v in range(1, variables + 1):
        run = 1 << (v - 1)
        period = ((1 << run) - 1) << run
        width = 2 * run
        while width < size:
            period |= period << width
            width *= 2
        column[v], column[-v] = period, everywhere & ~period
    left = everywhere
    for clause in clauses:
        held = 0
        for l in clause:
            held |= column[l]
        left &= held
    if not left:
        return None
    best = []
    for l in bits:
        zero = left & column[-l]
        best.append(not zero)
        left = zero or left
    return best


def is_sat(solver, variables, clauses):
    with tempfile.NamedTemporaryFile("w", suffix=".cnf") as f:
        f.write(f"p cnf {variables} {len(clauses)}\n" + "".join(" ".join(map(str, c)) + " 0\n" for c in clauses))
        f.flush()
        return subprocess.run([solver, f.name], stdout=subprocess.DEVNULL, stderr=subprocess.DEVNULL).returncode == 10


def least_by_solver(solver, variables, bits, clauses):
    clauses = list(clauses)
    if not is_sat(solver, variables, clauses):
        return None
    best = []
    for lit in bits:
        zero = is_sat(solver, variables, clauses + [[-lit]])
        clauses.append([-lit if zero else lit])
        best.append(not zero)
    return best


def check(words, answer, solver):
    budget, variables = int(words[1]), int(words[2])
    rest = words[3:]
    if words[0] == "numbers":
        rest = rest[rest.index("0") + 1:]
    bits, clauses = parse(rest)
    first, log = answer[0].split(), Log(variables, bits, clauses)
    assert answer[1] == f"p 1 {variables} {len(clauses)} {len(bits)}", "header"
    kept = first[0] == "spent" or len(clauses) + len(answer) < 1500
    for line in answer[2:]:
        log.line(line.split(), kept)
    if variables <= 16:
        best = least_by_force(variables, bits, clauses)
    elif solver:
        best = least_by_solver(solver, variables, bits, clauses)
    else:
        best = "unknown"
    if first[0] == "optimal":
        model = [int(w) > 0 for w in first[1:]]
        assert len(model) == variables and all(any(model[abs(l) - 1] == (l > 0) for l in c) for c in clauses), "model"
        values = [model[abs(l) - 1] == (l > 0) for l in bits]
        assert log.end == "e" and log.values == values and log.learnt <= budget, "certificate"
        assert best in ("unknown", values), "not the least"
    elif first[0] == "refuted":
        assert log.end == "u" and not log.values and log.learnt <= budget and best in ("unknown", None), "refutation"
    else:
        assert first[0] == "spent" and log.end == "s" and log.learnt == budget + 1, "spent"
        assert not log.values or best == "unknown" or best[:len(log.values)] == log.values, "settled bits"
    return first[0], log


def main():
    solver = sys.argv[4] if len(sys.argv) > 4 and sys.argv[3] == "--sat" else None
    rows = [line.split() for line in open(sys.argv[1])]
    answers = [a.strip("\n").split("\n") for a in open(sys.argv[2]).read().split("--\n")][:-1]
    assert len(rows) == len(answers), f"{len(rows)} rows and {len(answers)} answers"
    counts, learnt, settled = {}, 0, 0
    for n, (words, answer) in enumerate(zip(rows, answers)):
        try:
            kind, log = check(words, answer, solver)
        except AssertionError as wrong:
            sys.exit(f"row {n + 1}: {wrong}")
        counts[kind] = counts.get(kind, 0) + 1
        learnt += log.learnt
        settled += kind == "spent" and bool(log.values)
    print(f"{len(rows)} rows right: {counts}, {learnt} learnt clauses, {settled} spent with bits settled")


main()
