#!/usr/bin/env python3
"""Rows for `log_rows`: sets.py KIND COUNT SEED [SIZE [VERSIONS]].

small     random clauses over 4 to 12 variables, with bits and the budgets 0, 1, 5, 100 (brute force tells the answer)
ends      the same, with random places where numbers end, some of them out of order or out of range
tight     random 3-clauses over 8 to 16 variables near the ratio where few models are left, with bits and the same budgets
threesat  3-SAT of SIZE variables at ratio 4.26, without bits
pigeons   pigeon holes: one pigeon more than 2 to SIZE holes
parities  sums of three variables each, SIZE of them over SIZE variables, as bits that are even or odd
bits      random clauses over SIZE variables, about SIZE/10 bits
chains    SIZE packages of VERSIONS (4) versions: each depends on some of the next ones, and the bits are the packages that are
          there and then the versions that are not the newest, of the first packages first, up to 2,000
totals    the same packages; the bits spell numbers, each the sum of how old the versions of 8 neighbours are, the highest bit
          first, and then how many of them are there (VERSIONS as 4/24: of 24 neighbours). The row is `numbers`, with the place
          where each number ends
"""
import random, sys


def row(budget, variables, bits, clauses):
    words = ["search", budget, variables, *bits, 0]
    for clause in clauses:
        words += [*clause, 0]
    return " ".join(map(str, words))


def clause_of(rng, variables, width):
    chosen = rng.sample(range(1, variables + 1), min(width, variables))
    return [v if rng.random() < 0.5 else -v for v in chosen]


def small(rng, _):
    n = rng.randint(4, 12)
    clauses = [clause_of(rng, n, rng.choice([1, 2, 2, 3, 3, 3, 4])) for _ in range(rng.randint(n, 5 * n))]
    bits = [rng.choice([1, -1]) * rng.randint(1, n) for _ in range(rng.randint(0, 8))]
    return row(rng.choice([0, 1, 5, 100]), n, bits, clauses)


def ends(rng, _):
    words = (small if rng.random() < 0.5 else tight)(rng, _).split()
    places = [str(rng.randint(1, 12)) for _ in range(rng.randint(0, 5))]
    if rng.random() < 0.8:
        places.sort(key=int)
    return " ".join(["numbers", *words[1:3], *places, "0", *words[3:]])


def tight(rng, _):
    n = rng.randint(8, 16)
    clauses = [clause_of(rng, n, 3) for _ in range(round(rng.uniform(2.5, 4.2) * n))]
    bits = [rng.choice([1, -1]) * v for v in rng.sample(range(1, n + 1), n // 2)]
    return row(rng.choice([0, 1, 5, 100]), n, bits, clauses)


def threesat(rng, size):
    n = size or rng.choice([50, 75, 100])
    return row(10**9, n, [], [clause_of(rng, n, 3) for _ in range(round(4.26 * n))])


def pigeons(rng, size, turn=[1]):
    turn[0] += 1
    holes = 2 + (turn[0] - 2) % ((size or 7) - 1)
    at = lambda p, h: p * holes + h + 1
    clauses = [[at(p, h) for h in range(holes)] for p in range(holes + 1)]
    clauses += [[-at(p, h), -at(q, h)] for h in range(holes) for p in range(holes + 1) for q in range(p)]
    return row(10**9, holes * (holes + 1), [], clauses)


def parities(rng, size):
    n = size or 60
    clauses = []
    for _ in range(n):
        chosen, odd = rng.sample(range(1, n + 1), 3), rng.random() < 0.5
        for signs in range(8):
            if (bin(signs).count("1") % 2 == 1) != odd:
                clauses.append([-v if signs >> k & 1 else v for k, v in enumerate(chosen)])
    return row(10**9, n, [], clauses)


def bits(rng, size):
    n = size or 60
    clauses = [clause_of(rng, n, 3) for _ in range(round(rng.uniform(2.5, 3.8) * n))]
    chosen = [rng.choice([1, -1]) * v for v in rng.sample(range(1, n + 1), max(1, n // 10))]
    return row(rng.choice([1, 5, 100, 10**9, 10**9, 10**9]), n, chosen, clauses)


def packages(rng, n, versions):
    """The clauses of packages that depend on each other, and the literals of a package and of a version."""
    there = lambda p: p * (versions + 1) + 1
    version = lambda p, k: p * (versions + 1) + 2 + k
    clauses = [[there(0)]]
    for p in range(n):
        clauses.append([-there(p)] + [version(p, k) for k in range(versions)])
        clauses += [[-version(p, k), -version(p, j)] for k in range(versions) for j in range(k)]
        clauses += [[-version(p, k), there(p)] for k in range(versions)]
        for q in rng.sample(range(p + 1, min(n, p + 12)), min(2, max(0, min(n, p + 12) - p - 1))):
            clauses.append([-there(p), there(q)])
            low = rng.randint(0, versions - 1)
            clauses.append([-version(p, rng.randint(0, versions - 1))] + [version(q, k) for k in range(low, versions)])
            clauses.append([-version(p, 0), -version(q, rng.randint(0, versions - 1))])
    return clauses, there, version


class Sums:
    """Numbers as literals, the lowest bit first, over clauses that grow."""

    def __init__(self, variables, clauses):
        self.variables, self.clauses = variables, clauses

    def new(self):
        self.variables += 1
        return self.variables

    def any_of(self, lits):
        if len(lits) == 1:
            return lits[0]
        x = self.new()
        self.clauses += [[-l, x] for l in lits] + [[-x] + lits]
        return x

    def gate(self, lits, value):
        """The literal that has this value of the literals."""
        x = self.new()
        for row in range(1 << len(lits)):
            signs = [row >> k & 1 == 1 for k in range(len(lits))]
            self.clauses.append([-l if on else l for l, on in zip(lits, signs)] + [x if value(sum(signs)) else -x])
        return x

    def add(self, a, b):
        out, carry = [], []
        for k in range(max(len(a), len(b))):
            lits = a[k:k + 1] + b[k:k + 1] + carry
            out.append(lits[0] if len(lits) == 1 else self.gate(lits, lambda n: n % 2 == 1))
            carry = [] if len(lits) == 1 else [self.gate(lits, lambda n: n >= 2)]
        return out + carry

    def total(self, numbers):
        if len(numbers) == 1:
            return numbers[0]
        half = len(numbers) // 2
        return self.add(self.total(numbers[:half]), self.total(numbers[half:]))


def totals(rng, size):
    versions, group = map(int, ((sys.argv[5] if len(sys.argv) > 5 else "4") + "/8").split("/")[:2])
    n = size or 100
    clauses, there, version = packages(rng, n, versions)
    sums, bits, ends = Sums(n * (versions + 1), clauses), [], []
    age = lambda p: [sums.any_of([version(p, k) for k in range(versions) if k >> b & 1]) for b in range((versions - 1).bit_length())]
    for low in range(0, n, group):
        near = range(low, min(n, low + group))
        for parts in ([age(p) for p in near], [[there(p)] for p in near]):
            bits += reversed(sums.total(parts))
            ends.append(len(bits))
    words = row(10**9, sums.variables, bits, sums.clauses).split()
    return " ".join(["numbers", *words[1:3], *map(str, ends), "0", *words[3:]])


def chains(rng, size):
    versions, n = int(sys.argv[5]) if len(sys.argv) > 5 else 4, size or 100
    clauses, there, version = packages(rng, n, versions)
    weights = [there(p) for p in range(n)] + [version(p, k) for k in range(versions - 1, 0, -1) for p in range(n)]
    return row(10**9, n * (versions + 1), weights[:2000], clauses)


kind, count, seed = sys.argv[1], int(sys.argv[2]), int(sys.argv[3])
size = int(sys.argv[4]) if len(sys.argv) > 4 else 0
rng = random.Random(seed)
for _ in range(count):
    print(globals()[kind](rng, size))
