#!/usr/bin/env python3
"""Compares the checkers with a second one, written from docs/formats/proof_log.md alone: compare.py PROGRAM [SEED [SEARCHES [LOGS]]].

PROGRAM is `log_rows`, as `rt run` or `rt try` builds it. It answers rows of searches over random clauses, whose logs are to be
accepted and whose reasons are to have no model; and rows of logs that were made here by resolution and then changed: an id, a sign, a
number, a line left out, doubled or swapped, a literal more or less, a number of 30 digits, a line feed left out.
"""
import itertools, random, re, subprocess, sys

NUMBER = re.compile(r"0|[1-9][0-9]*")


def read_line(text):
    """The line that a text spells, as its letter and its parts; none where it spells none."""
    words = text.split(" ")
    letter, rest = words[0], words[1:]
    if letter in ("s", "e"):
        return (letter,) if not rest else None
    signed = []
    for place, word in enumerate(rest):
        minus = word.startswith("-")
        digits = word[1:] if minus else word
        if not NUMBER.fullmatch(digits) or int(digits) >= 2**64 or (minus and digits == "0"):
            return None
        signed.append(-int(digits) if minus else int(digits))
    if letter == "l":
        if len(signed) < 2 or 0 not in signed[1:]:
            return None
        end = signed.index(0, 1)
        lits, chain = signed[1:end], signed[end + 1:]
        if signed[0] < 0 or any(abs(a) >= abs(b) for a, b in zip(lits, lits[1:])) or not is_chain(chain):
            return None
        return ("l", signed[0], lits, chain[:-1])
    if any(n < 0 for n in signed):
        return None
    if letter == "p":
        return ("p", *signed[1:]) if len(signed) == 4 and signed[0] == 1 else None
    if letter == "z":
        return ("z", *signed) if len(signed) == 2 else None
    if letter == "o":
        return ("o", signed[0], signed[1], signed[2:-1]) if len(signed) > 2 and is_chain(signed[2:]) else None
    if letter == "u":
        return ("u", signed[:-1]) if is_chain(signed) else None
    return None


def is_chain(numbers):
    return len(numbers) >= 2 and numbers[-1] == 0 and all(n > 0 for n in numbers[:-1])


class Second:
    """The rules at each line, in their order."""

    def __init__(self, variables, clauses, bits, values):
        self.head = ("p", variables, len(clauses), len(bits))
        self.known, self.rivals = [frozenset(c) for c in clauses], {frozenset(c) for c in clauses}
        self.bits, self.values, self.settled, self.lines, self.ended = bits, values, 0, 0, False

    def stands(self, line):
        if self.ended:
            return False
        if line[0] in "lzo" and line[1] != len(self.known) + 1:
            return False
        if line[0] in "zo":
            return self.values is not None and line[2] == self.settled and line[2] < len(self.bits)
        if line[0] == "u":
            return self.values is None
        if line[0] == "e":
            return self.values is not None and self.settled == len(self.bits)
        return line[0] == "l"

    def derives(self, chain, stated):
        have = set(self.known[chain[0] - 1])
        for number in chain[1:]:
            other = self.known[number - 1]
            pivots = [l for l in have if -l in other]
            if len(pivots) != 1:
                return "TwoPivots" if pivots else "NoPivot"
            have = (have | other) - {pivots[0], -pivots[0]}
        return None if have <= stated else "NotContained"

    def fault(self, line):
        if self.lines == 0:
            return None if line == self.head else "WrongCounts"
        if not self.stands(line):
            return "OutOfOrder"
        chain = line[-1] if line[0] in "lou" else None
        if chain and any(not 0 < number <= len(self.known) for number in chain):
            return "UnknownId"
        stated = set(line[2]) if line[0] == "l" else {self.bits[line[2]]} if line[0] == "o" else set()
        if chain and (why := self.derives(chain, stated)):
            return why
        if line[0] in "zo" and (line[2] >= len(self.values) or self.values[line[2]] != (line[0] == "o")):
            return "WrongBit"
        if line[0] == "l" and frozenset(line[2]) in self.rivals:
            return "NotNew"
        return None

    def accept(self, line):
        self.lines += 1
        if line[0] == "l":
            self.known.append(frozenset(line[2]))
            self.rivals.add(frozenset(line[2]))
        elif line[0] in "zo":
            bit = self.bits[line[2]]
            self.known.append(frozenset([bit if line[0] == "o" else -bit]))
            self.settled += 1
        self.ended = line[0] in "ue"

    def answer(self, text):
        pieces = text.split("\n")
        for piece in pieces[:-1]:
            line = read_line(piece)
            why = "BadLine" if line is None else self.fault(line)
            if why:
                return f"{self.lines + 1} {why}"
            self.accept(line)
        if pieces[-1]:
            return f"{self.lines + 1} BadLine"
        return "accepted" if self.ended else f"{self.lines + 1} Unfinished"


def is_met(model, clause):
    return any(model[abs(l) - 1] == (l > 0) for l in clause)


def models(variables, clauses):
    return [m for m in itertools.product((False, True), repeat=variables) if all(is_met(m, c) for c in clauses)]


class Maker:
    """Makes logs by resolution: what the branches of a case distinction refute is resolved, in chains of several steps now and then."""

    def __init__(self, rng, variables, clauses):
        self.rng, self.variables, self.lines = rng, variables, []
        self.known = [frozenset(c) for c in clauses]
        self.ids = {c: i + 1 for i, c in reversed(list(enumerate(self.known)))}

    def refute(self, given):
        """The id of a clause that these literals make false, and the chain of the last learnt one, if it is that."""
        for place, clause in enumerate(self.known):
            if all(-l in given for l in clause):
                return place + 1
        var = self.rng.choice([v for v in range(1, self.variables + 1) if v not in given and -v not in given])
        lit = var if self.rng.random() < 0.5 else -var
        one = self.refute(given | {lit})
        if -lit not in self.known[one - 1]:
            return one
        other = self.refute(given | {-lit})
        if lit not in self.known[other - 1]:
            return other
        clause = (self.known[one - 1] | self.known[other - 1]) - {lit, -lit}
        if clause in self.ids:
            return self.ids[clause]
        chain = [one, other]
        if self.lines and self.lines[-1][:2] == ("l", other) and self.rng.random() < 0.5:
            chain = self.lines[-1][3] + [one]
        self.known.append(clause)
        self.ids[clause] = len(self.known)
        self.lines.append(("l", len(self.known), sorted(clause, key=abs), chain))
        return len(self.known)

    def text(self, bits, values):
        numbers = lambda xs: "".join(f"{x} " for x in xs) + "0"
        head = f"p 1 {self.variables} {len(self.known)} {len(bits)}"
        if values is None:
            last = self.refute(frozenset())
            chain = self.lines.pop()[3] if self.lines and self.lines[-1][:2] == ("l", last) else [last]
            self.lines.append(("u", chain))
        else:
            given = set()
            for place, (bit, value) in enumerate(zip(bits, values)):
                if value:
                    self.lines.append(("o", None, place, [self.refute(frozenset([-bit]))]))
                else:
                    self.lines.append(("z", None, place))
                self.known.append(frozenset([bit if value else -bit]))
                self.ids.setdefault(self.known[-1], len(self.known))
                self.lines[-1] = (self.lines[-1][0], len(self.known), *self.lines[-1][2:])
            self.lines.append(("e",))
        rows = [head]
        for line in self.lines:
            if line[0] == "l":
                rows.append(f"l {line[1]} {numbers(line[2])} {numbers(line[3])}")
            elif line[0] == "o":
                rows.append(f"o {line[1]} {line[2]} {numbers(line[3])}")
            elif line[0] == "z":
                rows.append(f"z {line[1]} {line[2]}")
            else:
                rows.append("e" if line[0] == "e" else f"u {numbers(line[1])}")
        return rows


def change(rng, rows):
    """Changes the lines of a log at one place."""
    rows = list(rows)
    at = rng.randrange(len(rows))
    words = rows[at].split(" ")
    numbers = [i for i, w in enumerate(words) if NUMBER.fullmatch(w.lstrip("-"))]
    kind = rng.randrange(11)
    if kind < 3 and numbers:
        i = rng.choice(numbers)
        words[i] = str(max(0, int(words[i]) + rng.choice((-2, -1, 1, 2)))) if kind < 2 else str(rng.randrange(12))
    elif kind == 3 and numbers:
        i = rng.choice(numbers)
        words[i] = words[i][1:] if words[i].startswith("-") else "-" + words[i]
    elif kind == 4:
        del rows[at]
        return rows
    elif kind == 5:
        return rows[:at] + [rows[at]] + rows[at:]
    elif kind == 6 and at:
        rows[at - 1], rows[at] = rows[at], rows[at - 1]
        return rows
    elif kind == 7 and len(words) > 1:
        del words[rng.randrange(1, len(words))]
    elif kind == 8:
        words.insert(rng.randrange(1, len(words) + 1), str(rng.randrange(-4, 12)))
    elif kind == 9 and numbers:
        words[rng.choice(numbers)] = rng.choice(("1" * 30, str(2**64), str(2**64 - 1), "01"))
    elif kind == 10:
        words[0] = rng.choice("plzouse")
    rows[at] = " ".join(words)
    return rows


def random_clauses(rng):
    variables = rng.randrange(2, 6)
    clauses = []
    for _ in range(rng.randrange(2, 5 * variables)):
        chosen = sorted(rng.sample(range(1, variables + 1), min(variables, rng.choice((1, 2, 2, 3, 3, 3)))))
        clauses.append([v if rng.random() < 0.5 else -v for v in chosen])
    bits = [v if rng.random() < 0.5 else -v for v in rng.sample(range(1, variables + 1), rng.randrange(variables + 1))]
    return variables, clauses, bits


def spelled(numbers):
    return "".join(f"{n} " for n in numbers) + "0"


def run(program, rows):
    out = subprocess.run([program], input="".join(r + "\n" for r in rows), capture_output=True, text=True, check=True).stdout
    answers = out.split("\n--\n")[:-1]
    assert len(answers) == len(rows), f"{len(answers)} answers to {len(rows)} rows"
    return answers


def searches(program, rng, count):
    cases = [random_clauses(rng) for _ in range(count)]
    rows = [f"check_search 100000 {v} {spelled(bits)} {' '.join(map(spelled, clauses))}" for v, clauses, bits in cases]
    wrong, refuted = 0, 0
    for (variables, clauses, bits), row, answer in zip(cases, rows, run(program, rows)):
        if models(variables, clauses):
            right = answer == "optimal accepted"
        else:
            refuted += 1
            head, _, numbers = answer.partition(", reasons")
            used = list(map(int, numbers.split()))
            right = head == "refuted accepted" and used == sorted(set(used)) and not models(variables, [clauses[i] for i in used])
        if not right:
            wrong += 1
            print("search:", row, "::", answer)
    print(f"{count} searches, {refuted} of them refuted: {wrong} answers differ")
    return wrong


def logs(program, rng, count):
    rows, wanted, tally = [], [], {}
    while len(rows) < count:
        variables, clauses, bits = random_clauses(rng)
        found = models(variables, clauses)
        values = None
        if found:
            values = min([m[abs(b) - 1] == (b > 0) for b in bits] for m in found)
        lines = Maker(rng, variables, clauses).text(bits, values)
        for times in (0, 1, 1, 1, 2):
            changed, feed = lines, "\n"
            for _ in range(times):
                changed = change(rng, changed) or [""]
            if times and rng.random() < 0.03:
                feed = ""
            told = values
            if values and times and rng.random() < 0.1:
                told = [v != (i == rng.randrange(len(values))) for i, v in enumerate(values)]
            text = "\n".join(changed) + feed
            spelt = "-" if told is None else "=" + "".join(map(str, map(int, told)))
            shown = text.replace("\n", " / ")
            rows.append(f"check_log {spelt} {variables} {spelled(bits)} {' '.join(map(spelled, clauses))} | {shown}")
            wanted.append(Second(variables, clauses, bits, told).answer(text))
    wrong = 0
    for row, want, answer in zip(rows, wanted, run(program, rows)):
        word = want.split()[-1]
        tally[word] = tally.get(word, 0) + 1
        if want != answer:
            wrong += 1
            print("log:", row, "::", answer, "wanted", want)
    print(f"{len(rows)} logs ({', '.join(f'{n} {w}' for w, n in sorted(tally.items()))}): {wrong} answers differ")
    return wrong


if __name__ == "__main__":
    program, seed, searched, logged = (sys.argv[1:] + ["1", "2000", "20000"][len(sys.argv) - 2:])[:4]
    rng = random.Random(int(seed))
    sys.exit(1 if searches(program, rng, int(searched)) + logs(program, rng, int(logged)) else 0)
