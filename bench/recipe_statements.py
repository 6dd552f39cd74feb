#!/usr/bin/env python3
"""Compares the items of recipes with a second reading, written apart from the program: by recursive descent over tokens.

    bench/recipe_statements.py [COUNT [SEED]]      COUNT texts are made (3,000 where it is not written)

The program is `recipe_rows`, which prints the items of files; it is built where that is needed. The tokens are those of
`recipe_tokens.reading`. The rows of `crates/recipe_rows/data/items.txt` are compared with the second reading too.
"""
import os
import random
import sys

import recipe_tokens
from recipe_tokens import asked, rows

DIRECTIVES = ("version", "variant", "depends_on", "provides", "conflicts", "requires")
PASSED = ("license", "maintainers", "patch", "resource", "filter_compiler_wrappers")


class Fault(Exception):
    pass


class Reader:
    def __init__(self, data, tokens):
        self.tokens = []
        for token in tokens.split():
            kind, _, places = token.rpartition("@")
            start, end = map(int, places.split("-"))
            self.tokens.append((kind, start, data[start:end].decode()))
        self.at, self.items = 0, []

    def kind(self):
        return self.tokens[self.at][0]

    def line(self):
        """The place of its first token, its tokens, and whether its block follows."""
        first = self.at
        while self.kind() != "NewLine":
            self.at += 1
        self.at += 1
        return first, self.tokens[first : self.at - 1], self.kind() == "Indent"

    def skip_block(self):
        depth = 0
        while True:
            depth += (self.kind() == "Indent") - (self.kind() == "Dedent")
            self.at += 1
            if depth == 0:
                return

    def block(self, depth):
        self.at += 1
        while self.kind() != "Dedent":
            first, line, has_block = self.line()
            form = form_of(line, has_block)
            last = first + len(line) - 1
            if form == "passed" and has_block:
                self.skip_block()
            elif form == "call":
                self.items.append("Call@%d-%d/%d" % (first, last, depth))
            elif form == "with":
                if depth == 16:
                    raise Fault("TooDeep %d" % line[0][1])
                self.items.append("With@%d-%d/%d" % (first, last, depth))
                self.block(depth + 1)
            elif form != "passed":
                raise Fault("Unsupported %d" % line[0][1])
        self.at += 1

    def file(self):
        classes = 0
        while self.kind() != "End":
            _, line, has_block = self.line()
            form = form_of(line, has_block)
            if form == "passed":
                if has_block:
                    self.skip_block()
            elif form == "class":
                classes += 1
                if classes == 2:
                    raise Fault("TwoClasses %d" % line[0][1])
                self.block(0)
            else:
                raise Fault("Unsupported %d" % line[0][1])
        if classes == 0:
            raise Fault("NoClass")


def behind_brackets(line, at):
    """The place behind the partner of the bracket that opens at this place, None where there is no bracket."""
    if at >= len(line) or line[at][0] != "(":
        return None
    open_ones = 0
    for place in range(at, len(line)):
        open_ones += (line[place][0] in "([{") - (line[place][0] in ")]}")
        if open_ones == 0:
            return place + 1
    return None


def form_of(line, has_block):
    kinds, texts = [token[0] for token in line], [token[2] for token in line]
    word = texts[0] if kinds[0] == "Word" else ""
    if word == "def":
        return "passed"
    if has_block:
        if word == "class" and len(line) > 2 and kinds[1] == "Word":
            if (behind_brackets(line, 2) or 2) == len(line) - 1 and texts[-1] == ":":
                return "passed" if texts[1].endswith("Builder") else "class"
        if word == "with" and kinds[1] == "Word" and texts[1:3] == ["when", "("] and texts[-2:] == [")", ":"]:
            if len(line) > 5 and set(kinds[3:-2]) == {"Text"}:
                return "with"
        return "other"
    if set(kinds) == {"Text"} or word in ("import", "from") or kinds[0] == "@" or (word == "pass" and len(line) == 1):
        return "passed"
    if word and len(line) > 1 and texts[1] == "=":
        return "passed"
    if behind_brackets(line, 1) == len(line):
        return "passed" if word in PASSED else "call" if word in DIRECTIVES else "other"
    return "other"


def reading(data):
    tokens = recipe_tokens.reading(data)
    if "@" not in tokens:
        return tokens
    reader = Reader(data, tokens)
    try:
        reader.file()
    except Fault as fault:
        return str(fault)
    return " ".join(reader.items) or "none"


# ---- texts

HEADS = ["def f(self):", "class XBuilder(Builder):", "if x:", "for v in a:", "class Y:", "with open('x') as f:", "try:", "@a:", "x = lambda y:"]
LINES = ["version('1.0')", "version('1.0', sha256='ab', url=f(1)[2])", "depends_on(\n  'a',\n  type=('build', 'run'),\n)", "variant('v', default=True)",
         "conflicts('+a')", "requires('%gcc', '%clang', policy='one_of')", "provides('mpi@3')", "pass", "x = 1", "x == 1", "'doc'", "'''doc\n'''  'more'", "import os",
         "from a import (b,\n c)", "@run_after('x')", "license('MIT')", "maintainers('a')", "patch('a' + b)", "resource(name='r')", "filter_compiler_wrappers('a')",
         "def f(self): return 1", "", "# comment", "x.y = 2", "return 1", "f('a')", "version", "version('1')('2')", "version('1') + x", "class X: pass", "with when('+a'): pass"]
RIGHT = 21
CLASSES = ["class X(Package):", "class X:", "class X(a.B, C(d)[1]):"]
WITHS = ["with when('+a'):", "with when('+a' r\"@1:\"):", "with when(\n'x'):"]
WRONG = ["with when(a):", "with when('+a', '+b'):", "with when():", "with x('+a'):", "class X(A)(B):", "class (A):", "with when('+a') as b:", "while x:"]
DAMAGE = ["(", ")", ":", "=", "'", "\n", " ", "pass", "class ", "version", "with when('a'):\n", ".", "@", "[", "]", ";", "Builder"]


def block(draw, depth, room, lines):
    out = []
    for _ in range(draw.randint(1, 4)):
        indent, chance = " " * depth, draw.random()
        if room and chance < 0.25:
            out += [indent + draw.choice(WITHS)] + block(draw, depth + draw.choice([1, 4, 4]), room - 1, lines)
        elif room and chance < 0.35:
            out += [indent + draw.choice(HEADS[:2])] + block(draw, depth + 4, room - 1, LINES)
        elif room and chance < 0.37:
            out += [indent + draw.choice(WRONG + HEADS)] + block(draw, depth + 4, room - 1, lines)
        else:
            out.append(indent + draw.choice(lines if draw.random() < 0.97 else LINES))
    return out + [" " * depth + "pass"]


def made(draw):
    out = [draw.choice(["import os", "# comment", "'''doc'''", "x = 1", "license('MIT')", "version('1')" if draw.random() < 0.1 else ""]) for _ in range(draw.randint(0, 3))]
    for _ in range(draw.choice([0, 1, 1, 1, 1, 1, 1, 1, 1, 2])):
        out += [draw.choice(CLASSES)] + block(draw, 4, draw.choice([1, 2, 4]), LINES[:RIGHT] + [""])
        if draw.random() < 0.3:
            out += [draw.choice(HEADS[:2])] + block(draw, 4, 2, LINES)
    if draw.random() < 0.03:
        out += ["class D:"] + [" " * (n + 1) + "with when('+a'):" for n in range(draw.choice([15, 16, 17]))] + [" " * 19 + "version('1')"]
    text = "\n".join(out) + draw.choice(["\n", ""])
    for _ in range(draw.choice([0, 0, 0, 1, 2])):
        at = draw.randint(0, len(text))
        text = text[:at] + draw.choice(DAMAGE) + text[at + draw.choice([0, 0, 1]) :]
    return text.encode()


def main():
    count = int(sys.argv[1]) if len(sys.argv) > 1 else 3000
    draw = random.Random(int(sys.argv[2]) if len(sys.argv) > 2 else 1)
    texts = [made(draw) for _ in range(count)]
    tally, apart = {}, 0
    for data, answer in zip(texts, asked("items", texts), strict=True):
        second = reading(data)
        kind = "items" if "@" in second or second == "none" else second.split()[0]
        tally[kind] = tally.get(kind, 0) + 1
        if answer != second:
            apart += 1
            print("%r\n  program %s\n  reading %s" % (data, answer, second))
    print("texts %d (%s), apart from the reading %d" % (count, ", ".join("%s %d" % item for item in sorted(tally.items())), apart))
    print("rows %d, apart from the reading %d" % rows("items.txt", reading))


if __name__ == "__main__":
    main()
