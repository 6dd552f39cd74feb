#!/usr/bin/env python3
"""Compares the arguments of texts in brackets with a second reading, written apart from the program: by recursive descent from the left.

    bench/recipe_values.py [COUNT [SEED]]      COUNT texts are made (3,000 where it is not written)

The program is `recipe_rows`, which prints the arguments; it is built where that is needed. The tokens are those of `recipe_tokens.reading`.
The rows of `crates/recipe_rows/data/values.txt` are compared with the second reading too.
"""
import random
import re
import sys

import recipe_tokens
from recipe_tokens import asked, rows

PARTNER = {"(": ")", "[": "]", "{": "}"}
ESCAPES = {"\\": "\\", '"': '"', "'": "'", "n": "\n", "t": "\t", "\n": ""}


class Fault(Exception):
    pass


def decoded(start, token):
    prefix = re.match("[A-Za-z]*", token).group()
    if prefix not in ("", "r"):
        raise Fault(start)
    marks = 3 if token[len(prefix) :][:3] in ("'''", '"""') else 1
    inside = token[len(prefix) + marks : len(token) - marks]
    if prefix:
        return inside
    out, at = "", 0
    while at < len(inside):
        if inside[at] != "\\":
            out += inside[at]
            at += 1
            continue
        if inside[at + 1] not in ESCAPES:
            raise Fault(start + marks + len(inside[:at].encode()))
        out += ESCAPES[inside[at + 1]]
        at += 2
    return out


def partner(tokens):
    """Where the bracket at the front is closed."""
    depth = 0
    for at, token in enumerate(tokens):
        depth += (token[0] in PARTNER) - (token[0] in PARTNER.values())
        if depth == 0:
            return at


def parts(tokens, stop):
    """What stands between commas, with the place behind each; a comma may stand last."""
    out, part, depth = [], [], 0
    for token in tokens:
        if token[0] == "," and depth == 0:
            out.append((part, token[1]))
            part = []
            continue
        depth += (token[0] in PARTNER) - (token[0] in PARTNER.values())
        part.append(token)
    return out + [(part, stop)] if part else out


def value(tokens, stop):
    """A value, its first byte, and that of its first token that is no bracket around it."""
    if not tokens:
        raise Fault(stop)
    kind, start, text = tokens[0]
    count = 1
    if kind == "Text":
        while count < len(tokens) and tokens[count][0] == "Text":
            count += 1
        read = "".join([decoded(t[1], t[2]) for t in tokens[:count]]), start, start
    elif kind == "Word" and (text in ("True", "False", "None") or re.fullmatch("[0-9]+", text)):
        read = (text,), start, start
    elif kind in "([":
        count = partner(tokens) + 1
        inside = parts(tokens[1 : count - 1], tokens[count - 1][1])
        if kind == "(" and len(inside) == 1 and tokens[count - 2][0] != ",":
            within = value(*inside[0])
            read = within[0], start, within[2]
        else:
            read = [value(*part) for part in inside], start, start
    else:
        raise Fault(start)
    if count < len(tokens):
        raise Fault(start)
    return read


def scalar(read):
    if isinstance(read, list):
        return "Nested"
    if isinstance(read, tuple):
        return read[0]
    return '"%s"' % read.replace("\\", "\\\\").replace("\n", "\\n").replace("\t", "\\t").replace(" ", "\\s")


def shown(tokens, stop):
    try:
        read, place, token = value(tokens, stop)
    except Fault as fault:
        return "Unsupported@%d" % fault.args[0]
    text = scalar(read)
    if isinstance(read, list):
        text = "[ %s]" % "".join("%s@%d " % (scalar(member[0]), member[1]) for member in read)
    return text + ("@%d" % place if place == token else "@%d/%d" % (place, token))


def argument(tokens, stop):
    kinds = [token[0] for token in tokens[:3]]
    if kinds[:2] == ["Word", "="] and kinds[2:] != ["="]:
        return "%s@%d=%s" % (tokens[0][2], tokens[0][1], shown(tokens[2:], stop))
    return shown(tokens, stop)


def reading(data):
    tokens = recipe_tokens.reading(data)
    if "@" not in tokens:
        return tokens
    found = []
    for token in tokens.split():
        kind, _, places = token.rpartition("@")
        start, end = map(int, places.split("-"))
        found.append((kind, start, data[start:end].decode()))
    if len(found) < 4:
        return "none"
    return " ".join(argument(*part) for part in parts(found[1:-3], found[-3][1])) or "none"


# ---- texts

STRINGS = ["'a'", '"b c"', "r'\\d'", "'\\n'", "'\\\\'", "'a\\\nb'", "'''x\ny'''", '""', "'é'", "r\"\"\"'\\\n\"\"\""]
WORDS = ["True", "False", "None", "0", "007", "12"]
WRONG = ["x", "1_0", "R'a'", "f'{x}'", "b''", "u'a'", "'\\x41'", "'ab\\q'", "'''é\\é'''", "none", "-1", "1.5", "f(1)", "{}", "{'a': 1}", "*a", "...", "x.y"]
BEHIND = [" + 'b'", " 1", " 'b'", ".x", "[0]", "('a')", " % y", " == 1", " if x else 1", ": 1", " for x in y", "=1"]
FRONTS = ["when=", "type = ", "x==", "y= =", "z.a=", "'k'=", "=", "é=", "1="]
SPACE = ["", "", "", " ", "\n", " # c\n ", "\\\n"]


def expression(draw, depth):
    chance = draw.random()
    if chance < 0.1:
        text = draw.choice(WRONG)
    elif chance < 0.45:
        text = draw.choice(["", " ", "\n"]).join(draw.choice(STRINGS) for _ in range(draw.choice([1, 1, 1, 2, 3])))
    elif chance < 0.6 or depth == 0:
        text = draw.choice(WORDS)
    else:
        left, right = draw.choice(["()", "()", "[]", "[]", "()", "{}" if draw.random() < 0.2 else "[]"])
        text = left + items(draw, depth - 1, False) + right
    return text + (draw.choice(BEHIND) if draw.random() < 0.06 else "")


def items(draw, depth, outer):
    out = []
    for _ in range(draw.choice([0, 1, 1, 1, 2, 3, 4] if depth else [0, 1, 1, 2])):
        front = draw.choice(FRONTS) if draw.random() < (0.4 if outer else 0.02) else ""
        one = "" if draw.random() < 0.03 else expression(draw, depth)
        out.append(draw.choice(SPACE) + front + one + draw.choice(SPACE))
    return ",".join(out) + (draw.choice([",", ", ", ",,"]) if draw.random() < 0.2 else "")


def made(draw):
    return ("(" + items(draw, draw.choice([1, 2, 3, 5]), True) + ")").encode()


def main():
    count = int(sys.argv[1]) if len(sys.argv) > 1 else 3000
    draw = random.Random(int(sys.argv[2]) if len(sys.argv) > 2 else 1)
    texts = [made(draw) for _ in range(count)]
    arguments, faults, apart = 0, 0, 0
    for data, answer in zip(texts, asked("values", texts), strict=True):
        second = reading(data)
        arguments += second.count("@")
        faults += second.count("Unsupported")
        if answer.split() != second.split():
            apart += 1
            print("%r\n  program %s\n  reading %s" % (data, answer, second))
    print("texts %d, values %d, faults %d, apart from the reading %d" % (count, arguments - faults, faults, apart))
    print("rows %d, apart from the reading %d" % rows("values.txt", reading))


if __name__ == "__main__":
    main()
