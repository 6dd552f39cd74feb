#!/usr/bin/env python3
"""Compares the tokens of recipes with two other readings: one written apart from it, below, and Python's own `tokenize`.

    bench/recipe_tokens.py [COUNT [SEED]]      COUNT texts are made (3,000 where it is not written)

The program is `recipe_rows`, which prints the tokens of files; it is built where that is needed. The second reading
(`reading`) has the whole profile. `tokenize` is asked where the profile agrees with it: not for texts with a fault, since
Python's faults are others; nor where the text has a string prefix that Python does not know, bytes from 128 up in words that
are no Python names, or signs that Python does not have. Numbers and signs of several bytes, which Python takes as one token,
are cut as the profile cuts them, and numbers with a name directly behind them are one word. An indentation that is deeper without a `:`, and a tab in an indentation, are faults of the
profile alone; a line that starts with a joined line end, one with nothing or a comment behind the last join, and a last line of
white space alone are read otherwise.
The rows of `crates/recipe_rows/data/tokens.txt` are compared with the second reading too.
"""
import io
import os
import random
import re
import subprocess
import sys
import tempfile
import tokenize

TOP = os.path.dirname(os.path.dirname(os.path.abspath(__file__)))
CLOSING = {"(": ")", "[": "]", "{": "}"}

PIECE = re.compile(
    rb"""(?P<white>[ \t\r\f]+) | (?P<comment>\#[^\n]*) | (?P<join>\\\n) | (?P<end>\n)
    | (?P<text>[rbfuRBFU]{0,2} (?: '''(?:[^\\]|\\.)*?''' | \"\"\"(?:[^\\]|\\.)*?\"\"\"
        | '(?!'')(?:[^\\'\n]|\\.)*' | "(?!"")(?:[^\\"\n]|\\.)*" ))
    | (?P<unclosed>[rbfuRBFU]{0,2}(?=['"])) | (?P<word>[A-Za-z0-9_\x80-\xff]+) | (?P<sign>.)""",
    re.X | re.S,
)


class Fault(Exception):
    pass


def lines_of(data):
    """Lists of pieces, one for each line that has a token: its indentation and its tokens."""
    place, line, waiting, start = 0, None, [], 0
    while place < len(data):
        found = PIECE.match(data, place)
        kind, end = found.lastgroup, found.end()
        if kind in ("text", "unclosed", "word", "sign") and line is None:
            line = []
            yield "begin", start, place
        if kind == "unclosed":
            raise Fault("OpenString %d" % end)
        if kind == "sign":
            sign = chr(data[place])
            if sign in CLOSING:
                waiting.append((CLOSING[sign], place))
            elif sign in ")]}":
                if not waiting or waiting.pop()[0] != sign:
                    raise Fault("OpenBracket %d" % place)
            yield sign if sign.isprintable() and sign.isascii() and sign != " " else "Op%d" % data[place], place, end
        elif kind in ("text", "word"):
            yield kind.capitalize(), place, end
        elif kind == "end" and not waiting:
            if line is not None:
                yield "NewLine", place, end
            line, start = None, end
        place = end
    if waiting:
        raise Fault("OpenBracket %d" % waiting[-1][1])
    if line is not None:
        yield "NewLine", place, place


def reading(data):
    try:
        data.decode()
    except UnicodeDecodeError:
        return "NotUtf8"
    out, blocks, last = [], [0], ""
    try:
        for kind, start, end in lines_of(data):
            if kind != "begin":
                out.append((kind, start, end))
                last = kind if kind != "NewLine" else last
                continue
            white = re.match(rb"[ \t\r\f]*", data[start:end]).group()
            end = start + len(white)
            if b"\t" in white:
                raise Fault("BadIndent %d" % (start + white.index(b"\t")))
            depth = white.count(b" ")
            if depth > blocks[-1]:
                if last != ":":
                    raise Fault("BadIndent %d" % start)
                blocks.append(depth)
                out.append(("Indent", start, end))
            elif depth not in blocks:
                raise Fault("BadIndent %d" % start)
            while depth < blocks[-1]:
                blocks.pop()
                out.append(("Dedent", end, end))
    except Fault as fault:
        return str(fault)
    size = len(data)
    return shown(out + [("Dedent", size, size)] * (len(blocks) - 1) + [("End", size, size)])


def shown(tokens):
    return " ".join("%s@%d-%d" % token for token in tokens)


def by_tokenize(data):
    """What Python's `tokenize` gives, in the profile's tokens; None where it refuses."""
    text = data.decode()
    starts = [0]
    for line in text.split("\n"):
        starts.append(starts[-1] + len(line.encode()) + 1)
    rows = text.split("\n") + [""]

    def place(at):
        row, column = rows[at[0] - 1], at[1]
        return min(starts[at[0] - 1] + len(row[:column].encode()) + max(0, column - len(row)), len(data))

    out = []
    names = {tokenize.NAME: "Word", tokenize.STRING: "Text", tokenize.NEWLINE: "NewLine", tokenize.INDENT: "Indent",
             tokenize.DEDENT: "Dedent", tokenize.ENDMARKER: "End"}
    try:
        for token in tokenize.generate_tokens(io.StringIO(text, newline="").readline):
            if token.type in (tokenize.COMMENT, tokenize.NL):
                continue
            start, end = place(token.start), place(token.end)
            if token.type in (tokenize.NUMBER, tokenize.OP):
                for piece in PIECE.finditer(data, start, end):
                    kind = "Word" if piece.lastgroup == "word" else piece.group().decode()
                    out.append((kind, piece.start(), piece.end()))
            elif token.type in names:
                out.append((names[token.type], start, end))
            else:
                return None
    except (tokenize.TokenError, IndentationError, SyntaxError):
        return None
    joined = []
    for kind, start, end in out:
        if kind == "Word" and joined and joined[-1][0] == "Word" and joined[-1][2] == start:
            start = joined.pop()[1]
        joined.append((kind, start, end))
    return shown(joined)


# ---- texts

HEADS = ["class X(Package):", "def f(self):", "with when('+a'):", "if x:", "for v in a: # c", "else:"]
LINES = ["version('1.0')", "pass", "x = 1", "'''doc\n\n  more'''", 'r"a\\d" u"b"', "depends_on(\n  'a',\n # c\n\n)", "a == [1,\n 2.5e-3]", "f(a)  # c",
         "b'x\\\n y'", "@run_after('x')", "x = a \\\n    + b", 'f"{x}"', "x = {'a': (1, 2)}", '"\\"#"', "''", '"""a"b""c"""', "é = 'ü'", "lambda x: x",
         "", "   ", "\t", "# only a comment", "      # indented comment", "\f"]
DAMAGE = ["'", '"', "'''", "(", ")", "[", "]", "{", "}", ":", "\n", "\\", "\\\n", "#", " ", "    ", "\t", "\r", "\f", "\r\n", "é", "$", "!", "?", "a", "r", "1", "\\\r\n", "\v", "bu'x'"]


def body(draw, depth, room):
    lines = []
    for _ in range(draw.randint(1, 4)):
        indent = " " * depth
        if room and draw.random() < 0.4:
            lines.append(indent + draw.choice(HEADS))
            lines += body(draw, depth + draw.choice([1, 2, 4, 4, 4]), room - 1)
        else:
            line = draw.choice(LINES)
            lines.append(line if line.strip() == "" else indent + line)
    if not any(line.strip() and not line.strip().startswith("#") for line in lines):
        lines.append(" " * depth + "pass")
    return lines


def made(draw):
    text = "\n".join(body(draw, 0, 4)) + draw.choice(["\n", "\n", "", "\n# end", "\n\n"])
    for _ in range(draw.choice([0, 0, 1, 1, 2])):
        at = draw.randint(0, len(text))
        text = text[:at] + draw.choice(DAMAGE) + text[at + draw.choice([0, 0, 1]):]
    data = text.encode()
    if draw.random() < 0.02:
        at = draw.randint(0, len(data))
        data = data[:at] + draw.choice([b"\xff", b"\xc3", b"\xed\xa0\x80"]) + data[at:]
    return data


def for_python(data):
    """Whether Python knows all that stands in the text."""
    text = data.decode()
    if re.search(r"[$?!\v\r\f\t]|^ *\\\n|^ +\Z|\\\n *(#|\Z)", text, re.M):
        return False
    for piece in PIECE.finditer(data):
        if piece.lastgroup == "text":
            prefix = re.match(rb"[A-Za-z]*", piece.group()).group().lower()
            if prefix not in (b"", b"r", b"b", b"f", b"u", b"br", b"rb", b"fr", b"rf"):
                return False
        if piece.lastgroup == "word" and not piece.group().decode().isidentifier() and not re.fullmatch(rb"\d+|\d+[eEjJ]\d*|0[xob]\d+", piece.group()):
            return False
        if piece.lastgroup == "sign" and piece.group() == b"\\":
            return False
    return True


def program():
    """The program, built anew where a source is newer."""
    crates = os.path.join(TOP, "crates")
    built = os.path.join(crates, "recipe_rows", "out", "recipe_rows")
    sources = [os.path.join(crates, crate, "src", name) for crate in ("recipe_rows", "recipe_values", "recipe_statements", "recipe_lexer")
               for name in os.listdir(os.path.join(crates, crate, "src"))]
    if not os.path.exists(built) or os.path.getmtime(built) < max(map(os.path.getmtime, sources)):
        subprocess.run(["rt", "run"], cwd=os.path.join(crates, "recipe_rows"), capture_output=True)
    return built


def asked(word, texts):
    """What the program answers to each text."""
    answers = []
    with tempfile.TemporaryDirectory() as folder:
        paths = [os.path.join(folder, str(number)) for number in range(len(texts))]
        for path, data in zip(paths, texts):
            with open(path, "wb") as file:
                file.write(data)
        for first in range(0, len(paths), 500):
            done = subprocess.run([program(), word, *paths[first : first + 500]], capture_output=True, text=True, check=True)
            answers += [line.strip() for line in done.stdout.splitlines()]
    return answers


def rows(table, second):
    """How many rows a table has, and how many the second reading answers otherwise."""
    folder, count, apart, data = os.path.join(TOP, "crates", "recipe_rows", "data"), 0, 0, b""
    escapes = {"n": "\n", "t": "\t", "r": "\r", "f": "\f", "\\": "\\"}
    for line in open(os.path.join(folder, table), encoding="utf-8").read().split("\n"):
        word, _, rest = line.partition(" ")
        if word == "text":
            data = re.sub(r"\\(x..|.)", lambda m: escapes.get(m[1]) or chr(int(m[1][1:], 16)), rest[1:-1]).encode("latin-1")
        elif word in ("file", "want_file"):
            with open(os.path.join(folder, rest), "rb") as file:
                content = file.read()
            data, rest = (content, rest) if word == "file" else (data, " ".join(content.decode().split()))
        if word in ("want", "want_file"):
            count += 1
            apart += second(data) != rest
    return count, apart


def main():
    count = int(sys.argv[1]) if len(sys.argv) > 1 else 3000
    draw = random.Random(int(sys.argv[2]) if len(sys.argv) > 2 else 1)
    texts = [made(draw) for _ in range(count)]
    tally = {"texts": count, "with tokens": 0, "faults": 0, "apart from the reading": 0, "asked of tokenize": 0, "apart from tokenize": 0}
    for data, answer in zip(texts, asked("tokens", texts), strict=True):
        second = reading(data)
        tally["with tokens" if "@" in answer else "faults"] += 1
        if answer != second:
            tally["apart from the reading"] += 1
            print("%r\n  program %s\n  reading %s" % (data, answer, second))
        if "@" in answer and for_python(data):
            tally["asked of tokenize"] += 1
            third = by_tokenize(data)
            if answer != third:
                tally["apart from tokenize"] += 1
                print("%r\n  program  %s\n  tokenize %s" % (data, answer, third))
    print(", ".join("%s %d" % item for item in tally.items()))
    print("rows %d, apart from the reading %d" % rows("tokens.txt", reading))


if __name__ == "__main__":
    main()
