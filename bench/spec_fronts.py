#!/usr/bin/env python3
"""A second, slow reading of specs, apart from the program's, and the comparison of the two.

    bench/spec_fronts.py PROGRAM [--random N] [--seed S] [--no-tables]
    bench/spec_fronts.py --show TEXT..

PROGRAM is a build of these sources, which `./spack_concretize --where` names once a call has made one.
It is run once for each text, over an empty repository, two at a time. Counts by kind of answer and each
disagreement are printed; the status is 1 where there is one. With --show the second reading's answers are printed alone.

Apart is: the right form is one regular expression over whole texts, written from the grammar; the longest front is found
by trying completions; versions are compared by keys; the fault rule is a list of patterns, one for each row of its tables.
"""
import argparse
import itertools
import os
import random
import re
import subprocess
import sys
import tempfile
from collections import Counter
from concurrent.futures import ThreadPoolExecutor

# ---- the grammar, as patterns; a run is always the longest one

WS = r"[ \t\n\r]"
NAME = r"(?:[A-Za-z0-9_][A-Za-z0-9_-]*(?![A-Za-z0-9_-]))"
VERSION = r"(?:[A-Za-z0-9_][A-Za-z0-9_.-]*(?![A-Za-z0-9_.-]))"
VALUE = r"(?:[A-Za-z0-9_+.:/-]+(?![A-Za-z0-9_+.:/-]))"
PIECE = r"(?:[A-Za-z0-9_+.:/]+)"  # of a VALUE, without `-`
ENDING = r"(?:(?![A-Za-z0-9_+.:/-]))"
TARGET = rf"(?:[A-Za-z0-9_+./-]*:[A-Za-z0-9_+./-]*{ENDING}|[A-Za-z0-9_+./-]+{ENDING})"
LAST_PIECE = rf"(?:[A-Za-z0-9_+./]*:[A-Za-z0-9_+./]*{ENDING}|[A-Za-z0-9_+./]+{ENDING})"  # a target item without `-`

HIGH = rf"(?:{VERSION}|(?![A-Za-z0-9_]))"  # the high end of a range, or none where none could begin
ITEM = rf"(?:={VERSION}|{VERSION}?:{HIGH}|{VERSION}(?!:))"
LIST = rf"(?:{ITEM}(?:,{ITEM})*)"
OWN_KEYS = r"(?:(?:platform|os|arch|target)=)"
KEY = (
    rf"(?:(?:platform|os)={VALUE}"
    rf"|arch={PIECE}-{PIECE}-{LAST_PIECE}"
    rf"|target={TARGET}(?:,{TARGET})*"
    rf"|(?!{OWN_KEYS}){NAME}={VALUE}(?:,{VALUE})*)"
)
AFTER_WHITE = r"(?:(?<=[ \t\n\r])|(?<![\s\S]))"  # white space stands before, or nothing
CONSTRAINT = rf"(?:@{LIST}|\+{NAME}|~{NAME}|{AFTER_WHITE}-{NAME}|%{NAME}(?:@{LIST})?|{AFTER_WHITE}{KEY})"
BEGINS_NAMED = rf"(?:{NAME}(?!:?=))"
NAMED = rf"(?:{BEGINS_NAMED}(?:{WS}*{CONSTRAINT})*)"
SPEC = rf"(?:{NAMED}(?:{WS}*\^{WS}*{NAMED})*)"
SPECS = re.compile(rf"{WS}*{SPEC}(?:{WS}+{SPEC})*{WS}*")


def is_right(text):
    """Whether the text has the right form; empty ranges and double settings do not matter for that."""
    return SPECS.fullmatch(text) is not None


# ---- the longest front that some right text begins with, by trying completions

SIGNS = "a1@:,=+-~%^._ /"
COMPLETIONS = (
    [""]
    + list(SIGNS)
    + [a + b for a in SIGNS for b in SIGNS]
    + ["p-o-t", "=p-o-t", "-o-t", "o-t", "h=p-o-t"]
)


KNOWN = {}


def begins_right(front):
    """Whether some text of the right form begins with the front."""
    if front not in KNOWN:
        KNOWN[front] = any(is_right(front + rest) for rest in COMPLETIONS)
    return KNOWN[front]


def longest_front(text):
    """Its length, tried from the longest for short texts, and else from the shortest up to the first that fails."""
    if len(text) <= 12:
        return max(q for q in range(len(text) + 1) if begins_right(text[:q]))
    q = 0
    while q < len(text) and begins_right(text[: q + 1]):
        q += 1
    return q


# ---- versions

SPECIAL = ["stable", "trunk", "head", "master", "main", "develop"]  # rising
STAGES = {"alpha": 0, "beta": 1, "rc": 2}


def component(piece):
    if piece in SPECIAL:
        return (2, SPECIAL.index(piece), "")
    if piece.isdigit() and len(piece) <= 18:
        return (1, int(piece), "")
    return (0, 0, piece)


def components(version):
    return [component(piece) for piece in re.findall(r"[0-9]+|[A-Za-z]+", version)]


def order_key(version):
    """Versions rise as their keys do."""
    all_of = components(version)
    if len(all_of) >= 2 and all_of[-2][2] in STAGES and all_of[-1][0] == 1:
        return (all_of[:-2], (0, STAGES[all_of[-2][2]], all_of[-1][1]), version)
    return (all_of, (1, 0, 0), version)


def is_prefix(front, whole):
    a, b = components(front), components(whole)
    return b[: len(a)] == a


def is_empty_range(item):
    if ":" not in item:
        return False
    low, high = item.split(":")
    return low != "" and high != "" and order_key(low) > order_key(high) and not is_prefix(high, low)


# ---- faults

# The forms that are refused by name, the first row first: what stands where an item is to begin.
FORMS = [
    ("Propagation", rf"\+\+|~~|--|{NAME}=="),
    ("ConcreteAssign", rf"{NAME}:="),
    ("AnyValue", rf"{NAME}=\*"),
    ("Quoted", rf"{NAME}=[\"']"),
    ("Flags", r"(?:cflags|cxxflags|fflags|cppflags|ldflags|ldlibs)="),
    ("Reference", r"/"),
    ("EdgeAttributes", r"\^\["),
]
FORMS = [(form, re.compile(pattern)) for form, pattern in FORMS]
NAMESPACE = re.compile(rf"{NAME}\.")
BLANKS = re.compile(rf"{WS}*")

# The longest item: a comma behind a value or a list's item belongs to it, and so does `@` directly behind `%c`.
A_NAME = re.compile(BEGINS_NAMED)
A_CARET = re.compile(r"\^")
ANYWHERE = [
    ("@", re.compile(rf"@(?P<list>{LIST})(?!,)")),
    ("+", re.compile(rf"[+~](?P<name>{NAME})")),
    ("%", re.compile(rf"%{NAME}(?:@(?P<list>{LIST})(?!,)|(?!@))")),
]
BEHIND_WHITE = [
    ("+", re.compile(rf"-(?P<name>{NAME})")),
    ("=", re.compile(rf"(?P<name>platform|os|arch)=(?:(?<=arch=){PIECE}-{PIECE}-{LAST_PIECE}|(?<!arch=){VALUE})(?!,)")),
    ("=", re.compile(rf"(?P<name>target)={TARGET}(?:,{TARGET})*(?!,)")),
    ("=", re.compile(rf"(?!{OWN_KEYS})(?P<name>{NAME})={VALUE}(?:,{VALUE})*(?!,)")),
]


def settings(sign, match):
    """What a constraint sets."""
    if sign == "@":
        return {"the versions"}
    if sign == "%":
        return {"the compiler"}
    name = match.group("name")
    if sign == "+" or name not in ("platform", "os", "arch", "target"):
        return {"the variant " + name}
    if name == "arch":
        return {"platform", "os", "target"}
    return {name}


def empty_range_of(match):
    """The place of the first empty range, if there is one."""
    if "list" not in match.re.groupindex or match.group("list") is None:
        return None
    place = match.start("list")
    for item in match.group("list").split(","):
        if is_empty_range(item):
            return place
        place += len(item) + 1
    return None


class Fault(Exception):
    pass


def read(text):
    """The items of a text, as pairs of a sign and a match. Else the Fault."""
    items = []
    place = BLANKS.match(text).end()
    gap = True
    needs_name = True
    taken = set()
    while place < len(text):
        may_name = needs_name or gap
        for form, pattern in FORMS:
            if pattern.match(text, place):
                raise Fault("Unsupported %d %s" % (place, form))
        if may_name and NAMESPACE.match(text, place):
            raise Fault("Unsupported %d Namespace" % place)
        rows = []
        if may_name:
            rows.append(("name", A_NAME))
        if not needs_name:
            rows.append(("^", A_CARET))
            rows += ANYWHERE
            if gap:
                rows += BEHIND_WHITE
        found = [(sign, match) for sign, match in ((sign, row.match(text, place)) for sign, row in rows) if match]
        if not found:
            raise Fault("Expected %d" % longest_front(text))
        assert len(found) == 1, (text, place, found)
        sign, match = found[0]
        empty = empty_range_of(match)
        if empty is not None:
            raise Fault("BadVersion %d" % empty)
        if sign == "name":
            taken = set()
        elif sign != "^":
            new = settings(sign, match)
            if new & taken:
                raise Fault("TwiceSet %d" % place)
            taken |= new
        items.append((sign, match))
        needs_name = sign == "^"
        blanks = BLANKS.match(text, match.end())
        gap = blanks.end() > blanks.start()
        place = blanks.end()
    if needs_name:
        raise Fault("Expected %d" % longest_front(text))
    return items


USAGE = "usage: spack_concretize COMMAND ARGUMENT..."


def wanted(text):
    """The program's line for the text as SPEC, over a repository without recipes."""
    if BLANKS.fullmatch(text):
        return USAGE
    try:
        items = read(text)
    except Fault as fault:
        return "bad input: specs: %s" % fault
    assert is_right(text), text
    signs = [sign for sign, _ in items]
    if signs.count("name") > 64:
        return "too large: roots"
    return "bad input: specs: UnknownRoot %s" % items[0][1].group()


# ---- texts

# A front, the signs behind it, and how many of them.
TABLES = [
    ("", "a1@:,=+-~%^. ", 3),
    ("a", "1@:,= ", 4),
    ("a@", "12:,= .", 4),
    ("a@", "1-_:,@a+", 3),
    ("a%c", "@1:,= %", 4),
    ("a ", "b=:,+-~", 4),
    ("a ", "b1=*\".'/", 3),
    ("a b=", "c,:+-/= ", 3),
    ("a ^", "^[b.=@ +/", 3),
    ("a", "+-~^ b", 4),
    ("a os=", "x,:-= ", 4),
    ("a target=", "x,:- ", 4),
    ("a arch=", "x-:,", 5),
    ("a arch=p-o", "-:,x +", 4),
    ("a os=x arch=p-o-", "t:, -", 3),
    ("a cflags", "=:*\" ", 3),
    ("a@2:1", ",:@ 1.+", 3),
    ("a +b", "~+-b= ", 3),
]


def tables():
    for front, signs, count in TABLES:
        for length in range(count + 1):
            for rest in itertools.product(signs, repeat=length):
                yield front + "".join(rest)


NAMES = ["a", "b", "zlib", "py-numpy", "_x", "1x", "os", "cflags", "arch", "m"]
VERSIONS = ["1", "2", "1.2", "1.10", "2.1-rc1", "develop", "main", "1.0-alpha2", "01", "a", "_", "1_2", "9999999999999999999"]
VALUES = ["x", "True", "a/b.c", "x+y", "a:b", ":", "p-o-t", "1.2", "-", "false"]


class Maker:
    """Right texts, but for empty ranges and double settings, by chance."""

    def __init__(self, seed):
        self.chance = random.Random(seed)

    def one(self, texts):
        return self.chance.choice(texts)

    def white(self, least=0):
        return "".join(self.one(" " * 8 + "\t\n\r ") for _ in range(self.one([least, least, 1, 1, 1, 2])))

    def item(self):
        kind = self.one("=v:::")
        if kind == "=":
            return "=" + self.one(VERSIONS)
        if kind == "v":
            return self.one(VERSIONS)
        return self.one(VERSIONS + [""] * 4) + ":" + self.one(VERSIONS + [""] * 4)

    def versions(self):
        return "@" + ",".join(self.item() for _ in range(self.one([1, 1, 1, 2, 3])))

    def constraint(self):
        kind = self.one("@@+~-%c=kkta")
        name = self.one(NAMES)
        if kind == "@":
            return self.white() + self.versions()
        if kind in "+~":
            return self.white() + kind + name
        if kind == "-":
            return self.white(1) + "-" + name
        if kind == "%":
            return self.white() + "%" + name
        if kind == "c":
            return self.white() + "%" + name + self.versions()
        if kind == "k":
            return self.white(1) + self.one(["os=", "platform="]) + self.one(VALUES)
        if kind == "t":
            target = ["x86_64", "x86_64:", ":zen3", "a:b", ":", "t-u"]
            return self.white(1) + "target=" + ",".join(self.one(target) for _ in range(self.one([1, 1, 2, 3])))
        if kind == "a":
            return self.white(1) + "arch=" + self.one(["p-o-t", "linux-ubuntu22.04-x86_64:", "p-o-:", "a-b-c:d"])
        key = self.one([n for n in NAMES if n not in ("os", "arch", "cflags")])
        return self.white(1) + key + "=" + ",".join(self.one(VALUES) for _ in range(self.one([1, 1, 2, 3])))

    def named(self):
        return self.one(NAMES) + "".join(self.constraint() for _ in range(self.one([0, 1, 1, 2, 2, 3, 4])))

    def spec(self):
        text = self.named()
        for _ in range(self.one([0, 0, 0, 1, 1, 2])):
            text += self.white() + "^" + self.white() + self.named()
        return text

    def specs(self):
        text = self.one(["", "", " "]) + self.spec()
        for _ in range(self.one([0, 0, 0, 0, 1, 2])):
            text += self.white(1) + self.spec()
        return text + self.one(["", "", " "])

    def damaged(self):
        text = self.specs()
        for _ in range(self.one([0, 1, 1, 1, 2, 2])):
            at = self.chance.randrange(len(text) + 1)
            kind = self.one("drop double replace put".split())
            sign = self.one(SIGNS + "*\"'[/é!")
            if kind == "drop":
                text = text[:at] + text[at + 1 :]
            elif kind == "double":
                text = text[: at + 1] + text[at : at + 1] + text[at + 1 :]
            elif kind == "replace":
                text = text[:at] + sign + text[at + 1 :]
            else:
                text = text[:at] + sign + text[at:]
        return text


def texts(count, seed, with_tables):
    seen = set()
    for text in tables() if with_tables else ():
        if text not in seen:
            seen.add(text)
            yield text
    maker = Maker(seed)
    for _ in range(count):
        text = maker.damaged()
        if text not in seen:
            seen.add(text)
            yield text


# ---- the comparison


def in_bytes(line, text):
    """Places count bytes: the same line with the places of a text that has longer signs."""
    match = re.fullmatch(r"(bad input: specs: \S+ )(\d+)(.*)", line)
    if match is None or "UnknownRoot" in line:
        return line
    return match.group(1) + str(len(text[: int(match.group(2))].encode())) + match.group(3)


def kind_of(line):
    for form in [form for form, _ in FORMS] + ["Namespace"]:
        if line.endswith(" " + form):
            return "Unsupported " + form
    match = re.match(r"bad input: specs: (\w+)", line)
    return match.group(1) if match else line


def main():
    parser = argparse.ArgumentParser(description=__doc__.split("\n")[0])
    parser.add_argument("program", nargs="?")
    parser.add_argument("--random", type=int, default=12000, help="how many texts by chance")
    parser.add_argument("--seed", type=int, default=1)
    parser.add_argument("--no-tables", action="store_true", help="only the texts by chance")
    parser.add_argument("--show", nargs="*", help="texts whose answers are printed alone")
    options = parser.parse_args()
    if options.show is not None:
        for text in options.show:
            print("%r: %s" % (text, in_bytes(wanted(text), text)))
        return 0
    if options.program is None:
        parser.error("the program's path is missing")
    program = os.path.abspath(options.program)
    with tempfile.TemporaryDirectory() as work:
        os.makedirs(os.path.join(work, "r", "packages"))

        def compare(text):
            words = [program, "concretize", "r", "-", "-", "l", "-", text]
            run = subprocess.run(words, cwd=work, stdin=subprocess.DEVNULL, capture_output=True)
            got = (run.stderr.decode("utf-8", "replace") + run.stdout.decode("utf-8", "replace")).rstrip("\n")
            return text, in_bytes(wanted(text), text), got

        counts = Counter()
        wrong = 0
        with ThreadPoolExecutor(2) as pool:
            for text, line, got in pool.map(compare, texts(options.random, options.seed, not options.no_tables)):
                counts[kind_of(line)] += 1
                if line != got:
                    wrong += 1
                    print("%r: the second reading says %r, the program %r" % (text, line, got))
    for kind, count in sorted(counts.items()):
        print("%7d %s" % (count, kind))
    print("%7d texts, %d disagreements" % (sum(counts.values()), wrong))
    return 1 if wrong else 0


if __name__ == "__main__":
    sys.exit(main())
