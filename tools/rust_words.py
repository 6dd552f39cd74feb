"""Sources of src/ as words: their functions, imports, types and fields, read by patterns, for `tools/recursions`."""
import re

TOKEN = re.compile(r"""(?P<skip>//[^\n]*|/\*.*?\*/|b?r\#*".*?"\#*|b?"(?:\\.|[^"\\])*"|b?'(?:\\.[^']*|[^'\\])')|(?P<life>'\w+)|(?P<word>[A-Za-z_]\w*)|(?P<sign>::|->|=>|[^\s\w])""", re.S)


class Function:
    def __init__(self, crate, file, owner, trait, name, head, words):
        self.crate, self.file, self.owner, self.trait, self.name, self.head, self.words = crate, file, owner, trait, name, head, words

    def __str__(self):
        return "%s::%s" % (self.crate, ("%s::" % self.owner if self.owner else "") + self.name)


def tokens(text):
    return [found.group() for found in TOKEN.finditer(text) if not found.group("skip") and not found.group("life")]


def closing(words, at):
    """The place of the sign that closes the one at `at`."""
    pairs = {"{": "}", "(": ")", "[": "]"}
    depth = 0
    while at < len(words):
        if words[at] in pairs:
            depth += 1
        elif words[at] in pairs.values():
            depth -= 1
            if depth == 0:
                return at
        at += 1
    return at


def over_generics(words, at):
    """The place behind `<..>` at `at`."""
    depth = 0
    while at < len(words):
        depth += {"<": 1, ">": -1}.get(words[at], 0)
        at += 1
        if depth == 0:
            return at
    return at


def body_of(words, at):
    """Where the body of a function whose head begins at `at` starts and ends: behind its clauses' braces."""
    while at < len(words) and words[at] not in ("{", ";"):
        if words[at] in ("requires", "ensures", "ghost"):
            while words[at] != "{":
                at += 1
            at = closing(words, at) + 1
        elif words[at] in ("(", "["):
            at = closing(words, at) + 1
        else:
            at += 1
    if at >= len(words) or words[at] == ";":
        return None
    return at, closing(words, at)


def impl_head(words, at):
    """Of `impl .. {` at `at`: the trait, the type, and where the brace stands."""
    at += 1
    if words[at] == "<":
        at = over_generics(words, at)
    start, trait, named = at, None, []
    while words[at] != "{":
        if words[at] == "for":
            trait, named = last_name(named), []
        elif words[at] == "<":
            at = over_generics(words, at)
            continue
        elif words[at] == "where":
            break
        else:
            named.append(words[at])
        at += 1
    while words[at] != "{":
        at += 1
    return trait, last_name(named), at


def last_name(words):
    names = [word for word in words if re.match(r"[A-Za-z_]", word) and word not in ("mut", "dyn")]
    return names[-1] if names else None


def functions(crate, file, words, start=0, end=None, owner=None, trait=None):
    end = len(words) if end is None else end
    at = start
    while at < end:
        word = words[at]
        if word in ("impl", "trait") and owner is None:
            if word == "impl":
                of, name, brace = impl_head(words, at)
            else:
                of = name = words[at + 1]
                brace = at
                while words[brace] != "{":
                    brace += 1
            close = closing(words, brace)
            yield from functions(crate, file, words, brace + 1, close, name, of)
            at = close + 1
        elif word == "fn" and at + 1 < end and re.match(r"[A-Za-z_]", words[at + 1]):
            span = body_of(words, at + 2)
            if span is None:
                at += 2
                continue
            yield Function(crate, file, owner, trait, words[at + 1], words[at + 2:span[0]], words[span[0]:span[1] + 1])
            at = span[1] + 1
        elif word in ("ghost", "requires", "ensures") and owner is not None:
            while at < end and words[at] not in (";", "{"):
                at += 1
            at = closing(words, at) + 1 if at < end and words[at] == "{" else at + 1
        else:
            at += 1


def names(words):
    return {word for word in words if re.match(r"[A-Z]", word)}


def uses(words):
    """Of a file: where each name that `use` brings in comes from, as the path's words."""
    found, at = {}, 0
    while at < len(words):
        if words[at] == "use" and (at == 0 or words[at - 1] != "ghost"):
            end = at
            while words[end] != ";":
                end += 1
            spread_use(words[at + 1:end], [], found)
            at = end
        at += 1
    return found


def spread_use(words, front, found):
    path, at = list(front), 0
    while at < len(words):
        word = words[at]
        if word == "{":
            close = closing(words, at)
            depth, start = 0, at + 1
            for place in range(at + 1, close + 1):
                if words[place] == "{":
                    depth += 1
                elif words[place] == "}" and place != close:
                    depth -= 1
                elif depth == 0 and (words[place] == "," or place == close):
                    if place > start:
                        spread_use(words[start:place], path, found)
                    start = place + 1
            return
        if word == "as":
            found[words[at + 1]] = path
            return
        if word != "::":
            path.append(word)
        at += 1
    if path:
        found[path[-1]] = path


def types(crate, file, words):
    """The structs and enums of a file with the names in their fields."""
    for at, word in enumerate(words):
        if word in ("struct", "enum") and re.match(r"[A-Z]", words[at + 1] if at + 1 < len(words) else ""):
            end = at
            while words[end] not in ("{", ";", "("):
                end += 1
            close = closing(words, end) if words[end] != ";" else end
            yield (crate, file, words[at + 1]), words[end:close]


def fields_of(words):
    """The types that stand at each field."""
    depth, at = 0, 0
    while at < len(words) - 1:
        depth += {"{": 1, "(": 1, "<": 1, "[": 1, "}": -1, ")": -1, ">": -1, "]": -1}.get(words[at], 0)
        if depth == 1 and words[at + 1] == ":" and re.match(r"[a-z_]", words[at]):
            end, inner = at + 2, 0
            while end < len(words) and not (inner == 0 and words[end] in (",", "}")):
                inner += {"(": 1, "<": 1, "[": 1, ")": -1, ">": -1, "]": -1}.get(words[end], 0)
                end += 1
            yield words[at], names(words[at + 2:end])
        at += 1


def payloads_of(words):
    """The types that each variant of an enum holds."""
    for at, word in enumerate(words[:-1]):
        if re.match(r"[A-Z]", word) and words[at + 1] == "(" and words[at - 1] in ("{", ",", "]"):
            yield word, names(words[at + 2:closing(words, at + 1)])
