"""Which functions a body may mean, by the names in it, for `tools/recursions`: one too many rather than one too few."""
import os
import re

from rust_words import closing, names

# Methods of std that a value of unknown type is taken to mean.
COMMON = frozenset("as_slice as_str clone cmp get is_empty iter len list pop push put read_at clear contains remove swap insert name add "
                   "take hash file find eq ne next extend".split())


def bounds(words):
    """Of a head or a body: the traits that stand behind a type parameter's colon, by the parameter."""
    found = {}
    for at, word in enumerate(words[:-1]):
        if re.match(r"[A-Z]", word) and words[at + 1] == ":":
            end = at + 2
            while end < len(words) and words[end] not in (",", ">", "{", "("):
                end += 1
            found.setdefault(word, set()).update(names(words[at + 2:end]))
    return found


def locals_of(function):
    """The names that a function binds, each with the types that are written at it (None where none is)."""
    found, words = {}, function.head
    depth = 0
    for at, word in enumerate(words[:-1]):
        depth += {"(": 1, ")": -1}.get(word, 0)
        if depth == 1 and words[at + 1] == ":" and words[at - 1] in ("(", ",", "mut") and re.match(r"[a-z_]", word):
            end, inner = at + 2, 0
            while end < len(words) and not (inner == 0 and words[end] in (",", ")")):
                inner += {"(": 1, "<": 1, "[": 1, ")": -1, ">": -1, "]": -1}.get(words[end], 0)
                end += 1
            found[word] = names(words[at + 2:end])
    words = function.words
    for at, word in enumerate(words):
        if word == "let":
            end = at + 1
            while end < len(words) and words[end] not in ("=", ";"):
                end += 1
            bound = [name for name in words[at + 1:end] if re.match(r"[a-z_]", name) and name not in ("mut", "ref")]
            value = end + 1
            typed = words[end + 1:end + 2]
            for name in bound:
                found[name] = {typed[0]} if typed and re.match(r"[A-Z]", typed[0]) and words[end + 2:end + 3] == ["::"] and len(bound) == 1 else None
        elif word == "|":
            end = at + 1
            while end < len(words) and words[end] != "|" and end < at + 30:
                end += 1
            for name in words[at + 1:end]:
                if re.match(r"[a-z_]", name) and name not in ("mut", "ref"):
                    found.setdefault(name, None)
        elif word == "for":
            end = at + 1
            while end < len(words) and words[end] != "in":
                end += 1
            for name in words[at + 1:end]:
                if re.match(r"[a-z_]", name):
                    found.setdefault(name, None)
    return found


def patterns(words, payloads, found):
    """Adds the names that patterns `Variant(a, b)` bind in a body, with the types that the variant holds."""
    for at, word in enumerate(words[:-1]):
        if not re.match(r"[A-Z]", word) or words[at + 1] != "(":
            continue
        close = closing(words, at + 1)
        inner = words[at + 2:close]
        if any(sign in inner for sign in (".", "?", "{", "+", "-")):
            continue
        after = words[close + 1] if close + 1 < len(words) else ""
        if after in ("=>", "=", "|", "if", ")", ","):
            for name in inner:
                if re.match(r"[a-z_]", name) and name not in ("mut", "ref"):
                    found.setdefault(name, payloads.get(word))


def receiver(words, at):
    """The names that lead to the dot at `at`, as [`self`, `field`]; None where a call or a bracket stands among them."""
    chain = []
    while at > 0 and words[at] == ".":
        before = words[at - 1]
        if before == "?" or not re.match(r"[A-Za-z_]", before):
            return None
        chain.insert(0, before)
        at -= 2
    return chain


def names_in(function, bound):
    """The names that a body mentions: (before, name, receiver)."""
    words = function.words
    for at, word in enumerate(words):
        if not re.match(r"[A-Za-z_]", word):
            continue
        before = words[at - 1] if at else ""
        after = words[at + 1] if at + 1 < len(words) else ""
        if before == ".":
            if after in ("(", "::"):
                yield ".", word, receiver(words, at - 1)
        elif before == "::":
            owner = words[at - 2] if words[at - 2] != ">" else "."
            yield owner, word, None
        elif after == "(" and word not in bound:
            yield "", word, None
        elif before in ("(", ",") and after in (")", ",") and word not in bound:
            yield "", word, None


def module(file):
    return os.path.basename(file)[:-3]


def below(direct, crate, seen):
    for name in direct[crate]:
        if name not in seen:
            seen.add(name)
            below(direct, name, seen)
    return seen


def edges(all_functions, direct, used, fields, payloads):
    by_name = {}
    for function in all_functions:
        by_name.setdefault(function.name, []).append(function)
    under = {crate: below(direct, crate, set()) | {crate} for crate in direct}
    graph = {}
    for function in all_functions:
        bound = locals_of(function)
        patterns(function.words, payloads, bound)
        traits = bounds(function.head)
        meant = set()
        for before, name, chain in names_in(function, bound):
            others = by_name.get(name, ())
            if before == "":
                meant.update(plain(function, name, others, used, under))
            elif before == ".":
                of = types_of(function, chain, bound, fields, traits)
                meant.update(other for other in others if fits(function, other, of, under))
            elif before[0].isupper():
                owner = function.owner if before == "Self" else before
                of = {owner} | traits.get(owner, set()) - {None}
                meant.update(other for other in others if fits(function, other, of, under))
            else:
                meant.update(other for other in others if other.owner is None and other.crate in under[function.crate]
                             and before in (module(other.file), other.crate, "crate", "super", "self"))
        graph[function] = meant
    return graph


def plain(function, name, others, used, under):
    """The functions that a name without a path may mean."""
    here = [other for other in others if other.owner is None and other.file == function.file]
    path = used[function.file].get(name)
    if here or path is None:
        return here
    if path[0] in ("crate", "super", "self"):
        return [other for other in others if other.owner is None and other.crate == function.crate]
    return [other for other in others if other.owner is None and other.crate in under.get(path[0], ())]


def types_of(function, chain, bound, fields, traits):
    """The types that a receiver may have; None where nothing is known of it."""
    if not chain:
        return None
    first = chain[0]
    if first == "self":
        of = {function.owner, function.trait} - {None}
    elif first in bound:
        of = bound[first]
    elif first[0].isupper():
        of = {first}
    else:
        return None
    for field in chain[1:]:
        if of is None:
            return None
        reached = set()
        for name in of:
            reached |= fields.get((name, field), set())
        of = reached or None
    if of is None:
        return None
    for name in list(of):
        of = of | traits.get(name, set())
    return of


def fits(function, other, of, under):
    """Whether a method may be meant: its type or its trait is among these, or nothing is known and it is in reach."""
    if other.owner is None:
        return False
    if of is None:
        return other.crate in under[function.crate] and other.name not in COMMON
    return other.owner in of and other.crate in under[function.crate] or other.trait in of
