"""What a run says on standard output as data: nodes, the vector, the words of an answer (docs/formats/texts.md)."""
import re
from typing import Any, Optional

from . import criteria
from .fault_lines import ANSWERS

NAMES = {0: "Done", 1: "Unsatisfiable", 3: "Undecided", 10: "NoWords", 11: "Stale", 70: "NoProgram", **ANSWERS}
NODE = re.compile(
    r"(?P<name>\S+?)@=(?P<version>\S+)(?P<variants>(?: [^%\s]\S*)*?)(?: %(?P<compiler>\S+?)@=(?P<of>\S+))?"
    r" os=(?P<os>\S+) target=(?P<target>\S+) (?P<origin>built|external|installed)(?: (?P<behind>\S+))?"
)

HASH = re.compile(r"[a-z2-7]{32}")


def variants(text: str) -> dict[str, list[str]]:
    """The variants of a node's line."""
    found: dict[str, list[str]] = {}
    for word in text.split():
        if word[0] in "+~":
            found[word[1:]] = ["true" if word[0] == "+" else "false"]
        else:
            name, _, values = word.partition("=")
            found[name] = values.split(",")
    return found


def node(line: str) -> Optional[dict[str, Any]]:
    """A node's line as data; None where it is none. That of an installed package begins with its hash."""
    hash_of, _, behind = line.partition(" ")
    if HASH.fullmatch(hash_of) and behind.endswith(" installed"):
        return node(f"{behind} {hash_of}")
    each = NODE.fullmatch(line)
    if each is None:
        return None
    found: dict[str, Any] = {key: each[key] for key in ("name", "version", "os", "target", "origin")}
    found["variants"] = variants(each["variants"])
    found["compiler"] = {"name": each["compiler"], "version": each["of"]} if each["compiler"] else None
    if each["origin"] == "external":
        found["entry"] = int(each["behind"])
    elif each["origin"] == "installed":
        found["hash"] = each["behind"]
    return found


def costs(vector: list[int]) -> list[dict[str, Any]]:
    """The numbers of a vector that are not 0, with their words."""
    names = criteria.names()
    return [{"number": place, "value": value, "words": names[place - 1]} for place, value in enumerate(vector, start=1) if value]


def roots_said(out: str) -> list[dict[str, Any]]:
    """What `each` says of each root: a line with its number and text, and one with its answer."""
    found: list[dict[str, Any]] = []
    root: Optional[dict[str, Any]] = None
    for line in out.splitlines():
        word, _, rest = line.partition(" ")
        if word == "root":
            number, _, text = rest.partition(" ")
            root = {"number": int(number), "text": text}
        elif root is not None and word in ("vector", "unsatisfiable", "undecided"):
            if word == "vector":
                vector = criteria.read(line)
                root.update(answer="Done", vector=vector, costs=costs(vector))
            else:
                root.update({"answer": "Unsatisfiable"} if word == "unsatisfiable" else {"answer": "Undecided", "budget": int(rest)})
            found.append(root)
            root = None
    return found


def data(out: str, command: str = "") -> dict[str, Any]:
    """What stands on standard output of a command."""
    if command == "each":
        return {"roots": roots_said(out)} if out else {}
    found: dict[str, Any] = {}
    lines = out.splitlines()
    nodes = [each for each in map(node, lines) if each]
    if nodes:
        found["nodes"] = nodes
    for line in lines:
        word, _, rest = line.partition(" ")
        if word == "vector":
            found["vector"] = criteria.read(line)
            found["costs"] = costs(found["vector"])
        elif word in ("valid", "accepted", "satisfiable", "fresh", "stale") and not rest:
            found["said"] = word
        elif word == "wave":
            found.setdefault("waves", []).append(rest.split(" ")[1:])
        elif word == "chain":
            found["chain"] = rest.split()
            found.setdefault("waves", [])
        elif word == "found" and rest.isdigit():
            found["found"] = int(rest)
        elif word == "undecided":
            found["budget"] = int(rest)
        elif word == "learnt" and rest.isdigit():
            found["learnt"] = int(rest)
    return found
