"""Places of faults in the files of a run: recipes, settings, databases, lock files, certificates, and the specs themselves.

Looks at the files as they stand now; where one was changed since, a place may lead elsewhere.
"""
import re
from dataclasses import dataclass, field, replace
from pathlib import Path
from typing import Optional

from . import json_places, spec_faults, spec_parts
from .fault_lines import Fault
from .recipe_rows import read
from .shown import Place, place_at, shown

# What each command takes, in order; SPEC is all that is left.
TAKES = {
    "concretize": ("repo", "settings", "database", "lock", "cert"),
    "judge": ("repo", "settings", "database", "lock"),
    "check": ("repo", "settings", "database", "lock", "cert"),
    "fresh": ("repo", "settings", "database", "lock"),
    "refute": ("repo", "settings", "database", "cert"),
    "explain": ("repo", "settings", "database"),
    "reasons": ("repo", "settings", "database"),
    "find": ("repo", "settings", "database"),
    "plan": ("repo", "settings", "database", "lock"),
    "each": ("repo", "settings", "database", "folder"),
    "check_each": ("repo", "settings", "database", "folder"),
}


@dataclass
class Words:
    """The words of a run by their names; empty where they are not known."""

    command: str = ""
    repo: str = ""
    settings: str = ""
    database: str = ""
    lock: str = ""
    cert: str = ""
    folder: str = ""
    specs: str = ""


def words_of(words: list[str]) -> Words:
    """The words of a run."""
    found = Words(words[0] if words else "")
    names = TAKES.get(found.command, ())
    for name, word in zip(names, words[1:]):
        setattr(found, name, word)
    if names:
        found.specs = " ".join(words[1 + len(names) :])
    return found


def words_of_root(words: Words, number: int) -> Words:
    """The words as those of a run for one root alone, which has its files in the folder."""
    specs = spec_parts.parts(words.specs)[number : number + 1]
    lock, cert = (f"{words.folder}/{number}.{ending}" for ending in ("lock", "cert"))
    return replace(words, lock=lock, cert=cert, specs=spec_parts.text_of(specs[0]) if specs else words.specs)


@dataclass
class Told:
    """What is said of a refusal: a place where there is one, and sentences."""

    place: Optional[Place] = None
    sentences: list[str] = field(default_factory=list)

    def lines(self) -> list[str]:
        """All of it, for a person."""
        return (self.place.lines() if self.place else []) + [f"  {each}" for each in self.sentences]


def bytes_of(path: str) -> bytes:
    """The bytes of a file; none where it cannot be read."""
    try:
        return Path(path).read_bytes()
    except OSError:
        return b""


STATEMENTS = {
    "if": "`if` is not in the profile: write the condition as `when=`", "for": "loops are not in the profile: write each directive",
    "extends": "`extends` is not in the profile: write `depends_on`", "with": "only `with when(\"..\")` is in the profile",
    "build_system": "`build_system` is not in the profile: write a variant of that name", "try": "`try` is not in the profile",
}


# What a second value of a directive means in Spack.
SECOND = {"variant": "default", "depends_on": "when", "conflicts": "when", "provides": "when", "requires": "when"}


def unsupported(place: Place) -> str:
    """What stands at a place of a recipe that is not in the profile, in words."""
    rest = place.text[place.column - 1 :]
    word = rest.replace("(", " ").replace(":", " ").split(" ")[0]
    directive = re.match(r"\s*(\w+)\(.*,\s*$", place.text[: place.column - 1])
    if directive and directive[1] in SECOND:
        value = re.match(r"[^,)]*", rest)
        text = f"{SECOND[directive[1]]}={value.group().strip() if value else ''}"
        return f"a value behind the first is written with its keyword: `{shown(text, 60)}`"
    return STATEMENTS.get(word, f"`{shown(rest.strip(), 60)}` is not in the profile: docs/formats/recipes.md")


def recipe(fault: Fault, words: Words) -> Told:
    """A fault of a recipe."""
    told = Told()
    path = f"{words.repo}/packages/{fault.package}/package.py"
    data, rest = bytes_of(path), fault.words[1:] if fault.name() == "Lex" else fault.words
    offset = next((int(word) for word in rest[1:] if word.isdigit()), None)
    if data and offset is not None:
        told.place = place_at(path, data, offset)
    elif data and rest[0] == "NotUtf8":
        told.place = place_at(path, data, json_places.why_no_json(data)[0])
    if told.place and rest[0] == "Unsupported":
        told.sentences.append(unsupported(told.place))
    if told.place and rest[0] == "Spec" and len(rest) > 3:
        told.sentences += spec_sentences(path, told.place, rest[2:])
    if rest[0] in ("Unsupported", "NoClass", "TwoClasses", "BadArgument", "Spec"):
        out = f"site_tools/import_repo {shown(words.repo or 'REPO')} OUT"
        told.sentences.append(f"if these are Spack's own recipes: `{out}` makes recipes of this profile, and OUT is the REPO then")
    return told


def spec_sentences(path: str, place: Place, inner: list[str]) -> list[str]:
    """What is wrong in the text of a spec inside a recipe, whose first string begins at the place."""
    rows = [row for row in read(Path(path).parent.parent.parent, Path(path).parent.name) if row.line <= place.line][-1:]
    begun = place.text[place.column - 1 :].lstrip("rR").lstrip("'\"")
    texts = [text for row in rows for text in (*row.values, *row.keywords.values(), *row.conditions) if isinstance(text, str)]
    texts = sorted((text for text in texts if text and begun.startswith(text[:20])), key=len)
    if not texts or not inner[1:2] or not inner[1].isdigit():
        return []
    found = spec_faults.words_of(texts[-1], int(inner[1]), inner)
    return [f"in `{shown(texts[-1])}`: {found}"] if found else []


def json_file(fault: Fault, path: str) -> Told:
    """A fault of a JSON file: its place by pointer, or why it is no JSON."""
    data = bytes_of(path)
    if not data:
        return Told()
    if fault.name() == "NotJson":
        offset, why = json_places.why_no_json(data)
        return Told(place_at(path, data, offset), [why])
    name = fault.name()
    pointer = fault.fields()[0] if name == "Spec" else fault.rest(1)
    if name == "Targets":
        pointer = f"/targets/{fault.words[2]}" if len(fault.words) > 2 else "/targets"
    text = data.decode("utf-8", "replace")
    found = json_places.find(text, pointer, is_key=name == "UnknownKey")
    if found is None:
        return Told()
    if name == "UnknownKey" and not found.is_there:
        return Told()  # the line of the key goes on elsewhere
    told = Told(place_at(path, data, len(text[: found.offset].encode())))
    if not found.is_there:
        told.sentences.append(f"the key `{shown(found.key)}` is missing here")
    return told
