"""The structs and enums of src/ with what they hold: read from the text, for `tools/headline`."""
import re
from functools import lru_cache
from pathlib import Path

from spec_scope import CRATES, Item, Scope, add_uses, is_ours


@lru_cache(None)
def source(file: Path) -> str:
    """The text of a file of src/, without its comments."""
    return re.sub(r"//.*", "", file.read_text("utf-8"))


def rust_file(crate: str, path: tuple[str, ...]) -> Path | None:
    """The file of a module of src/."""
    base = (CRATES / crate / "src").joinpath(*path)
    tries = (base.with_suffix(".rt"), base / "mod.rt") if path else (base / "lib.rt", base / "main.rt")
    return next((each for each in tries if each.exists()), None)


@lru_cache(None)
def find_type(crate: str, path: tuple[str, ...], name: str) -> Item | None:
    """The struct or enum of this name in a module of src/, or in what it passes on."""
    file = rust_file(crate, path)
    if file is None:
        return None
    text = file.read_text("utf-8")
    found = re.search(rf"^((?:[ \t]*(?:///|#\[).*\n)*)[ \t]*pub(?:\([a-z]+\))? (?:struct|enum|trait) {name}\b[^{{;]*(?:;|\{{)", text, re.M)
    if found is None:
        steps = rust_uses(file, r"pub(?:\([a-z]+\))? use").get(name)
        return rust_type(crate, steps) if steps else None
    end = closing(text, found.end() - 1) if text[found.end() - 1] == "{" else found.end()
    whole = text[found.start():end]
    body = fields_of(re.sub(r"//.*|#\[.*\]", "", whole))
    model = re.search(rf"^impl(?:<[^>]*>)? Model for {name}\b[^{{]*\{{", text, re.M)
    scope = Scope(crate)
    if model:
        inside = text[model.start():closing(text, model.end() - 1)]
        add_uses(scope, inside, r"ghost use")
        value = re.search(r"ghost Value = \{(.*?)\};", inside, re.S)
        body = value.group(1) if value else ""
    size = sum(1 for line in whole.splitlines() if line.strip())
    return Item(crate, file, name, text[: found.start(0)].count("\n") + 1, body, size, scope, is_type=True)


def fields_of(text: str) -> str:
    """Of an enum what its variants hold, and all of a struct."""
    front, _, body = text.partition("{")
    if not re.search(r"\benum\b", front):
        return text
    depth, kept = 0, []
    for sign in body:
        depth += (sign in "({") - (sign in ")}")
        kept.append(sign if depth else " ")
    return "".join(kept)


def closing(text: str, place: int) -> int:
    """The place behind the bracket that closes the one here."""
    depth = 0
    for at in range(place, len(text)):
        depth += (text[at] == "{") - (text[at] == "}")
        if depth == 0:
            return at + 1
    return len(text)


@lru_cache(None)
def rust_uses(file: Path, word: str) -> dict[str, tuple[str, ...]]:
    """The imports of a file of src/: names with their paths."""
    uses: dict[str, tuple[str, ...]] = {}
    for path in re.findall(rf"^[ \t]*{word} ([^;]+);", source(file), re.M):
        whole = re.sub(r"\s+", " ", path)
        front, _, inside = whole.partition("{")
        for each in inside.rstrip("} ").split(",") if inside else [""]:
            steps, _, alias = (part.strip() for part in (front + each).strip().partition(" as "))
            names = tuple(step for step in steps.split("::") if step)
            if names:
                uses[alias or names[-1]] = names
    return uses


@lru_cache(None)
def rust_type(crate: str, steps: tuple[str, ...]) -> Item | None:
    """The type at a path of modules, seen from a crate."""
    if steps[0] == "crate":
        return find_type(crate, steps[1:-1], steps[-1])
    if rust_file(crate, (steps[0],)):
        return find_type(crate, steps[:-1], steps[-1])
    return find_type(steps[0], steps[1:-1], steps[-1]) if is_ours(steps[0]) else None


def type_named(crate: str, file: Path, name: str) -> Item | None:
    """The type that a name means in a file of src/."""
    own = file.relative_to(CRATES / crate / "src").with_suffix("").parts
    own = () if own in (("lib",), ("main",)) else own
    if re.search(rf"^[ \t]*pub(?:\([a-z]+\))? (?:struct|enum) {name}\b", source(file), re.M):
        return find_type(crate, own, name)
    steps = rust_uses(file, r"use").get(name) or rust_uses(file, r"pub use").get(name)
    return rust_type(crate, steps) if steps else None
