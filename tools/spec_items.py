"""The definitions of specs/, and what they and the types of src/ cite: read from the text, for `tools/headline`.

Names are followed through `use` and `pub use`, so that two definitions of one name are two; what a line binds (patterns, binders, fields)
is no name. It is a reading by patterns and not the kit's own: a name that a binder hides only further out may be taken for the definition.
"""
import re
from functools import lru_cache
from pathlib import Path

from rust_types import find_type, type_named
from spec_scope import CRATES, OPERATOR, WORD, Item, Scope, add_uses, is_ours

ITEM = re.compile(rf"^(\s*)(?:pub )?(abbrev|unfoldable|record|data)\s+(?:pub )?({OPERATOR}|{WORD})")
PLAIN = re.compile(rf"^()(?:pub )?()({OPERATOR}|{WORD}) :")
CHAIN = re.compile(rf"{OPERATOR}|{WORD}(?:\.{WORD})*|>>=|[^\s\w(){{}}\[\],;.:]+")


class Module:
    """A file of specs/: its items, and what it passes on."""

    def __init__(self, crate: str, file: Path) -> None:
        text = file.read_text("utf-8")
        self.crate, self.file = crate, file
        self.scope, self.passed = Scope(crate), Scope(crate)
        add_uses(self.scope, text, r"(?:pub )?use")
        add_uses(self.passed, text, r"pub use")
        self.items: dict[str, Item] = {}
        self.read_items(text.splitlines())

    def read_items(self, lines: list[str]) -> None:
        """Cuts a file into its items, each with the comment above it."""
        starts = [(number, found) for number, line in enumerate(lines) if (found := ITEM.match(line) or self.plain(lines, number))]
        bounds = {number for number, _ in starts} | {len(lines)}
        bounds |= {number for number, line in enumerate(lines) if re.match(r"(pub )?(use|mod|module|infix\w*)\b", line)}
        for number, found in starts:
            end = min(each for each in bounds if each > number)
            while end > number + 1 and (not lines[end - 1].strip() or lines[end - 1].lstrip().startswith("--")):
                end -= 1
            begin = number
            while begin and re.match(r"\s*-- (?!----)", lines[begin - 1]):
                begin -= 1
            bare = [re.sub(r"(^|\s)--( .*)?$", "", line) for line in lines[number:end]]
            text = "\n".join(bare)
            name = found.group(3)
            size = sum(1 for line in lines[begin:end] if line.strip())
            item = Item(self.crate, self.file, name, number + 1, text, size, self.scope)
            for own in [name] + self.parts(found.group(2), bare):
                self.items.setdefault(own, item)

    @staticmethod
    def plain(lines: list[str], number: int) -> re.Match[str] | None:
        """A definition without a word before it, which is abstract."""
        return None if lines[number].startswith((" ", "--")) else PLAIN.match(lines[number])

    @staticmethod
    def parts(kind: str, lines: list[str]) -> list[str]:
        """The constructors of data."""
        found = [re.match(rf"\s+(?:\| )?({WORD})\s*:", line) for line in lines[1:]] if kind == "data" else []
        return [each.group(1) for each in found if each]


@lru_cache(None)
def module_at(crate: str, path: tuple[str, ...]) -> Module | None:
    """The file of specs/ with this path."""
    file = (CRATES / crate / "specs").joinpath(*path).with_suffix(".antt") if path else None
    return Module(crate, file) if file and file.exists() else None


@lru_cache(None)
def find_module(steps: tuple[str, ...]) -> tuple[str, object] | None:
    """What a path of modules leads to: a file of specs/, or a type that is declared in src/."""
    if len(steps) < 3 or steps[0] != "Rattle" or steps[2] != "specs" or not is_ours(steps[1]):
        return None
    crate, path = steps[1], steps[3:]
    if path and path[0] == "declared":
        rest = tuple(step for step in path[1:] if step != "TheVariants")
        return ("type", (crate, rest[:-1], rest[-1])) if rest else None
    if found := module_at(crate, path):
        return "module", found
    for cut in range(len(path) - 1, -1, -1):
        holder = module_at(crate, path[:cut]) if cut else module_at(crate, ("Lib",))
        if holder and path[cut] in holder.passed.modules:
            return find_module(holder.passed.modules[path[cut]] + path[cut + 1:])
    return None


@lru_cache(None)
def find_item(steps: tuple[str, ...]) -> Item | None:
    """The definition that a path of modules with a name leads to."""
    found = find_module(steps[:-1])
    if found is None:
        return None
    kind, at = found
    if kind == "type":
        return find_type(*at)
    if steps[-1] in at.items:
        return at.items[steps[-1]]
    if steps[-1] in at.passed.items:
        return find_item(at.passed.items[steps[-1]])
    return None


# ---- what a text cites

def bound_in(clause: str, heads: frozenset[str]) -> set[str]:
    """The names that a clause of a definition binds: patterns, binders, fields."""
    bound: set[str] = set()
    for found in re.findall(rf"λ ((?:{WORD}|_|\s)+)\.", clause):
        bound.update(found.split())
    for found in re.findall(rf"[({{]((?:{WORD}\s+)*{WORD}) : ", clause):
        bound.update(found.split())
    bound.update(re.findall(rf"\blet ({WORD})\b", clause))
    bound.update(re.findall(rf"({WORD})\s*←", clause))
    bound.update(re.findall(rf"^\s+(?:pub )?({WORD}) : ", clause, re.M))
    bound.update(re.findall(rf"[{{;]\s*({WORD}) = ", clause))
    front, equal, _ = clause.partition(" =")
    if equal and " : " not in front:
        words = re.findall(WORD, re.sub(rf"{WORD}\.{WORD}", "", front))
        bound.update(word for word in words if word[0].islower() and word not in heads)
    return bound


def clauses_of(item: Item) -> list[str]:
    """A definition's signature and its clauses, each by itself."""
    lines = item.text.splitlines()
    indent = len(lines[0]) - len(lines[0].lstrip())
    parts: list[str] = []
    for line in lines:
        if parts and (not line.strip() or len(line) - len(line.lstrip()) > indent):
            parts[-1] += "\n" + line
        else:
            parts.append(line)
    return parts


@lru_cache(None)
def cited(item: Item) -> frozenset[Item]:
    """The definitions that one cites."""
    if item.is_type and not item.scope.items:
        words = set(re.findall(r"\b[A-Z]\w*", item.text)) - {item.name}
        found = {type_named(item.crate, item.file, word) for word in words}
        return frozenset(each for each in found if each)
    own = module_items(item)
    found = set()
    for clause in clauses_of(item):
        found |= cited_in(clause, item.scope, own, bound_in(clause, frozenset({item.name})))
    return frozenset(found - {item})


def module_items(item: Item) -> dict[str, Item]:
    """The items beside one."""
    if item.is_type:
        return {}
    path = item.file.relative_to(CRATES / item.crate / "specs").with_suffix("").parts
    module = module_at(item.crate, path)
    return module.items if module else {}


def cited_in(text: str, scope: Scope, own: dict[str, Item], bound: set[str]) -> set[Item]:
    """The definitions that a text cites."""
    found: set[Item | None] = set()
    quoted = re.sub(r'"(\\.|[^"\\])*"', "", text)
    for chain in CHAIN.findall(quoted):
        steps = chain.split(".")
        name = steps[0]
        infix = f"◌{name}◌"
        if name in bound:
            continue
        if name in scope.modules and len(steps) > 1:
            found.add(find_item(scope.modules[name] + (steps[1],)))
        elif name in own or name in scope.items:
            found.add(own.get(name) or find_item(scope.items[name]))
        elif infix in own or infix in scope.items:
            found.add(own.get(infix) or find_item(scope.items[infix]))
        elif name in scope.modules:
            found.add(find_item(scope.modules[name] + (steps[-1],)))
    if "←" in text and ("◌>>=◌" in own or "◌>>=◌" in scope.items):
        found.add(own.get("◌>>=◌") or find_item(scope.items["◌>>=◌"]))
    return {each for each in found if each}
