"""What texts say of edges (`^mpi=openmpi`, `%c=gcc`) in the words of the profile, which has one compiler at a node, and plain edges.

`^mpi=openmpi` is `^openmpi` where, by the recipes, openmpi comes into a graph as the provider of mpi alone: no recipe depends
on it by name, and none on another virtual that it provides. `%c=gcc` is `%gcc` where the package builds with C whenever this
is asked, or under the condition of its one dependency on C. All else is left out and listed; so no text becomes weaker or
stronger.
"""
import re
from collections import defaultdict
from dataclasses import dataclass, field, replace
from typing import Iterator, Optional

from .edge_texts import LANGUAGES, NAMES
from .rows import Cannot, Conditions, LeftOut, Recipe, Row, quoted, unquoted
from .settings_notes import Notes
from .wishes import FILE

LANGUAGE = "|".join(LANGUAGES)
BELOW = re.compile(rf"(?:(?<= )|^)\^({NAMES})=(?=([A-Za-z0-9_][A-Za-z0-9_-]*))")
COMPILER = re.compile(rf"(?:(?<= )|^)%((?:{LANGUAGE})(?:,(?:{LANGUAGE}))*)(=|(?= )|$)")
OWNER = re.compile(rf"\^?(?:{NAMES}=)?([A-Za-z0-9_-]*)")
PROVIDER = "a virtual on an edge (`^mpi=openmpi`), which the profile has not"
COMPILED = "a compiler for a language (`%c=gcc`), where the profile has one for the whole package"
MOST_BLOCKS = 16
WITH_SPECS = ("conflicts", "requires", "depends_on")


@dataclass
class Repository:
    """What is asked of all recipes together."""

    built_with: dict[tuple[str, str], list[frozenset[str]]] = field(default_factory=lambda: defaultdict(list))
    by_name: dict[str, str] = field(default_factory=dict)  # what is depended on by its name, and by which recipe
    provided: dict[str, set[str]] = field(default_factory=lambda: defaultdict(set))
    always: dict[str, frozenset[str]] = field(default_factory=dict)
    names: frozenset[str] = frozenset()

    def take(self, recipes: list[Recipe]) -> None:
        """Takes all recipes."""
        self.names = frozenset(recipe.name for recipe in recipes)
        for recipe in recipes:
            self.always[recipe.name] = frozenset(always_true(recipe))
            for row in recipe.rows:
                text = unquoted(row.arguments[0]) if row.arguments else ""
                if row.directive == "provides":
                    self.provided[recipe.name].update(row.names)
                elif row.directive == "depends_on" and text in LANGUAGES:
                    self.built_with[recipe.name, text].append(row.conditions.all())
                elif row.directive == "depends_on" and row.names:
                    self.by_name.setdefault(row.names[0], recipe.name)

    def shown(self) -> dict[str, dict]:
        """What decides for specs, as OUT/site.json keeps it: providers of one virtual alone, and languages that are always there."""
        asked = {name: [each for each in sorted(virtuals) if each in self.by_name] for name, virtuals in self.provided.items()}
        alone = {name: asked[name][0] for name in sorted(asked) if len(asked[name]) == 1 and name not in self.by_name}
        always: dict[str, list[str]] = {}
        for (name, language), conditions in sorted(self.built_with.items()):
            if frozenset() in {without(each, self.always.get(name, frozenset()), set()) for each in conditions}:
                always.setdefault(name, []).append(language)
        return {"provider_of": alone, "languages": always}

    @staticmethod
    def of_shown(known: dict[str, dict]) -> "Repository":
        """What was kept so."""
        found = Repository(names=frozenset(known["provider_of"]))
        for name, virtual in known["provider_of"].items():
            found.provided[name].add(virtual)
            found.by_name.setdefault(virtual, name)
        for name, languages in known["languages"].items():
            for language in languages:
                found.built_with[name, language].append(frozenset())
        return found

    def check_provider(self, virtuals: list[str], package: str) -> None:
        """`Cannot` where a package may be in a graph otherwise than as the provider of one virtual."""
        asked = {virtual for virtual in self.provided.get(package, ()) if virtual in self.by_name}
        if package in self.by_name:
            raise Cannot(PROVIDER, f"{self.by_name[package]} depends on `{package}` by its name")
        if package not in self.names or asked != set(virtuals) or len(virtuals) != 1:
            provides = ", ".join(sorted(asked)) or "nothing that is asked for"
            raise Cannot(PROVIDER, f"`{package}` provides {provides}")

    def condition(self, package: str, language: str, known: frozenset[str]) -> frozenset[str]:
        """Under what else a package builds with a language, where these conditions are known; `Cannot` where it is not one set."""
        known |= self.always.get(package, frozenset())
        words = {word for text in known if "^" not in text for word in text.split()}
        asked = {without(each, known, words) for each in self.built_with.get((package, language), [])}
        if frozenset() in asked:
            return frozenset()
        if len(asked) != 1:
            ways = f"depends on `{language}` in {len(asked)} ways" if asked else f"does not depend on `{language}`"
            raise Cannot(COMPILED, f"`{package}` {ways}")
        return asked.pop()


def without(conditions: frozenset[str], known: frozenset[str], words: set[str]) -> frozenset[str]:
    """Conditions without those that are known to hold, as a whole or by all their words."""
    return frozenset(text for text in conditions - known if "^" in text or not words.issuperset(text.split()))


def always_true(recipe: Recipe) -> Iterator[str]:
    """Conditions that hold at each node: the one value of a variant that is always there."""
    choices = [(row.choice, row.conditions) for row in recipe.rows if row.choice]
    for choice, conditions in choices:
        is_only = sum(other.name == choice.name for other, _ in choices) == 1 and not conditions.all()
        if is_only and choice.values is not None and len(choice.values) == 1:
            yield f"{choice.name}={choice.values[0]}"


def has_edges(row: Row) -> bool:
    """Whether a row says something of an edge."""
    return any("^" in text and BELOW.search(text) or "%" in text and COMPILER.search(text) for text in texts_of(row))


def texts_of(row: Row) -> Iterator[str]:
    """The specs and conditions of a row."""
    if row.directive in WITH_SPECS:
        yield from (unquoted(text) for text in row.arguments if text.startswith('"'))
    yield from row.conditions.with_own_as_block()


def said(text: str, own: Optional[str], known: frozenset[str], repository: Repository) -> tuple[str, list[str]]:
    """A text in the profile's words, and the conditions of the package `own` that it needs besides."""
    more: list[str] = []
    pieces = re.split(r"(?:(?<= )|^)(?=\^)", text)
    for place, piece in enumerate(pieces):
        below, compiler = BELOW.match(piece), COMPILER.search(piece)
        if below:
            repository.check_provider(below.group(1).split(","), below.group(2))
        if compiler:
            owner = OWNER.match(piece)
            is_own = own is not None and not place
            package = own if is_own and own else owner.group(1) if owner else ""
            for language in compiler.group(1).split(","):
                needed = repository.condition(package, language, known if is_own else frozenset())
                if needed and not is_own:
                    raise Cannot(COMPILED, f"`{package}` does not always depend on `{language}`")
                more += sorted(needed)
        piece = COMPILER.sub(lambda found: "%" if found.group(2) else "", BELOW.sub("^", piece))
        pieces[place] = re.sub(r" +", " ", piece)
    return "".join(pieces).strip(), more


def settled(row: Row, own: str, repository: Repository) -> list[Row]:
    """The row in the profile's words; none where it never forbids anything, `Cannot` where it cannot be said."""
    conditions, more = [], []
    for text in row.conditions.with_own_as_block():
        new, needed = said(text, own, row.conditions.all() - {text}, repository)
        conditions.append(new)
        more += needed
    known = row.conditions.all() | set(more)
    arguments = list(row.arguments)
    specs = [place for place, text in enumerate(arguments) if text.startswith('"')]
    for place in specs if row.directive in WITH_SPECS else ():
        new, needed = said(unquoted(arguments[place]), None if row.directive == "depends_on" else own, known, repository)
        if needed and row.directive != "conflicts":
            raise Cannot(COMPILED, f"`{own}` does not always depend on the language")
        if not new and row.directive == "requires" and len(specs) == 1:
            return []
        arguments[place] = quoted(new)
        more += needed
    last = conditions.pop() if row.conditions.own is not None else ""
    blocks = tuple(dict.fromkeys(text for text in [*more, *conditions] if text))
    if len(blocks) > MOST_BLOCKS or row.directive == "provides" and any("^" in text for text in blocks):
        raise Cannot(COMPILED, "the condition that it needs besides cannot stand there")
    return [replace(row, arguments=tuple(arguments), conditions=Conditions(blocks, last if last and last not in blocks else None))]


def settle(recipes: list[Recipe], notes: Notes) -> Repository:
    """Puts all that is said of edges into the profile's words, and lists what cannot be."""
    repository, lost = Repository(), defaultdict(list)
    waiting = [recipe for recipe in recipes if any(map(has_edges, recipe.rows))]
    repository.take(recipes)
    for recipe in waiting:
        rows: list[Row] = []
        for row in recipe.rows:
            try:
                rows += settled(row, recipe.name, repository) if has_edges(row) else [row]
            except Cannot as fault:
                if row.origin and row.origin.file == FILE and never_asked(row, recipe, repository):
                    continue
                if row.origin and row.origin.file == FILE:
                    lost[row.origin.line, row.origin.text, fault.kind].append(recipe.name)
                else:
                    leave_out(recipe, row, fault)
        recipe.rows = rows
        recipe.lost_variants -= {row.choice.name for row in rows if row.choice}
    for (line, text, kind), names in lost.items():
        shown = ", ".join(names[:8]) + (f" and {len(names) - 8} more" if len(names) > 8 else "")
        notes.leave_out_line(line, f"packages.{names[0] if len(names) == 1 else 'all'}.{text}", f"{kind}: not written for {shown}")
    return repository


def never_asked(row: Row, recipe: Recipe, repository: Repository) -> bool:
    """Whether a condition of a row asks for a language that the package, all of which was read, never builds with."""
    found = [COMPILER.search(re.split(r"(?:(?<= )|^)\^", text)[0]) for text in row.conditions.with_own_as_block()]
    languages = {name for each in found if each for name in each.group(1).split(",")}
    is_read = not any(each.directive in ("depends_on", "call", "class") for each in recipe.left_out)
    return is_read and any(not repository.built_with.get((recipe.name, name)) for name in languages)


def leave_out(recipe: Recipe, row: Row, fault: Cannot) -> None:
    """Lists a row that is left out."""
    file, line, text = (row.origin.file, row.origin.line, row.origin.text) if row.origin else (recipe.file, 0, row.directive)
    recipe.left_out.append(LeftOut(file, line, row.directive, text, fault.kind, fault.detail))
    if row.choice:
        recipe.lost_variants.add(row.choice.name)
