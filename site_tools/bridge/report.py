"""The report of import_repo: which packages were taken whole, which with parts left out, which not at all, and why.

Says what was done, and what it means for the answers; decides nothing.
"""
import ast
import textwrap
from collections import Counter, defaultdict
from dataclasses import dataclass, field
from pathlib import Path

from . import signs
from .rows import Cannot, LeftOut, Recipe, unquoted
from .settings_notes import Notes
from .wishes import Site

# What it means for the answers that a directive is not there.
MEANING = {
    "version": "these versions are never chosen",
    "variant": "conditions that name these variants never hold, and specs that ask for them cannot be met",
    "depends_on": "graphs may lack these dependencies",
    "extends": "graphs may lack these dependencies",
    "provides": "these packages are not taken as providers there",
    "conflicts": "graphs may be accepted that Spack refuses",
    "requires": "graphs may be accepted that Spack refuses",
    "build_system": "the variant `build_system` has only the values of the base class",
    "generator": "the variant `generator` has the values of the base class",
    "class": "directives of the base class are missing",
    "call": "directives that such a call would make are missing",
    "sticky": "a value of these variants may be chosen that nobody asked for, where Spack keeps the default: see `--sticky`",
    "values": "specs that ask for other values than these cannot be met",
    "validator": "values of these variants may be chosen together that Spack refuses",
    "import": "names of that module may mean something else than Spack's",
}
HOW_TO_READ = (
    "What is written says exactly what Spack's recipe says. What could not be said so is left out, and stands below with",
    "its file, line and reason; the recipes in packages/ are plain text, so it can be added there by hand.",
)
LONGEST = 110


@dataclass
class Import:
    """The recipes that were written, and the packages that were not, each with its reason."""

    recipes: list[Recipe]
    refused: dict[str, Cannot]
    site: Site = field(default_factory=Site)
    notes: Notes = field(default_factory=Notes)

    def whole(self) -> list[Recipe]:
        """Recipes that say all that Spack's say."""
        return [each for each in self.recipes if each.is_whole()]

    def partly(self) -> list[Recipe]:
        """Recipes with parts left out."""
        return [each for each in self.recipes if not each.is_whole()]


def counts(found: Import) -> str:
    """How many directives were written, and how many left out."""
    written = sum(len(each.rows) for each in found.recipes)
    left = sum(len(each.left_out) for each in found.recipes)
    return f"{written} directives written, {left} left out"


def summary(found: Import) -> str:
    """One line with the three numbers."""
    total = len(found.recipes) + len(found.refused)
    return f"{total} packages: {len(found.whole())} whole, {len(found.partly())} with parts left out, {len(found.refused)} left out"


def status(found: Import) -> int:
    """0 where all was said, 1 where something was listed, 2 where no recipe was written."""
    return 2 if not found.recipes else 1 if found.refused or found.partly() or found.notes.rows else 0


def shortened(text: str) -> str:
    """A directive's text, cut where it is long."""
    return text if len(text) <= LONGEST else text[: LONGEST - 3] + "..."


def section(title: str, lines: list[str]) -> list[str]:
    """A titled list; nothing where there are no lines."""
    return ["", title, "-" * len(title), *lines] if lines else []


def left_out_lines(each: LeftOut) -> list[str]:
    """What was left out, and why."""
    place = f"{each.file}:{each.line}" if each.line else each.file
    why = each.kind + (f": {each.detail}" if each.detail else "")
    return [f"    {place}", f"        {shortened(each.text)}", f"        {why}"]


def part_lines(recipes: list[Recipe]) -> list[str]:
    """Each recipe with what was left out of it; the same statement of a loop once."""
    lines: list[str] = []
    for recipe in recipes:
        shown = Counter((each.file, each.line, each.text, each.kind, each.detail) for each in recipe.left_out)
        lines.append(f"{recipe.name}")
        for each in dict.fromkeys(recipe.left_out):
            times = shown.pop((each.file, each.line, each.text, each.kind, each.detail), 0)
            if times:
                lines += left_out_lines(each)
                lines[-1] += f" ({times} times)" if times > 1 else ""
    return lines


def reason_lines(found: Import) -> list[str]:
    """How often each reason came, and with which directives."""
    reasons: dict[str, Counter] = defaultdict(Counter)
    for recipe in found.recipes:
        for each in recipe.left_out:
            reasons[each.kind][each.directive] += 1
    order = sorted(reasons, key=lambda kind: (-sum(reasons[kind].values()), kind))
    return [
        f"{sum(reasons[kind].values()):5}  {kind}  ({', '.join(f'{name} {count}' for name, count in sorted(reasons[kind].items()))})"
        for kind in order
    ]


def meaning_lines(found: Import) -> list[str]:
    """What is different in the answers, by what was left out."""
    names = {each.directive for recipe in found.recipes for each in recipe.left_out}
    return [f"{name:13} {MEANING[name]}" for name in MEANING if name in names]


def unknown_lines(found: Import) -> list[str]:
    """Names that are depended on, and that no recipe has and none provides."""
    known = {recipe.name for recipe in found.recipes}
    known |= {name for recipe in found.recipes for row in recipe.rows if row.directive == "provides" for name in row.names}
    asked: dict[str, set[str]] = defaultdict(set)
    for recipe in found.recipes:
        for row in recipe.rows:
            for name in row.names if row.directive == "depends_on" else ():
                if name not in known:
                    asked[name].add(recipe.name)
    return [line for name in sorted(asked) for line in wrapped(f"{name}: asked for by {', '.join(sorted(asked[name]))}")]


def lost_lines(found: Import) -> list[str]:
    """Variants that were left out and have no other definition."""
    return [f"{recipe.name}: {', '.join(sorted(recipe.lost_variants))}" for recipe in found.recipes if recipe.lost_variants]


def variants_in(text: str) -> list[str]:
    """The names of the variants in the canonical text of a dependency."""
    words = text.split(" ")[1:]
    pairs = [word.partition("=")[0] for word in words if "=" in word and word[0] not in "%+~@"]
    return [word[1:] for word in words if word[0] in "+~"] + [name for name in pairs if name not in signs.KEYS]


def asked_lines(found: Import) -> list[str]:
    """Variants that a dependency asks for, of a package whose recipe has none of that name."""
    has = {each.name: {row.arguments[0] for row in each.rows if row.directive == "variant"} for each in found.recipes}
    asked: dict[tuple[str, str], set[str]] = defaultdict(set)
    for recipe in found.recipes:
        for row in [row for row in recipe.rows if row.directive == "depends_on" and row.names and row.names[0] in has]:
            for name in variants_in(unquoted(row.arguments[0])):
                if f'"{name}"' not in has[row.names[0]]:
                    asked[row.names[0], name].add(recipe.name)
    return [line for key in sorted(asked) for line in wrapped(f"{key[0]} {key[1]}: asked for by {', '.join(sorted(asked[key]))}")]


def stand_ins_of(files: list[Path], found: Import) -> list[str]:
    """The stand-ins of base classes that were used, each with what its file says is not in it."""
    used = {base for recipe in found.recipes for base in recipe.bases}
    lines: list[str] = []
    for path in files:
        tree = ast.parse(path.read_bytes())
        names = sorted(each.name for each in tree.body if isinstance(each, ast.ClassDef) and each.name in used)
        if names:
            lines += wrapped(f"{', '.join(names)}: {' '.join((ast.get_docstring(tree) or '').split())}")
    return lines


def wrapped(text: str) -> list[str]:
    """A paragraph in lines, from the second on indented."""
    return textwrap.wrap(text, LONGEST, subsequent_indent="    ", break_on_hyphens=False)


def text_of(found: Import, stand_ins: list[str], by_hand: list[str]) -> str:
    """The whole report."""
    refused = [f"{name}: {fault.kind}: {fault.detail}" for name, fault in sorted(found.refused.items())]
    lines = [f"import_repo: {summary(found)}", counts(found), "", *HOW_TO_READ]
    lines += section("Left out: no recipe was written", refused)
    lines += section("Why parts were left out", reason_lines(found))
    lines += section("What that means for the answers", meaning_lines(found))
    lines += section("Variants that are missing", lost_lines(found))
    lines += section("Variants that are asked for and that no recipe has: these dependencies cannot be met", asked_lines(found))
    lines += section("Names that no recipe has and none provides: nothing that asks for them can be met", unknown_lines(found))
    lines += section("Of packages.yaml: not written into the recipes, or weaker there", found.notes.lines(found.notes.rows))
    lines += section("Base classes that stand-ins were taken for (--build-systems names your Spack's own)", stand_ins)
    lines += section("Changed by hand since the last import, and left as they are", wrapped(" ".join(by_hand)) if by_hand else [])
    lines += section("Taken with parts left out", part_lines(found.partly()))
    whole = "Taken whole" + (", but for what the stand-ins lack" if stand_ins else "")
    lines += section(whole, wrapped(" ".join(each.name for each in found.whole())))
    return "".join(map(plain, "\n".join(lines))) + "\n"


def plain(sign: str) -> str:
    """A sign as a terminal may show it: control signs by their number."""
    return sign if sign.isprintable() or sign == "\n" else f"\\x{ord(sign):02x}"
