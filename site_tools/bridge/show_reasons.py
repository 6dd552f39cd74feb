"""`show_reasons`: why a request is unsatisfiable, in words.

Asks the program's `reasons`, and shows of each root and directive that it names the text, the file and line, the message,
and the class of reason where one shows: no such version, variant, value, compiler, system, target or package, with what there
is; a cycle. None of them can be left out: of each it says what a graph has that is valid for all others. Where a root stands
alone and all that it asks for is there, it asks the program again with less, and shows what cannot be together. Of two
providers of one virtual it says that they are rivals.
"""
import argparse
import sys
import time
from pathlib import Path
from typing import Callable, Optional

from . import program, reach, reasons, spec_parts
from .catalog import Catalog
from .fault_files import words_of
from .fault_lines import read as read_fault
from .fault_words import told
from .reasons import Reason
from .shown import shown

MOST_RUNS = 24
MOST_SECONDS = 20.0
Asks = Callable[[str], program.Said]  # what `reasons` says of a spec


def less_of(text: str) -> list[str]:
    """A spec with one constraint or one `^` less each."""
    spec = spec_parts.parts(text)[0]
    found = []
    for place in range(len(spec)):
        if place > 0 and not list(spec[place].constraints()):
            found.append(spec_parts.text_of(spec[:place] + spec[place + 1 :]))
        for kind, constraint in spec[place].constraints():
            smaller = spec_parts.parts(text)[0]
            part = smaller[place]
            if kind == "variant":
                del part.variants[constraint.strip().lstrip("+~").split("=")[0]]
            else:
                names = {"version": "versions", "target": "targets"}
                setattr(part, names.get(kind, kind), {"compiler": None, "target": ()}.get(kind, ""))
            found.append(spec_parts.text_of(smaller))
    return found


def together(text: str, asks: Asks) -> tuple[str, bool]:
    """A part of a root spec that no graph meets, with nothing left that can go; and whether all was tried."""
    runs, begun = 0, time.monotonic()
    again = True
    while again:
        again = False
        for smaller in less_of(text):
            runs += 1
            if runs > MOST_RUNS or time.monotonic() - begun > MOST_SECONDS:
                return text, False
            if asks(smaller).status == 1:
                text, again = smaller, True
                break
    return text, True


def closing_lines(found: list[Reason], asks: Optional[Asks], catalog: Catalog) -> list[str]:
    """What is said of all reasons together: a cycle, or what of a lone root cannot be together."""
    if any(each.causes for each in found):
        return []
    round_trip = reasons.cycle(found)
    if round_trip:
        return [f"a cycle: {' needs '.join(round_trip)}; no graph has one"]
    rivals = [line for each in found if each.kind == "root" for spec in spec_parts.parts(each.text) for line in reach.rivals(spec, catalog)]
    if rivals:
        return rivals
    if len(found) == 1 and found[0].kind == "root" and asks:
        text, whole = together(found[0].text, asks)
        more = "" if whole else " (there may be less)"
        again = reasons.read(asks(text).out, catalog) if text != found[0].text else []
        if len(again) > 1:
            head = f"what no graph meets of it is: {shown(text)}{more}, with these {len(again) - 1}"
            return [head, *(line for each in again[1:] for line in each.lines()), *closing_lines(again, None, catalog)]
        spec = spec_parts.parts(text)[0]
        below = [f"    {line}" for line in [*variant_lines(spec[0], catalog), *reach.lines(spec, catalog)]]
        return [f"each part is there; what no graph meets together is: {shown(text)}{more}", *below]
    return []


def variant_lines(part: spec_parts.Part, catalog: Catalog) -> list[str]:
    """The definitions under conditions of the variants that a part asks for."""
    found = []
    for name in part.variants:
        for row in [each for each in catalog.variants(part.name).get(name, []) if each.conditions]:
            around = [text for text in row.conditions if text != row.keywords.get("when")]
            block = f" with when {shown(' '.join(around))}" if around else ""
            found.append(f"{part.name}: {shown(row.text)}{block}, {catalog.repo}/packages/{part.name}/package.py:{row.line}")
    return found


def lines_of(found: list[Reason], asks: Optional[Asks], catalog: Catalog) -> list[str]:
    """All reasons for a person."""
    head = "unsatisfiable: no graph is valid for " + ("this" if len(found) == 1 else f"these {len(found)} together")
    if len(found) > 1 and all(each.graph is not None for each in found):
        head += "; without any one of them there is one"
    roots = [spec[0] for each in found if each.kind == "root" for spec in spec_parts.parts(each.text)]
    defined = [] if len(found) == 1 else [line for part in roots for line in variant_lines(part, catalog)]
    closing = [*(["variants that are asked for, and defined by"] if defined else []), *(f"    {line}" for line in defined)]
    closing += closing_lines(found, asks, catalog)
    return [head, *(line for each in found for line in each.lines()), *(f"  {line}" for line in closing)]


def arguments(words: Optional[list[str]]) -> argparse.Namespace:
    """The words of the command line."""
    parser = argparse.ArgumentParser(prog="show_reasons", description=__doc__)
    parser.add_argument("--said", type=Path, metavar="FILE", help="what `reasons` or `explain` said before, in place of asking it")
    parser.add_argument("--quick", action="store_true", help="ask `explain`, which takes less time and may name more than is needed")
    parser.add_argument("repo", metavar="REPO")
    parser.add_argument("settings", metavar="SETTINGS")
    parser.add_argument("database", metavar="DATABASE")
    parser.add_argument("spec", metavar="SPEC..", nargs=argparse.REMAINDER, help="as behind `explain`; also words that begin with `-`")
    given = parser.parse_args(words)
    if not given.spec:
        parser.error("SPEC is missing")
    return given


def main(words: Optional[list[str]] = None) -> int:
    """Shows the reasons, and ends with the status of `reasons`: 0 satisfiable, 1 unsatisfiable, else its refusal's."""
    given = arguments(words)
    inputs = [given.repo, given.settings, given.database]
    verb = "explain" if given.quick else "reasons"
    if given.said:
        said = program.Said(1, given.said.read_text("utf-8"), "")
        asks = None
    else:
        file = program.path()
        said = program.run([verb, *inputs, *given.spec], file)
        asks = lambda text: program.run([verb, *inputs, text], file)  # noqa: E731
    if said.status != 1:
        fault = read_fault(said.err)
        print(said.out or shown(said.err.removesuffix("\n")), end="" if said.out else "\n")
        print("".join(f"{line}\n" for line in told(fault, words_of([verb, *inputs, *given.spec])).lines()) if fault else "", end="")
        return said.status
    catalog = Catalog(*inputs)
    print("\n".join(lines_of(reasons.read(said.out, catalog), asks, catalog)))
    return 1
