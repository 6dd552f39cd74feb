"""`require` of packages.yaml as the settings' key of that name: it binds each node of a package, whatever its origin.

A package's own entries are written as they stand. Those of `all` are written out for each package of the imported recipes
that has no own ones and that they can bind: it has the variants that are named, and its externals say what is asked.
"""
from dataclasses import dataclass, field
from typing import Any, Optional

from . import settings_externals, spec_text, wish_texts
from .own_name import name_in
from .settings_notes import Notes
from .spec_text import Dialect, Part, Spec
from .wish_texts import Wish
from .yaml_texts import line_of

OTHER = "it names another package than it stands under"


@dataclass
class Required:
    """The entries of `all`, and the variants of each package that they may bind; None without imported recipes."""

    of_all: list[Wish] = field(default_factory=list)
    variants: Optional[dict[str, set[str]]] = None


def read_all(packages: dict, variants: Optional[dict[str, set[str]]], notes: Notes) -> Required:
    """The entries of `all`; they are listed where no recipes are named."""
    value = (packages.get("all") or {}).get("require") or []
    if value and variants is None:
        notes.leave_out_line(line_of(value), "packages.all.require", "name the imported recipes by `--repo`")
        return Required()
    return Required(wish_texts.read("require", "all", value, notes), variants)


def item(wish: Wish, specs: list[Spec]) -> Any:
    """An item of the settings' list."""
    if len(specs) == 1 and wish.when is None and wish.message is None:
        return specs[0].text()
    policy = "one_of" if wish.policy == "one_of" and len(specs) > 1 else "any_of"
    more = {"when": wish.when, "message": wish.message}
    return {policy: [spec.text() for spec in specs], **{key: text for key, text in more.items() if text is not None}}


def of_package(package: str, value: Any, externals: list[Part], required: Required, notes: Notes) -> list[Any]:
    """The items of a package: its own, or else those of `all`."""
    if value:
        return own(package, value, notes)
    found = []
    has = (required.variants or {}).get(package)
    for wish in required.of_all if has is not None else []:
        specs = [spec for spec in wish.specs if may_hold(spec, package, has)]
        if wish.when is not None and not may_hold(spec_text.read_condition(wish.when, Dialect()), package, has):
            continue
        if specs and any(settings_externals.meets_any(part, wish) is None for part in externals):
            where = f"packages.all.{wish.shown()} of `{package}`"
            notes.leave_out_line(wish.line, where, "an external of it does not say all that is asked")
        elif specs:
            found.append(item(wish, specs))
    return found


def may_hold(spec: Spec, package: str, variants: set[str]) -> bool:
    """Whether the first part names no other package, and no variant that the package has not."""
    return spec.top.name in (None, package) and set(spec.top.variants) <= variants


def own(package: str, value: Any, notes: Notes) -> list[Any]:
    """A package's own items."""
    found = []
    for wish in wish_texts.read("require", package, value, notes):
        names = [spec.top.name for spec in wish.specs] + [None if wish.when is None else name_in(wish.when)]
        if any(name not in (None, package) for name in names):
            notes.leave_out_line(wish.line, f"packages.{package}.{wish.shown()}", OTHER)
        else:
            found.append(item(wish, list(wish.specs)))
    return found
