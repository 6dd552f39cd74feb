"""packages.yaml as the keys `providers` and `packages` of the settings.

Takes providers, versions, buildable, externals and `require`. What else it says of packages is written into the recipes by
`import_repo --packages`; where that was not done, it is listed.
"""
from dataclasses import dataclass, field
from typing import Any, Optional

from . import settings_externals, settings_required, signs, versions, wish_texts
from .settings_notes import Notes
from .settings_required import Required
from .spec_text import Part
from .wish_texts import SECTIONS
from .yaml_texts import Text, line_of, texts

IN_RECIPES = "the settings have no such key: `import_repo --packages` writes it into the recipes, and `--repo` names these"
ADVICE = {
    **dict.fromkeys(SECTIONS, IN_RECIPES),
    "compiler": "compilers are preferred for all packages alike: write it in the spec, as `hdf5 %gcc@12`",
    "target": "targets are preferred for all packages alike: write it in the spec, as `hdf5 target=zen3`",
    "providers": "providers are preferred for all packages alike, under `all`",
}
SILENT = frozenset({"permissions", "package_attributes"})  # of files and builds, and not of graphs
ALL = frozenset({"compiler", "target", "providers"})  # read elsewhere


@dataclass
class Site:
    """What is known beside packages.yaml: the machine, and the imported recipes where they were named."""

    platform: str
    targets: list[str]
    providers: Optional[dict[str, list[str]]] = None  # of the recipes; None where none were named
    declared: dict[str, list[str]] = field(default_factory=dict)
    in_recipes: bool = False  # whether the recipes have what this packages.yaml requires, forbids and prefers
    variants: Optional[dict[str, set[str]]] = None  # of each recipe; None where none were named


def truth(value: Any) -> Optional[bool]:
    """A truth value as YAML has it; None where it is none."""
    return {"true": True, "false": False}.get(str(value).lower()) if isinstance(value, Text) and value.plain else None


def versions_of(package: str, value: Any, notes: Notes) -> list[str]:
    """The preferred versions, each as a set; those that YAML would read as another number are left out."""
    found = []
    for text in texts(value):
        if text.is_changed_number():
            notes.leave_out(text, f"packages.{package}.version {text}", "YAML reads another number: put it in quotes")
            continue
        try:
            found.append(versions.read_list(str(text).removeprefix("@").replace(" ", "")))
        except versions.BadList as fault:
            notes.leave_out(text, f"packages.{package}.version {text}", str(fault))
    return found


def preferred_of(package: str, value: Any, notes: Notes) -> list[str]:
    """The versions that `prefer` asks for and nothing more: they come before those of `version`."""
    found: list[str] = []
    silent = Notes(notes.file)  # what cannot be read is listed where the recipes are made
    for wish in wish_texts.read("prefer", package, value, silent):
        text = wish_texts.plain_versions(wish, package)
        if text is not None:
            where = f"packages.{package}.{wish.shown()}"
            notes.taken.append((notes.file, wish.line, where, "it is an order of versions, which is weaker than Spack's preference"))
            found += [text] if text not in found else []
    return found


def externals_of(package: str, value: Any, site: Site, notes: Notes) -> list[tuple[Part, str]]:
    """The externals of a package."""
    listed = value if isinstance(value, list) else [value]
    entries = [each for each in listed if isinstance(each, dict)]
    if len(entries) < len(listed):
        notes.leave_out(value, f"packages.{package}.externals", "an entry is no map")
    given = [settings_externals.read(package, each, site.platform, notes) for each in entries]
    return [each for each in given if each is not None]


def package_of(package: str, packages: dict, site: Site, required: Required, notes: Notes) -> dict:
    """What the settings say of one package."""
    found: dict[str, Any] = {}
    given: list[tuple[Part, str]] = []
    for key, value in packages[package].items():
        if key == "version":
            found["versions"] = versions_of(package, value, notes)
        elif key == "buildable" and truth(value) is not None:
            found["buildable"] = truth(value)
        elif key == "externals":
            given = settings_externals.allowed(package, externals_of(package, value, site, notes), packages, notes)
            found["externals"] = settings_externals.entries(given, site.targets)
        elif key not in SILENT | {"require"} and not (key in SECTIONS and site.in_recipes):
            why = "it is no truth value" if key == "buildable" else ADVICE.get(str(key), "the settings have no such key")
            notes.leave_out(value, f"packages.{package}.{key}", why)
    if site.in_recipes:
        found["versions"] = preferred_of(package, packages[package].get("prefer") or [], notes) + found.get("versions", [])
    if site.declared.get(package):
        found["versions"] = found.get("versions", []) + [",".join(f"={each}" for each in site.declared[package])]
    parts = [part for part, _ in given]
    found["require"] = settings_required.of_package(package, packages[package].get("require"), parts, required, notes)
    return {key: found[key] for key in ("versions", "buildable", "externals", "require") if key in found and found[key] != []}


def maps(packages: Any, notes: Notes) -> dict[str, Any]:
    """The packages that are maps under a name; others are listed."""
    found: dict[str, Any] = {}
    for name, inner in (packages or {}).items():
        if isinstance(inner, dict) and signs.is_name(str(name)):
            found[str(name)] = inner
        else:
            notes.leave_out(inner, f"packages.{name}", "it is no map under the name of a package")
    return found


def providers_of(virtual: str, order: Any, notes: Notes) -> list[str]:
    """The packages that provide a virtual, in order: names alone, as Spack's solver takes them."""
    found: list[str] = []
    for text in texts(order):
        name = settings_externals.name_of(str(text))
        if name is None:
            notes.leave_out(text, f"packages.all.providers.{virtual} {text}", "it begins with no name of a package")
            continue
        if name != text:
            why = f"`{name}` keeps its place, as with Spack, which looks at the name alone"
            notes.take(text, f"packages.all.providers.{virtual} {text}", why)
        found += [name] if name not in found else []
    return found


def spread(packages: dict, virtuals: dict[str, list[str]], notes: Notes) -> dict[str, Any]:
    """The packages with what is said of virtuals at each package that provides one, as Spack does."""
    found = {name: dict(inner) for name, inner in packages.items() if name not in virtuals}
    for virtual in [name for name in packages if name in virtuals]:
        for key, value in packages[virtual].items():
            if key == "buildable" and truth(value) is not None:
                for name in virtuals[virtual] if truth(value) is False else ():
                    found.setdefault(name, {})["buildable"] = value
            elif key == "externals" and isinstance(value, list):
                for each in value:
                    name = settings_externals.name_of(str(each.get("spec", ""))) if isinstance(each, dict) else None
                    if name is None:
                        notes.leave_out(each, f"packages.{virtual}.externals", "an entry names no package")
                        continue
                    inner = found.setdefault(name, {})
                    inner["externals"] = list(inner.get("externals") or []) + [each]
            elif key not in SILENT and key not in SECTIONS:
                notes.leave_out(value, f"packages.{virtual}.{key}", "it is a virtual: say it of each package that provides it")
            elif key in SECTIONS:
                found.setdefault("", {})[key] = value
    return found


def read(packages: Any, site: Site, notes: Notes) -> dict:
    """The keys `providers` and `packages`."""
    packages = packages or {}
    every = packages.get("all", {})
    given = every.get("providers", {})
    providers = {}
    for virtual, order in given.items() if isinstance(given, dict) else ():
        if signs.is_name(str(virtual)):
            providers[str(virtual)] = providers_of(str(virtual), order, notes)
        else:
            notes.leave_out(order, f"packages.all.providers.{virtual}", "a name beyond the profile")
    for key in every:
        if key not in ALL | SILENT | {"require"} and not (key in SECTIONS and site.in_recipes):
            notes.leave_out(every[key], f"packages.all.{key}", ADVICE.get(str(key), "it is read of single packages alone"))
    if site.providers is None:
        for name in [name for name in packages if name in providers]:
            notes.leave_out(packages[name], f"packages.{name}", "it is a virtual: name the imported recipes by `--repo`")
        known = {name: inner for name, inner in packages.items() if name not in providers}
    else:
        known = spread(packages, site.providers, notes)
        for key, value in known.pop("", {}).items():
            if not site.in_recipes:
                notes.leave_out_line(line_of(value), f"packages: {key} of a virtual", IN_RECIPES)
    required = settings_required.read_all(packages, site.variants, notes)
    more = [*site.declared, *((site.variants or {}) if required.of_all else [])]
    named = [name for name in dict.fromkeys([*known, *more]) if name != "all"]
    found = {name: package_of(name, {**known, name: known.get(name, {})}, site, required, notes) for name in named}
    return {"providers": providers, "packages": {name: found[name] for name in found if found[name]}}
