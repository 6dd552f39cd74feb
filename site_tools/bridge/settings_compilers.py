"""Compilers of Spack's settings: compilers.yaml, and externals of packages.yaml that are compilers (Spack 1.0).

Keeps name, version, operating systems and targets; paths, flags, modules and environments say nothing of which
graphs are right, and are not looked at, but for flags that are set, which are listed.
"""
from typing import Any

from . import signs, spec_text, targets
from .settings_notes import Notes
from .spec_text import COMPILER_OF_PACKAGE, COMPILERS, Dialect, NotInProfile, Part
from .versions import contains, single
from .yaml_texts import texts

WITHOUT = Dialect()


def compiler_entry(name: str, version: str, systems: list[str], families: list[str]) -> dict:
    """A compiler with what it was found for."""
    return {"name": name, "version": version, "found_os": systems, "families": families}


def from_list(value: Any, notes: Notes) -> list[dict]:
    """The entries of compilers.yaml."""
    found = []
    for each in value or []:
        inner = each.get("compiler", {})
        spec = str(inner.get("spec", ""))
        name, _, version = spec.partition("@")
        version = version.removeprefix("=")
        if not signs.is_name(name) or not signs.is_version(version):
            notes.leave_out(inner, f"compiler `{spec}`", "its spec is not one name and one version")
            continue
        if any(inner.get("flags") or {}):
            notes.leave_out(inner, f"flags of {spec}", "the profile has no compiler flags")
        systems, families = [[str(each) for each in texts(inner.get(key, []))] for key in ("operating_system", "target")]
        found.append(compiler_entry(name, version, systems, families))
    return found


def from_externals(packages: Any, notes: Notes) -> list[dict]:
    """The externals of packages.yaml with `extra_attributes: compilers`."""
    found = []
    for package, inner in (packages or {}).items():
        for external in [each for each in inner.get("externals") or [] if isinstance(each, dict)]:
            if not (external.get("extra_attributes") or {}).get("compilers"):
                continue
            name = COMPILER_OF_PACKAGE.get(str(package), str(package))
            part = external_part(str(external.get("spec", "")))
            if part is None or single(part.versions) is None or name not in COMPILERS:
                what = f"packages.{package}: compiler `{external.get('spec')}`"
                notes.leave_out(external, what, "no compiler of the profile with one version")
                continue
            systems = [part.os] if part.os else []
            found.append(compiler_entry(name, single(part.versions) or "", systems, list(part.targets or ())))
    return found


def external_part(text: str) -> Part | None:
    """The spec of an external, without the languages of a compiler; None where the profile has no such spec."""
    try:
        spec = spec_text.read_dependency(text, WITHOUT)
    except NotInProfile:
        return None
    return spec.top


def compilers_of(value: Any, packages: Any, notes: Notes) -> list[dict]:
    """All compilers, those of one name and version together where each goes with each."""
    found: list[dict] = []
    file = notes.file
    listed = from_list(value, notes)
    notes.file = "packages.yaml"
    listed += from_externals(packages, notes)
    notes.file = file
    for each in listed:
        of_same_name = (other for other in found if other["name"] == each["name"] and other["version"] == each["version"])
        same = next(of_same_name, None)
        if same is None:
            found.append(each)
        elif same["families"] == each["families"]:
            same["found_os"] = list(dict.fromkeys(same["found_os"] + each["found_os"]))
        elif same["found_os"] == each["found_os"]:
            same["families"] = list(dict.fromkeys(same["families"] + each["families"]))
        else:
            what = f"a further entry of {each['name']}@{each['version']}"
            notes.leave_out(value, what, "its OS and target are others than before")
    return found


def preference(compiler: dict, wanted: list[str]) -> int:
    """The place of a compiler in a list of preferences."""
    for place, text in enumerate(wanted):
        name, _, versions = text.partition("@")
        if name == compiler["name"] and (not versions or contains(versions, compiler["version"])):
            return place
    return len(wanted)


def ordered(compilers: list[dict], packages: Any, table: list[str], notes: Notes) -> list[dict]:
    """The compilers in the order of `all: compiler`, each with what it supports where that is not all."""
    wanted = [str(each).lstrip("%") for each in texts((packages or {}).get("all", {}).get("compiler", []))]
    found = []
    for each in sorted(compilers, key=lambda compiler: preference(compiler, wanted)):
        entry: dict[str, Any] = {"name": each["name"], "version": each["version"]}
        if each["found_os"]:
            entry["os"] = each["found_os"]
        supported = [name for name in table if builds_for(name, each["families"])]
        if not supported:
            notes.leave_out([], f"compiler {each['name']}@{each['version']}", "it builds for no target of the machine")
            continue
        if len(supported) < len(table):
            entry["targets"] = supported
        found.append(entry)
    return found


def builds_for(target: str, families: list[str]) -> bool:
    """Whether a compiler for these families builds for the target; `any` and no family at all mean all targets."""
    return not families or "any" in families or target not in targets.PARENTS or bool(set(targets.ancestors(target)) & set(families))
