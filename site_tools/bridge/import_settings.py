"""`import_settings`: Spack's packages.yaml, compilers.yaml and concretizer.yaml as settings of the profile.

Reads YAML (by python3-yaml, Debian's package of that name), writes settings JSON. What the settings cannot say is left
out and listed with its line and what to do instead; nothing of the machine is looked at.
"""
import argparse
import hashlib
import json
import sys
from pathlib import Path
from typing import Any, Optional

from . import json_files, settings_packages, targets, yaml_texts
from .catalog import Catalog
from .rows import Cannot
from .settings_compilers import compilers_of, ordered
from .settings_notes import Notes

KINDS = ("packages", "compilers", "concretizer")
CONCRETIZER = {
    "reuse": "reuse is what the DATABASE word of the command is: a file, or `-` for none",
    "unify": "a graph of the profile has one node for each package, as with `unify: true`",
    "duplicates": "a graph of the profile has one node for each package, as with `strategy: none`",
    "timeout": "a search is bounded by `conflict_budget`, and not by time",
}
SAME = {("unify", "true"), ("duplicates", "none")}


def read_files(paths: list[Path]) -> dict[str, tuple[str, Any]]:
    """Each kind of settings with its file; `Cannot` where one stands twice or a file is none."""
    found: dict[str, tuple[str, Any]] = {}
    for path in paths:
        try:
            value = yaml_texts.read_file(path)
        except ValueError as fault:
            raise Cannot("a file that cannot be read", f"{path}: {fault}") from fault
        if not isinstance(value, dict) or not value:
            raise Cannot("a file that is no map", str(path))
        for key, inner in value.items():
            if key not in KINDS:
                raise Cannot("a kind of settings that is not read", f"`{key}` in {path}")
            if key in found:
                what = f"`{key}` in {found[key][0]} and in {path}; `spack config get {key}` gives all scopes as one"
                raise Cannot("a kind of settings that stands twice", what)
            found[str(key)] = (path.name, inner)
    return found


def read_concretizer(value: Any, notes: Notes) -> bool:
    """Notes what the concretizer's own settings are here; true where only generic targets are asked for."""
    generic = False
    for key, inner in (value or {}).items():
        if key == "targets" and isinstance(inner, dict):
            generic = inner.get("granularity") == "generic"
            if inner.get("host_compatible", "true").lower() != "true":
                notes.leave_out(inner, "targets.host_compatible", "the table of targets has those that the machine runs")
            continue
        if key == "reuse":
            notes.take(inner, "concretizer.reuse", CONCRETIZER["reuse"])
            continue
        text = inner.get("strategy") if isinstance(inner, dict) else inner
        if (str(key), str(text).lower()) not in SAME:
            notes.leave_out(inner, f"concretizer.{key}", CONCRETIZER.get(str(key), "the settings have no such key"))
    return generic


def systems_of(given: argparse.Namespace, compilers: list[dict]) -> list[str]:
    """The operating systems: as said, or those that the compilers were found on."""
    systems = given.os or list(dict.fromkeys(text for each in compilers for text in each["found_os"]))
    if not systems:
        raise Cannot("no operating system", "say --os")
    return systems


def target_table(given: argparse.Namespace, packages: Any, generic: bool, notes: Notes) -> list[dict]:
    """The table of targets, those first that are preferred for all packages."""
    targets.use(given.archspec)
    if given.targets:
        table = json_files.read(given.targets)
    elif given.target in targets.PARENTS:
        table = targets.table_of(given.target, generic)
    else:
        raise Cannot("a target that is not known here", f"`{given.target}`: give archspec's table by --archspec")
    names = [each["name"] for each in table]
    wanted = list(yaml_texts.texts((packages or {}).get("all", {}).get("target", [])))
    for text in [text for text in wanted if text not in names]:
        notes.leave_out(text, f"packages.all.target {text}", "the machine does not run it")
    return sorted(table, key=lambda each: wanted.index(each["name"]) if each["name"] in wanted else len(wanted))


def settings_of(given: argparse.Namespace, notes: Notes) -> dict:
    """The whole settings."""
    files = read_files(given.files)
    packages_file, packages = files.get("packages", ("packages.yaml", {}))
    notes.file = packages_file
    packages = settings_packages.maps(packages, notes)
    compilers_file, listed = files.get("compilers", ("compilers.yaml", []))
    notes.file, concretizer = files.get("concretizer", ("concretizer.yaml", {}))
    generic = read_concretizer(concretizer, notes)
    notes.file = compilers_file
    compilers = compilers_of(listed, packages, notes)
    systems = systems_of(given, compilers)
    notes.file = packages_file
    table = target_table(given, packages, generic, notes)
    notes.file = compilers_file
    compilers = ordered(compilers, packages, [each["name"] for each in table], notes)
    if not compilers:
        raise Cannot("no compiler", "neither compilers.yaml nor an external with `compilers` has one for this machine")
    notes.file = packages_file
    settings = {"platform": given.platform, "os": systems, "targets": table, "compilers": compilers}
    site = site_of(given, [each["name"] for each in table])
    # Spack's solver takes the names of one `provides` together
    read = settings_packages.read(packages, site, notes)
    return {**settings, "providers": read["providers"], "provided_together": True, "packages": read["packages"]}


def site_of(given: argparse.Namespace, names: list[str]) -> settings_packages.Site:
    """What is known of the machine, and of the recipes that `--repo` names."""
    if given.repo is None:
        return settings_packages.Site(given.platform, names)
    path = given.repo / "site.json"
    try:
        known = json_files.read(path)
        providers, declared, digest = known["providers"], known["declared"], known["packages"]
    except (OSError, ValueError, KeyError, TypeError) as fault:
        raise Cannot("no folder that import_repo wrote", f"{path}: {fault}") from fault
    digests = {hashlib.sha256(each.read_bytes()).hexdigest() for each in given.files}
    catalog = Catalog(str(given.repo))
    variants = {each: {row.first() for row in catalog.rows(each) if row.word == "variant"} for each in catalog.recipes}
    return settings_packages.Site(given.platform, names, providers, declared, digest in digests, variants)


def text_of(settings: dict) -> str:
    """The settings as a file that can be read: one line for each entry of a list or map."""
    parts = []
    for key, value in settings.items():
        if isinstance(value, (str, bool)) or not value:
            parts.append(f"  {json.dumps(key)}: {json.dumps(value)}")
            continue
        is_list = isinstance(value, list)
        rows = [json.dumps(each) for each in value] if is_list else [f"{json.dumps(name)}: {json.dumps(value[name])}" for name in value]
        ends = "[]" if is_list else "{}"
        parts.append(f"  {json.dumps(key)}: {ends[0]}\n    " + ",\n    ".join(rows) + f"\n  {ends[1]}")
    return "{\n" + ",\n".join(parts) + "\n}\n"


def main(words: Optional[list[str]] = None) -> int:
    """Imports settings: 0 where all was said, 1 where something was listed, 2 where nothing could be written."""
    parser = argparse.ArgumentParser(prog="import_settings", description=__doc__)
    parser.add_argument("out", type=Path, metavar="SETTINGS", help="the settings file that is written")
    parser.add_argument("files", type=Path, nargs="+", metavar="YAML", help="files of Spack's settings")
    parser.add_argument("--platform", default="linux", help="the platform")
    parser.add_argument("--os", action="append", help="an operating system; repeated, the preferred first")
    which = parser.add_mutually_exclusive_group(required=True)
    which.add_argument("--target", help="the target of the machine, as `spack arch -t` names it")
    which.add_argument("--targets", type=Path, metavar="JSON", help="a table of targets, in the form of the settings' key")
    parser.add_argument("--archspec", type=Path, metavar="JSON", help="archspec's microarchitectures.json, as Spack has it")
    parser.add_argument(
        "--repo", type=Path, metavar="OUT",
        help="what import_repo wrote: it says which names are virtual, and whether it was given this packages.yaml",
    )
    parser.add_argument("--strict", action="store_true", help="write nothing where something is left out")
    given = parser.parse_args(words)
    notes = Notes()
    try:
        settings = settings_of(given, notes)
    except Cannot as fault:
        print(f"import_settings: {fault.kind}: {fault.detail}", file=sys.stderr)
        return 2
    except (AttributeError, TypeError) as fault:
        print(f"import_settings: a file that is not of Spack's form: {fault}", file=sys.stderr)
        return 2
    except (OSError, ValueError, KeyError, yaml_texts.NoYaml) as fault:
        print(f"import_settings: {fault}", file=sys.stderr)
        return 2
    if not (given.strict and notes.rows):
        given.out.write_text(text_of(settings), "utf-8")
    print(notes.text(), end="")
    return 1 if notes.rows else 0
