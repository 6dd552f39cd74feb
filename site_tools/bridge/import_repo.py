"""`import_repo`: Spack's recipes as recipes of the profile, and a report of what was left out.

Reads each `package.py` by Python's `ast`, never runs one, and never guesses: what the profile cannot say exactly is
left out and listed with its line and reason.
"""
import argparse
import gc
import hashlib
import json
import sys
from pathlib import Path
from typing import Optional

from . import edges, packed, read_packages, report, site_values, sticky, targets, wishes, yaml_texts
from .import_table import TABLE, ImportTable
from .read_packages import Found
from .recipe_files import Repository
from .rows import Cannot, LeftOut, Recipe
from .settings_notes import Notes

TOOLS = Path(__file__).resolve().parent.parent


def drop_clashes(recipes: list[Recipe]) -> None:
    """Leaves out what provides the name of a recipe: the program refuses such a repository."""
    names = {recipe.name for recipe in recipes}
    for recipe in recipes:
        for row in [row for row in recipe.rows if row.directive == "provides" and names & set(row.names)]:
            clash = ", ".join(sorted(names & set(row.names)))
            text = f"provides({', '.join(row.arguments)})"
            recipe.rows.remove(row)
            recipe.left_out.append(
                LeftOut(recipe.file, 0, "provides", text, "a virtual with the name of a package", f"`{clash}`")
            )


def joined(read: dict[str, Found], repository: Repository, given: argparse.Namespace) -> report.Import:
    """All packages of a repository, with what is said of them together."""
    known = {name: read_packages.value_of(read[name]) for name in sorted(read)}
    recipes = [packed.recipe_of(found) for found in known.values() if len(found) > 2]
    refused = {name: Cannot(*found) for name, found in known.items() if len(found) == 2}
    drop_clashes(recipes)
    notes = Notes(wishes.FILE)
    site = wishes.apply(recipes, packages_of(given.packages), notes, repository.dialect)
    site.edges = edges.settle(recipes, notes).shown()
    if given.sticky is not None:
        sticky.settle(recipes, given.sticky)
    if given.strict:
        for recipe in [each for each in recipes if not each.is_whole()]:
            refused[recipe.name] = Cannot("parts that cannot be said, under --strict", recipe.left_out[0].kind)
        recipes = [each for each in recipes if each.is_whole()]
    return report.Import(recipes, refused, site, notes)


def packages_of(path: Optional[Path]) -> yaml_texts.Map:
    """What packages.yaml says, where it is named; `ValueError` where it is of another form."""
    if path is None:
        return yaml_texts.Map()
    value = yaml_texts.read_file(path)
    inner = value.get("packages", yaml_texts.Map()) if isinstance(value, dict) else None
    if not isinstance(inner, dict):
        raise ValueError(f"{path} is no packages.yaml")
    return yaml_texts.Map({name: each for name, each in inner.items() if isinstance(each, dict)})


def write_site(found: report.Import, given: argparse.Namespace) -> None:
    """Writes OUT/site.json, from which import_settings and import_lock know the recipes."""
    digest = hashlib.sha256(given.packages.read_bytes()).hexdigest() if given.packages else None
    known = {"packages": digest, "providers": found.site.providers, "declared": found.site.declared, "edges": found.site.edges}
    (given.out / "site.json").write_text(json.dumps(known, indent=1) + "\n", "utf-8")


def arguments(words: Optional[list[str]]) -> argparse.Namespace:
    """The words of the command line."""
    parser = argparse.ArgumentParser(prog="import_repo", description=__doc__)
    parser.add_argument("repo", metavar="SPACK_REPO", type=Path, help="a folder with packages/NAME/package.py")
    parser.add_argument("out", metavar="OUT", type=Path, help="where the recipes go: a new or empty folder, or one that import_repo wrote")
    parser.add_argument("--strict", action="store_true", help="leave out each package of which a part cannot be said")
    parser.add_argument("--platform", default="linux", choices=["linux", "darwin", "windows"], help="what sys.platform is")
    parser.add_argument("--target", help="a target of the machine, as `spack arch -t` names it: what platform.machine() is")
    parser.add_argument("--jobs", type=int, metavar="N", help="how many processes read; as many as processors if not said")
    parser.add_argument(
        "--build-systems", type=Path, action="append", metavar="FOLDER",
        help="the folder with your Spack's own base classes, in place of the stand-ins of site_tools",
    )
    parser.add_argument(
        "--packages", type=Path, metavar="YAML",
        help="packages.yaml, of which `require`, `conflict`, `prefer`, `variants` and versions of externals go into the recipes",
    )
    parser.add_argument(
        "--sticky", action="append", metavar="SPEC",
        help="what requests may ask of sticky variants, as `cuda_arch=80` or `kokkos cuda_arch=80,90`; '' for nothing",
    )
    parser.add_argument(
        "--values-from", type=Path, action="append", metavar="FILE",
        help="specs, packages.yaml or index.json: values that they name are allowed where a variant takes any text",
    )
    parser.add_argument("--report", type=Path, metavar="FILE", help="where the report goes; OUT/report.txt if not said")
    parser.add_argument("--json", type=Path, metavar="FILE", help="the report for programs")
    return parser.parse_args(words)


def families() -> dict[str, str]:
    """The family of each target that is known here, as `platform.machine()` says it."""
    targets.use(None)
    return {name: targets.ancestors(name)[-1] for name in targets.PARENTS}


def imported(repository: Repository, given: argparse.Namespace, stand_ins: list[Path]) -> int:
    """Imports a repository, or says that nothing changed since the last time."""
    table = ImportTable(given.out, repository, given)
    if table.is_same():
        print(f"nothing changed: {table.summary}")
        return table.status
    read = table.kept()
    read.update(read_packages.read_all(repository, [name for name in repository.folders if name not in read], given.jobs))
    found = joined(read, repository, given)
    by_hand = table.write(read, found, given.jobs)
    write_site(found, given)
    text = report.text_of(found, report.stand_ins_of(stand_ins, found), by_hand)
    report_file = given.report or given.out / "report.txt"
    report_file.write_text(text, "utf-8")
    if given.json:
        given.json.write_text(json.dumps([packed.shown(each) for each in found.recipes], indent=1), "utf-8")
    print(report.summary(found))
    print(f"report: {report_file}")
    table.end(report.summary(found), report.status(found))
    return table.status


def main(words: Optional[list[str]] = None) -> int:
    """Imports a repository: 0 where all was said, 1 where something was listed, 2 where no recipe was written."""
    given = arguments(words)
    gc.set_threshold(100_000, 50, 50)  # many rows are kept, and few go round
    if not (given.repo / "packages").is_dir():
        print(f"import_repo: there is no folder {given.repo}/packages", file=sys.stderr)
        return 2
    if (given.out / "packages").exists() and any((given.out / "packages").iterdir()) and not (given.out / TABLE).is_file():
        print(f"import_repo: {given.out}/packages is not empty: name a new folder", file=sys.stderr)
        return 2
    if given.target is not None and given.target not in families():
        print(f"import_repo: a target that is not known here: {given.target}", file=sys.stderr)
        return 2
    own = given.repo / "build_systems"
    named = ([own] if own.is_dir() else []) + (given.build_systems or [])
    try:
        family = families()[given.target] if given.target else None
        repository = Repository(given.repo, named or [TOOLS / "build_systems"], given.platform, family)
        repository.site_values = site_values.read(given.values_from or [])
        return imported(repository, given, [] if named else repository.base_files)
    except (ValueError, OSError, yaml_texts.NoYaml) as fault:
        print(f"import_repo: {fault}", file=sys.stderr)
        return 2
