#!/usr/bin/env python3
"""The tests of site_tools: `site_tools/test.py` runs all of them in some seconds, `test.py idioms cases` some; no kit is needed.

Rows and files are the data, in tests/ and examples/site. `--write` writes what the tools give now as what is wanted:
look at `git diff` before it is kept. Where the released program is of other sources, the checks that ask it are passed
over by name.
"""
import argparse
import ast
import contextlib
import io
import shutil
import subprocess
import sys
import tempfile
import time
from concurrent import futures
from pathlib import Path
from typing import Callable, Iterator, Optional

TOOLS = Path(__file__).resolve().parent
TOP = TOOLS.parent
TESTS = TOOLS / "tests"
SITE = TOP / "examples" / "site"
sys.path.insert(0, str(TOOLS))
sys.dont_write_bytecode = True

import answer_checks  # noqa: E402
import log_checks  # noqa: E402
from bridge import export_spec, farm_view, import_repo, import_settings, installed, lock_view, manual, spec_text  # noqa: E402
from bridge.literals import Evaluator, NotLiteral  # noqa: E402
import again_cases  # noqa: E402
import farm_checks  # noqa: E402
import idioms  # noqa: E402
import lock_cases  # noqa: E402
import spack_style  # noqa: E402
import style  # noqa: E402
import view_cases  # noqa: E402

WRITE = "--write" in sys.argv[1:]
Check = Iterator[tuple[str, str]]  # the name of what is wrong, and how


def run(main: Callable[[list[str]], int], *words: object) -> str:
    """What a tool says on both streams, and its status where that is not 0."""
    out = io.StringIO()
    with contextlib.redirect_stdout(out), contextlib.redirect_stderr(out):
        try:
            status = main([str(word) for word in words])
        except SystemExit as end:
            status = int(end.code or 0)
    return out.getvalue() + (f"status {status}\n" if status else "")


def compared(name: str, found: str, wanted: Path) -> Check:
    """Compares a text with a file, or writes the file."""
    if WRITE:
        wanted.parent.mkdir(parents=True, exist_ok=True)
        wanted.write_text(found, "utf-8")
    elif not wanted.exists():
        yield name, f"{wanted.relative_to(TOP)} is missing"
    elif wanted.read_text("utf-8") != found:
        old, new = wanted.read_text("utf-8").splitlines(), found.splitlines()
        place = next((n for n, (a, b) in enumerate(zip(old, new)) if a != b), min(len(old), len(new)))
        shown = [(lines[place] if place < len(lines) else "the end") for lines in (old, new)]
        yield name, f"{wanted.relative_to(TOP)}:{place + 1}: wanted {shown[0]!r}, got {shown[1]!r}"


def compared_folders(name: str, found: Path, wanted: Path) -> Check:
    """Compares all files below a folder with those below another one."""
    for path in [path for path in found.rglob("*") if path.name in ("import.json", "import_rows.jsonl", "origins.json")]:
        path.unlink()  # looked at elsewhere
    if WRITE:
        shutil.rmtree(wanted, ignore_errors=True)
        shutil.copytree(found, wanted)
    paths = {path.relative_to(root) for root in (found, wanted) for path in root.rglob("*") if path.is_file()}
    for path in sorted(paths):
        if not (found / path).exists():
            yield f"{name} {path}", "is wanted, and was not written"
        else:
            yield from compared(f"{name} {path}", (found / path).read_text("utf-8"), wanted / path)


def rows(path: Path) -> Iterator[list[str]]:
    """The rows of a table, cut at ` | `, without comments."""
    for line in path.read_text("utf-8").splitlines():
        if line and not line.startswith("#"):
            yield [word.strip() for word in line.split(" |")]


def check_texts() -> Check:
    """Spec texts of Spack, and what is written for them."""
    readers = {name: getattr(spec_text, f"read_{name}") for name in ("condition", "dependency", "provision")}
    for kind, text, wanted in rows(TESTS / "texts.rows"):
        dialect = spec_text.Dialect(is_v2=kind.startswith("v2 "))
        try:
            found = readers[kind.removeprefix("v2 ")](text, dialect).text()
        except spec_text.NotInProfile as fault:
            found = f"- {fault.kind}"
        if found != wanted:
            yield f"texts.rows `{text}`", f"wanted {wanted!r}, got {found!r}"


def check_literals() -> Check:
    """Expressions, and their values."""
    for text, wanted in rows(TESTS / "literals.rows"):
        try:
            found = repr(Evaluator({"known": ["a"], "sys.platform": "linux"}).value(ast.parse(text, mode="eval").body))
        except NotLiteral:
            found = "-"
        if found != wanted:
            yield f"literals.rows `{text}`", f"wanted {wanted}, got {found}"


def check_recipes() -> Check:
    """The 40 recipes of tests/recipes, a repository of Spack 1.0, and their reports."""
    with tempfile.TemporaryDirectory() as room:
        run(import_repo.main, TESTS / "spack_1", Path(room) / "out", "--build-systems", TOOLS / "build_systems")
        yield from compared_folders("import_repo spack_1", Path(room) / "out", TESTS / "spack_1_expected")
    runs: dict[str, tuple[str, ...]] = {"recipes_expected": (), "strict": ("--strict",), "windows": ("--platform", "windows")}
    for name, words in runs.items():
        with tempfile.TemporaryDirectory() as room:
            out = Path(room) / "out"
            run(import_repo.main, TESTS / "recipes", out, *words)
            if not words:
                yield from compared_folders("import_repo", out, TESTS / name)
                continue
            yield from compared(f"import_repo {words[0]}", (out / "report.txt").read_text("utf-8"), TESTS / "reports" / f"{name}.txt")
            umber = out / "packages" / "umber" / "package.py"
            text = umber.read_text("utf-8") if umber.exists() else "none"
            yield from compared(f"import_repo {words[0]} umber", text, TESTS / "reports" / f"{name}_umber.txt")


def check_idioms() -> Check:
    """Small recipes of one idiom each."""
    for path in sorted((TESTS / "idioms").glob("*.txt")):
        yield from idioms.check(path, run)


def check_spack_style() -> Check:
    """Packages of Spack's, written anew, with what is expected of each."""
    yield from spack_style.faults(TESTS / "spack_style", run, compared)


def check_again() -> Check:
    """An import over the last one."""
    yield from again_cases.faults(TESTS / "recipes", run)


def check_site() -> Check:
    """examples/site is what the importers make of examples/site/spack."""
    with tempfile.TemporaryDirectory() as name:
        room = Path(name)
        run(import_repo.main, SITE / "spack", room / "repo", "--packages", SITE / "spack" / "packages.yaml")
        yield from compared_folders("examples/site", room / "repo" / "packages", SITE / "packages")
        yield from compared("examples/site", (room / "repo" / "report.txt").read_text("utf-8"), SITE / "reports" / "packages.txt")
        files = [SITE / "spack" / f"{each}.yaml" for each in ("packages", "compilers", "concretizer")]
        report = run(import_settings.main, "--target", "zen2", "--repo", room / "repo", room / "settings.json", *files)
        if "python3-yaml is not installed" in report:
            print("passed over: import_settings (python3-yaml is not installed)")
        else:
            yield from compared("examples/site settings report", report, SITE / "reports" / "settings.txt")
            yield from compared("examples/site settings", (room / "settings.json").read_text("utf-8"), SITE / "settings.json")
        report = run(installed.main, SITE / "spack" / "index.json", room / "database.json", room / "hashes.tsv", "--repo", room / "repo")
        yield from compared("examples/site installed report", report, SITE / "reports" / "installed.txt")
        for each in ("database.json", "hashes.tsv"):
            yield from compared(f"examples/site {each}", (room / each).read_text("utf-8"), SITE / each)


def check_cases() -> Check:
    """The folders of tests/settings and tests/installed: files, words, and what comes of them."""
    for folder in sorted((TESTS / "settings").iterdir()):
        words = (folder / "words").read_text("utf-8").replace("@", str(folder)).split()
        with tempfile.TemporaryDirectory() as room:
            out = Path(room) / "settings.json"
            report = run(import_settings.main, out, *sorted(folder.glob("*.yaml")), *words).replace(f"{folder}/", "")
            if "python3-yaml is not installed" not in report:
                text = report + (out.read_text("utf-8") if out.exists() else "")
                yield from compared(f"settings/{folder.name}", text, folder / "wanted.txt")
    for folder in sorted((TESTS / "installed").iterdir()):
        with tempfile.TemporaryDirectory() as room:
            files = [Path(room) / name for name in ("database.json", "hashes.tsv")]
            words = (folder / "words").read_text("utf-8").replace("@", str(folder)).split()
            report = run(installed.main, folder / "index.json", *files, *words).replace(f"{folder}/", "")
            text = report + "".join(file.read_text("utf-8") for file in files if file.exists())
            yield from compared(f"installed/{folder.name}", text, folder / "wanted.txt")


def check_locks() -> Check:
    """The folders of tests/locks: files of Spack's, and the lock files that come of them."""
    for name, text, wanted in lock_cases.outcomes(TESTS / "locks", run):
        yield from compared(name, text, wanted)


def check_views() -> Check:
    """What lock_view and export_spec show of the lock files of the examples, and farm_view of folders of roots."""
    for name, words in view_cases.views(TESTS, lock_view.main, export_spec.main, farm_view.main).items():
        yield from compared(f"views/{name}", run(*words).replace(f"{TOP}/", ""), TESTS / "views" / name)


def check_completion() -> Check:
    """What completion.bash offers in the top folder."""
    script = 'source "$1"; shift; COMP_WORDS=(spack_concretize "$@") COMP_CWORD=$#; _spack_concretize; echo "${COMPREPLY[*]}"'
    for text, wanted in rows(TESTS / "completion.rows"):
        words = ["bash", "-c", script, "-", str(TOOLS / "completion.bash"), *text.split()]
        found = subprocess.run(words, capture_output=True, text=True, cwd=TOP, check=False).stdout.strip()
        if found != wanted:
            yield f"completion.rows `{text}`", f"wanted {wanted!r}, got {found!r}"


def check_manual() -> Check:
    """The man page is what the script makes of the documents."""
    yield from compared("manual", manual.page(TOP), TOOLS / "spack_concretize.1")


def released() -> Optional[str]:
    """The released program, where it is of these sources."""
    done = subprocess.run([str(TOP / "spack_concretize"), "--where"], capture_output=True, text=True, check=False)
    path = done.stdout.strip()
    return path if done.returncode == 0 and path.startswith(f"{TOP}/release/") else None


def answer(program: str, file: Path, room: Path) -> str:
    """What the program says to the words of a file, and its status; LOCK among them stands for a file in the room."""
    words = [str(room / f"{file.stem}.lock") if word == "LOCK" else word for word in file.read_text("utf-8").splitlines()]
    done = subprocess.run([program, *words], capture_output=True, text=True, cwd=TOP, check=False)
    return f"{done.stdout}{done.stderr}status {done.returncode}\n"


def check_read(program: str) -> Check:
    """The settings and databases of the cases are read by the program."""
    for wanted in sorted(TESTS.glob("settings/*/wanted.txt")) + sorted(TESTS.glob("installed/*/wanted.txt")):
        lines = [line for line in wanted.read_text("utf-8").splitlines() if line.startswith(("{", "}", " ", "]"))]
        start = next((place for place, line in enumerate(lines) if line.startswith("{")), None)
        if start is None:
            continue
        with tempfile.TemporaryDirectory() as room:
            file = Path(room) / "file.json"
            file.write_text("\n".join(lines[start:]), "utf-8")
            words = [str(file), "-"] if wanted.parent.parent.name == "settings" else ["-", str(file)]
            command = [program, "concretize", "examples/versions", *words, f"{room}/lock", "-", "zlib"]
            done = subprocess.run(command, capture_output=True, text=True, cwd=TOP, check=False)
            if done.returncode not in (0, 1):
                yield f"{wanted.parent.relative_to(TESTS)}", f"the program says {done.stderr.strip()!r}"


def check_program() -> Check:
    """What the released program says over the examples, and that it reads all recipes that were imported."""
    program = released()
    if program is None:
        print("passed over: answers of the program (release/ is of other sources)")
        return
    files = sorted((TESTS / "answers").glob("*.words"))
    with tempfile.TemporaryDirectory() as room, futures.ThreadPoolExecutor(4) as pool:
        for file, text in zip(files, pool.map(lambda file: answer(program, file, Path(room)), files)):
            yield from compared(f"answers/{file.stem}", text.replace(f"{room}/", ""), file.with_suffix(".wanted"))
        lock = (Path(room) / "site_hdf5.lock").read_text("utf-8")
        yield from compared("examples/site/hdf5.lock", lock, SITE / "hdf5.lock")
    yield from check_read(program)
    yield from spack_style.refused(TESTS / "spack_style", run, program)
    yield from answer_checks.check_all()
    yield from log_checks.check_accepted()
    yield from farm_checks.check_farm(program)


def check_style() -> Check:
    """Each module and function says what it does, has types, and is short."""
    for path in [*sorted((TOOLS / "bridge").glob("*.py")), *sorted(TOOLS.glob("*.py"))]:
        yield from style.faults(path)


def chosen() -> list[str]:
    """The names of the checks that are asked for."""
    parser = argparse.ArgumentParser(description=__doc__)
    parser.add_argument("--write", action="store_true", help="keep what the tools give now as what is wanted")
    parser.add_argument("checks", nargs="*", help="names of checks, as the lines show them; all without a name")
    return parser.parse_args().checks


def main() -> int:
    """Runs all checks: 0 where nothing differs."""
    begun, wrong = time.monotonic(), 0
    # The program's lock file is one that the views show, so it comes first.
    checks = (check_style, check_texts, check_literals, check_idioms, check_recipes, check_spack_style, check_again, check_site)
    checks = (*checks, check_cases, check_locks)
    asked, checks = chosen(), (*checks, check_program, check_views, log_checks.check_logs, check_completion, check_manual)
    for check in [each for each in checks if not asked or each.__name__[6:] in asked]:
        faults = list(check())
        wrong += len(faults)
        print(f"{check.__name__.removeprefix('check_')}: {'right' if not faults else f'{len(faults)} wrong'}")
        for name, fault in faults:
            print(f"  {name}: {fault}")
    print(f"{wrong} wrong, {time.monotonic() - begun:.1f} s")
    return 1 if wrong else 0


if __name__ == "__main__":
    sys.exit(main())
