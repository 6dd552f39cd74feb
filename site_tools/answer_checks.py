"""Checks of what a person or a machine is told behind the program's own line: used by test.py, run by no one else.

The rows of tests/mistakes are replayed with the program, and with the launcher where words are wrong; what is said, and what
show_fault and show_reasons say of it, has to name the word or the place. The objects of `--json` have to fit docs/formats/json.schema.json.
"""
import contextlib
import io
import json
import os
import shlex
import subprocess
import sys
import tempfile
from concurrent import futures
from pathlib import Path
from typing import Any, Callable, Iterator

from bridge import lock_view, show_fault, show_reasons
from bridge.fault_lines import read as read_fault

TOOLS = Path(__file__).resolve().parent
TOP = TOOLS.parent
MISTAKES = TOOLS / "tests" / "mistakes"
SCHEMA = TOP / "docs" / "formats" / "json.schema.json"
Check = Iterator[tuple[str, str]]
KINDS: dict[str, Callable[[Any], bool]] = {
    "object": lambda value: isinstance(value, dict), "array": lambda value: isinstance(value, list), "null": lambda value: value is None,
    "string": lambda value: isinstance(value, str), "integer": lambda value: isinstance(value, int) and not isinstance(value, bool),
}


def make_room(room: Path) -> None:
    """Writes the files of the mistakes into a folder."""
    for name, target in (("m", "mpi"), ("v", "versions")):
        (room / name).symlink_to(TOP / "examples" / target)
    path = None
    for line in (MISTAKES / "files.txt").read_text("utf-8").splitlines(keepends=True):
        if line.startswith("=== "):
            path = room / line[4:].strip()
            path.parent.mkdir(parents=True, exist_ok=True)
            path.write_text("", "utf-8")
        elif path:
            with path.open("a", encoding="utf-8") as file:
                file.write(line)


def said(words: list[str], room: str) -> "subprocess.CompletedProcess[str]":
    """What the program says to some words, and of wrong words what the launcher says."""
    for program in (TOP / "release" / "spack_concretize-x86_64-linux", TOP / "spack_concretize"):
        done = subprocess.run([str(program), *words], cwd=room, capture_output=True, text=True, check=False)
        if done.returncode != 2:
            break
    return done


def view(main: Callable[[list[str]], int], words: list[str]) -> str:
    """What a view says, and its status where that is not 0."""
    out = io.StringIO()
    with contextlib.redirect_stdout(out), contextlib.redirect_stderr(out):
        status = main(words)
    return out.getvalue() + (f"status {status}\n" if status else "")


def told(words: list[str], done: "subprocess.CompletedProcess[str]", room: str) -> str:
    """All that a person is told of a run; the views are asked in the room."""
    log = Path(room) / "log"
    log.write_text(done.stderr, "utf-8")
    if done.returncode == 1 and words[0] in ("explain", "reasons"):
        return view(show_reasons.main, words[1:])
    return done.stderr + view(show_fault.main, [str(log), *words])


def mistake_rows() -> list[tuple[list[str], str]]:
    """The rows: words, and what has to be told."""
    lines = (MISTAKES / "mistakes.rows").read_text("utf-8").splitlines()
    cut = [line.split(" | ", 1) for line in lines if line and not line.startswith("#")]
    return [(shlex.split(words), wanted) for words, wanted in cut]


def check_mistakes() -> Check:
    """Each mistake of the table is told by its word or place, and each request that no graph meets by its reason."""
    rows = mistake_rows()
    before = os.getcwd()
    with tempfile.TemporaryDirectory() as room, futures.ThreadPoolExecutor(4) as pool:
        make_room(Path(room))
        runs = list(pool.map(lambda row: said(row[0], room), rows))
        unmet = {tuple(words) for (words, _), done in zip(rows, runs) if done.returncode == 1}
        if len(unmet) < 20 or len({tuple(words) for words, _ in rows} - unmet) < 59:
            yield "mistakes.rows", "has fewer than 59 mistakes, or than 20 requests that no graph meets"
        os.chdir(room)
        try:
            for (words, wanted), done in zip(rows, runs):
                text = told(words, done, room)
                if wanted not in text:
                    yield f"mistakes.rows `{shlex.join(words)}`", f"wanted {wanted!r}, got {text!r}"
                if any(ord(sign) < 32 and sign != "\n" for sign in text.removeprefix(done.stderr)):
                    yield f"mistakes.rows `{shlex.join(words)}`", "control bytes are shown"
        finally:
            os.chdir(before)


def misfits(value: Any, schema: dict[str, Any], whole: dict[str, Any], place: str = "") -> Iterator[str]:
    """Where a value does not fit a schema, of the words that json.schema.json uses."""
    if "$ref" in schema:
        yield from misfits(value, whole["$defs"][schema["$ref"].rsplit("/", 1)[1]], whole, place)
        return
    kinds = schema.get("type", [])
    if kinds and not any(KINDS[kind](value) for kind in ([kinds] if isinstance(kinds, str) else kinds)):
        yield f"{place}: {value!r} is no {kinds}"
        return
    if "enum" in schema and value not in schema["enum"]:
        yield f"{place}: {value!r} is none of {schema['enum']}"
    if isinstance(value, dict):
        yield from (f"{place}: `{key}` is missing" for key in schema.get("required", []) if key not in value)
        for key, each in value.items():
            known = schema.get("properties", {}).get(key, schema.get("additionalProperties", False))
            if known is False:
                yield f"{place}: `{key}` is not in the schema"
            else:
                yield from misfits(each, known, whole, f"{place}/{key}")
    if isinstance(value, list):
        if not schema.get("minItems", 0) <= len(value) <= schema.get("maxItems", len(value)):
            yield f"{place}: has {len(value)} entries"
        for number, each in enumerate(value):
            yield from misfits(each, schema.get("items", {}), whole, f"{place}/{number}")


def json_runs() -> list[tuple[list[str], dict[str, Any]]]:
    """Runs by `--json`, each with what its object has to have at least."""
    site = ["examples/site", "examples/site/settings.json", "examples/site/database.json"]
    mpi = ["examples/mpi", "examples/mpi/settings.json", "-"]
    ask = "hdf5@1.14: +mpi ^mpich"
    return [
        (["concretize", *site, "@/l", "-", "hdf5"], {"status": 0, "answer": "Done"}),
        (["concretize", *mpi, "@/l", "@/c", ask], {"status": 0, "answer": "Done"}),
        (["check", *mpi, "@/l", "@/c", ask], {"status": 0, "said": "accepted"}),
        (["judge", *mpi, "@/l", ask], {"status": 0, "said": "valid"}),
        (["judge", *mpi, "examples/mpi/broken.lock", ask], {"status": 8, "answer": "Refused", "line": "refused: graph Conflict hdf5 8"}),
        (["fresh", *mpi, "@/l", ask], {"status": 0, "said": "fresh"}),
        (["fresh", *mpi, "examples/mpi/broken.lock", ask], {"status": 8, "answer": "Refused", "line": "refused: graph Conflict hdf5 8"}),
        (["plan", *mpi, "@/l", ask], {"status": 0, "waves": [["cmake", "mpich", "zlib"], ["hdf5"]], "chain": ["hdf5", "cmake"]}),
        (["each", *mpi, "@/", "zlib", "hdf5@9"], {"status": 1, "answer": "Unsatisfiable"}),
        (["check_each", *mpi, "@/", "zlib"], {"status": 0, "said": "accepted"}),
        (["check_each", *mpi, "@/", "zlib@1"], {"status": 8, "answer": "Refused", "line": "refused: root 0: roots"}),
        (["find", *site, "%gcc ^zlib-api"], {"status": 0, "answer": "Done"}),
        (["find", *mpi, "hdf5"], {"status": 0, "found": 0}),
        (["find", *mpi, "hdf5@"], {"status": 4, "answer": "BadInput"}),
        (["concretize", *mpi, "@/l", "-", "hdf5@9"], {"status": 1, "answer": "Unsatisfiable"}),
        (["explain", *mpi, "hdf5"], {"status": 0, "said": "satisfiable"}),
        (["explain", *mpi, "hdf5@9"], {"status": 1}),
        (["explain", *mpi, "hdf5 ++mpi"], {"status": 4, "answer": "BadInput"}),
        (["reasons", *mpi, "hdf5"], {"status": 0, "said": "satisfiable"}),
        (["reasons", *mpi, "hdf5@1.14: ~shared"], {"status": 1, "answer": "Unsatisfiable"}),
        (["trial", "20", "1"], {"status": 0, "learnt": 0}),
        (["trial", "0", "1"], {"status": 2, "answer": "Usage"}),
        (["--version"], {"status": 0, "answer": "Done"}),
        (["--help", "trial"], {"status": 2, "answer": "Usage"}),
        ([], {"status": 2, "answer": "Usage"}),
    ]


def check_json() -> Check:
    """The objects of `--json` fit the schema, and have the status of the run."""
    schema = json.loads(SCHEMA.read_text("utf-8"))
    with tempfile.TemporaryDirectory() as room:
        for words, wanted in json_runs():
            named = [word.replace("@/", f"{room}/") if word.startswith("@/") else word for word in words]
            done = subprocess.run(
                [str(TOP / "spack_concretize"), "--json", *named], cwd=TOP, capture_output=True, text=True, check=False
            )
            name = f"--json {shlex.join(words)}"
            if done.stdout.count("\n") != 1 or done.stderr:
                yield name, f"is not one line: {done.stdout!r} {done.stderr!r}"
                continue
            found = json.loads(done.stdout)
            yield from ((name, fault) for fault in misfits(found, schema, schema))
            missing = {key: found.get(key) for key, value in wanted.items() if found.get(key) != value}
            if missing or done.returncode != found["status"]:
                yield name, f"wanted {wanted}, got {missing} and the exit status {done.returncode}"


def check_fields() -> Check:
    """The fields of refusals, blanks of keys and all."""
    rows = {
        "bad input: settings: UnknownKey /a b": ["/a b"],
        "bad input: settings: WrongKind ": [""],
        "bad input: settings: Spec /packages/a b/externals/0/spec Unsupported 5 Propagation":
            ["/packages/a b/externals/0/spec", "Unsupported", "5", "Propagation"],
        "bad input: database: HashDiffers a b": ["a", "b"],
        "bad input: recipe x: Spec 33 Expected 2": ["33", "Expected", "2"],
    }
    for line, wanted in rows.items():
        fault = read_fault(line)
        if fault is None or fault.fields() != wanted:
            yield f"fields of `{line}`", f"wanted {wanted}, got {fault and fault.fields()}"


def check_why() -> Check:
    """What `lock_view --why` and `--diff` say of the examples; `--write` keeps what is said now as what is wanted."""
    mpi, site = TOP / "examples" / "mpi", TOP / "examples" / "site"
    views = TOOLS / "tests" / "views"
    rows: dict[str, list[object]] = {
        "mpi_why.txt": [
            mpi / "hdf5.lock", "--vector", views / "mpi.out", "--why", "mpi", "--repo", mpi, "--settings", mpi / "settings.json",
        ],
        "site_why.txt": [
            site / "hdf5.lock", "--why", "zlib-api", "--judge", site, site / "settings.json", site / "database.json",
        ],
        "no_why.txt": [mpi / "hdf5.lock", "--why", "zli"],
        "same_diff.txt": [site / "hdf5.lock", "--diff", site / "hdf5.lock"],
    }
    for name, words in rows.items():
        text = view(lock_view.main, list(map(str, words))).replace(f"{TOP}/", "")
        if "--write" in sys.argv[1:]:
            (views / name).write_text(text, "utf-8")
        elif (views / name).read_text("utf-8") != text:
            yield f"views/{name}", f"got {text!r}"


def check_all() -> Check:
    """All checks of this file."""
    for check in (check_mistakes, check_json, check_fields, check_why):
        yield from check()
