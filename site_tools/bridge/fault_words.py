"""What a person asks behind the line of a refusal: where it is, which of several causes it has, and what is nearest.

Reads the files of the run as they stand; says nothing where it knows nothing, and decides nothing.
"""
import errno
import json
import os
import re
from pathlib import Path
from typing import Callable, Optional

from . import farm_view, fault_files, recipe_rows, spec_faults, spec_parts
from .catalog import Catalog, few, nearest
from .fault_files import Told, Words, bytes_of
from .fault_lines import Fault
from .shown import Place, shown

LIMITS = {
    "settings": "16 MiB", "recipes": "16,384 recipes", "recipe": "1 MiB in one recipe", "recipe bytes": "256 MiB in all recipes",
    "database": "64 MiB", "specs": "64 KiB in all specs", "roots": "64 specs", "packages": "1,024 packages that the specs can lead to",
}


def missing(fault: Fault, words: Words) -> Told:
    """A file or folder that is not there."""
    path = fault.words[0]
    told = Told()
    if path == f"{words.repo}/packages":
        inner = [each.parent for each in sorted(Path(words.repo).glob("var/spack/repos/*/repo.yaml"))]
        inner += [each.parent for each in sorted(Path(words.repo).glob("repos/spack_repo/*/repo.yaml"))]
        for each in inner[:2]:
            told.sentences.append(f"{shown(str(each))} is a Spack repository: `site_tools/import_repo {shown(str(each))} OUT`, then OUT")
        if Path(words.repo).is_dir() and not inner:
            there = few(sorted(os.listdir(words.repo)))
            told.sentences.append(f"REPO is the folder that holds `packages`; in {shown(words.repo)} there are {there}")
    folder = Path(path).parent
    while folder != folder.parent and not folder.exists():
        folder = folder.parent
    if not told.sentences and folder.is_dir():
        near = nearest(Path(path).name, os.listdir(folder))
        told.sentences.append(f"the folder {shown(str(folder))} is there" + (f", and has {few(near)}" if near else ""))
    return told


def specs(fault: Fault, words: Words) -> Told:
    """A fault of the specs of the request, or of its roots."""
    catalog, name = Catalog(words.repo, words.settings or "-", words.database or "-"), fault.name()
    if name == "UnknownRoot":
        near = nearest(fault.rest(1), catalog.known())
        return Told(None, [f"the nearest names: {few(near)}" if near else f"no name is near to `{shown(fault.rest(1))}`"])
    if name == "VirtualRoot":
        givers = sorted({package for package, _ in catalog.virtuals.get(fault.rest(1), [])})
        text = f"`{fault.rest(1)}` is provided by {few(givers)}: ask for one of them, or write `^{fault.rest(1)}` behind what needs it"
        return Told(None, [text] if givers else [])
    if name == "WrongPlatform":
        return Told(None, [f"the platform of the settings is `{shown(str(catalog.settings['platform']))}`"])
    offset = fault.number(1)
    if offset is None:
        return Told()
    column = len(words.specs.encode()[:offset].decode("utf-8", "replace")) + 1
    found = spec_faults.words_of(words.specs, offset, fault.words)
    return Told(Place("SPEC", 1, column, words.specs), [found] if found else [])


def names(fault: Fault, words: Words) -> Told:
    """A name of a recipe that is provided as well: by which recipes, and where."""
    name = fault.rest(1)
    givers = Catalog(words.repo).virtuals.get(name, [])
    told = Told(None, [f"{words.repo}/packages/{name}/package.py is a recipe, and `{name}` is provided at"])
    for package, row in givers[:8]:
        told.sentences.append(f"  {words.repo}/packages/{package}/package.py:{row.line}:{row.column}: {shown(row.text, 100)}")
    return told if givers else Told()


def json_words(fault: Fault, words: Words) -> Told:
    """A fault of the settings, the database or the lock file."""
    path = {"settings": words.settings, "database": words.database, "lock": words.lock}[fault.about]
    told = fault_files.json_file(fault, path)
    if fault.name() in ("BadExternal", "Spec") and told.place:
        parts = fault.words[1].split("/")
        if len(parts) > 4:
            settings = json.loads(bytes_of(path))
            text = str(settings["packages"][parts[2]]["externals"][int(parts[4])]["spec"])
            if fault.name() == "Spec":
                found = spec_faults.words_of(text, fault.number(3) or 0, fault.words[2:])
                told.sentences += [f"in `{shown(text)}`: {found}"] if found else []
            else:
                told.sentences.append(spec_faults.why_no_external(parts[2], text, str(settings.get("platform", "linux"))))
    return told


def node_of(path: str, hash: str, key: str) -> str:
    """The name of the entry with a hash, in a lock file or a database."""
    try:
        entries = json.loads(bytes_of(path)).get(key, [])
        return next((str(each["name"]) for each in entries if each.get("hash") == hash), "")
    except (ValueError, AttributeError, TypeError, KeyError):
        return ""


def hashes(fault: Fault, words: Words) -> Told:
    """A fault of hashes, with the names of the entries."""
    path, key = (words.lock, "nodes") if fault.about == "lock" else (words.database, "records")
    entry = node_of(path, fault.words[1], key) if len(fault.words) > 1 else ""
    sentences = {
        "HashDiffers": f"`{shown(entry)}` was changed, and its hash was not",
        "Dangling": f"`{shown(entry)}` names a child that is not there",
        "TwiceHash": f"`{shown(entry)}` stands twice",
    }
    data = bytes_of(path)
    at = data.find(f'"hash":"{fault.words[1]}"'.encode()) if len(fault.words) > 1 else -1
    told = Told(fault_files.place_at(path, data, at) if at >= 0 else None)
    if entry and fault.name() in sentences:
        told.sentences.append(sentences[fault.name()])
    return told


def roots(fault: Fault, words: Words) -> Told:
    """The roots of a lock file, and those that were asked for."""
    try:
        written = [str(each["spec"]) for each in json.loads(bytes_of(words.lock))["roots"]]
    except (ValueError, KeyError, TypeError):
        return Told()
    return Told(None, [f"the lock file is for: {shown(' '.join(written))}", f"asked for was:        {shown(words.specs)}"])


def graph(fault: Fault, words: Words) -> Told:
    """A rule that a graph breaks: the directive, with its place."""
    package, number = (fault.words[1], fault.number(2)) if len(fault.words) > 2 else ("", None)
    if fault.name() == "Root":
        spec = spec_parts.parts(words.specs)[number or 0 :]
        return Told(None, [f"asked for was: {shown(spec_parts.text_of(spec[0]))}"] if spec else [])
    rows = recipe_rows.read(Path(words.repo), package)
    if fault.name() in ("Edge", "Constraint", "Conflict", "Requirement") and number is not None and number < len(rows):
        row = rows[number]
        path = f"{words.repo}/packages/{package}/package.py"
        why = row.keywords.get("msg")
        return Told(Place(path, row.line, row.column, " " * (row.column - 1) + row.text), [f"its message: {shown(why)}"] if why else [])
    return Told()


def certificate(fault: Fault, words: Words) -> Told:
    """The line of a certificate that is refused."""
    number = fault.number(1)
    lines = bytes_of(words.cert).split(b"\n")
    if number is None or not 0 < number <= len(lines):
        return Told()
    told = Told(Place(words.cert, number, 1, lines[number - 1].decode("utf-8", "replace")))
    if fault.words[-1] == "WrongCounts":
        told.sentences.append("the certificate was made for another problem: other recipes, settings, database or specs")
    return told


def device(fault: Fault, words: Words) -> Told:
    """A file that cannot be read or written, with the cause that the machine names now."""
    path, reads = fault.words[0], fault.status == 5
    try:
        if not reads:
            folder = Path(path).parent
            why = "is not there: make it first" if not folder.exists() else "cannot be written"
            return Told(None, [] if os.access(folder, os.W_OK) else [f"the folder {shown(str(folder))} {why}"])
        if not Path(path).is_file():
            return Told(None, ["it is no regular file"] if Path(path).exists() else ["it is not there now"])
        with open(path, "rb") as file:
            file.read(1)
    except OSError as found:
        return Told(None, [os.strerror(found.errno or errno.EIO).lower()])
    return Told()


def large(fault: Fault, words: Words) -> Told:
    """A limit."""
    what = fault.words[0]
    limit = LIMITS.get(what) or LIMITS.get(what.split(" ")[0])
    return Told(None, [f"the limit is {limit}: docs/WHEN-REFUSED.md"] if limit else [])


ABOUT: dict[str, Callable[[Fault, Words], Told]] = {
    "missing": missing, "specs": specs, "names": names, "recipe": fault_files.recipe, "settings": json_words, "database": json_words,
    "lock": json_words, "roots": roots, "graph": graph, "certificate": certificate, "read": device, "write": device, "large": large,
}


def root_of(fault: Fault, words: Words) -> Optional[int]:
    """The root of `check_each` whose files a refusal is about: the one that it says, or the first that it can be of."""
    if words.command != "check_each" or fault.root is not None:
        return fault.root
    count = len(spec_parts.parts(words.specs))
    if fault.about == "lock" and fault.name() == "NotJson":
        for number in range(count):
            if not is_json(bytes_of(f"{words.folder}/{number}.lock")):
                return number
    return None


def is_json(data: bytes) -> bool:
    """Whether bytes are JSON, as far as Python tells."""
    try:
        json.loads(data)
        return True
    except ValueError:
        return False


def without_lock(fault: Fault, words: Words) -> list[str]:
    """What a root's certificate says where `check_each` misses its lock file."""
    file = re.fullmatch(r"(.*)/([0-9]+)\.lock", fault.words[0], re.S)
    if words.command != "check_each" or fault.about != "missing" or not file or file[1] != words.folder:
        return []
    cert = Path(f"{file[1]}/{file[2]}.cert")
    status = farm_view.end_of(cert) if cert.is_file() else "best"
    view = f"site_tools/farm_view {shown(words.folder)} shows all roots"
    return [f"root {file[2]} has no lock file, since `each` left it {status}: {view}"] if status in ("unsatisfiable", "undecided") else []


def told(fault: Fault, words: Words) -> Told:
    """What can be said behind a refusal, of one root of many as of that root alone."""
    try:
        number = root_of(fault, words)
        told = told_alone(fault, words if number is None else fault_files.words_of_root(words, number))
        told.sentences += without_lock(fault, words)
        return told
    except (OSError, ValueError):
        return Told()


def told_alone(fault: Fault, words: Words) -> Told:
    """What can be said behind a refusal of a run over one problem."""
    if fault.name() in ("HashDiffers", "Dangling", "TwiceHash"):
        return hashes(fault, words)
    teller = ABOUT.get(fault.about)
    try:
        return teller(fault, words) if teller else Told()
    except (OSError, ValueError, LookupError, TypeError, AttributeError, RecursionError):
        return Told()  # the files are not as they were when the run read them
