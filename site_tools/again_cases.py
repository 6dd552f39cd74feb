"""An import into a folder that has one already: it has to leave what a new import would, but for what was changed by hand."""
import shutil
import tempfile
from pathlib import Path
from typing import Callable, Iterator

from bridge import import_repo
from bridge.import_table import ORIGINS, ROWS, TABLE


def texts_below(folder: Path) -> dict[str, str]:
    """All files below a folder but the table, which has the hashes of the last import."""
    files = [path for path in folder.rglob("*") if path.is_file() and path.name != TABLE]
    return {path.relative_to(folder).as_posix(): path.read_text("utf-8") for path in files}


def faults(recipes: Path, run: Callable[..., str]) -> Iterator[tuple[str, str]]:
    """What differs."""
    with tempfile.TemporaryDirectory() as name:
        room = Path(name)
        repo, out, fresh = room / "repo", room / "out", room / "fresh"
        shutil.copytree(recipes, repo)
        first = run(import_repo.main, repo, out)
        if run(import_repo.main, repo, out) != f"nothing changed: {first.splitlines()[0]}\nstatus 1\n":
            yield "again", "the same import does something"
        before = {path: path.stat().st_mtime_ns for path in out.glob("packages/*/package.py")}
        kelp = repo / "packages" / "kelp" / "package.py"
        kelp.write_text(kelp.read_text("utf-8") + '\n    conflicts("@99", msg="never")\n', "utf-8")
        shutil.rmtree(repo / "packages" / "tansy")
        pine = out / "packages" / "pine" / "package.py"
        pine.write_text(pine.read_text("utf-8") + "    # by hand\n", "utf-8")
        before[pine] = pine.stat().st_mtime_ns
        run(import_repo.main, repo, out)
        run(import_repo.main, repo, fresh)
        found, wanted = texts_below(out), texts_below(fresh)
        by_hand = found.pop("packages/pine/package.py", "")
        wanted.pop("packages/pine/package.py")
        if not by_hand.endswith("# by hand\n") or "Changed by hand since" not in found["report.txt"]:
            yield "again", "a recipe that was changed by hand is lost, or not told of"
        found.pop("report.txt")
        wanted.pop("report.txt")
        if found != wanted:
            names = sorted(key for key in found.keys() | wanted.keys() if found.get(key) != wanted.get(key))
            yield "again", f"other than a new import: {names}"
        written = [path.parent.name for path, time in before.items() if path.is_file() and path.stat().st_mtime_ns != time]
        if written != ["kelp"]:
            yield "again", f"written anew: {written}"
        if '"msg": "never"' not in found[f"packages/kelp/{ORIGINS}"] or "conflicts" not in found[ROWS]:
            yield "again", "no origin of the new directive"
