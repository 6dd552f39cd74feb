"""The lines of Spack's that `import_repo` made a recipe of: `origins.json` beside the recipe.

Its `directives` is a list by the directives' numbers, of objects with `file`, `line`, `text` and `msg`, or of null. What has
another form is passed over: the file is a help alone, and a recipe that was written by hand has none.
"""
import json
from pathlib import Path
from typing import Any


def of_package(repo: Path, name: str) -> list[Any]:
    """The list of a package; an empty one where there is none."""
    try:
        found = json.loads((repo / "packages" / name / "origins.json").read_text("utf-8"))
    except (OSError, ValueError, RecursionError):
        return []
    rows = found.get("directives") if isinstance(found, dict) else found
    return rows if isinstance(rows, list) else []


def entry(repo: Path, name: str, number: int) -> dict[str, Any]:
    """What is known of one directive; nothing where it is not."""
    rows = of_package(repo, name)
    found = rows[number] if number < len(rows) else None
    return found if isinstance(found, dict) else {}
