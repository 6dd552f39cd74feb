"""What the readings of sources share, for `tools/headline`: an item, and the imports of a file."""
import re
from dataclasses import dataclass, field
from pathlib import Path

TOP = Path(__file__).resolve().parent.parent
CRATES = TOP / "crates"
WORD = r"[^\W\d][\w'?◌+\-]*"
OPERATOR = r"◌[^\s(){}.,;]*◌"


@dataclass(eq=False)
class Item:
    """A definition, with what it cites."""

    crate: str
    file: Path
    name: str
    line: int
    text: str
    lines: int
    scope: "Scope"
    is_type: bool = False

    def place(self) -> str:
        """Where it stands."""
        return f"{self.file.relative_to(CRATES)}:{self.line}"


@dataclass
class Scope:
    """What the imports of a file bring: items by their names, and modules by theirs."""

    crate: str
    items: dict[str, tuple[str, ...]] = field(default_factory=dict)
    modules: dict[str, tuple[str, ...]] = field(default_factory=dict)


def is_ours(crate: str) -> bool:
    """Whether the crate is one of the repository."""
    return (CRATES / crate).is_dir()


def add_uses(scope: Scope, text: str, word: str) -> None:
    """Reads the imports of a text into a scope: `use A.B.{x, y as z}`, `use A.B`, `use A.B as c`."""
    for path, names, alias in re.findall(rf"^\s*{word} ([\w.]+?)(?:\.\{{([^}}]*)\}})?(?: as (\w+))?;?\s*$", text, re.M):
        steps = tuple(path.split("."))
        if names:
            for each in names.split(","):
                name, _, other = (part.strip() for part in each.strip().partition(" as "))
                scope.items[other or name] = steps + (name,)
        else:
            scope.modules[alias or steps[-1]] = steps
