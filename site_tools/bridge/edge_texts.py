"""What a spec text says of an edge: which virtuals the package behind it is there for.

Reads `^[virtuals=mpi] openmpi` and `^mpi=openmpi`, `%[virtuals=c,cxx] gcc` and `%c,cxx=gcc`; in canonical texts they stand as
`^mpi=openmpi` and `%c,cxx=gcc`. Whether the profile can say it is settled in `edges.py`, which knows all recipes.
"""
import re
from typing import Callable, Optional

LANGUAGES = ("c", "cxx", "fortran")
NAMES = r"[A-Za-z0-9_][A-Za-z0-9_-]*(?:,[A-Za-z0-9_][A-Za-z0-9_-]*)*"
ATTRIBUTES = r"\[[^\]]*\]\s*"
VIRTUALS = re.compile(rf"\[\s*virtuals=(?:({NAMES})|\"({NAMES})\"|'({NAMES})')\s*\]\s*")
Take = Callable[[str], Optional[str]]


def virtuals_of(take: Take) -> Optional[tuple[str, ...]]:
    """The virtuals that stand behind `^` or `%`; none where no attribute is there, None where another one is."""
    text = take(ATTRIBUTES)
    if text is None:
        names = (take(rf"{NAMES}=(?![=:])") or "").rstrip("=")
    else:
        found = VIRTUALS.fullmatch(text)
        if found is None:
            return None
        names = next(each for each in found.groups() if each)
    return tuple(sorted(set(names.split(",")))) if names else ()


def in_front(virtuals: tuple[str, ...]) -> str:
    """The virtuals as they stand in front of a package's name."""
    return ",".join(virtuals) + "=" if virtuals else ""


def compiler_words(languages: tuple[str, ...], compiler: Optional[tuple[str, Optional[str]]]) -> list[str]:
    """What is asked of the compiler, as words of a canonical text."""
    if compiler is None:
        return [f"%{name}" for name in languages]
    return ["%" + in_front(languages) + compiler[0] + (f"@{compiler[1]}" if compiler[1] else "")]
