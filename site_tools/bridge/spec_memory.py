"""Spec texts that were read before: recipes repeat them, and each is read once."""
import functools
from typing import Any, Callable

from .spec_text import Dialect, NotInProfile, Spec, read_condition, read_dependency


def remembered(kind: Callable[[str, Dialect], Any]) -> Callable[[str, Dialect], Any]:
    """The same function, which reads each text once; its refusals are remembered too."""
    known: dict[tuple[str, Dialect], Any] = {}

    @functools.wraps(kind)
    def again(text: str, dialect: Dialect) -> Any:
        """What was read before, or is read now."""
        key = (text, dialect)
        if key not in known:
            if len(known) > 200_000:
                known.clear()
            try:
                known[key] = kind(text, dialect)
            except NotInProfile as fault:
                known[key] = fault
        found = known[key]
        if isinstance(found, NotInProfile):
            raise NotInProfile(found.kind, found.detail)
        return found

    return again


@remembered
def condition_text(text: str, dialect: Dialect) -> str:
    """The canonical text of a condition."""
    return read_condition(text, dialect).text()


@remembered
def dependency_text(text: str, dialect: Dialect) -> tuple[Spec, str]:
    """A dependency's spec, which is not to be changed, with its canonical text."""
    spec = read_dependency(text, dialect)
    return spec, spec.text()
