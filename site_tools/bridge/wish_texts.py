"""What packages.yaml asks of packages by `require`, `prefer`, `conflict` and `variants`, as specs of the profile.

Reads; what is done with it is said in `wishes.py` (recipes) and `settings_externals.py` (externals).
"""
from dataclasses import dataclass
from typing import Any, Iterator, Optional

from . import spec_text
from .settings_notes import Notes
from .spec_text import Dialect, NotInProfile, Spec
from .yaml_texts import Text, line_of, texts

SECTIONS = ("require", "prefer", "conflict", "variants")


@dataclass(frozen=True)
class Wish:
    """One entry: which section, the specs of which one (or any) has to hold, under which condition."""

    section: str
    specs: tuple[Spec, ...]
    policy: str
    when: Optional[str]
    message: Optional[str]
    line: int
    text: str

    def shown(self) -> str:
        """The entry as reports show it."""
        return f"{self.section}: {self.text}"


def section_of(packages: dict, name: str, section: str) -> tuple[bool, Any]:
    """The section of a package, or that of `all` where it has none; whether it is that of `all`."""
    own = (packages.get(name) or {}).get(section)
    if own:
        return False, own
    return True, (packages.get("all") or {}).get(section) or []


def entries_of(section: str, value: Any) -> Iterator[tuple[list[Any], str, Any, Any, Any]]:
    """The entries of a section: texts, policy, condition, message, and the value that was read."""
    for each in value if isinstance(value, list) else [value]:
        if isinstance(each, Text):
            yield [each], "one_of", None, None, each
        elif isinstance(each, dict) and section == "require":
            policies = [policy for policy in ("spec", "one_of", "any_of") if policy in each]
            for policy in policies:
                yield list(texts(each[policy])), "any_of" if policy == "any_of" else "one_of", each.get("when"), each.get("message"), each
            if not policies:
                yield [], "", None, None, each
        elif isinstance(each, dict):
            yield list(texts(each.get("spec", []))), "one_of", each.get("when"), each.get("message"), each
        else:
            yield [], "", None, None, each


def read(section: str, name: str, value: Any, notes: Notes, dialect: Dialect = Dialect()) -> list[Wish]:
    """The entries of a section of one package; those that the profile cannot say are listed."""
    if section == "variants":
        words = list(texts(value))
        value = [joined(words)] if words else []
    found = []
    for given, policy, when, message, whole in entries_of(section, value):
        where = f"packages.{name}.{section} {' | '.join(given) or 'of another form'}"
        try:
            specs = tuple(spec_text.read_condition(str(each), dialect) for each in given)
            condition = None if when is None else spec_text.read_condition(str(when), dialect).text()
        except NotInProfile as fault:
            notes.leave_out(whole, where, f"{fault.kind}: {fault.detail}")
            continue
        if not specs:
            notes.leave_out(whole, where, "it is no spec and no list of specs")
            continue
        text = " | ".join(str(each) for each in given) + (f" when {when}" if when else "")
        found.append(Wish(section, specs, policy, condition, None if message is None else str(message), line_of(whole), text))
    return found


def plain_versions(wish: Wish, package: str) -> Optional[str]:
    """The versions that an entry asks of a package, where it asks nothing else."""
    part = wish.specs[0].top
    is_plain = part == spec_text.Part(part.name, part.versions) and part.name in (None, package) and not wish.specs[0].below
    return part.versions if is_plain and len(wish.specs) == 1 and wish.when is None else None


def joined(words: list[Text]) -> Text:
    """Several texts as one, with blanks between."""
    text = Text(" ".join(words))
    text.line, text.plain = words[0].line, True
    return text
