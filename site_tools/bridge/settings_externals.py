"""Externals of packages.yaml: one entry for each target of the site where none is written, the newest first.

An external that the settings' own `require` or `conflict` forbids is left out, since what the recipes say of these binds
what is built alone.
"""
import re
from typing import Any, Optional

from . import signs, spec_text, versions, wish_texts
from .settings_notes import Notes
from .spec_text import Dialect, NotInProfile, Part
from .wish_texts import Wish

ODD = "it is not one version of the package, with one version of its compiler and one target"
COMPLETED = "is asked of it as the settings complete it: without a compiler, with the recipe's defaults"


def external_part(text: str) -> Optional[Part]:
    """The spec of an external; None where the profile has no such spec."""
    try:
        return spec_text.read_dependency(text, Dialect()).top
    except NotInProfile:
        return None


def name_of(text: str) -> Optional[str]:
    """The name that a spec begins with; None where there is none."""
    found = re.match(rf"({signs.NAME})(?=[@+~%^ =]|$)", text)
    return found.group(1) if found and not text[found.end() :].startswith("=") else None


def read(package: str, external: Any, platform: str, notes: Notes) -> Optional[tuple[Part, str]]:
    """One external in the profile's words, with its prefix."""
    text = str(external.get("spec", ""))
    where = f"packages.{package}.externals `{text}`"
    if "prefix" not in external:
        notes.leave_out(external, where, "it has no prefix")
        return None
    try:
        part = spec_text.read_dependency(text, Dialect()).top
    except NotInProfile as fault:
        notes.leave_out(external, where, f"{fault.kind}: {fault.detail}")
        return None
    compiler_version = versions.single(part.compiler[1]) if part.compiler else "none"
    one_target = not part.targets or len(part.targets) == 1 and ":" not in part.targets[0]
    if part.name != package or versions.single(part.versions) is None or compiler_version is None or not one_target:
        notes.leave_out(external, where, ODD)
        return None
    if part.platform and part.platform != platform:
        notes.leave_out(external, where, f"it is of another platform than {platform}")
        return None
    return part, str(external["prefix"])


def entries(found: list[tuple[Part, str]], targets: list[str]) -> list[dict]:
    """The entries of the settings: the newest first, one for each target where none is written."""
    order = sorted(found, key=lambda each: versions.key(versions.single(each[0].versions) or ""), reverse=True)
    listed = []
    for part, prefix in order:
        text = part.text()
        specs = [text] if part.targets or len(targets) < 2 else [f"{text} target={target}" for target in targets]
        listed += [{"spec": spec, "prefix": prefix} for spec in specs]
    return listed


def allowed(package: str, found: list[tuple[Part, str]], packages: dict, notes: Notes) -> list[tuple[Part, str]]:
    """The externals that `require` and `conflict` do not forbid; those of which they cannot be asked are listed."""
    silent = Notes(notes.file)  # what cannot be read is listed where the recipes are made
    for section, when_true in (("require", False), ("conflict", True)):
        is_of_all, value = wish_texts.section_of(packages, package, section)
        written = {wish.text for wish in wish_texts.read(section, package, value, silent)} if section == "require" else set()
        for wish in wish_texts.read(section, package, value, silent, Dialect(has_edges=True)):
            kept = []
            for part, prefix in found:
                answer = meets_any(part, wish)
                if answer is when_true:
                    notes.leave_out_line(wish.line, f"packages.{package}.externals `{part.text()}`", f"{wish.shown()} forbids it")
                    continue
                if answer is None and not is_of_all:
                    how = COMPLETED if wish.text in written else "is not asked of it, since it does not say all that is asked"
                    notes.leave_out_line(wish.line, f"packages.{package}.externals `{part.text()}`", f"{wish.shown()} {how}")
                kept.append((part, prefix))
            found = kept
    return found


def meets_any(part: Part, wish: Wish) -> Optional[bool]:
    """Whether an external meets an entry; None where its spec does not say."""
    if wish.when is not None:
        return None
    answers = [None if spec.below else meets(part, spec.top) for spec in wish.specs]
    return True if True in answers else None if None in answers else False


def meets(part: Part, wanted: Part) -> Optional[bool]:
    """Whether an external meets a spec's first part; None where its spec does not say."""
    answers: list[Optional[bool]] = [wanted.name in (None, part.name)]
    if wanted.versions:
        answers.append(versions.contains(wanted.versions, versions.single(part.versions) or ""))
    for name, values in wanted.variants.items():
        answers.append(set(values) <= set(part.variants[name]) if name in part.variants else None)
    if wanted.compiler or wanted.languages:
        answers.append(meets_compiler(part, wanted))
    for mine, other in ((part.os, wanted.os), (part.platform, wanted.platform)):
        answers += [None if mine is None else mine == other] if other else []
    answers += [None] if wanted.targets else []
    return False if False in answers else None if None in answers else True


def meets_compiler(part: Part, wanted: Part) -> Optional[bool]:
    """The same of the compiler."""
    if part.compiler is None or wanted.compiler is None:
        return None
    name, version = wanted.compiler
    return name == part.compiler[0] and (version is None or versions.contains(version, versions.single(part.compiler[1]) or ""))
