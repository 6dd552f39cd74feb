"""Targets of processors and what each builds on: a small table of public knowledge (as archspec names them).

Says which targets a machine can run; never looks at the machine. What a target that is not here builds on is not
guessed: `import_settings` reads archspec's own table by `--archspec`, or a table of targets by `--targets`.
"""
from pathlib import Path
from typing import Optional

from . import json_files

X86 = {
    "x86_64": [], "x86_64_v2": ["x86_64"], "x86_64_v3": ["x86_64_v2"], "x86_64_v4": ["x86_64_v3"],
    "nocona": ["x86_64"], "core2": ["nocona"], "nehalem": ["core2", "x86_64_v2"], "westmere": ["nehalem"],
    "sandybridge": ["westmere"], "ivybridge": ["sandybridge"], "haswell": ["ivybridge", "x86_64_v3"],
    "broadwell": ["haswell"], "skylake": ["broadwell"], "skylake_avx512": ["skylake", "x86_64_v4"],
    "cascadelake": ["skylake_avx512"], "zen": ["x86_64_v3"], "zen2": ["zen"], "zen3": ["zen2"],
    "zen4": ["zen3", "x86_64_v4"],
}
ARM = {
    "aarch64": [], "armv8.1a": ["aarch64"], "armv8.2a": ["armv8.1a"], "thunderx2": ["armv8.1a"],
    "a64fx": ["armv8.2a"],
}
POWER = {"ppc64le": [], "power8le": ["ppc64le"], "power9le": ["power8le"], "power10le": ["power9le"]}
KNOWN: dict[str, list[str]] = {**X86, **ARM, **POWER, "riscv64": [], "ppc64": []}
KNOWN_GENERIC = ("x86_64", "x86_64_v2", "x86_64_v3", "x86_64_v4", "aarch64", "ppc64le", "riscv64", "ppc64")
PARENTS: dict[str, list[str]] = {}
GENERIC: set[str] = set()


def ancestors(name: str) -> list[str]:
    """The target and all that it builds on, the nearest first."""
    found = [name]
    for each in found:
        found += [parent for parent in PARENTS[each] if parent not in found]
    return found


def table_of(name: str, generic_alone: bool) -> list[dict]:
    """The targets that a machine of this target can run, the best first, each with its parents in the table."""
    names = [each for each in ancestors(name) if not generic_alone or each in GENERIC]
    order = sorted(names, key=lambda each: -len(ancestors(each)))
    return [{"name": each, "parents": nearest(each, names)} for each in order]


def nearest(name: str, names: list[str]) -> list[str]:
    """The nearest ancestors of a target that stand in the table."""
    found: list[str] = []
    for parent in PARENTS[name]:
        found += [each for each in ([parent] if parent in names else nearest(parent, names)) if each not in found]
    return found


def use(path: Optional[Path]) -> None:
    """Takes the table from archspec's own file, microarchitectures.json, or the one above where none is named."""
    PARENTS.clear()
    GENERIC.clear()
    if path is None:
        PARENTS.update(KNOWN)
        GENERIC.update(KNOWN_GENERIC)
        return
    found = json_files.read(path)["microarchitectures"]
    for name, each in found.items():
        parents = each["from"]
        PARENTS[name] = [parents] if isinstance(parents, str) else list(parents)
    GENERIC.update(name for name, each in found.items() if each.get("vendor") == "generic")
