"""Faults of specs in words: what stands at the place, what was probably meant, and how that is written.

The program says the fault and its place; this looks at the text there, and guesses only what was meant.
"""
import re
from typing import Optional

from . import signs
from .shown import shown

ONE_WORD = r"[A-Za-z0-9_.+:=,/~^%@\[\]-]*"
VERSION_LIKE = r"[0-9]+(?:\.[0-9A-Za-z]+)*"


def word_at(text: str, offset: int) -> str:
    """The word that stands at a place."""
    return re.compile(r"\S*").match(text, offset).group()  # type: ignore[union-attr]


def name_before(text: str, offset: int) -> str:
    """The name of the package before a place."""
    found = re.findall(signs.NAME, text[:offset])
    return found[-1] if found else "NAME"


def namespace(text: str, offset: int) -> str:
    """A name with a dot behind it: a version, a version at a name, or a repository in front."""
    word = re.sub(r"[@+~%^].*", "", word_at(text, offset).lstrip("^"))
    if re.fullmatch(rf"v?{VERSION_LIKE}", word):
        return f"a version stands behind `@`: `{name_before(text, offset)}@{word}` in place of `{word}`"
    found = re.fullmatch(r"([A-Za-z_-]+?)-?([0-9]+(?:\.[0-9]+)+)", word)
    if found:
        return f"a version stands behind `@`: `{found[1]}@{found[2]}` in place of `{word}`"
    front, _, name = word.rpartition(".")
    if front and signs.is_name(name):
        return f"names have no repository in front: `{name}` in place of `{word}`"
    return f"a name has no dot: `{shown(word)}`"


def propagation(text: str, offset: int) -> str:
    """`++`, `--`, `~~`, `==`: propagation, a version that is pinned, or a name with signs."""
    word = word_at(text, offset)
    if "==" in word[1:] or word.startswith("=="):
        name, _, value = word.partition("==")
        if re.fullmatch(rf"v?{VERSION_LIKE}", value):
            return f"a version is pinned by `@=`: `{name or name_before(text, offset)}@={value}` in place of `{name}=={value}`"
        return f"`==` hands a variant on to all packages below; for this package alone write `{name}={value}`"
    if not re.match(r"[+~-]{2}[A-Za-z0-9_]", word):
        return f"a name has no `{word[:2]}`: `{shown(text.strip())}`; two signs would hand a variant on to all packages below"
    return f"`{word[:2]}` hands a variant on to all packages below; write `{word[0]}{word[2:]}` at each package that is to have it"


def dependency(text: str, offset: int) -> str:
    """`^` in a dependency."""
    below = word_at(text, offset)
    return f"a dependency has no `{shown(below)}`: write `depends_on(\"{shown(below.lstrip('^'))}\")` as a directive of its own"


def flags(text: str, offset: int) -> str:
    """Flags of compilers."""
    return f"there are no flags of compilers: leave `{shown(word_at(text, offset))}` out"


def edge(text: str, offset: int) -> str:
    """`^[..]`: attributes of an edge."""
    name = re.compile(rf"\^\s*\[[^\]]*\]\s*({signs.NAME})").match(text, offset)
    written = f"`^{name[1]}`, which asks that {name[1]} is there, whatever for" if name else "`^name`"
    return f"an edge has no attributes: write {written}"


def assigned(text: str, offset: int) -> Optional[str]:
    """`^mpi=openmpi` and `%c,cxx=gcc` of newer Spack, where the place is in one."""
    start = max(text.rfind(sign, 0, offset) for sign in "^%")
    found = re.compile(rf"([\^%])\s*{signs.NAME}(?:,{signs.NAME})*=({signs.NAME})").match(text, start) if start >= 0 else None
    if found is None or found.end() <= offset:
        return None
    if found[1] == "%":
        return f"a package has one compiler for all languages: write `%{found[2]}`"
    return f"an edge has no virtuals: write `^{found[2]}`, which asks that {found[2]} is there, whatever for"


FORMS = {
    "Namespace": namespace,
    "Propagation": propagation,
    "NestedDependency": dependency,
    "Flags": flags,
    "ConcreteAssign": lambda text, at: f"write `{word_at(text, at).replace(':=', '=')}`; that these are all values cannot be said",
    "AnyValue": lambda text, at: f"leave `{shown(word_at(text, at))}` out: any value is allowed where none is asked for",
    "Quoted": lambda text, at: f"values have no quotation marks: `{shown(word_at(text, at).replace(chr(34), '').replace(chr(39), ''))}`",
    "Reference": lambda text, at: "no package is named by its hash: name it, with its version; what is installed is in DATABASE",
    "EdgeAttributes": edge,
    "ProvidesForm": lambda text, at: "what is provided has versions alone: the rest goes into `when=`",
}


def expected(text: str, offset: int) -> str:
    """A sign that no spec could have there."""
    if offset >= len(text):
        return "something is missing at the end"
    before, sign = text[:offset], text[offset]
    start = max(before.rfind(" "), before.rfind("^")) + 1
    version = re.compile(VERSION_LIKE + r"(?=\s|$)").match(text, start)
    if version and "." in version.group() and start > 0:
        return f"a version stands behind `@`: `{name_before(text, start)}@{version.group()}` in place of `{version.group()}`"
    newer = assigned(text, offset) if sign in "=," else None
    if newer:
        return newer
    if re.search(r"%\s*$", before):
        return f"a compiler's name is needed behind `%`, and `{shown(sign)}` stands there"
    if re.search(r"@\s*$", before):
        return f"a version is needed behind `@`, and `{shown(sign)}` stands there"
    if re.match(r"\s*" + signs.NAME + r"\s*=", text) and sign in "= ":
        return "a spec begins with the name of a package"
    return f"`{shown(sign)}` can not stand here"


def words_of(text: str, offset: int, words: list[str]) -> Optional[str]:
    """A fault of a spec in words; its words are the name and its fields, as `Unsupported 5 Propagation`."""
    offset = len(text.encode()[:offset].decode("utf-8", "replace"))
    name = words[0] if words else ""
    if name == "Unsupported" and words[-1] in FORMS:
        return FORMS[words[-1]](text, offset)
    if name == "Expected":
        return expected(text, offset)
    if name == "BadVersion":
        item = re.compile(r"@?[^@\s,+~%^]*").match(text, offset)
        return f"the range `{shown(item.group() if item else '')}` holds no version: its low end is above its high end"
    if name == "TwiceSet":
        return f"`{shown(word_at(text, offset))}` sets again what was set before it"
    return None


def why_no_external(package: str, text: str, platform: str) -> str:
    """Why a text is no external of a package: the first of the causes that it shows."""
    from .spec_parts import parts

    specs = parts(text)
    if len(specs) != 1:
        return "it has two specs" if specs else "it is empty"
    part = specs[0][0]
    if len(specs[0]) > 1:
        return f"it has `^{specs[0][1].name}`: an external is one package alone"
    if part.name != package:
        return f"it names `{part.name}`, and stands under `{package}`"
    causes = {
        f"it has no version: write `{package}@1.2`": not part.versions,
        f"`@{part.versions}` is not one version": re.search("[:,]", part.versions) is not None,
        "its compiler has no version": part.compiler is not None and not part.compiler[1],
        "its compiler has not one version": part.compiler is not None and re.search("[:,]", part.compiler[1]) is not None,
        f"it is of the platform `{part.platform}`, and the settings of `{platform}`": part.platform not in ("", platform),
        "it has not one target": len(part.targets) > 1 or ":" in "".join(part.targets),
    }
    return next((cause for cause, holds in causes.items() if holds), "it is not one version of one package")
