"""Spack's spec texts as texts of the profile.

Reads a text as Spack does and writes it in the canonical form of docs/formats/specs.md, which the program reads with
the same meaning. Where the profile has no such text, or where Spack's own releases differ in what it means, it raises
`NotInProfile` with the reason; it never writes something near.
"""
import functools
import re
from dataclasses import dataclass, field
from typing import Optional

from . import edge_texts, signs, versions

# What `%` may name. Another package there is a direct dependency (Spack 1.0), which the profile has not.
COMPILERS = frozenset(
    "gcc clang apple-clang intel oneapi dpcpp nvhpc pgi cce arm aocc fj nag rocmcc xl xl_r msvc".split()
)
# Spack 1.0 names some compilers by their packages; the two names mean the same.
COMPILER_OF_PACKAGE = {
    "llvm": "clang",
    "intel-oneapi-compilers": "oneapi",
    "intel-oneapi-compilers-classic": "intel",
    "llvm-amdgpu": "rocmcc",
    "acfl": "arm",
}
NOT_VARIANTS = frozenset({"dev_path", "patches", "namespace", "commit", "architecture"})
SPACK_NAME = r"[A-Za-z0-9_][A-Za-z0-9_.-]*"
SPACK_VALUE = r"[A-Za-z0-9_\-+*.,:=%^~/\\]+"
SPACK_LIST = r"[A-Za-z0-9_.\-=:]+(?:\s*,\s*[A-Za-z0-9_.\-=:]+)*"
QUOTED = r"\"[^\"]*\"|'[^']*'"


class NotInProfile(ValueError):
    """A text that the profile cannot say: what it is (a kind of reason), and the text at fault."""

    def __init__(self, kind: str, detail: str) -> None:
        super().__init__(f"{kind}: {detail}")
        self.kind, self.detail = kind, detail


@dataclass
class Part:
    """What a text asks of one package; nothing is asked where a field is empty."""

    name: Optional[str] = None
    versions: Optional[str] = None
    variants: dict[str, tuple[str, ...]] = field(default_factory=dict)
    compiler: Optional[tuple[str, Optional[str]]] = None
    platform: Optional[str] = None
    os: Optional[str] = None
    targets: Optional[tuple[str, ...]] = None
    languages: tuple[str, ...] = ()  # for which the compiler is asked
    edge: tuple[str, ...] = ()  # the virtuals that it is asked for

    def text(self) -> str:
        """The canonical text of this part."""
        words = [(self.name or "") + (f"@{self.versions}" if self.versions else "")]
        words += [variant_text(name, self.variants[name]) for name in sorted(self.variants)]
        words += edge_texts.compiler_words(self.languages, self.compiler) if self.compiler or self.languages else []
        words += [f"{name}={text}" for name, text in (("platform", self.platform), ("os", self.os)) if text]
        if self.targets:
            words.append("target=" + ",".join(self.targets))
        return " ".join(word for word in words if word)


@dataclass
class Spec:
    """A package with what is asked of it, and what stands after each `^`."""

    top: Part
    below: list[Part]

    def text(self) -> str:
        """The canonical text."""
        below = ["^" + edge_texts.in_front(part.edge) + part.text() for part in self.below]
        return " ".join(word for word in [self.top.text(), *below] if word)


@dataclass(frozen=True)
class Dialect:
    """Which of Spack's readings holds: the repository's own namespace, and whether it is one of Spack 1.0 (api v2).

    What is said of edges is read for those that settle it.
    """

    namespace: str = "builtin"
    is_v2: bool = False
    has_edges: bool = False


def variant_text(name: str, values: tuple[str, ...]) -> str:
    """`+v`, `~v` or `v=a,b`, with the values in byte order."""
    if values in (("true",), ("false",)):
        return ("+" if values == ("true",) else "~") + name
    return f"{name}={','.join(sorted(values))}"


@functools.lru_cache(maxsize=None)
def pattern_of(text: str) -> re.Pattern:
    """A pattern, compiled once."""
    return re.compile(text)


class Reader:
    """Reads one text from the left, item by item."""

    def __init__(self, text: str, dialect: Dialect) -> None:
        self.text, self.dialect, self.place = text, dialect, 0
        self.parts: list[Part] = []

    def fail(self, kind: str, detail: str = "") -> NotInProfile:
        """The refusal of this text."""
        return NotInProfile(kind, detail or f"`{self.text}`")

    def take(self, pattern: str) -> Optional[str]:
        """The text that the pattern matches here, taken; None where it does not match."""
        found = pattern_of(pattern).match(self.text, self.place)
        if found is None:
            return None
        self.place = found.end()
        return found.group()

    def read(self, needs_name: bool) -> Spec:
        """The whole text as one spec or condition."""
        self.take(r"\s*")
        has_name = needs_name or self.starts_name()
        self.parts.append(Part(self.package_name() if has_name else None))
        blank = bool(self.take(r"\s+")) or not has_name
        while self.place < len(self.text):
            if not self.take_below():
                self.take_constraint(blank)
            blank = bool(self.take(r"\s+"))
        return Spec(self.parts[0], self.parts[1:])

    def starts_name(self) -> bool:
        """Whether a name stands here that is no key of a variant."""
        return pattern_of(rf"{SPACK_NAME}(?!\s*:?=)(?![A-Za-z0-9_.-])").match(self.text, self.place) is not None

    def package_name(self) -> str:
        """The name of a package; the repository's own namespace in front is dropped."""
        text = self.take(SPACK_NAME)
        if text is None:
            raise self.fail("no spec of the profile")
        namespace, _, name = text.rpartition(".")
        if namespace and namespace != self.dialect.namespace or not signs.is_name(name):
            raise self.fail("another repository's name", f"`{text}`")
        return name

    def take_below(self) -> bool:
        """Takes `^` and the name behind it."""
        if self.take(r"\^\s*") is None:
            return False
        edge = self.take_virtuals()
        self.parts.append(Part(self.package_name(), edge=edge))
        return True

    def take_virtuals(self) -> tuple[str, ...]:
        """Takes the virtuals that an edge is asked for."""
        virtuals = edge_texts.virtuals_of(self.take)
        if virtuals is None or virtuals and not self.dialect.has_edges:
            raise self.fail("attributes of an edge (`^[..]`)")
        return virtuals

    def take_constraint(self, blank: bool) -> None:
        """Takes one constraint of the nearest package."""
        part, sign = self.parts[-1], self.text[self.place]
        if pattern_of(r"\+\+|~~|%%").match(self.text, self.place) or blank and self.text.startswith("--", self.place):
            raise self.fail("propagation (`++`, `~~`, `--`, `==`)")
        if sign != "%" and (part.languages or part.compiler and self.dialect.is_v2):
            raise self.fail("something behind a compiler, which Spack 1.0 asks of the compiler")
        if sign == "@":
            self.take_versions(part)
        elif sign in "+~" or sign == "-" and blank:
            self.take_flag(part)
        elif sign == "%":
            self.take_compiler(part)
        elif sign == "/":
            raise self.fail("a reference by hash (`/abc`)")
        elif blank:
            self.take_pair(part)
        else:
            raise self.fail("no spec of the profile")

    def version_list(self) -> str:
        """`@` and a set of versions, without the white space that Spack allows in it."""
        self.take(r"@\s*")
        text = re.sub(r"\s", "", self.take(SPACK_LIST) or "")
        if re.match(r"(git\.|[0-9a-f]{40}\b)", text):
            raise self.fail("a version of git", f"`@{text}`")
        try:
            return versions.read_list(text)
        except versions.BadList as fault:
            raise self.fail("no set of versions", str(fault)) from fault

    def take_versions(self, part: Part) -> None:
        """Takes the versions of the package."""
        if part.versions:
            raise self.fail("versions that are set twice")
        part.versions = self.version_list()

    def take_flag(self, part: Part) -> None:
        """Takes `+v`, `~v` or `-v`."""
        sign = self.take(r"[+~-]\s*") or ""
        name = self.take(SPACK_NAME) or ""
        self.set_variant(part, name, ("true",) if sign[0] == "+" else ("false",))

    def set_variant(self, part: Part, name: str, values: tuple[str, ...]) -> None:
        """Sets a variant, once, where its name and its values can be written."""
        if not signs.is_name(name) or name in NOT_VARIANTS:
            raise self.fail("a name that is no variant of the profile", f"`{name}`")
        if name in part.variants:
            raise self.fail("a variant that is set twice", f"`{name}`")
        for value in values:
            if not signs.is_value(value):
                raise self.fail("a value beyond the profile", f"`{name}={value}`")
        part.variants[name] = tuple(dict.fromkeys(map(signs.as_value, values)))

    def take_compiler(self, part: Part) -> None:
        """Takes `%name@versions`."""
        self.take(r"%\s*")
        languages = self.take_virtuals()
        name = self.take(signs.NAME)
        if name in edge_texts.LANGUAGES and self.dialect.has_edges and not languages and not part.compiler:
            part.languages = tuple(sorted({*part.languages, name}))
            return
        name = COMPILER_OF_PACKAGE.get(name or "", name)
        if name not in COMPILERS or not set(languages) <= set(edge_texts.LANGUAGES):
            raise self.fail("`%` before what is no compiler")
        if pattern_of(r"\s+@").match(self.text, self.place):
            raise self.fail("white space between a compiler and `@`, which Spack's releases read differently")
        compiler = (name, self.version_list() if self.text.startswith("@", self.place) else None)
        if (part.compiler or part.languages) and not (languages and part.languages and part.compiler == compiler):
            raise self.fail("two compilers")
        part.compiler, part.languages = compiler, tuple(sorted({*part.languages, *languages}))

    def take_pair(self, part: Part) -> None:
        """Takes `name=values`."""
        name = self.take(SPACK_NAME) or ""
        sign = self.take(r":==?|==?") or ""
        if sign != "=":
            kinds = {"==": "propagation (`++`, `~~`, `--`, `==`)", ":=": "`:=`"}
            raise self.fail(kinds.get(sign, "no spec of the profile"))
        if name in signs.FLAGS:
            raise self.fail("compiler flags")
        text = (self.take(QUOTED) or "").strip("'\"") or self.take(SPACK_VALUE) or ""
        if text == "*":
            raise self.fail("any value (`=*`)")
        if name in signs.KEYS:
            self.set_machine(part, name, text)
        else:
            self.set_variant(part, name, tuple(text.split(",")))

    def set_machine(self, part: Part, name: str, text: str) -> None:
        """Sets platform, OS and targets, each once."""
        if name == "arch":
            pieces = text.split("-")
            if len(pieces) != 3 or "None" in pieces:
                raise self.fail("`arch=` without three parts")
            for each, piece in zip(("platform", "os", "target"), pieces):
                self.set_machine(part, each, piece)
            return
        items = tuple(text.split(","))
        pattern = r"[A-Za-z0-9_\-+./]+" if name != "target" else r"(?!$)[A-Za-z0-9_\-+./]*(?::[A-Za-z0-9_\-+./]*)?"
        if not all(re.fullmatch(pattern, item) for item in items) or name != "target" and len(items) > 1:
            raise self.fail("a value beyond the profile", f"`{name}={text}`")
        attribute = "targets" if name == "target" else name
        if getattr(part, attribute):
            raise self.fail(f"`{name}=` that is set twice")
        setattr(part, attribute, items if name == "target" else text)


def read_condition(text: str, dialect: Dialect) -> Spec:
    """A condition: a spec whose name may be missing."""
    return Reader(text, dialect).read(needs_name=False)


def read_dependency(text: str, dialect: Dialect) -> Spec:
    """A spec of a dependency: a name, and no `^`."""
    spec = Reader(text, dialect).read(needs_name=True)
    if spec.below:
        raise NotInProfile("`^` where the profile has none", f"`{text}`")
    return spec


def read_provision(text: str, dialect: Dialect) -> Spec:
    """What is provided: a name, and a set of versions at most."""
    spec = read_dependency(text, dialect)
    if Part(spec.top.name, spec.top.versions) != spec.top:
        raise NotInProfile("`provides` with more than versions", f"`{text}`")
    return spec
