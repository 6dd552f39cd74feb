"""The files of a Spack repository: packages, classes, base classes.

Finds and parses; a file is parsed by `ast` and never run. Base classes come from the same file, from another package of
the repository, or from a folder of build systems.
"""
import ast
import copy
import re
import string
import warnings
from collections import ChainMap
from dataclasses import dataclass, field
from pathlib import Path
from typing import Any, Iterator, Optional

from .class_reader import ClassReader
from .directives import DIRECTIVES
from .definitions import copied
from .values import ClassValue
from .rows import Cannot, LeftOut, Row, VariantRow
from .site_values import SiteValues, values_for
from .spec_text import Dialect

MOST_BYTES = 1024 * 1024
PLATFORMS = {"linux": "linux", "darwin": "darwin", "windows": "win32"}


@dataclass
class Module:
    """A parsed file: its classes, what it imports by which name, the names that its statements give."""

    path: Path
    classes: dict[str, ast.ClassDef] = field(default_factory=dict)
    imports: dict[str, str] = field(default_factory=dict)
    names: dict[str, Any] = field(default_factory=dict)
    names_at: dict[str, dict[str, Any]] = field(default_factory=dict)  # as they are where a class begins
    left_out: list[LeftOut] = field(default_factory=list)
    text: str = ""


@dataclass
class ClassRows:
    """What a class says, its bases' directives in front: rows, what was left out, its attributes, its bases."""

    rows: list[Row | VariantRow]
    left_out: list[LeftOut]
    lost_variants: set[str]
    value: ClassValue
    bases: list[str]


def class_name(package: str) -> str:
    """The name of the class of a package: `py-numpy` is PyNumpy, `7zip` is _7zip."""
    name = string.capwords(re.sub(r"[-_.]+", "-", package), "-").replace("-", "")
    return "_" + name if name[:1].isdigit() else name


def imported(statement: ast.stmt) -> Iterator[tuple[str, str]]:
    """The names that an import gives, each with the dotted path of what it is."""
    if isinstance(statement, ast.ImportFrom):
        for each in statement.names:
            yield each.asname or each.name, f"{'.' * statement.level}{statement.module or ''}.{each.name}"


def machine_of(platform: str, family: Optional[str]) -> dict[str, Any]:
    """What a recipe may ask of the machine: its platform, and where the family of its target is known, `platform.machine()`."""
    found = {"sys.platform": PLATFORMS.get(platform, platform), "platform.system()": platform.title()}
    if family is not None:
        others = {"darwin": {"aarch64": "arm64"}, "windows": {"x86_64": "AMD64", "aarch64": "ARM64"}}
        found["platform.machine()"] = others.get(platform, {}).get(family, family)
    return found


def parsed(path: Path) -> tuple[str, ast.Module]:
    """A file's text, and what Python's parser makes of it; `Cannot` where it refuses it."""
    if not path.is_file():
        raise Cannot("a file that cannot be read", "no regular file")
    if path.stat().st_size > MOST_BYTES:
        raise Cannot("a file that is too large", f"more than {MOST_BYTES} bytes")
    try:
        text = path.read_text("utf-8-sig")
        with warnings.catch_warnings():
            warnings.simplefilter("ignore")
            return text, ast.parse(text)
    except (SyntaxError, ValueError) as fault:
        raise Cannot("a file that is no Python in UTF-8", f"line {getattr(fault, 'lineno', None) or 1}") from fault
    except (RecursionError, MemoryError) as fault:
        raise Cannot("a file that is too deep for Python's parser", path.parent.name) from fault


class Repository:
    """A repository of Spack's recipes, with the folders of base classes."""

    def __init__(self, root: Path, build_systems: list[Path], platform: str, family: Optional[str] = None) -> None:
        self.root = root
        self.site_values: SiteValues = {}
        self.machine = machine_of(platform, family)
        text = (root / "repo.yaml").read_text("utf-8", "replace") if (root / "repo.yaml").is_file() else ""
        found = re.search(r"^\s*namespace:\s*['\"]?([\w.-]+)", text, re.M)
        is_v2 = re.search(r"^\s*api:\s*['\"]?v2", text, re.M) is not None
        self.dialect = Dialect((found.group(1) if found else "builtin").rpartition(".")[2], is_v2, has_edges=True)
        self.folders = {self.package_of(each.parent.name): each for each in sorted(root.glob("packages/*/package.py"))}
        self.packages = frozenset(self.folders)
        self.base_files = [path for folder in build_systems for path in sorted(folder.glob("*.py"))]
        self.base_paths, self.base_names = frozenset(self.base_files), frozenset(map(str, self.base_files))
        self.modules: dict[Path, Module] = {}
        self.read: dict[str, ClassRows] = {}
        self.bases: dict[str, Path] = {}
        self.current: Optional[Path] = None
        self.used: set[Path] = set()  # files of other packages that the present one is made of
        for path in self.base_files:
            for name in self.module(path).classes:
                self.bases.setdefault(name, path)

    def begin(self, name: str) -> None:
        """Begins a package."""
        self.current, self.used = self.folders[name], set()

    def others(self) -> list[str]:
        """The names of other packages' folders that the present one is made of."""
        names = {path: name for name, path in self.folders.items()} if self.used else {}
        return sorted(names[path] for path in self.used if path in names)

    def end(self) -> None:
        """Forgets what was read of packages, of which there are many: base classes stay."""
        for path in [path for path in self.modules if path not in self.base_paths]:
            del self.modules[path]
        for key in [key for key in self.read if key.partition(":")[0] not in self.base_names]:
            del self.read[key]

    def package_of(self, folder: str) -> str:
        """The name of the package in a folder: Spack 1.0 has `py_numpy` for `py-numpy`, `_7zip` for `7zip`."""
        return folder.lstrip("_").replace("_", "-") if self.dialect.is_v2 else folder

    def shown(self, path: Path) -> str:
        """The path of a file as reports show it."""
        for folder, front in ((self.root, ""), (path.parent.parent, "")):
            if path.is_relative_to(folder):
                return front + path.relative_to(folder).as_posix()
        return path.as_posix()

    def module(self, path: Path) -> Module:
        """The file, parsed once; `Cannot` where Python does not read it."""
        if path not in self.base_paths and path != self.current:
            self.used.add(path)
        if path in self.modules:
            return self.modules[path]
        text, tree = parsed(path)
        module = self.modules[path] = Module(path, names=dict(self.machine), text=text)
        reader = ClassReader(self.shown(path), self.dialect, text=text)
        for statement in tree.body:
            module.imports.update(imported(statement))
            if isinstance(statement, ast.ClassDef):
                module.classes[statement.name] = statement
                module.names_at[statement.name] = copy.deepcopy(module.names)
            else:
                reader.run([statement], module.names)
            if path in self.base_files and isinstance(statement, ast.FunctionDef) and statement.name in DIRECTIVES:
                del module.names[statement.name]  # Spack's own directives, as `generator` in its build_systems/cmake.py
        module.left_out = [each for each in reader.left_out if each.directive == "import"]
        return module

    def class_rows(self, module: Module, name: str, open_classes: tuple[str, ...] = ()) -> ClassRows:
        """The rows of a class of a file, those of its bases first."""
        node = module.classes[name]
        own = f"{module.path}:{name}"
        if own in self.read:
            return self.read[own]
        if own in open_classes or len(open_classes) > 20:
            raise Cannot("a class that is its own base", name)
        found = ClassRows([], [], set(), ClassValue({}), [])
        for base in reversed(node.bases):
            self.add_base(found, module, ast.unparse(base), node, open_classes + (own,))
        given = module.names_at[name]
        names = ChainMap({}, self.class_values(module, node), copied(given, copy.deepcopy(given)))
        reader = ClassReader(self.shown(module.path), self.dialect, "python-venv" in self.folders, module.text)
        package = None if module.path in self.base_paths else self.package_of(module.path.parent.name)
        reader.site_values = values_for(self.site_values, package)
        reader.run(node.body, names)
        found.rows += reader.rows
        found.left_out += [each for each in module.left_out if each not in found.left_out] + reader.left_out
        found.lost_variants |= reader.lost_variants
        found.value.names.update(names.maps[0])
        self.read[own] = found
        return found

    def add_base(self, found: ClassRows, module: Module, base: str, node: ast.ClassDef, open_classes: tuple[str, ...]) -> None:
        """Adds what a base class says; one that is not found is listed."""
        place = self.find_class(module, base)
        found.bases.append(base.rpartition(".")[2])
        if place is None:
            if base.rpartition(".")[2] not in ("PackageBase", "object"):
                what = "what it declares is not known: name its folder by --build-systems"
                found.left_out.append(
                    LeftOut(self.shown(module.path), node.lineno, "class", base, "a base class that is not found", what)
                )
            return
        rows = self.class_rows(place[0], place[1], open_classes)
        found.rows += rows.rows
        found.left_out += rows.left_out
        found.lost_variants |= rows.lost_variants
        found.value.names.update(rows.value.names)

    def find_class(self, module: Module, base: str) -> Optional[tuple[Module, str]]:
        """The file and name of a class that a file names: its own, another package's, a build system's."""
        name = base.rpartition(".")[2]
        if base in module.classes:
            return module, base
        path = module.imports.get(base, "")
        package = re.search(r"(?:spack\.pkg\.\w+\.|spack_repo\.\w+\.packages\.|^\.\.)(\w+)(?:\.package)?\.\w+$", path)
        if package:
            file = next((self.folders[each] for each in self.folders if each.replace("-", "_") == package.group(1).lstrip("_")), None)
            other = self.module(file) if file else None
            return (other, path.rpartition(".")[2]) if other and path.rpartition(".")[2] in other.classes else None
        is_spacks = not path or path.lstrip(".").split(".")[0] in ("spack", "spack_repo") or path.startswith(".")
        return (self.module(self.bases[name]), name) if name in self.bases and is_spacks else None

    def class_values(self, module: Module, node: ast.ClassDef) -> dict[str, ClassValue]:
        """The classes that a class body may ask for attributes by name."""
        asked = set(re.findall(r"\b(\w+)\.\w", module.text))
        found = {}
        for name in sorted(asked & (self.bases.keys() | module.classes.keys() | module.imports.keys())):
            place = self.find_class(module, name)
            if place and place[0].classes[place[1]] is not node:
                found[name] = self.class_rows(*place).value
        return found
