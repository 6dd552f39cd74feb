#!/usr/bin/env python3
"""Compares the importer with the proved reader: `site_tools/compare_reader.py [SEED [RUNS]]`, by hand, outside the tests.

Makes random spec texts and random recipes in Spack's style, right and wrong ones, imports them, and has the released
program read what was written. The program must read all of it: what it refuses is a fault of the importer. It says
nothing of whether what was written means the same.
"""
import argparse
import random
import subprocess
import sys
import tempfile
from pathlib import Path

TOOLS = Path(__file__).resolve().parent
sys.path.insert(0, str(TOOLS))
sys.dont_write_bytecode = True

from bridge import import_repo, spec_text  # noqa: E402
from bridge.rows import quoted  # noqa: E402

PIECES = (
    "a|b-c|_x|@|1.2|1.2:|::|:|2:1|,|=|+|~|-|%|gcc|clang| |  |^|^zlib| v=a|v=a,b|os=x| target=x:y| platform=l| arch=a-b-c|'a'"
    "|\"b\"|/|==|:=|*|++| -m|True|builtin.|@1:2|@=1| +mpi|%gcc@1:3| x=| languages='c,c++'|[|develop|1.0-rc1|a.b|c"
).split("|")
VALUES = '"a" "b" "none" "True" True False None 1 2.5 "a,b" "x=y" ("a","b") ["a"] () "1.2" "+a" "" "auto"'.split()
WHENS = '"+a" "@1:" "^zlib" "%gcc@12" True False None "" "a=b,c" "build_system=cmake" "++a" "os=x" "target=a:" "a=True"'.split()
NAMES = '"v" "w" "x-y" "os" "a.b" "build_type" "V1"'.split()
SETS = (
    'any_combination_of("a", "b")', 'disjoint_sets(("a",), ("b", "c"))', 'auto_or_any_combination_of("a")', "int", '"a"',
    'disjoint_sets(("a",), ("b",)).prohibit_empty_set().with_default("a")', "[str(n) for n in range(3)]",
    '("a", conditional("b", "c", when="@1:"))', '("a", "b")', '("a", True, 1)',
)
BASES = "Package|CMakePackage|AutotoolsPackage|CMakePackage, CudaPackage|PythonPackage|MesonPackage".split("|")
WHOLE = (
    'generator("ninja")', 'build_system("cmake", "autotools", default="cmake")', 'extends("python")', 'patch("x.patch")',
    'build_system(conditional("cmake", when="@1:"), "generic", default="generic")', 'depends_on("c", type="build")',
)
# Statements over the names `v`, `w` and `names`, which each class gives first.
GIVEN = (
    '    v, w, names = "z", "y", ["m", "n"]', "    def f(x, y=None):", '        if x == "a":', "            return",
    '        conflicts("+" + x, when=y)', "        for z in x[:3]:", '            if z > "f":', "                break",
    '            conflicts("~" + z)',
    "    def g(xs, front):", "        found = []", "        for x in xs:", '            if x == "n":', "                continue",
    "            found.append(front + x)", "        return found", "    def h(xs):", '        xs.append("h")',
    "        return len(xs)", "    def k(x):", "        depends_on(x)", "        if unknown:", "            return 1", "        return 2",
)
STATEMENTS = (
    'w = v + "y"', 'names = ["m", v]', "names += [w]", "names.append(v)", "w = names[0]", "w = len(names) * v", "other = names",
    'v = "%s-%s" % (v, len(w))', "names[0] = w", "w = unknown", 'conflicts(f"+{v}")', 'conflicts("+" + w)', 'depends_on(f"z-{len(names)}")',
    'f(v)', 'f(w, y="@1")', 'names = g(names[:5], "g")', "w = h(names)", "h(names)", "w = k(v)", "k(v)",
    "names.extend(g(names[:2], v))",
    'conflicts("+" + g([v], front="q")[0])', "[f(x) for x in names[:4] if x != v]", '[depends_on(x + y) for x in "ab" for y in names[:2]]',
    'names.insert(0, "i")', "names.sort()",
    'conflicts("+" + names[-1], when="+{0}".format(v))', '[conflicts("+" + x) for x in names]', 'version(f"{len(names)}.{len(v)}")',
)
HEADS = (
    'with default_args(type="build"):', 'for v in "ab":', 'for v in [x + "c" for x in ("a", "b")]:', "for x in names[:3]:", 'if v < "b":',
    "if len(names) > 2 and w:",
    "for v in itertools.chain(names[:2], 'xy'):", "for x, y in itertools.permutations(names[:3], 2):",
    'for x, v in {"p": "q", "r": "s"}.items():', 'for v in sorted(names)[:2]:', "if unknown:",
)


class Maker:
    """Makes random texts and recipes from a seed."""

    def __init__(self, seed: int) -> None:
        self.random = random.Random(seed)

    def spec(self) -> str:
        """A text that may be a spec."""
        return "".join(self.random.choice(PIECES) for _ in range(self.random.randint(1, 7)))

    def keywords(self, **given: tuple[str, ...]) -> str:
        """Some of the keywords, each with one of its values."""
        chosen = [name for name in given if self.random.random() < 0.5]
        return "".join(f", {name}={self.random.choice(given[name])}" for name in chosen)

    def directive(self) -> str:
        """A directive that may be right."""
        when = tuple(WHENS)
        kinds = ('"build"', '("build", "run")', '"all"', '"test"', "()", '["link"]')
        depends = ('"zlib"', '"zlib@1:+a"', '"c"', '"mpi"', '"zlib ^x"', '"p1"', '"zlib a=True"', '"zlib@=1.2 %gcc"')
        provided = ('"mpi"', '"mpi@1:", "b"', '"p1"', '"mpi+x"')
        multi, sticky = ("True", "False"), ("True",)
        words = self.keywords(default=tuple(VALUES), values=SETS, multi=multi, when=when, sticky=sticky)
        return self.random.choice([
            f"variant({self.random.choice(NAMES)}{words})",
            f"variant({self.random.choice(NAMES)}, default={self.random.choice(VALUES)}, values={self.random.choice(SETS)})",
            f"depends_on({self.random.choice(depends)}{self.keywords(type=kinds, when=when)})",
            f"provides({self.random.choice(provided)}{self.keywords(when=when)})",
            f"conflicts({self.random.choice(WHENS)}{self.keywords(when=when)})",
            f"requires({self.random.choice(WHENS)}, {self.random.choice(WHENS)}{self.keywords(when=when)})",
            f"version({self.random.choice(VALUES)}{self.keywords(preferred=multi, deprecated=multi)})",
            self.random.choice(WHOLE), *self.random.choices(STATEMENTS, k=5),
        ])

    def ending(self, head: str, depth: int) -> list[str]:
        """Sometimes, what may end a turn of a loop."""
        if not head.startswith("for") or self.random.random() < 0.6:
            return []
        test = self.random.choice(['if v == "b":', "if v in names:", "if unknown:", 'if v > "m":'])
        return ["    " * depth + test, "    " * (depth + 1) + self.random.choice(["continue", "break"])]

    def block(self, depth: int) -> list[str]:
        """Directives, some in blocks and loops."""
        lines: list[str] = []
        for _ in range(self.random.randint(1, 4)):
            head = self.random.choice([f"with when({self.random.choice(WHENS)}):", *HEADS])
            if depth < 4 and self.random.random() < 0.3:
                lines += ["    " * depth + head, *self.ending(head, depth + 1), *self.block(depth + 1)]
            else:
                lines.append("    " * depth + self.directive())
        return lines


def refused(program: str, repo: Path) -> str:
    """What the program says where it does not read a repository."""
    words = [program, "concretize", str(repo), "-", "-", str(repo / "lock"), "-", "p0"]
    done = subprocess.run(words, capture_output=True, text=True, check=False)
    return done.stderr if done.returncode not in (0, 1) else ""


def compare_specs(maker: Maker, program: str, room: Path) -> str:
    """Random texts, all that were taken as conflicts of one recipe."""
    texts = set()
    for text in (maker.spec() for _ in range(100_000)):
        for dialect in (spec_text.Dialect(), spec_text.Dialect(is_v2=True)):
            try:
                texts.add(spec_text.read_condition(text, dialect).text())
            except spec_text.NotInProfile:
                continue
    lines = [f"    conflicts({quoted(text)})" for text in sorted(texts)]
    (room / "packages" / "p0").mkdir(parents=True)
    (room / "packages" / "p0" / "package.py").write_text("class P0(Package):\n" + "\n".join(lines) + "\n", "utf-8")
    return refused(program, room) or f"{len(texts)} spec texts are read"


def compare_recipes(maker: Maker, program: str, room: Path) -> str:
    """Random recipes, imported and read."""
    for number in range(150):
        folder = room / "in" / "packages" / f"p{number}"
        folder.mkdir(parents=True)
        lines = [f"class P{number}({maker.random.choice(BASES)}):", *GIVEN, *maker.block(1)]
        (folder / "package.py").write_text("\n".join(lines) + "\n", "utf-8")
    import_repo.main([str(room / "in"), str(room / "out")])
    return refused(program, room / "out") or "all are read"


def main() -> int:
    """Runs the comparisons: 0 where the program read all."""
    parser = argparse.ArgumentParser(description=__doc__)
    parser.add_argument("seed", type=int, nargs="?", default=1, metavar="SEED")
    parser.add_argument("runs", type=int, nargs="?", default=5, metavar="RUNS")
    given = parser.parse_args()
    seed, runs = given.seed, given.runs
    program = subprocess.run([str(TOOLS.parent / "spack_concretize"), "--where"], capture_output=True, text=True, check=True).stdout.strip()
    wrong = False
    for turn in range(runs):
        for compare in (compare_specs, compare_recipes):
            with tempfile.TemporaryDirectory() as room:
                said = compare(Maker(seed + turn), program, Path(room))
            print(f"seed {seed + turn}: {said.strip()}")
            wrong = wrong or said.startswith(("bad input", "too large"))
    return 1 if wrong else 0


if __name__ == "__main__":
    sys.exit(main())
