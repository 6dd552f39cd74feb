#!/usr/bin/env python3
"""Files made to stop the importers: `site_tools/hostile.py` runs each, and shows seconds and memory.

Each has to end within 10 seconds of the processor and 500 MB, with one line or a report and without a traceback; a recipe that
cannot be read is left out by its name, and the others are imported.
"""
import argparse
import resource
import subprocess
import sys
import tempfile
import time
from pathlib import Path
from typing import Iterator

TOOLS = Path(__file__).resolve().parent
SECONDS, BYTES = 10, 500 * 1024 * 1024
CLASS = "class Bomb(Package):\n    version('1')\n"
DOUBLED = "    a = ['x']\n" + "".join("    a = a + a\n" for _ in range(60))
TOWER = "    a = ['x']\n" + "".join("    a = [a, a]\n" for _ in range(60))
TUPLES = "    a = ('x',)\n" + "".join("    a = (a, a)\n" for _ in range(60))
RECIPES = {
    "minus": CLASS + "    a = " + "-" * 100_000 + "1\n",
    "parentheses": CLASS + "    a = " + "(" * 3_000 + ")" * 3_000 + "\n",
    "attributes": CLASS + "    a = b" + ".c" * 100_000 + "\n",
    "sums": CLASS + "    a = " + "1+" * 100_000 + "1\n",
    "calls": CLASS + "    a = b" + "()" * 50_000 + "\n",
    "lambdas": CLASS + "    a = " + "lambda: " * 50_000 + "1\n",
    "names": CLASS + "".join(f"    a{n} = 'x' * 9000\n" for n in range(20_000)),
    "cube": CLASS + "    a = [x for x in range(2000) for y in range(2000) for z in range(2000)]\n",
    "loops": CLASS + "    for x in range(9000):\n        for y in range(9000):\n            a = x\n",
    "product": CLASS + "    for x in itertools.product(range(9000), repeat=9):\n        conflicts('+a')\n",
    "permutations": CLASS + "    for x in itertools.permutations(range(90)):\n        conflicts('+a')\n",
    "doubled": CLASS + DOUBLED + "    conflicts(a)\n",
    "tower": CLASS + TOWER + "    conflicts(str(a))\n    conflicts(f'{a}')\n    conflicts('%s' % (a,))\n",
    "tuples": CLASS + TUPLES + "    conflicts(str(a))\n    b = a == a\n    a.append(1)\n    undefined(a)\n",
    "equal": CLASS + TOWER + TOWER.replace("a", "b") + "    c = a == b\n    conflicts('+a', when=c)\n",
    "itself": CLASS + "    a = []\n    a.append(a)\n    b = {}\n    b.update(x=b)\n    conflicts(str(a))\n",
    "grow": CLASS + "    a = ['x' * 9000]\n    for x in range(9000):\n        a.append('y' * 9000)\n        a += a\n",
    "replace": CLASS + "    a = 'x' * 9000\n    b = a.replace('x', a)\n    c = b.replace('x', b)\n    d = a.join([b, b, b])\n",
    "width": CLASS + "    a = f'{1:999999999}'\n    b = '{:999999999}'.format(1)\n    c = '%999999999d' % 1\n",
    "width-given": CLASS + "    d = '%*d' % (999999999, 1)\n",
    "zeros": CLASS + "    a = '1'.zfill(999999999)\n    b = '{0:{1}}'.format(1, 999999999)\n",
    "power": CLASS + "    a = 9 ** 9 ** 9\n    b = 1 << 999999999\n    c = int('9' * 9999) * int('9' * 9999)\n",
    "range": CLASS + "    for x in range(10 ** 12):\n        conflicts('+a')\n",
    "recursion": CLASS + "    def f(n):\n        return f(n + 1) + f(n + 1)\n\n    conflicts(f(1))\n    a = f(1)\n",
    "deep-recursion": CLASS + "    def f(n):\n        depends_on('zlib')\n        f(n)\n\n    f(1)\n",
    "many-rows": CLASS + "    for x in range(9000):\n        for y in range(90):\n            conflicts(f'@{x}.{y}')\n",
    "many-listed": CLASS + "    for x in range(9000):\n        for y in range(90):\n            conflicts(unknown)\n",
    "sets": CLASS + "    variant('v', values=disjoint_sets(range(3000), range(3000, 6000)), default='none')\n",
    "continue": CLASS + "    continue\n",
    "outside": "break\n" + CLASS,
    "return": CLASS + "    return 1\n",
    "nul": CLASS + "    a = '\0'\n",
    "latin": "# \udce9\n" + CLASS,
    "escape": CLASS + "    conflicts('+a', msg='\\x1b]0;x\\x07\\nimport_repo: done')\n    depends_on('\\x1b[31m')\n",
    "eval": CLASS + "    conflicts(eval('1'))\n    conflicts(__import__('os').system('touch /tmp/ran'))\n",
    "open": CLASS + "    conflicts(open('/tmp/ran', 'w'))\n",
    "blocks": CLASS + "".join("    " * (n + 1) + f"with when('@{n}'):\n" for n in range(90)) + "    " * 91 + "depends_on('zlib')\n",
    "spec": CLASS + "    conflicts('+a' * 9000)\n    conflicts('^a' * 9000)\n    conflicts('@' + '1.' * 5000)\n",
    "versions": CLASS + "    conflicts('@' + '1,' * 9000)\n",
    "large": CLASS + "    a = [" + "1," * 600_000 + "]\n",
    "walrus": CLASS + "    conflicts((a := '+x'))\n    conflicts(a)\n    [conflicts(b := x) for x in '+a+b']\n",
    "bases": "class A(B):\n    pass\n\n\nclass B(A):\n    pass\n\n\n" + "class Bomb(A):\n    version('1')\n",
}
TEXTS: dict[str, tuple[str, str]] = {
    "yaml aliases": ("yaml", "packages:\n  a: &a [x,x,x,x,x,x,x,x,x]\n" + "".join(
        f"  {n}: &{n} [{','.join(['*' + chr(ord(n) - 1)] * 9)}]\n" for n in "bcdefghijk")),
    "yaml itself": ("yaml", "packages: &p\n  all: *p\n"),
    "yaml deep": ("yaml", "packages: " + "[" * 100_000 + "]" * 100_000 + "\n"),
    "yaml maps": ("yaml", "packages: " + "{a: " * 50_000 + "1" + "}" * 50_000 + "\n"),
    "yaml merge": ("yaml", "packages:\n  a: &a {b: 1}\n  c:\n    <<: *a\n    <<: *a\n"),
    "yaml object": ("yaml", "packages: !!python/object/apply:os.system ['touch /tmp/ran']\n"),
    "yaml keys": ("yaml", "packages:\n  ? [a, b]\n  : 1\n  ? {a: b}\n  : 2\n  3: [4]\n  x: 5\n"),
    "yaml large": ("yaml", "packages:\n" + "".join(f"  p{n}: {{version: [1]}}\n" for n in range(60_000))),
    "json deep": ("json", "[" * 100_000 + "]" * 100_000),
    "json nan": ("json", '{"database":{"installs":{"a":NaN}}}'),
    "json numbers": ("json", '{"database":{"installs":{"a":' + "9" * 100_000 + "}}}"),
    "json entry": ("json", '{"database":{"installs":{"a":3,"b":null,"c":[],"d":{"spec":[]},"e":{"spec":{"dependencies":[3]}}}}}'),
    "json surrogate": ("json", '{"database":{"installs":{"a":{"spec":{"name":"\\ud800","version":"1","external":{"path":"\\ud800"},'
                       '"arch":{"platform":"linux","platform_os":"o","target":"t"}}}}}}'),
    "json chain": ("json", '{"database":{"installs":{' + ",".join(
        f'"h{n}":{{"spec":{{"name":"a{n}","version":"1","arch":{{"platform":"linux","platform_os":"o","target":"t"}},"dependencies":'
        f'[{{"name":"a","hash":"h{n + 1}","parameters":{{"deptypes":["link"]}}}}]}}}}' for n in range(20_000)) + "}}}"),
    "lock deep": ("lock", '{"nodes":' + "[" * 100_000 + "]" * 100_000 + "}"),
    "lock nan": ("lock", '{"nodes":[NaN],"providers":{},"roots":[],"version":1}'),
}


def command_of(kind: str, file: Path, room: Path) -> list[str]:
    """The importer of a kind of file, over this one."""
    if kind == "yaml":
        return ["import_settings", "--target", "zen3", "--os", "a", str(room / "out.json"), str(file)]
    if kind == "json":
        return ["import_installed", str(file), str(room / "out.json"), str(room / "out.tsv")]
    return ["lock_view", str(file)]


def run(words: list[str]) -> tuple[float, int, int, str]:
    """Runs a script: seconds of the processor, bytes, status, what it said."""
    before = resource.getrusage(resource.RUSAGE_CHILDREN)
    code = (
        f"import resource, runpy, sys; resource.setrlimit(resource.RLIMIT_AS, ({4 * BYTES}, {4 * BYTES}));"
        f"sys.argv = {words!r}; sys.path.insert(0, {str(TOOLS)!r}); sys.dont_write_bytecode = True;"
        "exec('try:\\n runpy.run_path(sys.path[0] + \"/\" + sys.argv[0], run_name=\"__main__\")\\nfinally:\\n"
        " sys.stdout.flush(); print(\"peak\", resource.getrusage(resource.RUSAGE_SELF).ru_maxrss, file=sys.stderr)')"
    )
    try:
        done = subprocess.run([sys.executable, "-c", code], capture_output=True, text=True, errors="replace", check=False, timeout=120)
        said, status = done.stdout + done.stderr, done.returncode
    except subprocess.TimeoutExpired:
        said, status = "120 seconds of the clock", -1
    after = resource.getrusage(resource.RUSAGE_CHILDREN)
    peak = int(said.rpartition("peak ")[2].split()[0]) * 1024 if "peak " in said else 0
    return after.ru_utime - before.ru_utime + after.ru_stime - before.ru_stime, peak, status, said.rpartition("peak ")[0] or said


def each_run(asked: list[str]) -> Iterator[tuple[str, float, int, int, str]]:
    """Runs all files, each alone."""
    for name, text in RECIPES.items():
        if asked and name not in asked:
            continue
        with tempfile.TemporaryDirectory() as folder:
            room = Path(folder)
            for package, body in (("bomb", text), ("good", "class Good(Package):\n    version('1')\n")):
                (room / "repo" / "packages" / package).mkdir(parents=True)
                (room / "repo" / "packages" / package / "package.py").write_bytes(body.encode("utf-8", "surrogateescape"))
            seconds, peak, status, said = run(["import_repo", str(room / "repo"), str(room / "out")])
            if status in (0, 1) and not (room / "out" / "packages" / "good" / "package.py").is_file():
                status, said = -1, "the other recipe was not written"
            yield name, seconds, peak, status, said
    for name, (kind, text) in TEXTS.items():
        if asked and name not in asked:
            continue
        with tempfile.TemporaryDirectory() as folder:
            file = Path(folder) / {"yaml": "packages.yaml"}.get(kind, "index.json")
            file.write_text(text, "utf-8")
            yield name, *run(command_of(kind, file, Path(folder)))


def main() -> int:
    """Runs all: 0 where each ended as it has to."""
    parser = argparse.ArgumentParser(description=__doc__)
    parser.add_argument("names", nargs="*", help="some of them; all without a name")
    begun, count, wrong = time.monotonic(), 0, 0
    for name, seconds, peak, status, said in each_run(parser.parse_args().names):
        is_recipe = name in RECIPES
        right = seconds < SECONDS and 0 < peak < BYTES and "Traceback" not in said and status in ((0, 1) if is_recipe else (0, 1, 2))
        right = right and not any(ord(sign) < 32 and sign != "\n" for sign in said) and not Path("/tmp/ran").exists()
        count, wrong = count + 1, wrong + (not right)
        last = said.strip().splitlines()[-1:] or [""]
        why = "" if right else f": {last[0][:200]}"
        print(f"{'right' if right else 'WRONG'} {name}: {seconds:.1f} s, {peak // 2**20} MB, status {status}{why}", flush=True)
    print(f"{count} files, {wrong} wrong, {time.monotonic() - begun:.0f} s of the clock")
    return 1 if wrong else 0


if __name__ == "__main__":
    sys.exit(main())
