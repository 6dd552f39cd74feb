"""Families of inputs that grow by a number: what bench/scale.py runs. Each function gives the files, by path, and the words of the program.

Paths are those of a folder of its own; `r` is the repository, `s` the settings, `d` the database, `o` and `c` where LOCK and CERT go.
"""
import base64
import hashlib
import json
import random

SOLVE = ["concretize", "r", "-", "-", "o", "-"]
GCC = {"name": "gcc", "version": "12.3.0"}


def compact(data):
    return json.dumps(data, separators=(",", ":"), sort_keys=True)


def recipes(**packages):
    """Files of packages: `q_1` is the package `q-1`."""
    return {
        "r/packages/%s/package.py" % name.replace("_", "-"): "class P(Package):\n" + "".join("    %s\n" % line for line in lines)
        for name, lines in packages.items()
    }


def versions(count):
    return ['version("1.%d")' % i for i in range(count)]


def one(*lines):
    """A package p of these lines, asked for."""
    return recipes(p=['version("1")', *lines]), [*SOLVE, "p"]


# ---- many packages


def chain(n):
    return recipes(**{"q_%d" % i: versions(2) + (['depends_on("q-%d")' % (i + 1)] if i + 1 < n else []) for i in range(n)}), [*SOLVE, "q-0"]


def capped_star(n):
    """Each child is asked for below the newest of its three versions."""
    files = recipes(**{"q_%d" % i: versions(3) for i in range(n)})
    return files | recipes(p=['version("1")'] + ['depends_on("q-%d@:1.1")' % i for i in range(n)]), [*SOLVE, "p"]


def conditional_star(n):
    """Each child is needed under a variant of its own; every second one is on."""
    files = recipes(**{"q_%d" % i: versions(2) for i in range(n)})
    lines = ['variant("a%d", default=%s)' % (i, i % 2 == 0) for i in range(n)]
    lines += ['depends_on("q-%d", when="+a%d")' % (i, i) for i in range(n)]
    return files | recipes(p=['version("1")', *lines]), [*SOLVE, "p"]


def wide(n):
    """Rows of eight, each package with three conditional dependencies on the next row."""
    made = {"p": ['version("1")'] + ['depends_on("q-%d")' % i for i in range(8)]}
    for i in range(n):
        below = [i - i % 8 + 8 + (i * 3 + j) % 8 for j in (1, 2, 3)] if i + 16 <= n else []
        made["q_%d" % i] = versions(4) + ['variant("a", default=True)'] + [
            'depends_on("q-%d", when="%s")' % (child, ("+a", "@1.2:", "~a")[j]) for j, child in enumerate(below)]
    return recipes(**made), [*SOLVE, "p"]


def possible_cycles(n):
    """A chain; under a variant that is off each package needs the one before it."""
    made = {}
    for i in range(n):
        made["q_%d" % i] = versions(2) + ['variant("back", default=False)']
        made["q_%d" % i] += ['depends_on("q-%d")' % (i + 1)] * (i + 1 < n) + ['depends_on("q-%d", when="+back")' % (i - 1)] * (i > 0)
    return recipes(**made), [*SOLVE, "q-0"]


def shared_children(n):
    """Two packages ask for each child, with caps that differ."""
    made = {"q_%d" % i: versions(10) for i in range(n)}
    for name, low in (("a", 3), ("b", 5)):
        made[name] = ['version("1")'] + ['depends_on("q-%d@:1.%d")' % (i, (low + i) % 10) for i in range(n)]
    return recipes(**made, p=['version("1")', 'depends_on("a")', 'depends_on("b")']), [*SOLVE, "p"]


def each_on_each(n):
    """Each package has a conditional dependency on each other one."""
    made = {"q_%d" % i: versions(2) + ['variant("a", default=False)'] + ['depends_on("q-%d", when="+a")' % j for j in range(n) if j != i]
            for i in range(n)}
    return recipes(**made), [*SOLVE, "q-0"]


def outside(n):
    """Packages that no node can be, each with ten dependencies on the root."""
    files = recipes(**{"q_%d" % i: ['version("1")', 'version("2")'] + [
        'depends_on("p@1.%d:", when="@%d")' % ((i + j) % 20, 1 + j % 2) for j in range(10)] for i in range(n)})
    return files | recipes(p=versions(20)), [*SOLVE, "p"]


# ---- virtual packages


def providers(n):
    files = recipes(**{"q_%d" % i: ['version("1")', 'provides("v")'] for i in range(n)})
    return files | recipes(p=['version("1")', 'depends_on("v")']), [*SOLVE, "p"]


def late_providers(n):
    """They are the last of a list that is ten times as long."""
    files, words = providers(n)
    names = ["q-%d" % i for i in range(10 * n)][::-1]
    return files | {"s": compact({"providers": {"v": names}})}, [*words[:2], "s", *words[3:]]


def virtuals(n):
    """Each is provided by the same packages, as many as there are virtual ones."""
    files = recipes(**{"q_%d" % i: ['version("1")'] + ['provides("v%d")' % j for j in range(n)] for i in range(n)})
    return files | recipes(p=['version("1")'] + ['depends_on("v%d")' % j for j in range(n)]), [*SOLVE, "p"]


def edge_virtuals(n):
    """One package asks for them, and another one provides them."""
    asked, provided = (['version("1")'] + ['%s("v%d")' % (word, i) for i in range(n)] for word in ("depends_on", "provides"))
    return recipes(p=asked, q=provided), [*SOLVE, "p"]


# ---- one package


def many_versions(n):
    return recipes(p=versions(n)), [*SOLVE, "p"]


def range_conflicts(n):
    """As many versions as conflicts of a range with a range, each of a quarter of the versions."""
    drawn, lines = random.Random(n), versions(n)
    for _ in range(n):
        low, other = drawn.randrange(n), drawn.randrange(n)
        lines.append('conflicts("@1.%d:1.%d", when="@1.%d:1.%d")' % (low, low + n // 4, other, other + n // 4))
    return recipes(p=lines), [*SOLVE, "p"]


def directives(n):
    return one('variant("a", default=True)', *['conflicts("+a", when="@2")'] * n)


def variants(n):
    return one(*('variant("a%d", default=True)' % i for i in range(n)))


def definitions(n):
    return recipes(p=versions(n) + ['variant("a", default=True, when="@1.%d")' % i for i in range(n)]), [*SOLVE, "p"]


def values(n, multi=False):
    texts = ", ".join('"a%d"' % i for i in range(n))
    return one('variant("a", default=%s, values=(%s), multi=%s)' % ("(%s)" % texts if multi else '"a0"', texts, multi))


def multi_values(n):
    return values(n, True)


def one_of(n):
    return one('variant("a", default=True)', "requires(%s)" % ", ".join(['"+a"', '"~a"'] * (n // 2)))


def one_of_versions(n):
    return recipes(p=versions(n) + ["requires(%s)" % ", ".join('"@=1.%d"' % i for i in range(n))]), [*SOLVE, "p"]


def any_of(n):
    return one('variant("a", default=True)', 'requires(%s, policy="any_of")' % ", ".join(['"+a"', '"~a"'] * (n // 2)))


# ---- settings, databases, certificates


def settings(**keys):
    return recipes(p=['version("1")']) | {"s": compact(keys)}, ["concretize", "r", "s", "-", "o", "-", "p"]


def systems(n):
    return settings(os=["os%d" % i for i in range(n)])


def flat_targets(n):
    return settings(targets=[{"name": "t%d" % i, "parents": []} for i in range(n)])


def chained_targets(n):
    return settings(targets=[{"name": "t%d" % i, "parents": ["t%d" % (i + 1)] * (i + 1 < n)} for i in range(n)])


def compilers(n):
    return settings(compilers=[{"name": "gcc", "version": "1.%d" % i} for i in range(n)])


def externals(n):
    return settings(packages={"p": {"externals": [{"spec": "p@1.%d" % i, "prefix": "/p%d" % i} for i in range(n)]}})


def record(name, version, children=()):
    made = {"name": name, "version": version, "variants": {}, "compiler": GCC, "os": "ubuntu22.04", "target": "x86_64", "external": None,
            "dependencies": [{"hash": child, "kinds": ["build", "link"]} for child in sorted(children)]}
    return with_hash(made)


def with_hash(made):
    text = compact({key: value for key, value in made.items() if key != "hash"})
    return made | {"hash": base64.b32encode(hashlib.sha256(text.encode()).digest()[:20]).decode().lower()}


def records(n, name):
    made = [record(name % i, "1.%d" % i) for i in range(n)]
    return recipes(p=['version("1")']) | {"d": compact({"records": made, "version": 1})}, ["concretize", "r", "-", "d", "o", "-", "p"]


def recorded_virtuals(n):
    """Records of one package over as many versions of another one, each naming as many virtuals."""
    names = ["v%d" % i for i in range(n)]
    below = [record("q", "1.%d" % i) for i in range(n)]
    above = [{**record("p", "1"), "version": "1.%d" % i, "dependencies": [{"hash": it["hash"], "kinds": ["link"], "virtuals": sorted(names)}]} for i, it in enumerate(below)]
    files = recipes(p=versions(n) + ['depends_on("v0")'], q=versions(n) + ["provides(%s)" % ", ".join('"%s"' % name for name in names)])
    return files | {"d": compact({"records": below + [with_hash(it) for it in above], "version": 2})}, ["concretize", "r", "-", "d", "o", "-", "p"]


def other_records(n):
    return records(n, "q-%d")


def own_records(n):
    return records(n, "p%.0s")


def long_line(n):
    """A certificate without a line feed."""
    return recipes(p=['version("1")']) | {"c": "1" * n}, ["refute", "r", "-", "-", "c", "p"]
