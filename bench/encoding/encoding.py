"""The clauses that `encode_dimacs` prints, by their comments alone, and the graphs that their models spell.

A graph is a dict: `nodes`, from names to dicts with `origin` ("built", "external 0", "installed HASH"), `version`, `variants` (names to
sorted lists of values), `compiler` ("gcc@=12.3.0" or None), `os`, `target`, `prefix` (a text or None), `edges` (children to sorted
lists of kinds) and `named` (children to sorted lists of virtuals, where there are some); and `providers`, from virtuals to names.
"""
import re
import subprocess

KINDS = ("build", "link", "run")
ATTRIBUTES = ("origin", "version", "compiler", "os", "target", "prefix")


class Wrong(Exception):
    """What is printed, or a model of it, says no graph."""


def value_of(attribute, words):
    """What a choice of an attribute is, by its words."""
    if attribute in ("compiler", "prefix") and words == "-":
        return None
    if attribute == "prefix":
        text = re.sub(rb"\\([0-9a-f]{2})", lambda found: bytes([int(found[1], 16)]), words[1:].encode())
        return text.decode()
    return words


class Encoding:
    def __init__(self, text):
        self.present = {}  # name: literal
        self.choices = {}  # name: attribute: list of (value, literal)
        self.variants = {}  # name: variant: list of (value, literal)
        self.edges = {}  # (parent, child): kind: literal
        self.named = {}  # (parent, child): list of (virtual, literal)
        self.providers = {}  # virtual: list of (package, literal)
        self.demands = {}  # the id of a clause: its demand
        self.numbers = []  # (spelling, greatest value, literals)
        self.bit_lines = []  # (literal, "BIT number PLACE weight WEIGHT")
        self.clauses = []
        self.variables = None
        self.rules = None  # how many variables and clauses are those of the rules
        for line in text.splitlines():
            if line.startswith("c "):
                self.comment(line[2:])
            elif line.startswith("p cnf "):
                self.variables, self.size = map(int, line.split()[2:])
            else:
                lits = [int(word) for word in line.split()]
                if not lits or lits.pop() != 0 or any(not 0 < abs(lit) <= self.variables for lit in lits):
                    raise Wrong("no clause: " + line)
                self.clauses.append(lits)
        if self.variables is None or len(self.clauses) != self.size:
            raise Wrong("not as many clauses as are said")
        if self.rules is None or any(abs(lit) > self.rules[0] for clause in self.clauses[: self.rules[1]] for lit in clause):
            raise Wrong("a clause of the rules has another variable")
        if self.bit_lines != list(self.named_bits()):
            raise Wrong("the bits are not those of the numbers")
        self.table = sorted({abs(lit) for lit, _ in self.literals()})

    def comment(self, line):
        first, kind, rest = (line.split(" ", 2) + ["", ""])[:3]
        if first == "rules":
            self.rules = (int(kind), int(rest))
        elif first == "clause":
            self.demands[int(kind)] = rest.split(" ", 2)[2]
        elif first == "number":
            spelling, top, *lits = rest.split()
            if int(kind) != len(self.numbers) + 1 or lits.pop() != "0":
                raise Wrong("no number: " + line)
            self.numbers.append((spelling, int(top), [int(lit) for lit in lits]))
        elif kind == "bit":
            self.bit_lines.append((int(first), rest))
        elif kind == "node":
            self.present[rest] = int(first)
            self.choices[rest] = {attribute: [] for attribute in ATTRIBUTES}
            self.variants[rest] = {}
        elif kind in ATTRIBUTES:
            name, words = rest.split(" ", 1)
            self.choices[name][kind].append((value_of(kind, words), int(first)))
        elif kind == "variant":
            name, words = rest.split(" ", 1)
            variant, value = words.split("=", 1)
            self.variants[name].setdefault(variant, []).append((value, int(first)))
        elif kind == "edge":
            parent, child, which = rest.split(" ")
            self.edges.setdefault((parent, child), {})[which] = int(first)
        elif kind == "names":
            parent, child, virtual = rest.split(" ")
            self.named.setdefault((parent, child), []).append((virtual, int(first)))
        elif kind == "provider":
            virtual, package = rest.split(" ")
            self.providers.setdefault(virtual, []).append((package, int(first)))
        else:
            raise Wrong("no comment: " + line)

    def named_bits(self):
        """What the lines of bits have to say, by those of the numbers."""
        bit = 0
        for place, (spelling, _, lits) in enumerate(self.numbers, 1):
            for behind, lit in zip(range(len(lits) - 1, -1, -1), lits):
                yield lit, "%d number %d weight %d" % (bit, place, 1 if spelling == "unary" else 2 ** behind)
                bit += 1

    def literals(self):
        """Each literal of the table, with what it stands for."""
        for name, lit in self.present.items():
            yield lit, (name,)
            for attribute, choices in self.choices[name].items():
                for value, literal in choices:
                    yield literal, (name, attribute, value)
            for variant, choices in self.variants[name].items():
                for value, literal in choices:
                    yield literal, (name, "variant", variant, value)
        for (parent, child), kinds in self.edges.items():
            for kind, literal in kinds.items():
                yield literal, ("edge", parent, child, kind)
        for (parent, child), choices in self.named.items():
            for virtual, literal in choices:
                yield literal, ("names", parent, child, virtual)
        for virtual, choices in self.providers.items():
            for package, literal in choices:
                yield literal, ("provider", virtual, package)

    def roots(self):
        """The requested specs, each by its name and its canonical text: a clause is there for each."""
        found = {re.fullmatch(r"root ([0-9]+) (.*)", demand) for demand in self.demands.values()} - {None}
        return [(re.match(r"[A-Za-z0-9_.-]+", text)[0], text) for _, text in sorted({(int(it[1]), it[2]) for it in found})]

    # ---- models

    def dimacs(self, more=()):
        """The clauses with further ones, for clasp: models are told apart by the table's variables."""
        clauses = [*self.clauses, *more]
        lines = ["p cnf %d %d" % (self.variables, len(clauses)), "c project %s 0" % " ".join(map(str, self.table))]
        lines += [" ".join(map(str, [*clause, 0])) for clause in clauses]
        return "\n".join(lines) + "\n"

    def models(self, most, more=()):
        """So many models at most, which differ on the table, each as the set of its true literals. 0: all."""
        words = ["clasp", "-n", str(most), "--parse-ext", "--project=project", "-q0", "-V1"]
        done = subprocess.run(words, input=self.dimacs(more), capture_output=True, text=True)
        if done.returncode not in (10, 20, 30):
            raise Wrong("clasp ends with %d: %s" % (done.returncode, done.stderr))
        found = []
        for line in done.stdout.splitlines():
            if line.startswith("c Answer"):
                found.append(set())
            elif line.startswith("v "):
                found[-1].update(int(word) for word in line[2:].split())
        return found

    def graph(self, true):
        """The graph that a model spells."""

        def one(name, choices):
            values = [value for value, literal in choices if literal in true]
            if len(values) != 1:
                raise Wrong("%s has %r" % (name, values))
            return values[0]

        nodes = {}
        for name, literal in self.present.items():
            if literal in true:
                node = {attribute: one(name, choices) for attribute, choices in self.choices[name].items()}
                some = {variant: sorted(value for value, lit in choices if lit in true) for variant, choices in self.variants[name].items()}
                nodes[name] = {**node, "variants": {variant: values for variant, values in some.items() if values}, "edges": {}, "named": {}}
            elif any(lit in true for lit, of in self.literals() if of[0] == name):
                raise Wrong("%s is no node, and has a choice" % name)
        for (parent, child), kinds in self.edges.items():
            some = [kind for kind in KINDS if kinds[kind] in true]
            if some:
                if parent not in nodes or child not in nodes:
                    raise Wrong("an edge of no node: %s %s" % (parent, child))
                nodes[parent]["edges"][child] = some
        for (parent, child), choices in self.named.items():
            some = sorted(virtual for virtual, literal in choices if literal in true)
            if some:
                if child not in nodes.get(parent, {"edges": {}})["edges"]:
                    raise Wrong("virtuals on no edge: %s %s" % (parent, child))
                nodes[parent]["named"][child] = some
        providers = {}
        for virtual, choices in self.providers.items():
            some = [package for package, lit in choices if lit in true]
            if len(some) > 1 or any(package not in nodes for package in some):
                raise Wrong("%s has the providers %r" % (virtual, some))
            providers.update({virtual: package for package in some})
        return {"nodes": nodes, "providers": providers}

    def spelled(self, graph):
        """The literals of the table as a graph has them; None where the table has no literal for some part of it."""
        wanted = set()
        for name, node in graph["nodes"].items():
            wanted.add((name,))
            wanted.update((name, attribute, node[attribute]) for attribute in ATTRIBUTES)
            wanted.update((name, "variant", variant, value) for variant, values in node["variants"].items() for value in values)
            wanted.update(("edge", name, child, kind) for child, kinds in node["edges"].items() for kind in kinds)
            wanted.update(("names", name, child, virtual) for child, virtuals in node["named"].items() for virtual in virtuals)
        wanted.update(("provider", virtual, package) for virtual, package in graph["providers"].items())
        of = {}
        for literal, what in self.literals():
            of.setdefault(literal, []).append(what)
        if not wanted <= {what for parts in of.values() for what in parts}:
            return None
        signs = []
        for literal, parts in of.items():
            here = {what in wanted for what in parts}
            if len(here) > 1:  # one literal for choices that are forced together: they do not come apart
                return None
            signs.append(literal if here.pop() else -literal)
        return signs if len({abs(lit) for lit in signs}) == len(set(signs)) else None

    def vector(self, true):
        """The numbers that the bits of a model spell."""
        numbers = []
        for spelling, top, lits in self.numbers:
            bits = [lit in true for lit in lits]
            if spelling == "unary":  # the highest first: those behind a true one are true
                if len(bits) != top or sorted(bits) != bits:
                    raise Wrong("bits of a number up to %d: %r" % (top, bits))
                numbers.append(sum(bits))
            else:
                numbers.append(sum(bit << place for place, bit in enumerate(reversed(bits))))
        return numbers
