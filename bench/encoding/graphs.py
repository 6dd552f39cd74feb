"""All graphs over the choices of a table, and the lock files that show them to `judge`."""
import base64
import hashlib
import itertools
import json
import math

from encoding import ATTRIBUTES, KINDS


class NoLockFile(Exception):
    """The graph can stand in no lock file; which rule it breaks is told."""


def subsets(items):
    return itertools.chain.from_iterable(itertools.combinations(items, count) for count in range(len(items) + 1))


def kept_node(record, by_hash):
    """The node of an installed package, with edges to its children to link or run; None where a child is not recorded, or two of one name."""
    edges, named = {}, {}
    for child in record["dependencies"]:
        kinds = [kind for kind in KINDS if kind in child["kinds"] and kind != "build"]
        if kinds:
            if child["hash"] not in by_hash or by_hash[child["hash"]]["name"] in edges:
                return None
            edges[by_hash[child["hash"]]["name"]] = kinds
            named.update({by_hash[child["hash"]]["name"]: sorted(child["virtuals"])} if "virtuals" in child else {})
    compiler = record["compiler"] and "%s@=%s" % (record["compiler"]["name"], record["compiler"]["version"])
    variants = {variant: sorted(values) for variant, values in record["variants"].items()}
    return {
        "origin": "installed " + record["hash"], "version": record["version"], "compiler": compiler, "os": record["os"],
        "target": record["target"], "prefix": record["external"], "variants": variants, "edges": edges, "named": named,
    }


class Graphs:
    """The graphs over a table, of which installed nodes are as recorded: with other attributes they would have another hash."""

    def __init__(self, encoding, records, kinds=tuple(subsets(KINDS))):
        self.encoding, self.kinds = encoding, kinds  # kinds: the sets of them that edges of other nodes are given
        self.by_hash = {record["hash"]: record for record in records}

    def nodes_of(self, name):
        """Each node that may have the name, without the edges of those that are not installed."""
        choices = self.encoding.choices[name]
        for origin, _ in choices["origin"]:
            if origin.startswith("installed "):
                node = kept_node(self.by_hash[origin.split(" ")[1]], self.by_hash)
                if node is not None:
                    yield node
                continue
            others = [[value for value, _ in choices[attribute]] for attribute in ATTRIBUTES[1:]]
            values = [[sorted(some) for some in subsets([value for value, _ in of])] for of in self.encoding.variants[name].values()]
            for attributes in itertools.product(*others):
                for variants in itertools.product(*values):
                    named = {variant: some for variant, some in zip(self.encoding.variants[name], variants) if some}
                    yield {"origin": origin, **dict(zip(ATTRIBUTES[1:], attributes)), "variants": named, "edges": None, "named": None}

    def children(self, name, names):
        return [child for parent, child in self.encoding.edges if parent == name and child in names]

    def choices(self, name, child):
        """The kinds and virtuals that an edge may have: none of both, or some kind and any virtuals that the table has for it."""
        virtuals = [virtual for virtual, _ in self.encoding.named.get((name, child), [])]
        return [(list(kinds), sorted(some)) for kinds in self.kinds for some in (subsets(virtuals) if kinds else [()])]

    def count(self, most):
        """How many graphs there are, or some number above `most`."""
        names = list(self.encoding.present)
        if len(names) > 12:
            return most + 1
        free, kept = {}, {}
        for name in names:
            free[name], kept[name] = 0, 0
            for node in self.nodes_of(name):
                if node["edges"] is None:
                    free[name] += 1
                else:
                    kept[name] += 1
                if free[name] > most:
                    return most + 1
        total = 0
        for some in subsets(names):
            product = 1
            for name in some:
                product *= free[name] * math.prod(len(self.choices(name, child)) for child in self.children(name, some)) + kept[name]
            for choices in self.encoding.providers.values():
                product *= 1 + sum(package in some for package, _ in choices)
            total += product
            if total > most:
                break
        return total

    def all(self):
        for some in subsets(list(self.encoding.present)):
            virtuals = list(self.encoding.providers)
            packages = [[None, *(package for package, _ in self.encoding.providers[virtual] if package in some)] for virtual in virtuals]
            for nodes in itertools.product(*(list(self.with_edges(name, some)) for name in some)):
                for chosen in itertools.product(*packages):
                    providers = {virtual: package for virtual, package in zip(virtuals, chosen) if package is not None}
                    yield {"nodes": dict(zip(some, nodes)), "providers": providers}

    def with_edges(self, name, names):
        children = self.children(name, names)
        choices = [self.choices(name, child) for child in children]
        for node in self.nodes_of(name):
            if node["edges"] is not None:
                if all(child in names for child in node["edges"]):
                    yield node
                continue
            for chosen in itertools.product(*choices):
                edges = {child: kinds for child, (kinds, _) in zip(children, chosen) if kinds}
                yield {**node, "edges": edges, "named": {child: some for child, (_, some) in zip(children, chosen) if some}}

    # ---- lock files

    def lock(self, graph, roots):
        """The lock file of a graph, for roots by name and text."""
        nodes, hashes = graph["nodes"], {}

        def made(name, above):
            if name in above:
                raise NoLockFile("Cycle")
            if name in hashes:
                return hashes[name]
            node = nodes[name]
            children = {child: made(child, (*above, name)) for child in node["edges"]}
            if node["origin"].startswith("installed "):
                record = self.by_hash.get(node["origin"].split(" ")[1])
                if record is None or kept_node(record, self.by_hash) != node:
                    raise NoLockFile("Kept")
                recorded = {self.by_hash[child["hash"]]["name"]: child["hash"] for child in record["dependencies"] if child["hash"] in self.by_hash}
                if any(recorded[child] != hash for child, hash in children.items()):
                    raise NoLockFile("Kept")
                hashes[name] = record["hash"]
                return hashes[name]
            hashes[name] = hash_of(self.record(node, name, children))
            return hashes[name]

        listed = []
        for name in sorted(nodes, key=str.encode):
            made(name, ())
        for name in sorted(nodes, key=str.encode):
            origin, _, entry = nodes[name]["origin"].partition(" ")
            record = self.by_hash[entry] if origin == "installed" else self.record(nodes[name], name, hashes)
            listed.append({**record, "origin": origin, "entry": int(entry) if origin == "external" else None, "hash": hashes[name]})
        if any(name not in hashes for name, _ in roots):
            raise NoLockFile("Root")
        asked = [{"hash": hashes[name], "spec": text} for name, text in roots]
        return compact({"nodes": listed, "providers": graph["providers"], "roots": asked, "version": 2}) + "\n"

    def record(self, node, name, hashes):
        compiler = None
        if node["compiler"] is not None:
            compiler = dict(zip(("name", "version"), node["compiler"].split("@=")))
        named = {child: {"virtuals": virtuals} for child, virtuals in node["named"].items()}
        dependencies = [{"hash": hashes[child], "kinds": kinds, **named.get(child, {})} for child, kinds in node["edges"].items()]
        return {
            "compiler": compiler, "dependencies": sorted(dependencies, key=lambda child: child["hash"]), "external": node["prefix"],
            "name": name, "os": node["os"], "target": node["target"], "variants": node["variants"], "version": node["version"],
        }


def compact(data):
    return json.dumps(data, separators=(",", ":"), sort_keys=True, ensure_ascii=False)


def hash_of(record):
    return base64.b32encode(hashlib.sha256(compact(record).encode()).digest()[:20]).decode().lower()
