"""The names that nodes of a problem's graphs may have, and what a node of each name may be."""
from collections import defaultdict


class Problem:
    def __init__(self, recipes, settings, database, roots):
        self.recipes, self.settings, self.database, self.roots = recipes, settings, database, roots
        self.records = {record.hash: record for record in database}
        self.providers = defaultdict(list)  # of each virtual, the packages whose recipes provide it
        for name, recipe in recipes.items():
            for virtual in sorted({row[0] for row in recipe.provides}):
                self.providers[virtual].append(name)

    def is_virtual(self, name):
        return name in self.providers


class Kept:
    """A node that is not built: a completed external, or an installed one."""

    def __init__(self, term, version, variants, compiler, os, target):
        self.term, self.version, self.variants = term, version, variants
        self.compiler, self.os, self.target = compiler, os, target
        self.children = []  # (name, its term, kinds, virtuals)


class Names:
    """The names, and for each: whether it may be built, its kept nodes, and the values of its attributes."""

    def __init__(self, problem):
        self.problem = problem
        self.records_of = defaultdict(list)
        for place, record in enumerate(problem.database):
            self.records_of[record.name].append((place, record))
        self.places = {record.hash: place for place, record in enumerate(problem.database)}
        self.next = {}
        self.close()
        self.kept = {name: self.externals(name) + self.installed(name) for name in self.next}
        self.is_buildable = {name: name in problem.recipes and problem.settings.is_buildable(name) for name in self.next}
        self.attributes = {name: self.possible(name) for name in self.next}
        self.below = {}

    def is_known(self, name):
        return name in self.problem.recipes or name in self.records_of or bool(self.problem.settings.externals(name))

    def children(self, name):
        """The names that one brings with it, which need not be known."""
        recipe = self.problem.recipes.get(name)
        for part, _, _ in recipe.depends if recipe else ():
            yield from self.asked(part.name)
        for _, record in self.records_of.get(name, ()):
            for child, _, _ in record.children:
                yield self.problem.records[child].name

    def asked(self, name):
        return self.problem.providers[name] if self.problem.is_virtual(name) else [name]

    def close(self):
        waiting = [spec[0].name for spec in self.problem.roots]
        while waiting:
            name = waiting.pop()
            if name not in self.next and self.is_known(name):
                self.next[name] = list(dict.fromkeys(self.children(name)))
                waiting += self.next[name]
        self.next = {name: [child for child in self.next[name] if child in self.next] for name in sorted(self.next)}

    def externals(self, name):
        settings, kept = self.problem.settings, []
        recipe = self.problem.recipes.get(name)
        for place, entry in enumerate(settings.externals(name)):
            # of a variant that is not written, the default of its last definition
            variants = {row[0]: row[3] for row in recipe.variants} if recipe else {}
            variants.update(entry.variants)
            system, target = entry.os or settings.os[0], entry.target or next(iter(settings.targets))
            kept.append(Kept("external(%d)" % place, entry.version, variants, entry.compiler, system, target))
        return kept

    def installed(self, name):
        kept = []
        for place, record in self.records_of.get(name, ()):
            node = Kept("installed(%d)" % place, record.version, record.variants, record.compiler, record.os, record.target)
            node.children = [
                (self.problem.records[child].name, "installed(%d)" % self.places[child], kinds, virtuals)
                for child, kinds, virtuals in record.children
            ]
            kept.append(node)
        return kept

    def possible(self, name):
        """What a node of the name may have: its versions, the values of each variant, compilers (None among them), systems, targets."""
        settings, kept = self.problem.settings, self.kept[name]
        versions, compilers = [node.version for node in kept], [node.compiler for node in kept]
        systems, targets = [node.os for node in kept], [node.target for node in kept]
        values = defaultdict(set)
        for node in kept:
            for variant, those in node.variants.items():
                values[variant] |= those
        if self.is_buildable[name]:
            recipe = self.problem.recipes[name]
            versions += [row[0] for row in recipe.versions]
            compilers += [row[0] for row in settings.compilers]
            systems += settings.os
            targets += settings.targets
            for variant, _, allowed, _, _ in recipe.variants:
                values[variant] |= allowed
        distinct = [list(dict.fromkeys(those)) for those in (versions, compilers, systems, targets)]
        return distinct[0], values, distinct[1], distinct[2], distinct[3]

    def reached(self, name):
        """The names to which a path may lead."""
        if name not in self.below:
            found, waiting = set(), list(self.next[name])
            while waiting:
                child = waiting.pop()
                if child not in found:
                    found.add(child)
                    waiting += self.next[child]
            self.below[name] = found
        return self.below[name]
