"""What conditions, parts of specs and `provides` say at packages, as facts: the words of facts.py."""
from names import Names
from versions import contains, overlap


def quoted(text):
    return '"%s"' % text.replace("\\", "\\\\").replace('"', '\\"')


def compiler_term(compiler):
    return quoted("@".join(compiler))


class Conditions:
    """Facts in their order, and the numbers of conditions and parts."""

    def __init__(self, problem):
        self.problem, self.names = problem, Names(problem)
        self.lines = {}  # in their order, each once
        self.numbers = {}
        self.conditions, self.parts, self.ways = {}, {}, set()
        self.far, self.always = set(), set()  # conditions with `^`, and those of each node of their name
        self.virtuals = {}  # those that a recipe asks for or a record names, each with whether a condition with `^` asks for it
        for name in self.names.next:
            asked = [part.name for part, _, _ in self.directives(name, "depends")]
            named = [virtual for node in self.names.kept[name] for _, _, _, virtuals in node.children for virtual in virtuals]
            self.virtuals.update({virtual: False for virtual in [*asked, *named] if problem.is_virtual(virtual)})

    def directives(self, name, kind):
        """Those of a package that may be built."""
        return getattr(self.problem.recipes[name], kind) if self.names.is_buildable[name] else []

    # ---- words

    def fact(self, name, *words):
        self.lines["%s(%s)." % (name, ",".join(map(str, words))) if words else name + "."] = None

    def number(self, key):
        return self.numbers.setdefault(key, len(self.numbers))

    def tests(self, name, part, with_versions=True):
        """The tests of a node of the name that a part makes; None where no node passes them."""
        versions, values, compilers, systems, targets = self.names.attributes[name]
        found = set()

        def one_of(kind, key, all_of, passing, term):
            """A test for one of those that pass, where not all do."""
            if len(passing) < len(all_of):
                place = self.number((kind, key))
                found.add("%s(%d)" % (kind, place))
                for value in passing:
                    self.fact(kind + "_in", quoted(name), place, term(value))
            return bool(passing)

        if part.platform not in (None, self.problem.settings.platform):
            return None
        if with_versions and part.versions is not None:
            passing = [version for version in versions if contains(part.versions, version)]
            if not one_of("version", part.versions, versions, passing, quoted):
                return None
        for variant, asked in part.variants.items():
            for value in asked:
                if value not in values.get(variant, ()):
                    return None
                self.fact("asked_value", quoted(name), quoted(variant), quoted(value))
                found.add("value(%s,%s)" % (quoted(variant), quoted(value)))
        if part.compiler is not None:
            passing = [c for c in compilers if c and c[0] == part.compiler[0] and contains(part.compiler[1], c[1])]
            if not one_of("compiler", part.compiler, compilers, passing, compiler_term):
                return None
        if part.os is not None:
            if part.os not in systems:
                return None
            if len(systems) > 1:
                self.fact("asked_os", quoted(name), quoted(part.os))
                found.add("os(%s)" % quoted(part.os))
        if part.targets is not None:
            passing = [target for target in targets if any(self.is_target(item, target) for item in part.targets)]
            if not one_of("target", part.targets, targets, passing, quoted):
                return None
        return found

    def is_at_least(self, target, low):
        parents = self.problem.settings.targets.get(target, ())
        return target == low or any(self.is_at_least(parent, low) for parent in parents)

    def is_target(self, item, target):
        if ":" not in item:
            return item == target
        low, high = item.split(":")
        return (low == "" or self.is_at_least(target, low)) and (high == "" or self.is_at_least(high, target))

    def condition(self, name, specs):
        """The number of a condition at the name; None where it never holds there."""
        tests, below = set(), set()
        for spec in specs:
            found = self.tests(name, spec[0])
            if found is None or spec[0].name not in (None, name):
                return None
            tests |= found
            for part in spec[1:]:
                place = part.name and self.part(part)
                targets = place is not None and [m for m in self.targets(part.name) if m in self.names.reached(name)]
                if not targets:
                    return None
                below.add(place)
                for target in targets:
                    self.fact("wants", quoted(name), place, quoted(target))
                    self.ways.add((name, target))
        return self.numbered(name, tests, below)

    def numbered(self, name, tests, below=()):
        key = (name, frozenset(tests), frozenset(below))
        if key not in self.conditions:
            place = self.conditions[key] = len(self.conditions)
            self.fact("far" if below else "plain", place, quoted(name))
            for test in sorted(tests):
                self.fact("asks", place, test)
            for part in sorted(below):
                self.fact("asks_below", place, part)
            if below:
                self.far.add(place)
            elif not tests:
                self.always.add(place)
        return self.conditions[key]

    # ---- parts with a name

    def targets(self, name):
        return [target for target in self.names.asked(name) if target in self.names.next]

    def part(self, part):
        """The number of a part with a name; None where no node suits it."""
        rest = (part.platform, part.os, part.targets, frozenset(part.variants.items()), part.compiler)
        key = (part.name, part.versions, rest)
        if key not in self.parts:
            self.parts[key] = self.new_part(part, len(self.parts))
        return self.parts[key]

    def new_part(self, part, place):
        if not self.problem.is_virtual(part.name):
            tests = self.tests(part.name, part) if part.name in self.names.next else None
            if tests is None:
                return None
            self.fact("package_part", place, quoted(part.name), self.numbered(part.name, tests))
            return place
        if part.name not in self.virtuals:
            return None
        found = None
        for target in self.targets(part.name):
            tests, offer = self.tests(target, part, with_versions=False), self.offer(target, part.name, part.versions)
            if tests is not None and offer is not None:
                self.fact("virtual_part", place, quoted(part.name), offer)
                self.fact("rest", place, quoted(target), self.numbered(target, tests))
                found = place
        return found

    def offer(self, target, virtual, versions):
        """The number of a list of versions of the virtual, where the target may provide it for that list."""
        place, found = self.number(("offer", virtual, versions)), None
        for name, provided, when in self.problem.recipes[target].provides:
            if name == virtual and overlap(provided, versions):
                condition = self.condition(target, when)
                if condition is not None:
                    self.fact("offer", quoted(target), quoted(virtual), place, condition)
                    found = place
        return found
