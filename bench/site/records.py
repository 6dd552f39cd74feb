"""A database of a made repository: packages that earlier runs installed, in four generations.

The first generation is as the planted graph has it, the others have older versions, another compiler or another target. So some of
a new graph can be reused, and some of what is there only looks like it.
"""
import base64
import hashlib
import json
import random

import shape
from draws import version_text

# Of each generation: how many versions behind the planted one, the version of gcc, the target.
GENERATIONS = [(0, "13.2.0", "zen3"), (1, "13.2.0", "zen3"), (0, "11.4.0", "zen3"), (3, "11.4.0", "x86_64_v3")]
LINK, RUN = ["build", "link"], ["build", "run"]


def compact(data):
    return json.dumps(data, separators=(",", ":"), sort_keys=True)


def children(repository, package):
    """The packages that the planted graph links it to, or that it runs with: as what, and what they provide to it."""
    found = {}
    for name, _, _, kinds, holds in package.depends:
        if holds and kinds != '"build"':
            name = name.split("@")[0]
            child = shape.VIRTUALS[name][0][0] if name in shape.VIRTUALS else name
            before, virtuals = found.get(child, ((), ()))
            own = {name} if name in shape.VIRTUALS else set()
            found[child] = sorted({*before, *(RUN if "run" in kinds else LINK)}), sorted({*virtuals, *own})
    return found


def below(repository, name):
    """The package and all below it, children before parents."""
    found, waiting = {}, [(name, False)]
    while waiting:
        name, is_done = waiting.pop()
        if is_done:
            found[name] = None
        elif name not in found:
            waiting.append((name, True))
            waiting += [(child, False) for child in children(repository, repository.packages[name]) if child not in found]
    return list(found)


def record(repository, name, generation, hashes):
    package = repository.packages[name]
    behind, compiler, target = GENERATIONS[generation]
    version = package.versions[min(len(package.versions) - 1, package.chosen + behind)]
    edges = {hashes[child]: each for child, each in children(repository, package).items()}
    made = {
        "name": name,
        "version": version_text(version),
        "variants": {variant: [it.chosen] for variant, it in sorted(package.variants.items())},
        "compiler": {"name": "gcc", "version": compiler},
        "os": "rocky9",
        "target": target,
        "external": None,
        "dependencies": [{"hash": child, "kinds": kinds} | ({"virtuals": virtuals} if virtuals else {}) for child, (kinds, virtuals) in sorted(edges.items())],
    }
    digest = hashlib.sha256(compact(made).encode()).digest()[:20]
    return made | {"hash": base64.b32encode(digest).decode().lower()}


def database(repository, count, seed):
    """As many records, each with all that it is linked to or runs with."""
    drawn, made = random.Random("records %s" % seed), {}
    asked = list(shape.ROOTS)
    others = sorted(set(repository.packages) - set(asked))
    for root in asked + drawn.sample(others, len(others)):
        wanted = below(repository, root)
        for generation in range(len(GENERATIONS)):
            missing = [name for name in wanted if (name, generation) not in made]
            if len(made) + len(missing) > count:
                continue
            for name in missing:
                hashes = {child: made[child, generation]["hash"] for child in children(repository, repository.packages[name])}
                made[name, generation] = record(repository, name, generation, hashes)
        if len(made) >= count:
            break
    unique = {it["hash"]: it for it in made.values()}  # where no older version is there, two generations are one
    return {"records": list(unique.values()), "version": 2}
