#!/usr/bin/env python3
"""Makes a repository in the shape of Spack's, with settings and a database.

    bench/site/generate.py FOLDER [--recipes N] [--records N] [--seed S]

FOLDER gets `packages`, `settings.json`, `database.json` and `site.json`, which says what it was made of and which roots to ask for: of
the same numbers the same bytes. Where FOLDER has such a repository already it is kept as it is.
"""
import argparse
import json
import os
import random
import shutil

import shape
from draws import APPLICATION
from packages import Repository
from records import compact, database
from recipes import write

VERSION = 1  # raised where the same seed gives another repository


def roots(repository, seed):
    """Twenty roots: named ones, then applications, every second of them in Python."""
    drawn = random.Random("roots %s" % seed)
    both = [[name for name in repository.layers[APPLICATION] if name.startswith("py-") == is_python] for is_python in (False, True)]
    return shape.ROOTS + [name for pair in zip(*(drawn.sample(those, 5) for those in both)) for name in pair]


def make(folder, recipes, records, seed):
    """What the folder holds, after it was made or found to be there."""
    path = os.path.join(folder, "site.json")
    wanted = {"version": VERSION, "recipes": recipes, "records": records, "seed": seed}
    if os.path.exists(path):
        with open(path) as file:
            found = json.load(file)
        if wanted == {key: found[key] for key in wanted}:
            return found
        raise SystemExit("%s holds another repository; remove it or name another folder" % folder)
    shutil.rmtree(os.path.join(folder, "packages"), ignore_errors=True)
    repository = Repository(recipes, seed)
    size = write(folder, repository, seed)
    installed = database(repository, records, seed)
    with open(os.path.join(folder, "database.json"), "w") as file:
        file.write(compact(installed))
    packages = repository.packages.values()
    count = len(packages)
    told = "%d recipes, %d bytes, %d records; by recipe %.1f versions, %.1f variants, %.1f dependencies, %.1f of them conditional" % (
        count, size, len(installed["records"]), sum(len(it.versions) for it in packages) / count,
        sum(len(it.variants) for it in packages) / count, sum(len(it.depends) for it in packages) / count,
        sum(bool(row[2]) for it in packages for row in it.depends) / count)
    made = wanted | {"told": told, "roots": roots(repository, seed)}
    with open(path, "w") as file:
        json.dump(made, file, indent=1)
    return made


def main():
    parser = argparse.ArgumentParser(description=__doc__.split("\n")[0])
    parser.add_argument("folder")
    parser.add_argument("--recipes", type=int, default=8000)
    parser.add_argument("--records", type=int, default=3000)
    parser.add_argument("--seed", type=int, default=1)
    options = parser.parse_args()
    made = make(options.folder, options.recipes, options.records, options.seed)
    print(made["told"])
    print("roots:", *made["roots"])


if __name__ == "__main__":
    main()
