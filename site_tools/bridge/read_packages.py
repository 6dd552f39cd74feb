"""Each package of a repository, read on all processors: its recipe, or why none can be written.

Says nothing of packages together: that is `import_repo`'s part.
"""
import gc
import json
import multiprocessing
import os
from typing import Any, Iterator, Optional

from . import own_name, packed, signs
from .known_calls import TooMuch
from .literals import STEPS
from .recipe_files import Repository, class_name
from .recipe_functions import Broken, Continued, Returned
from .recipe_writer import governed, settled
from .rows import Cannot, Recipe

FEW = 200  # packages for which no other processes are started
PIECE = 50
Found = str  # the other packages that it is made of, and behind a tab its recipe, packed, or the reason that there is none, as JSON


def read_package(repository: Repository, name: str) -> Recipe:
    """The recipe of a package; `Cannot` where none can be written."""
    path = repository.folders[name]
    if not signs.is_name(name):
        raise Cannot("a package's name beyond the profile", name)
    STEPS.begin()
    module = repository.module(path)
    wanted = class_name(name)
    if wanted not in module.classes:
        raise Cannot("a file without the package's class", f"`class {wanted}`")
    found = repository.class_rows(module, wanted)
    recipe = Recipe(name, repository.shown(path), wanted, [], list(found.left_out), found.bases)
    recipe.rows = settled(own_name.settle(recipe, governed(found.rows), repository.packages))
    recipe.lost_variants |= found.lost_variants
    recipe.lost_variants -= {row.choice.name for row in recipe.rows if row.choice}
    return recipe


def read_text(repository: Repository, name: str) -> Found:
    """What a package gives, as text."""
    found = json.dumps(read_one(repository, name), separators=(",", ":"))
    return " ".join(repository.others()) + "\t" + found


def value_of(found: Found) -> list[Any]:
    """What such a text says: a packed recipe, or the two texts of a reason."""
    return json.loads(found.partition("\t")[2])


def read_one(repository: Repository, name: str) -> list[Any]:
    """What a package gives: its recipe, packed, or the two texts of the reason that there is none."""
    repository.begin(name)
    try:
        recipe = read_package(repository, name)
        return packed.packed(recipe)
    except (RecursionError, MemoryError) as fault:
        kind = "a file that is too deep" if isinstance(fault, RecursionError) else "a file that is more than the memory holds"
        return [kind, name]
    except (Broken, Continued, Returned):
        return ["a statement that Python would refuse", "`break`, `continue` or `return` outside"]
    except (Cannot, TooMuch) as fault:
        return [fault.kind, fault.detail]
    except OSError as fault:
        return ["a file that cannot be read", str(fault.strerror)]
    finally:
        repository.end()


def processes(jobs: Optional[int], count: int) -> int:
    """How many processes work on so many packages."""
    if count < FEW or "fork" not in multiprocessing.get_all_start_methods():
        return 1
    return jobs or (len(os.sched_getaffinity(0)) if hasattr(os, "sched_getaffinity") else os.cpu_count() or 1)


WORKER: list[Repository] = []


def read_piece(names: list[str]) -> list[tuple[str, Found]]:
    """The packages of one piece, in a process of its own."""
    return [(name, read_text(WORKER[0], name)) for name in names]


def read_all(repository: Repository, names: list[str], jobs: Optional[int]) -> Iterator[tuple[str, Found]]:
    """All these packages, in any order."""
    count = processes(jobs, len(names))
    if count < 2:
        yield from ((name, read_text(repository, name)) for name in names)
        return
    WORKER[:] = [repository]
    gc.freeze()
    pieces = [names[place : place + PIECE] for place in range(0, len(names), PIECE)]
    with multiprocessing.get_context("fork").Pool(count) as pool:
        for found in pool.imap_unordered(read_piece, pieces):
            yield from found
