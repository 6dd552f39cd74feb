"""What is shown of lock files in the tests: the words of lock_view, export_spec and farm_view, by the file that has to come of them."""
from pathlib import Path
from typing import Callable

TOP = Path(__file__).resolve().parent.parent
SITE = TOP / "examples" / "site"


def views(tests: Path, lock_view: Callable[..., int], export_spec: Callable[..., int], farm_view: Callable[..., int]) -> dict[str, tuple]:
    """Each view's name, and its words."""
    mpi, site = TOP / "examples" / "mpi", SITE / "hdf5.lock"
    broken = tests / "views" / "changed.lock"
    mpi_costs = (lock_view, mpi / "hdf5.lock", "--vector", tests / "views" / "mpi.out")
    site_costs = (lock_view, site, "--vector", tests / "answers" / "site_hdf5.wanted")
    found: dict[str, tuple] = {
        "mpi_dot.txt": (lock_view, mpi / "hdf5.lock", "--format", "dot"),
        "mpi_costs.txt": (lock_view, mpi / "hdf5.lock", "--vector", tests / "views" / "mpi.out"),
        "mpi_reasons.txt": (*mpi_costs, "--settings", mpi / "settings.json"),
        "site_costs.txt": (*site_costs, "--settings", SITE / "settings.json"),
        "mpi_all.txt": (*mpi_costs, "--all"),
        "mpi_diff.txt": (lock_view, mpi / "hdf5.lock", "--diff", mpi / "broken.lock"),
        "site_diff.txt": (lock_view, mpi / "hdf5.lock", "--diff", site),
        "changed.txt": (lock_view, broken),
        "older_tree.txt": (lock_view, tests / "views" / "older.lock"),
        "older_diff.txt": (lock_view, tests / "views" / "older.lock", "--diff", mpi / "hdf5.lock"),
        "older_named.txt": (lock_view, tests / "views" / "older_named.lock"),
        "site_pinned.txt": (export_spec, site, "--hashes", SITE / "hashes.tsv"),
        "mpi_environment.txt": (export_spec, mpi / "hdf5.lock", "--environment"),
        "farm_best.txt": (farm_view, tests / "farms" / "best"),
        "farm.txt": (farm_view, tests / "farms" / "every_status"),
        "farm_unsaid.txt": (farm_view, tests / "farms" / "every_status", "--said", "/dev/null"),
        "no_farm.txt": (farm_view, tests / "views"),
    }
    found.update({f"site_{each}.txt": (lock_view, site, "--format", each) for each in ("tree", "table", "json")})
    return found
