"""The cases of tests/locks: a spack.lock each, the words of import_lock, what it says and the lock file that it writes.

Those named `site_..` are what Spack would write for the graph of examples/site/hdf5.lock, which has to come of them.
"""
import tempfile
from pathlib import Path
from typing import Callable, Iterator

from bridge import spack_lock

TOP = Path(__file__).resolve().parent.parent


def outcomes(folder: Path, run: Callable[..., str]) -> Iterator[tuple[str, str, Path]]:
    """What comes of each case: a name, a text, and the file that it has to be."""
    for case in sorted(folder.iterdir()):
        with tempfile.TemporaryDirectory() as room:
            out = Path(room) / "lock"
            words = (case / "words").read_text("utf-8").replace("@", str(case)).split()
            words = [str(TOP / word) if word.startswith("examples/") else word for word in words]
            report = run(spack_lock.main, case / "spack.lock", out, *words).replace(f"{case}/", "")
            yield f"locks/{case.name}", report, case / "wanted.txt"
            if out.exists():
                is_site = case.name.startswith("site_")
                wanted = TOP / "examples" / "site" / "hdf5.lock" if is_site else case / "wanted.lock"
                yield f"locks/{case.name} lock", out.read_text("utf-8"), wanted
