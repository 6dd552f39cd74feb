"""Checks of examples/farm with a program: used by test.py, run by no one else.

Each way to spread a farm's roots has to put the same files as one run of `each` for each group: GNU parallel where it is installed, xargs,
the tasks of a Slurm array one by one, and the jobs of the CI's matrix, each in a folder of its own, with its artifacts carried by hand.
"""
import os
import re
import shutil
import subprocess
import tempfile
from pathlib import Path
from typing import Iterator

TOP = Path(__file__).resolve().parent.parent
FARM = TOP / "examples" / "farm"
INPUT = [f"examples/site{name}" for name in ("", "/settings.json", "/database.json")]
NEEDED = ("bash", "sed", "xargs", "dirname", "mkdir", "rm", "mv", "printf", "env")
Check = Iterator[tuple[str, str]]


def run(words: list[str], program: str, folder: Path = TOP, **more: str) -> "subprocess.CompletedProcess[str]":
    """Runs a script of the farm."""
    env = {**os.environ, "CONCRETIZE": program, **more}
    return subprocess.run(words, cwd=folder, env=env, capture_output=True, text=True, check=False)


def split(room: Path) -> list[str]:
    """Cuts the roots into groups of four, and gives their names."""
    room.mkdir(parents=True)
    subprocess.run(["split", "-d", "-a", "4", "-l", "4", "--additional-suffix=.roots", str(FARM / "roots"), f"{room}/"], check=True)
    return sorted(path.stem for path in room.glob("*.roots"))


def files_of(room: Path) -> dict[str, bytes]:
    """The files of all groups."""
    return {str(path.relative_to(room)): path.read_bytes() for path in sorted(room.glob("*/*"))}


def by_parallel(room: Path, program: str) -> str:
    """GNU parallel, where it is installed."""
    return run([str(FARM / "with_parallel"), "2", str(room), *INPUT], program).stderr


def by_xargs(room: Path, program: str) -> str:
    """The same script where there is no parallel."""
    tools = room.parent / "tools"
    tools.mkdir()
    for name in NEEDED:
        (tools / name).symlink_to(shutil.which(name) or "/none")
    return run([str(FARM / "with_parallel"), "2", str(room), *INPUT], program, PATH=str(tools)).stderr


def by_tasks(room: Path, program: str) -> str:
    """The tasks of a Slurm array, as its machines would call them."""
    said = ""
    for number in range(len(list(room.glob("*.roots")))):
        words = ["bash", str(FARM / "farm.sbatch"), str(room), *INPUT]
        said += run(words, program, Path("/"), SLURM_ARRAY_TASK_ID=str(number), SLURM_SUBMIT_DIR=str(TOP)).stderr
    return said


def steps() -> dict[str, str]:
    """What each job of the CI runs."""
    text = (FARM / "farm.yml").read_text("utf-8")
    jobs = re.split(r"^  (\w+):\n    (?:needs|runs-on)", text, flags=re.M)[1:]
    blocks = {name: re.search(r"run: \|\n((?: {10}.*\n)+)", body) for name, body in zip(jobs[::2], jobs[1::2])}
    return {name: re.sub(r"^ {10}", "", found[1], flags=re.M) for name, found in blocks.items() if found}


def by_matrix(room: Path, program: str) -> str:
    """The jobs of the CI, each in a checkout of its own; what one hands to the next is copied."""
    job, said, told = steps(), "", room.parent / "told"
    checkouts = {name: room.parent / f"job_{name}" for name in ("split", "check", *(path.stem for path in room.glob("*.roots")))}
    for checkout in checkouts.values():
        checkout.mkdir()
        (checkout / "examples").symlink_to(TOP / "examples")
    more = {"INPUT": " ".join(INPUT), "GITHUB_OUTPUT": str(told)}
    said += run(["bash", "-e", "-c", job["split"]], program, checkouts["split"], **more).stderr
    groups = re.findall(r'"(\w+)"', told.read_text("utf-8").removeprefix("groups="))
    for group in groups:
        text = job["solve"].replace("${{ matrix.group }}", group)
        said += run(["bash", "-e", "-c", text], program, checkouts[group], **more).stderr
        shutil.copytree(checkouts[group] / "farm" / group, checkouts["check"] / "came" / f"farm-{group}")
        shutil.copytree(checkouts[group] / "farm" / group, room / group)
    done = run(["bash", "-e", "-c", job["check"]], program, checkouts["check"], **more)
    return said + done.stdout + done.stderr + ("" if done.returncode == 0 else f"status {done.returncode}\n")


def check_ways(program: str, room: Path) -> Check:
    """Each way puts what one run for each group puts."""
    groups = split(room / "alone" / "farm")
    for group in groups:
        run([str(FARM / "solve_group"), str(room / "alone" / "farm"), group, *INPUT], program)
    wanted = files_of(room / "alone" / "farm")
    if sum(name.endswith(".lock") for name in wanted) != len((FARM / "roots").read_text("utf-8").splitlines()):
        yield "farm", f"has not a lock file for each root: {sorted(wanted)}"
    ways = {"xargs": by_xargs, "tasks": by_tasks, "matrix": by_matrix, **({"parallel": by_parallel} if shutil.which("parallel") else {})}
    for name, way in ways.items():
        farm = room / name / "farm"
        split(farm)
        said = way(farm, program)
        if said or files_of(farm) != wanted:
            yield f"farm by {name}", f"differs in {sorted(set(files_of(farm).items()) ^ set(wanted.items()))[:3]}, and says {said!r}"


def check_checks(program: str, farm: Path) -> Check:
    """`check_group` accepts what came back whole, tells a root without a graph, and refuses a damaged file."""
    def outcome() -> tuple[int, str]:
        """What it says of the first group."""
        done = run([str(FARM / "check_group"), str(farm), "0000", *INPUT], program)
        return done.returncode, done.stdout + done.stderr

    farm.mkdir()
    (farm / "0000.roots").write_text("libevent\nzlib@9\ncmake\n", "utf-8")
    run([str(FARM / "solve_group"), str(farm), "0000", *INPUT], program)
    unmet = "0000 1 zlib@9: no graph is valid\n"
    if outcome() != (1, unmet):
        yield "check_group", f"of a root without a graph says {outcome()}"
    cert = farm / "0000" / "2.cert"
    cert.write_bytes(b"".join(cert.read_bytes().splitlines(keepends=True)[:-1]))
    if outcome()[0] != 8 or "0000 2 cmake: refused: certificate line " not in outcome()[1]:
        yield "check_group", f"of a cut certificate says {outcome()}"
    (farm / "0000.roots").write_text("libevent\n", "utf-8")
    if outcome() != (0, ""):
        yield "check_group", f"of the best graph says {outcome()}"


def check_farm(program: str) -> Check:
    """All checks of this file."""
    with tempfile.TemporaryDirectory() as name:
        yield from check_ways(program, Path(name))
        yield from check_checks(program, Path(name) / "checks")
