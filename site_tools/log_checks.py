"""Checks of what makes, trims and checks logs, used by test.py, run by no one else: random problems, stored proofs and mistakes."""
import contextlib
import io
import itertools
import random
import shutil
import subprocess
import sys
import tempfile
from pathlib import Path
from typing import Callable, Iterator, Optional
from unittest import mock

from bridge import check_log, dimacs, drat_to_log, log_rules, model_to_lock, optimize, proof_logs, solvers, trim_log

TOP = Path(__file__).resolve().parent.parent
LOGS = TOP / "site_tools" / "tests" / "logs"
sys.path.insert(0, str(LOGS))

import dpll  # noqa: E402

DPLL = f"{sys.executable} {LOGS / 'dpll.py'} {{cnf}} {{proof}}"
Check = Iterator[tuple[str, str]]


def told(main: Callable[[list[str]], int], words: list[str]) -> str:
    """What a tool says on both streams, and its status where that is not 0."""
    out = io.StringIO()
    with contextlib.redirect_stdout(out), contextlib.redirect_stderr(out):
        try:
            status = main(words)
        except SystemExit as end:
            status = int(end.code or 0)
    return out.getvalue() + (f"status {status}\n" if status else "")


def wrong_log(problem: dimacs.Problem, values: Optional[list[bool]], text: str) -> Optional[str]:
    """Why a log is no certificate of these values of the bits, or no refutation where they are None."""
    try:
        found = log_rules.Rules(problem, text).check()
    except log_rules.Wrong as fault:
        return str(fault)
    wanted = ("u", []) if values is None else ("e", values)
    return None if (found.end, found.values) == wanted else f"it shows {found}"


def random_problem(chance: random.Random) -> dimacs.Problem:
    """Clauses and bits at random; some have no model, some bits are named twice."""
    variables = chance.randint(3, 8)
    literals = [sign * each for each in range(1, variables + 1) for sign in (1, -1)]
    size = chance.randint(variables, 5 * variables)
    clauses = [[chance.choice(literals) for _ in range(chance.randint(2, 4))] for _ in range(size)]
    clauses = [sorted(set(each), key=abs) for each in clauses if not any(-literal in each for literal in each)]
    bits = [chance.choice(literals) for _ in range(chance.randint(0, 6))]
    return dimacs.Problem(variables, clauses, (variables, len(clauses)), [("binary", 63, bits)])


def least(problem: dimacs.Problem) -> Optional[list[bool]]:
    """The least bits of all models, by trying each assignment."""
    found = []
    for values in itertools.product([False, True], repeat=problem.variables):
        model = [False, *values]
        if all(any(dimacs.is_true(model, literal) for literal in clause) for clause in problem.clauses):
            found.append([dimacs.is_true(model, bit) for bit in problem.bits()])
    return min(found, default=None)


def by_dpll(_: str, variables: int, clauses: list[list[int]]) -> solvers.Answer:
    """What tests/logs/dpll.py answers, without a process of its own."""
    shown, proof = dpll.texts(*dpll.answer(variables, clauses))
    return solvers.Answer(shown if " SAT" in shown else None, proof.encode())


def searched(problem: dimacs.Problem, solver: str) -> tuple[Optional[list[bool]], proof_logs.Log]:
    """The best bits and the log of `optimize`; the solver `""` is that of tests/logs within this process."""
    search = optimize.Search(problem, solver, solver)
    with mock.patch.object(solvers, "solve", solvers.solve if solver else by_dpll):
        model = search.best()
    return None if model is None else [dimacs.is_true(model, bit) for bit in problem.bits()], search.made.log


def lrat(log: proof_logs.Log) -> bytes:
    """A refutation as LRAT: the chains in reverse, each with a hint more that is not needed."""
    lines = []
    for line in log.lines:
        hints = [*line.chain[::-1], line.chain[0]]
        lines.append(" ".join(map(str, [line.id or 10**6, *line.literals, 0, *hints, 0])))
    return ("\n".join(lines) + "\n").encode()


def check_random() -> Check:
    """The optima of random problems are those of trying all assignments, and their logs are right, trimmed or not."""
    chance = random.Random(76)
    calls = [""] * 150 + [DPLL] * 2 + ["cadical"] * 6
    if not shutil.which("cadical"):
        print("passed over: random problems by cadical (it is not installed)")
        calls = calls[:-6]
    counts = {"certificates": 0, "refutations": 0, "learnt": 0}
    for number, solver in enumerate(calls):
        problem = random_problem(chance)
        values, made = searched(problem, solver)
        if values != least(problem):
            yield f"random problem {number}", f"{values} are not the least bits"
        counts["refutations" if values is None else "certificates"] += 1
        text = made.text().encode()
        kept = proof_logs.trimmed(text)
        again = kept if values is not None else drat_to_log.log_of(problem, lrat(made))
        for each in (text, kept.text, again.text):
            fault = wrong_log(problem, values, each.decode())
            counts["learnt"] += each.count(b"\nl ")
            if fault:
                yield f"random problem {number}", fault
        if proof_logs.trimmed(kept.text) != proof_logs.Kept(kept.text, kept.learnt, kept.learnt, kept.ids):
            yield f"random problem {number}", "its log without dead lines is not that of itself"
    if min(counts.values()) == 0:
        yield "random problems", f"show too little: {counts}"


def check_proofs() -> Check:
    """Stored refutations in each format become right logs; a stored model becomes its lock file; dead lines are left out."""
    rows = [
        ("random", "random.drat"), ("random", "random.text.drat"), ("four", "four.lrat"),
        ("refused", "refused.drat"), ("refused", "refused.text.drat"),
    ]
    with tempfile.TemporaryDirectory() as name:
        log, lock = Path(name) / "log", Path(name) / "lock"
        for cnf, proof in rows:
            said = told(drat_to_log.main, [str(LOGS / f"{cnf}.cnf"), str(LOGS / proof), str(log)])
            problem = dimacs.read(LOGS / f"{cnf}.cnf")
            fault = wrong_log(problem, None, log.read_text("ascii")) if log.exists() else said
            if fault or "status" in said:
                yield f"logs/{proof}", f"{fault} {said}"
            log.unlink(missing_ok=True)
        said = told(trim_log.main, [str(LOGS / "dead.log"), str(log)])
        if said != "1 of 3 learnt clauses stay\n" or log.read_text("ascii") != (LOGS / "dead.wanted").read_text("ascii"):
            yield "logs/dead.log", said
        said = told(model_to_lock.main, [str(LOGS / "mpi.cnf"), str(LOGS / "mpi.model"), str(lock)])
        if not lock.exists() or lock.read_bytes() != (TOP / "examples" / "mpi" / "hdf5.lock").read_bytes():
            yield "logs/mpi.model", f"is not read as examples/mpi/hdf5.lock: {said}"


def check_mistakes() -> Check:
    """Each wrong file of logs/mistakes.rows is told by what is wrong, and nothing is written."""
    mains = {"check_log": check_log, "drat_to_log": drat_to_log, "trim_log": trim_log, "model_to_lock": model_to_lock, "optimize": optimize}
    for row in (LOGS / "mistakes.rows").read_text("ascii").splitlines():
        if not row or row.startswith("#"):
            continue
        words, text, wanted = row.split(" | ")
        with tempfile.TemporaryDirectory() as name:
            room = Path(name)
            (room / "file").write_text(text.replace("\\n", "\n").replace("\\0", "\0"), "ascii")
            tool, *rest = words.replace("@/", f"{LOGS}/").replace("FILE", str(room / "file")).replace("OUT", str(room / "out")).split(",")
            said = told(mains[tool].main, rest)
            if wanted not in said or "status" not in said or (room / "out").exists():
                yield f"logs/mistakes.rows `{words}`", f"wanted {wanted!r}, got {said!r}"


def check_read() -> Check:
    """What check_log says of the logs of logs/read.rows."""
    for row in (LOGS / "read.rows").read_text("ascii").splitlines():
        if row.startswith("#"):
            continue
        clauses, text, wanted = row.split(" | ")
        name, _, solver = clauses.partition(" ")
        with tempfile.TemporaryDirectory() as room:
            log = Path(room) / "log"
            log.write_text(text.replace("\\n", "\n"), "ascii")
            said = told(check_log.main, [str(LOGS / name), str(log), *(["--solver", DPLL] if solver else [])])
        is_right = "line " not in wanted and "no graph has" not in wanted
        if wanted not in said or ("status" in said) == is_right:
            yield f"logs/read.rows `{text}`", f"wanted {wanted!r}, got {said!r}"


def check_logs() -> Check:
    """All checks that need no program."""
    for check in (check_random, check_proofs, check_mistakes, check_read):
        yield from check()


def check_accepted() -> Check:
    """What was made outside is accepted by the released program: the lock file and certificate of a graph, and a refutation."""
    rows = [("hdf5@1.14: +mpi", "check", 0), ("hdf5@1.14: ~mpi ^mpich", "refute", 1)]
    if not shutil.which("cadical"):
        print("passed over: certificates by cadical (it is not installed)")
        return
    for spec, command, status in rows:
        with tempfile.TemporaryDirectory() as room:
            problem = ["examples/mpi", "examples/mpi/settings.json", "-"]
            encoder = [str(TOP / "release" / "encode_dimacs-x86_64-linux"), *problem, spec]
            with open(f"{room}/cnf", "wb") as file:
                subprocess.run(encoder, cwd=TOP, stdout=file, check=False)
            said = told(optimize.main, [f"{room}/cnf", f"{room}/log", f"{room}/lock"])
            words = [*problem, *([f"{room}/lock"] if status == 0 else []), f"{room}/log", spec]
            program = [str(TOP / "release" / "spack_concretize-x86_64-linux"), command, *words]
            done = subprocess.run(program, cwd=TOP, capture_output=True, text=True, check=False)
            if done.stdout != "accepted\n" or done.returncode != 0:
                yield f"optimize `{spec}`", f"{said}{done.stdout}{done.stderr}"
