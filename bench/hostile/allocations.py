"""Refused memory: one allocation of a run is refused, by a library that is preloaded (refused.c)."""
import os
import random
import shutil
import subprocess
import sys
import tempfile

from problem import OLD, Count, Problem, read, run, write

HERE = os.path.dirname(os.path.abspath(__file__))
NO_MEMORY = 9
DATABASE = '{"records":[],"version":1}\n'


def library(folder):
    """The library, built where there is a compiler of C."""
    path = os.path.join(folder, "refused.so")
    compiler = shutil.which("cc") or shutil.which("clang")
    if compiler is None:
        raise SystemExit("bench/hostile.sh: cc is missing")
    subprocess.run([compiler, "-O1", "-shared", "-fPIC", "-o", path, os.path.join(HERE, "refused.c")], check=True)
    return path


def commands(problem):
    """Each command with its words: `concretize` has left LOCK and CERT at `lock` and `cert`, a refutation at `log`, and `each` its files in `roots`."""
    program, files, root = problem.program, problem.input, problem.root
    no_graph = "hdf5@1.14: ~mpi ^mpich"
    return {
        "concretize": problem.words,
        "concretize, no graph": [program, "concretize", *files, "out/l", "out/c", no_graph],
        "concretize, a database": [program, "concretize", *files[:2], "d", "out/l", "out/c", root],
        "judge": [program, "judge", *files, "lock", root],
        "check": [program, "check", *files, "lock", "cert", root],
        "refute": [program, "refute", *files, "log", no_graph],
        "fresh": [program, "fresh", *files, "lock", root],
        "explain": [program, "explain", *files, root],
        "explain, no graph": [program, "explain", *files, no_graph],
        "find": [program, "find", *files[:2], "d", "zlib"],
        "plan": [program, "plan", *files, "lock", root],
        "reasons, no graph": [program, "reasons", *files, no_graph],
        "each": [program, "each", *files, "out", root, "zlib"],
        "each, no graph": [program, "each", *files, "out", "zlib", no_graph],
        "check_each": [program, "check_each", *files, "roots", root, "zlib"],
        "trial": [program, "trial", "20", "1"],
        "a bad spec": [program, "explain", *files, "hdf5 ++mpi"],
    }


def places(drawn, count, most):
    """The numbers of the allocations to refuse: all, or the first, the last and some drawn ones."""
    if not most or count <= most:
        return range(1, count + 1)
    third = most // 3
    ends = {*range(1, third + 1), *range(count - third + 1, count + 1)}
    return sorted(ends | set(drawn.sample(range(third + 1, count - third + 1), third)))


def held_by(problem):
    """The files that a run may put, and LOCK and CERT as they were, by their names."""
    folder = os.path.join(problem.folder, "out")
    return {name: read(os.path.join(folder, name)) for name in sorted(os.listdir(folder))}


def fault_of(problem, done, right, files):
    """What is wrong with a run of which an allocation was refused, or None; `files` are those that it leaves without that."""
    if done.fault():
        return done.fault()
    if done.status != NO_MEMORY and (done.status, done.out, done.said) != (right.status, right.out, right.said):
        return "another answer: status %d" % done.status
    held = held_by(problem)
    if set(held) - set(files):
        return "a file stays beside"
    if {"l", "c"} - set(held) or any(held[name] not in (OLD, files[name]) for name in held):
        return "lost"
    if done.status != NO_MEMORY and held != files:
        return "the right answer, and not all files are there"
    return None


def allocations(program, options):
    count, drawn = Count("an allocation refused"), random.Random("%s allocations" % options.seed)
    with tempfile.TemporaryDirectory() as folder:
        problem, preloaded = Problem(program, folder), library(folder)
        for path, content in (("lock", problem.new["l"]), ("cert", problem.new["c"]), ("d", DATABASE)):
            write(os.path.join(folder, path), content)
        rows = commands(problem)
        run([*rows["concretize, no graph"][:6], "log", *rows["concretize, no graph"][7:]], folder)
        os.mkdir(os.path.join(folder, "roots"))
        run([*rows["each"][:5], "roots", *rows["each"][6:]], folder)
        for name, words in rows.items():
            problem.reset()
            right = run(["env", "LD_PRELOAD=" + preloaded, "REFUSED=0", "COUNTED=counted", *words], folder)
            files = held_by(problem)
            whole = int.from_bytes(read(os.path.join(folder, "counted")), sys.byteorder)
            for number in places(drawn, whole, options.allocations):
                problem.reset()
                done = run(["env", "LD_PRELOAD=" + preloaded, "REFUSED=%d" % number, *words], folder)
                count.saw("no memory" if done.status == NO_MEMORY else "as without")
                count.add(fault_of(problem, done, right, files), "%s, allocation %d of %d" % (name, number, whole))
    return count
