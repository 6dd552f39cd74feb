#!/usr/bin/env python3
"""Times beside minisat: times.py PROGRAM KIND COUNT SEED SIZE..: processor seconds, and learnt clauses beside minisat's
conflicts, on the same sets; times.py PROGRAM dimacs FILE..: on the clauses of these files, as `encode_dimacs` prints them.
The row of each set has the ratio of the times, and the last line their median and the greatest. Where `perf` is there, also the share of propagation, of the analysis of false clauses and of the
rest: samples, by the functions of the program."""
import os, re, resource, shutil, subprocess, sys, tempfile


def spent():
    """Processor seconds of the programs that ended."""
    return resource.getrusage(resource.RUSAGE_CHILDREN).ru_utime


def share(program, rows):
    """The shares of samples by what they were taken in."""
    if not shutil.which("perf"):
        return ""
    with tempfile.TemporaryDirectory() as out:
        record = ["perf", "record", "-q", "-F", "997", "-o", f"{out}/data", program]
        if subprocess.run(record, input=rows, stdout=subprocess.DEVNULL, stderr=subprocess.DEVNULL, text=True).returncode:
            return ""
        report = ["perf", "report", "-i", f"{out}/data", "--stdio", "--no-children", "-F", "overhead,symbol"]
        lines = subprocess.run(report, capture_output=True, text=True).stdout.split("\n")
    found = {}
    for line in lines:
        m = re.match(r"\s*([\d.]+)%\s+\[.\]\s+(.*)", line)
        if m:
            part = next((p for p, names in PARTS if any(n in m[2] for n in names)), "the rest")
            found[part] = found.get(part, 0) + float(m[1])
    return "; " + ", ".join(f"{p} {n:.0f}%" for p, n in sorted(found.items(), key=lambda f: -f[1]))


PARTS = [
    ("propagation", ("Watch::propagate", "clause_watch::queue", "clause_watch::status")),
    ("analysis", ("Search::learn", "clause_solver::analysis", "clause_solver::seen")),
    ("choice", ("clause_solver::choice", "clause_solver::variable_heap")),
]


def rows_of(words):
    """The sets: a name and rows for each."""
    here = os.path.dirname(os.path.abspath(__file__))
    if words[0] == "dimacs":
        for file in words[1:]:
            lines = [line.split() for line in open(file) if not line.startswith("c")]
            size = next(line[2] for line in lines if line[0] == "p")
            clauses = " ".join(word for line in lines if line[0] != "p" for word in line)
            yield os.path.basename(file), f"search 1000000000 {size} 0 {clauses}\n"
        return
    kind, count, seed = words[:3]
    for size in words[3:]:
        made = [sys.executable, f"{here}/sets.py", kind, count, seed, size]
        yield f"{kind} {size} x{count}", subprocess.run(made, capture_output=True, text=True).stdout


def theirs_of(row):
    """Seconds and conflicts of minisat on the clauses of a row."""
    words = list(map(int, row.split()[2:]))
    end = words.index(0, 1)
    clauses, lits = [], []
    for n in words[end + 1:]:
        if n:
            lits.append(n)
        else:
            clauses.append(lits)
            lits = []
    with tempfile.NamedTemporaryFile("w", suffix=".cnf") as f:
        f.write(f"p cnf {words[0]} {len(clauses)}\n" + "".join(" ".join(map(str, c)) + " 0\n" for c in clauses))
        f.flush()
        start = spent()
        said = subprocess.run(["minisat", f.name], capture_output=True, text=True).stdout
        return spent() - start, int(re.search(r"conflicts\s*: (\d+)", said).group(1))


def speed(count, seconds):
    """Thousands a second."""
    return f"{count / seconds / 1000:.0f}" if seconds > 0 else "-"


program, ratios = sys.argv[1], []
for name, rows in rows_of(sys.argv[2:]):
    start = spent()
    answers = subprocess.run([program], input=rows, capture_output=True, text=True).stdout
    ours = spent() - start
    learnt = len(re.findall(r"^l ", answers, re.M))
    each = [theirs_of(row) for row in rows.splitlines()]
    theirs, conflicts = sum(seconds for seconds, _ in each), sum(count for _, count in each)
    ratios.append(ours / max(theirs, 0.01))
    print(f"{name}: {ours:.2f} s, {learnt} learnt ({speed(learnt, ours)} thousand a second); minisat {theirs:.2f} s, {conflicts} conflicts "
          f"({speed(conflicts, theirs)}); ratio {ratios[-1]:.1f}{share(program, rows)}", flush=True)
print(f"ratios: median {sorted(ratios)[len(ratios) // 2]:.1f}, greatest {max(ratios):.1f}")
