#!/usr/bin/env python3
"""Compares `each` with `concretize` of each root alone, on files of cases (`bench/concretize/README.md`).

    bench/each.py [--program PROGRAM] [--alone PROGRAM] [--count COUNT] [--skip COUNT] [--write FOLDER] FILE..

Of each case's repository three roots are asked for: its own, and then packages that are drawn by its name, some with a version, some with
another package behind `^`. For each root `each` has to say what `concretize` of ALONE says for it alone, and to put the same lock file and
the same certificate; its status has to be that of the first root without a graph. `each` on one processor has to say and put the same.
Then `check_each` has to accept the folder, or to miss the lock file of the first root that has none. Where `concretize` of all three is
refused, `each` and `check_each` have to be refused by the same line, and to put nothing: such a repository does not count.

It ends at COUNT (200) repositories, prints each that differs and how many there were of each answer, and ends with 1 where one differs.
ALONE may be an older program than PROGRAM, so that none of its code is believed. With --write it runs no PROGRAM, and writes a
scenario (docs/SCENARIOS.md) for each repository, so that `replay` compares.
"""
import argparse
import base64
import collections
import os
import random
import re
import subprocess
import sys
import tempfile
import time

TOP = os.path.dirname(os.path.dirname(os.path.abspath(__file__)))
sys.path.insert(0, os.path.join(TOP, "site_tools"))

from bridge import spec_parts  # noqa: E402

from cases import cases_of, unpack  # noqa: E402

ROOTS = 3
NAMES = {0: "Done", 1: "Unsatisfiable", 3: "Undecided"}


def run(words, folder, processors=None):
    """The status of a run, and what it said."""
    front = [] if processors is None else ["taskset", "-c", processors]
    done = subprocess.run([*front, *words], cwd=folder, capture_output=True, text=True)
    return done.returncode, done.stdout, done.stderr


def roots_of(case):
    """Three roots of the case's repository: its own first, then drawn ones."""
    drawn = random.Random(case["name"])
    repo = case["words"][1]
    found = [spec_parts.text_of(spec) for spec in spec_parts.parts(" ".join(case["words"][6:]))][:ROOTS]
    names = sorted(path.split("/")[2] for path in case["files"] if re.fullmatch(rf"{re.escape(repo)}/packages/[^/]+/package\.py", path))
    while len(found) < ROOTS and names:
        name = drawn.choice(names)
        recipe = base64.b64decode(case["files"][f"{repo}/packages/{name}/package.py"]).decode("utf-8", "replace")
        versions = re.findall(r'^ *version\("([^"]+)"', recipe, re.M)
        chance = drawn.random()
        if chance < 0.3 and versions:
            name += "@" + drawn.choice(["", ":"]) + drawn.choice(versions)
        elif chance < 0.5:
            name += f" ^{drawn.choice(names)}"
        found.append(name)
    return found


def texts_in(folder):
    """The files of a folder."""
    found = {}
    for name in os.listdir(folder) if os.path.isdir(folder) else []:
        with open(os.path.join(folder, name), "rb") as file:
            found[name] = file.read()
    return found


def alone(program, case, roots, folder):
    """What is wanted of `each`: its status, its lines, and its files; None where a root is refused, with the line."""
    _, repo, settings, database, *_ = case["words"]
    lines, files, first = [], {}, 0
    for place, root in enumerate(roots):
        for name in ("L", "C"):
            if os.path.exists(os.path.join(folder, name)):
                os.remove(os.path.join(folder, name))
        status, out, err = run([program, "concretize", repo, settings, database, "L", "C", *root.split(" ")], folder)
        if status not in NAMES:
            return None, err, {}
        text = spec_parts.text_of(spec_parts.parts(root)[0])
        lines += [f"root {place} {text}\n", out.splitlines()[-1] + "\n"]
        first = first or status
        for name, ending in (("C", "cert"), ("L", "lock")):
            if os.path.exists(os.path.join(folder, name)):
                with open(os.path.join(folder, name), "rb") as file:
                    files[f"{place}.{ending}"] = file.read()
    return first, "".join(lines), files


def of_folder(put, folder):
    """What `check_each` is to say of what `each` put."""
    missing = next((place for place in range(ROOTS) if f"{place}.lock" not in put), None)
    return (0, "accepted\n", "") if missing is None else (4, "", f"bad input: missing {folder}/{missing}.lock\n")


def compared(program, case, roots, wanted, folder):
    """What differs."""
    _, repo, settings, database, *_ = case["words"]
    status, out, files = wanted
    specs = " ".join(roots).split(" ")
    refused = status is None
    want = run([program, "concretize", repo, settings, database, "L", "-", *specs], folder) if refused else (status, out, "")
    for name, processors in (("apart", None), ("one_processor", "0")):
        os.mkdir(os.path.join(folder, name))
        got = run([program, "each", repo, settings, database, name, *specs], folder, processors)
        if got != want:
            yield f"{name}: wanted {want}, got {got}"
        put = texts_in(os.path.join(folder, name))
        for path in sorted(set(put) | set(files)):
            if put.get(path) != files.get(path):
                yield f"{name}: {path}: wanted {files.get(path)!r}, got {put.get(path)!r}"
    check = want if refused else of_folder(files, "apart")
    got = run([program, "check_each", repo, settings, database, "apart", *specs], folder)
    if got != check:
        yield f"check_each: wanted {check}, got {got}"


def quoted(text):
    """The lines of a quoted section that say these bytes."""
    signs = {9: "\\t", 10: "\\n", 13: "\\r", 34: '\\"', 92: "\\\\"}
    for line in text.splitlines(keepends=True):
        yield '"' + "".join(signs.get(each) or (chr(each) if 32 <= each < 127 else f"\\x{each:02x}") for each in line) + '"\n'


def scenario(case, roots, wanted):
    """The case as a scenario."""
    _, repo, settings, database, *_ = case["words"]
    status, out, files = wanted
    parts = [f"{case['name']}: each root by itself.\n\n-- words --\n"]
    parts += [f"{word}\n" for word in ("each", repo, settings, database, "apart", *" ".join(roots).split(" "))]
    sections = {path: base64.b64decode(text) for path, text in case["files"].items()}
    sections |= {"want/status": NAMES[status].encode() + b"\n", "want/out": out.encode()}
    sections |= {f"want/files/apart/{name}": text for name, text in files.items()}
    for name, text in sections.items():
        if text.isascii() and text.endswith(b"\n") and not re.search(rb"^-- |\r", text, re.M):
            parts.append(f"-- {name} --\n{text.decode()}")
        else:
            parts += [f"-- quoted {name} --\n", *quoted(text)]
    return "".join(parts)


def main():
    parser = argparse.ArgumentParser(description=__doc__, formatter_class=argparse.RawDescriptionHelpFormatter)
    parser.add_argument("--program", default=os.path.join(TOP, "spack_concretize"))
    parser.add_argument("--alone", help="PROGRAM where it is not given")
    parser.add_argument("--count", type=int, default=200)
    parser.add_argument("--skip", type=int, default=0)
    parser.add_argument("--write", metavar="FOLDER")
    parser.add_argument("file", nargs="+")
    options = parser.parse_args()
    program = os.path.abspath(options.program)
    other = os.path.abspath(options.alone or options.program)
    counts, wrong, whole, begun = collections.Counter(), 0, 0, time.monotonic()
    if options.write:
        os.makedirs(options.write, exist_ok=True)
    for number, case in enumerate(case for file in options.file for case in cases_of(file)):
        if whole >= options.count or number < options.skip:
            continue
        with tempfile.TemporaryDirectory() as folder:
            unpack(case, folder)
            roots = roots_of(case)
            if len(roots) < ROOTS:
                continue
            wanted = alone(other, case, roots, folder)
            if options.write:
                if wanted[0] is not None:
                    with open(os.path.join(options.write, f"{number}.txt"), "w") as file:
                        file.write(scenario(case, roots, wanted))
                faults = []
            else:
                faults = list(compared(program, case, roots, wanted, folder))
            whole += wanted[0] is not None
        counts["refused" if wanted[0] is None else NAMES[wanted[0]]] += 1
        for line in wanted[1].splitlines() if wanted[0] is not None else []:
            if not line.startswith("root "):
                counts["root: " + line.split(" ")[0]] += 1
        for fault in faults:
            print(f"{number} {case['name']} {roots}: {fault}", flush=True)
        wrong += bool(faults)
    print(f"{whole} repositories, {dict(counts)}; {wrong} differ; {time.monotonic() - begun:.0f} s")
    return 1 if wrong or whole < options.count else 0


if __name__ == "__main__":
    sys.exit(main())
