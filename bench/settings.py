#!/usr/bin/env python3
"""Times the reading of settings: files of 4, 8 and 16 MiB of each kind are read, and the time, its ratio
at each doubling (near 2), and the memory over the size of the file are printed. A kind `JSON alone` has its fault
in the first key, so that it shows what the JSON values need.

    (cd crates/json_rows && rt run) && bench/settings.py [FOLDER]
    bench/settings.py cases FILE.jsonl[.gz] [FOLDER]

It runs the program that `rt run` built in FOLDER, which is crates/json_rows/out unless it is given. A file of
16 MiB is to be read in under 2 s and in 20 times its size.

With `cases` it compares faults with those of whole runs. A case is a line of JSON: `files`, from paths to base64 texts,
of which `s` is the settings; `want`, with the line `err` where a run is refused, or `err_is_not` where it may answer
anything but a refusal that begins so. So the settings of the first have that fault, and those of the second none.
"""
import base64
import gzip
import json
import os
import re
import subprocess
import sys
import tempfile

TOP = os.path.dirname(os.path.dirname(os.path.abspath(__file__)))
MIB = 1 << 20
REFUSED = "bad input: settings: "


# a key of the wrong kind, which is looked at before all lists: what is left is the reading of the JSON text
FIRST_IS_WRONG = '"platform":3,'


def fill(size, head, entry, tail):
    """A file of about this size, with entries of this form by their places."""
    parts, length, place = [], len(head) + len(tail), 0
    while length < size:
        part = entry(place)
        parts.append(part)
        length += len(part) + 1
        place += 1
    return head + ",".join(parts) + tail


KINDS = {
    "os": lambda n: fill(n, '{"os":[', lambda i: f'"os{i}"', "]}"),
    "compilers": lambda n: fill(n, '{"compilers":[', lambda i: f'{{"name":"gcc","version":"12.{i}"}}', "]}"),
    "providers": lambda n: fill(n, '{"providers":{', lambda i: f'"v{i}":["a{i}","b{i}"]', "}}"),
    "versions": lambda n: fill(n, '{"packages":{"p":{"versions":[', lambda i: f'"1.{i}:1.{i}.9"', "]}}}"),
    "externals": lambda n: fill(n, '{"packages":{', lambda i: f'"p{i}":{{"externals":[{{"spec":"p{i}@1.{i}+a~b c=d","prefix":"/p{i}"}}]}}', "}}"),
    "one fault at the end": lambda n: fill(n, '{"providers":{"v":[', lambda i: f'"p{i}"', ',"p0"]}}'),
    "no JSON": lambda n: '{"os":["' + "a" * (n - 8),
}


# The most memory of a program counts that of the one which starts it, so a small one does: it prints the status, the
# seconds on the clock, those of the processor, and the most bytes.
STARTER = """
import os, sys, time
start = time.monotonic()
child = os.fork()
if child == 0:
    os.execv(sys.argv[1], sys.argv[1:])
_, status, usage = os.wait4(child, 0)
print(status, time.monotonic() - start, usage.ru_utime + usage.ru_stime, usage.ru_maxrss * 1024)
"""


def run(program, text):
    """The seconds on the clock, those of the processor and the most bytes that the program takes for a file, and what it says."""
    with tempfile.TemporaryDirectory() as folder:
        path = os.path.join(folder, "settings.json")
        with open(path, "w") as file:
            file.write(text)
        del text
        done = subprocess.run([sys.executable, "-S", "-c", STARTER, program, "settings_fault", path], capture_output=True, check=True)
        said, measured = done.stdout.decode().rstrip("\n").rsplit("\n", 1)
        status, wall, seconds, memory = measured.split()
        return float(wall), float(seconds), int(memory), said, int(status)


def json_alone(make):
    """Files of a kind of which nothing but the JSON text is read."""
    return lambda size: "{" + FIRST_IS_WRONG + make(size)[1:]


def times(program):
    kinds = dict(KINDS)
    for kind in ("os", "compilers", "providers", "versions", "externals"):
        kinds[kind + ", JSON alone"] = json_alone(KINDS[kind])
    for kind, make in kinds.items():
        before = None
        for size in (4 * MIB, 8 * MIB, 16 * MIB):
            wall, seconds, memory, said, status = run(program, make(size))
            ratio = "" if before is None else f" ratio {seconds / before:.2f}"
            before = seconds
            print(f"{kind}: {size // MIB} MiB {seconds:.2f} s ({wall:.2f} s wall){ratio}, "
                  f"{memory / size:.1f} times its size; {said[:40]} {status}", flush=True)


def fault_in(said):
    """The fault in the program's line as a run says it, or None where it says settings."""
    if said.startswith("platform "):
        return None
    return re.sub(r"\((\d+)(?:, (\w+))?\)$", lambda m: " " + " ".join(filter(None, m.groups())), said.rstrip("\n"))


def wanted_in(want):
    """The fault of the settings that a run answers with, or None where it answers with no fault of settings."""
    if "err_is_not" in want:
        return None
    err = want["err"]
    return err.rstrip("\n")[len(REFUSED):] if err.startswith(REFUSED) else None


def cases(program, path):
    differ = count = 0
    with tempfile.TemporaryDirectory() as folder, (gzip.open if path.endswith(".gz") else open)(path, "rt") as file:
        text = os.path.join(folder, "s")
        for line in file:
            case = json.loads(line)
            with open(text, "wb") as settings:
                settings.write(base64.b64decode(case["files"]["s"]))
            said = subprocess.run([program, "settings", text], capture_output=True, timeout=120)
            got, want = fault_in(said.stdout.decode()), wanted_in(case["want"])
            count += 1
            if said.returncode != 0 or got != want:
                differ += 1
                print(f"{case['name']}: got {got!r}, wanted {want!r}, status {said.returncode}")
    print(f"{differ} of {count} cases differ")
    return differ != 0


def main():
    words = sys.argv[1:]
    path = words[1] if words[:1] == ["cases"] else None
    rest = words[2:] if path else words
    program = os.path.join(rest[0] if rest else os.path.join(TOP, "crates", "json_rows", "out"), "json_rows")
    return cases(program, path) if path else times(program)


if __name__ == "__main__":
    sys.exit(main())
