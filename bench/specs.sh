#!/usr/bin/env bash
# Times long specs: texts of 16, 32 and 64 KiB (the most that is read) of many specs, of one spec with many variants,
# of one variant with many values, and of one long list of versions.
#
#   bench/specs.sh               (PROGRAM=FILE bench/specs.sh times another build of the program)
#
# The time is to grow as n log n: the ratios of each doubling are printed, near 2 each. Each is to take well under a second.
set -euo pipefail

top="$(cd "$(dirname "${BASH_SOURCE[0]}")/.." && pwd)"
work="$(mktemp -d)"
trap 'rm -rf "$work"' EXIT

if [ -z "${PROGRAM:-}" ]; then
  source "$top/tools/launch.sh"
  ready_program spack_concretize # the build of these sources, or none
  PROGRAM="$program"
fi

python3 - "$PROGRAM" "$work" <<'PYTHON'
import os, subprocess, sys, time

program, work = sys.argv[1:]
SIZES = (16384, 32768, 65536)


def number(count):
    """Distinct for count below 99,991, in no order."""
    return (count * 7919) % 99991


def filled(front, piece, size):
    """The front and as many pieces as fit."""
    pieces = [front]
    length = len(front)
    count = 0
    while True:
        more = piece(count)
        if length + len(more) > size:
            return "".join(pieces), count
        pieces.append(more)
        length += len(more)
        count += 1


folder = os.path.join(work, "r", "packages", "x")
os.makedirs(folder)
with open(os.path.join(folder, "package.py"), "w") as file:
    file.write('class X(Package):\n    version("1.5")\n    version("2.5")\n')

# What there is much of, how a text begins and goes on, and the status and the errors of the run.
ROWS = (
    ("specs", "x", lambda k: " x", 7, "too large: roots\n"),
    ("variants", "x", lambda k: " +v%d" % number(k), 1, ""),
    ("values", "x v=0", lambda k: ",v%d" % number(k), 1, ""),
    ("list items", "x@3", lambda k: ",4.%d:4.%d.9" % (number(k), number(k)), 1, ""),
    ("list, none", "x@2:1", lambda k: ",4.%d:4.%d.9" % (number(k), number(k)), 4, "bad input: specs: BadVersion 2\n"),
)

for name, front, piece, status, errors in ROWS:
    times = []
    for size in SIZES:
        text, count = filled(front, piece, size)
        best = None
        for _ in range(3):
            begun = time.perf_counter()
            run = subprocess.run([program, "concretize", os.path.join(work, "r"), "-", "-", os.path.join(work, "lock"), "-", text],
                                 stdout=subprocess.DEVNULL, stderr=subprocess.PIPE, text=True)
            spent = time.perf_counter() - begun
            best = spent if best is None else min(best, spent)
            if (run.returncode, run.stderr) != (status, errors):
                sys.exit("%s: status %d, %r" % (name, run.returncode, run.stderr[:200]))
        times.append(best)
        print("%-10s %6d of them %6d bytes %8.3f s" % (name, count, len(text), best))
    print("%-10s ratios %.2f %.2f" % (name, times[1] / times[0], times[2] / times[1]))
PYTHON
