#!/usr/bin/env bash
# Times `concretize` of one recipe of 500, 2,000 and 8,000 versions.
#
#   bench/many_versions.sh
#
# Four times the number is to take little more than four times the time.
set -euo pipefail

top="$(cd "$(dirname "${BASH_SOURCE[0]}")/.." && pwd)"
work="$(mktemp -d)"
trap 'rm -rf "$work"' EXIT

source "$top/tools/launch.sh"
ready_program spack_concretize # the build of these sources, or none

python3 - "$program" "$work" <<'PYTHON'
import os, sys, time, subprocess

program, work = sys.argv[1:]


def recipe(count):
    """A recipe of distinct versions, the newest in the middle."""
    numbers = ((i * 7919) % 99991 for i in range(count))  # distinct for count below 99,991
    return "class Many(Package):\n" + "".join('    version("%d.%d")\n' % (n // 317, n % 317) for n in numbers)


def folder(name, text):
    path = os.path.join(work, name, "packages", "many")
    os.makedirs(path)
    with open(os.path.join(path, "package.py"), "w") as file:
        file.write(text)
    return os.path.join(work, name)


times = []
for count in (500, 2000, 8000):
    text = recipe(count)
    repo = folder(str(count), text)
    best = None
    for _ in range(5):
        begun = time.perf_counter()
        subprocess.run([program, "concretize", repo, "-", "-", os.path.join(work, "lock"), "-", "many"],
                       check=True, stdout=subprocess.DEVNULL)
        spent = time.perf_counter() - begun
        best = spent if best is None else min(best, spent)
    times.append(best)
    print("%6d versions %8d bytes %7.3f s" % (count, len(text), best))
print("ratios %.2f %.2f" % (times[1] / times[0], times[2] / times[1]))
PYTHON
