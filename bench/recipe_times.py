#!/usr/bin/env python3
"""Times the reading of long recipes: a quarter, a half and the whole of 1 MiB (the most that is read) of an ordinary recipe, of
opening brackets, of quotation marks, of blocks and of `with` lines each one space deeper inside a method, and of `with` lines beside each other
inside a method.

    bench/recipe_times.py              (PROGRAM=FILE bench/recipe_times.py times another build of `recipe_rows`)

The times are the processor's, of whole runs, of which the least of ten counts; a run over an empty file is taken off. The ratios
of each doubling are printed: the time is to be linear in the length, so they are to be near 2.
"""
import os
import resource
import subprocess
import tempfile

from recipe_tokens import TOP, program

SIZES = (1 << 18, 1 << 19, 1 << 20)


def ordinary(size):
    with open(os.path.join(TOP, "examples", "recipes", "packages", "hdf5", "package.py"), "rb") as file:
        text = file.read()
    lines = text.split(b"\n")
    body = b"\n".join(lines[lines.index(b"    # The development branches.") : lines.index(b"    def url_for_version(self, version):")])
    head = text[: text.index(b"    # The development branches.")]
    return head + body * ((size - len(head)) // len(body))


def deeper(size, head, line):
    lines, length = [head], len(head) + 1
    while length + len(lines) + len(line) + 1 <= size:
        length += len(lines) + len(line) + 1
        lines.append(b" " * len(lines) + line)
    return b"\n".join(lines) + b"\n"


SHAPES = (
    ("ordinary recipe", ordinary),
    ("opening brackets", lambda size: b"(" * size),
    ("quotation marks", lambda size: b"'" * size),
    ("deeper blocks", lambda size: deeper(size, b"def f():", b"a:")),
    ("deeper `with`s", lambda size: deeper(size, b"def f():", b"with when('+a'):")),
    ("`with`s in a def", lambda size: b"class X:\n def f():\n" + b"  with when('+a'): x\n" * ((size - 20) // 22)),
)


def spent(built, path, word):
    best = None
    for _ in range(10):
        begun = resource.getrusage(resource.RUSAGE_CHILDREN)
        answer = subprocess.run([built, word, path], capture_output=True, text=True, check=True).stdout.strip()
        ended = resource.getrusage(resource.RUSAGE_CHILDREN)
        passed = ended.ru_utime + ended.ru_stime - begun.ru_utime - begun.ru_stime
        best = passed if best is None else min(best, passed)
    return best, answer


def main():
    built = os.environ.get("PROGRAM") or program()
    with tempfile.TemporaryDirectory() as folder:
        path = os.path.join(folder, "recipe.py")
        open(path, "wb").close()
        base, _ = spent(built, path, "count")
        print("an empty file %.4f s, which is taken off" % base)
        for name, made in SHAPES:
            times = []
            for size in SIZES:
                data = made(size)
                with open(path, "wb") as file:
                    file.write(data)
                best, answer = spent(built, path, "count")
                times.append(best - base)
                print("%-17s %8d bytes %8.4f s   %s" % (name, len(data), best - base, answer))
            print("%-17s ratios %.2f %.2f" % (name, times[1] / max(times[0], 1e-4), times[2] / max(times[1], 1e-4)))


if __name__ == "__main__":
    main()
