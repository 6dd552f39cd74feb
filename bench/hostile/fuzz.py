"""Damaged files and specs of each kind, for some time each; what a run says then is of the tables, and its answers are shown to be right."""
import os
import random
import shutil
import tempfile
import time

from problem import TOP, Count, read, run, write

WORDS = [b"depends_on", b"variant", b"version", b"conflicts", b"requires", b"provides", b"when=", b"with when(", b"multi=True", b"values=(",
         b"default=", b"True", b"None", b"^", b"%gcc@:9", b"@1.2:", b"@=1", b"+mpi", b"~mpi", b"target=x86_64:", b"os=", b"[", b"]", b"{", b"}",
         b"(", b")", b",", b":", b'"', b"'", b"\\", b"\n", b"    ", b"\0", b"\xff", b"\xef\xbb\xbf", b"null", b"true", b"1e999", b"-0",
         b"18446744073709551616", b'"packages":{}', b'"version":1', b"l 1 0 1 0\n", b"z 1 0\n", b"e\n", b"u 1 0\n", b"999999999"]
PATHS = {"recipe": "r/packages/hdf5/package.py", "settings": "s", "database": "d", "lock": "l", "certificate": "c"}


def damaged(drawn, content):
    """The content with some bytes or words changed, put in, taken away, doubled or moved."""
    content = bytearray(content)
    for _ in range(drawn.choice([1, 1, 1, 2, 3, 8])):
        place = drawn.randrange(len(content) + 1)
        other = min(len(content), place + drawn.choice([1, 1, 2, 8, 40, 400]))
        way = drawn.randrange(6)
        if way == 0 and place < len(content):
            content[place] = drawn.randrange(256)
        elif way == 1:
            content[place:place] = drawn.choice(WORDS)
        elif way == 2:
            del content[place:other]
        elif way == 3:
            content[place:place] = content[place:other] * drawn.choice([1, 1, 2, 50])
        elif way == 4:
            piece = bytes(content[place:other])
            del content[place:other]
            to = drawn.randrange(len(content) + 1)
            content[to:to] = piece
        else:
            content[place:other] = drawn.choice(WORDS)
    return bytes(content)


def make(program, folder):
    """The files of a run over examples/site, each as it is."""
    site = os.path.join(TOP, "examples", "site")
    shutil.copytree(site + "/packages", folder + "/r/packages")
    shutil.copy(site + "/settings.json", folder + "/s")
    shutil.copy(site + "/database.json", folder + "/d")
    done = run([program, "concretize", "r", "s", "d", "l", "c", "hdf5"], folder)
    assert done.status == 0, done.said
    return {kind: read(os.path.join(folder, path)) for kind, path in PATHS.items()} | {"spec": b"hdf5@1.14: +mpi ^mpich@4 %gcc os=rocky9"}


def shown_wrong(program, folder, spec, status):
    """What stands against the answer of a run, which put `m` and `n`: the other commands have to say the same."""
    if status == 0:
        judged = run([program, "judge", "r", "s", "d", "m", spec], folder)
        checked = run([program, "check", "r", "s", "d", "m", "n", spec], folder)
        return None if (judged.status, checked.status) == (0, 0) else "done, and judge %d, check %d" % (judged.status, checked.status)
    if status == 1:
        refuted, explained = run([program, "refute", "r", "s", "d", "n", spec], folder), run([program, "explain", "r", "s", "d", spec], folder)
        return None if (refuted.status, explained.status) == (0, 1) else "unsatisfiable, and refute %d, explain %d" % (
            refuted.status, explained.status)
    return None


def fuzz(program, options, kind):
    count, drawn = Count("damaged: " + kind), random.Random("%s %s" % (options.seed, kind))
    with tempfile.TemporaryDirectory() as folder:
        whole = make(program, folder)
        begun = time.monotonic()
        while time.monotonic() - begun < options.fuzz and count.tried < options.most:
            content, spec = damaged(drawn, whole[kind]), "hdf5"
            if kind == "spec":
                spec = content.replace(b"\0", b"").decode(errors="replace")
            else:
                write(os.path.join(folder, PATHS[kind]), content)
            if kind in ("lock", "certificate"):
                words = ["judge" if kind == "lock" and drawn.random() < 0.5 else "check", "r", "s", "d", "l", "c", spec]
                words = words[:5] + words[6:] if words[0] == "judge" else words
            else:
                words = ["concretize", "r", "s", "d", "m", "n", spec]
            done = run([program, *words], folder)
            fault = done.fault()
            if not fault and words[0] == "concretize":
                fault = shown_wrong(program, folder, spec, done.status)
            count.saw("status %d" % done.status)
            count.add(fault, repr(content[:80]))
    return count
