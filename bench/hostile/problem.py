"""What the parts of bench/hostile.sh share: a problem with LOCK and CERT of some size, runs, and what a run may end with."""
import os
import re
import resource
import shutil
import signal
import subprocess
import sys

TOP = os.path.dirname(os.path.dirname(os.path.dirname(os.path.abspath(__file__))))
sys.path.insert(0, os.path.join(TOP, "bench"))
import families  # noqa: E402

OLD = b"old text\n" * 50
LONGEST = 10  # seconds of the processor
# What is said on standard error, by status (docs/WHEN-REFUSED.md).
SAID = {
    0: r"", 1: r"", 2: r"usage: spack_concretize COMMAND ARGUMENT\.\.\.\n", 3: r"", 4: r"bad input: .*\n", 5: r"read fault: .*\n",
    6: r"(write fault: .*\n)?", 7: r"too large: .*\n", 8: r"refused: .*\n", 9: r"(no memory\n)?", 10: r"",
}


class Ended:
    def __init__(self, status, out, said):
        self.status, self.out, self.said = status, out, said

    def fault(self):
        """What is wrong with how it ended, or None."""
        if self.status not in SAID:
            return "status %d %s" % (self.status, self.said[-200:])
        if not re.fullmatch(SAID[self.status], self.said, re.S):
            return "status %d says %r" % (self.status, self.said[:200])
        return None


def limits(memory=None):
    def set_them():
        resource.setrlimit(resource.RLIMIT_CPU, (LONGEST, LONGEST))
        resource.setrlimit(resource.RLIMIT_CORE, (0, 0))
        if memory:
            resource.setrlimit(resource.RLIMIT_AS, (memory, memory))
    return set_them


def run(words, folder, memory=None):
    done = subprocess.run(words, cwd=folder, stdin=subprocess.DEVNULL, capture_output=True, preexec_fn=limits(memory))
    return Ended(done.returncode, done.stdout.decode(errors="replace"), done.stderr.decode(errors="replace"))


def write(path, content):
    os.makedirs(os.path.dirname(path), exist_ok=True)
    with open(path, "wb") as file:
        file.write(content.encode() if isinstance(content, str) else content)


def read(path):
    try:
        with open(path, "rb") as file:
            return file.read()
    except FileNotFoundError:
        return None


def packages(count):
    """Files of so many packages that are all needed; the seventh ones ask for what is not the newest."""
    made = {}
    for place in range(count):
        lines = families.versions(3) + ['variant("a%d", default=True)' % number for number in range(5)]
        for child in (place + 1, place + 7):
            if child < count:
                lines.append('depends_on("q-%d%s", when="+a1")' % (child, "@:1.1" if child % 7 == 0 else ""))
        made["q_%d" % place] = lines
    return families.recipes(**made)


class Problem:
    """A problem in a folder, whose LOCK and CERT are `out/l` and `out/c`, with what a run without a fault puts there."""

    def __init__(self, program, folder, count=0):
        self.program, self.folder = program, folder
        if count:
            for path, text in packages(count).items():
                write(os.path.join(folder, path), text)
            self.input, self.root = ["r", "-", "-"], "q-0"
        else:
            shutil.copytree(os.path.join(TOP, "examples", "mpi"), os.path.join(folder, "r"))
            self.input, self.root = ["r", "r/settings.json", "-"], "hdf5@1.14: +mpi"
        self.words = [program, "concretize", *self.input, "out/l", "out/c", self.root]
        self.reset()
        done = run(self.words, folder)
        assert done.status == 0, (done.status, done.said)
        self.said = done.out
        self.new = {name: read(self.path(name)) for name in ("l", "c")}

    def path(self, name):
        return os.path.join(self.folder, "out", name)

    def reset(self):
        """Old files at LOCK and CERT, and nothing beside them."""
        shutil.rmtree(os.path.join(self.folder, "out"), ignore_errors=True)
        for name in ("l", "c"):
            write(self.path(name), OLD)

    def held(self):
        """What LOCK and CERT hold: `old`, `new`, or `lost` for anything else."""
        known = [(OLD, "old")] + [(content, "new") for content in self.new.values()]
        return tuple(next((word for content, word in known if read(self.path(name)) == content), "lost") for name in ("l", "c"))

    def beside(self):
        return len(os.listdir(os.path.join(self.folder, "out"))) - 2


class Count:
    """How often something was tried, and what was wrong."""

    def __init__(self, name):
        self.name, self.tried, self.wrong, self.kinds, self.notes = name, 0, 0, {}, []

    def saw(self, kind):
        self.kinds[kind] = self.kinds.get(kind, 0) + 1

    def add(self, fault, what=""):
        self.tried += 1
        if fault:
            self.wrong += 1
            self.saw(fault if len(fault) < 60 else fault[:57] + "...")
            if len(self.notes) < 3:
                self.notes.append("    %s: %s" % (what, fault))

    def tell(self):
        kinds = ", ".join("%s %d" % pair for pair in sorted(self.kinds.items()))
        print("%-44s %6d tried, %4d wrong%s" % (self.name, self.tried, self.wrong, kinds and "; " + kinds), flush=True)
        for note in self.notes:
            print(note, flush=True)


KILLED = -signal.SIGKILL
