#!/usr/bin/env python3
"""The faults of bench/hostile.sh on sqlite and on cadical, for measure: `bench/hostile/beside.py [--encoder FILE] [--kills N] [--fuzz SECONDS]`.

sqlite3 changes each row of a table of 2,000 in one transaction; cadical solves the clauses of examples/mpi, and writes a proof. The table
has to be the old one or the new one, whole, and a proof too; Done (0; 10 or 20) only with the new one; no signal ends a run. It needs
`apt-get install sqlite3 cadical strace`; what is missing is passed over.
"""
import argparse
import os
import random
import shutil
import signal
import subprocess
import tempfile
import time

import faults
import fuzz
from problem import TOP, Count, read, run, write

MADE = "create table t(a integer primary key, b text); with recursive n(i) as (select 1 union all select i + 1 from n where i < 2000) " \
    "insert into t select i, 'old' from n;"
CALLS = {**faults.FAULTS, "pread64": ("EIO", "EINTR"), "pwrite64": ("EIO", "ENOSPC"), "writev": ("EIO", "ENOSPC")}


class Sqlite:
    """A transaction over a database."""

    name, tool, done, input = "sqlite", "sqlite3", (0,), "db"
    words = ["sqlite3", "-bail", "db", "begin; update t set b = 'new'; commit;"]

    def __init__(self, folder, _):
        self.folder = folder
        subprocess.run(["sqlite3", "first", MADE], cwd=folder, check=True)
        self.first = read(os.path.join(folder, "first"))
        self.reset()

    def reset(self):
        for name in os.listdir(self.folder):
            if name.startswith("db"):
                os.remove(os.path.join(self.folder, name))
        write(os.path.join(self.folder, "db"), self.first)

    def held(self):
        asked = "pragma integrity_check; select b, count(*) from t group by b;"
        told = subprocess.run(["sqlite3", "db", asked], cwd=self.folder, capture_output=True, text=True, errors="replace").stdout
        return {"ok\nold|2000\n": "old", "ok\nnew|2000\n": "new"}.get(told, "lost")


class Cadical:
    """A proof over an older one."""

    name, tool, done, input = "cadical", "cadical", (10, 20), "f.cnf"
    words = ["cadical", "-q", "f.cnf", "proof"]

    def __init__(self, folder, encoder):
        self.folder = folder
        clauses = subprocess.run([encoder, os.path.join(TOP, "examples", "mpi"), "-", "-", "hdf5"], capture_output=True, check=True).stdout
        lines = [line for line in clauses.splitlines(keepends=True) if not line.startswith(b"c ")]
        write(os.path.join(folder, "f.cnf"), b"".join(lines))
        self.first = read(os.path.join(folder, "f.cnf"))
        self.reset()
        run(self.words, folder)
        self.proof = read(os.path.join(folder, "proof"))

    def reset(self):
        write(os.path.join(self.folder, "f.cnf"), self.first)
        write(os.path.join(self.folder, "proof"), "old\n" * 100)

    def held(self):
        return {b"old\n" * 100: "old", self.proof: "new"}.get(read(os.path.join(self.folder, "proof")), "lost")


def judged(count, other, done, what, may_end=False):
    """Counts a run: what is wrong with how it ended, and with what stands there."""
    held = other.held()
    fault = "lost" if held == "lost" else "done, and not there" if done.status in other.done and held != "new" else None
    if done.status < 0 and not may_end:
        fault = "ended by a signal" if fault != "lost" else "ended by a signal, and lost"
    count.saw("done" if done.status in other.done else "not done")
    count.add(fault, what)


def kills(other, options):
    count, drawn = Count(other.name + ": killed at random"), random.Random(options.seed)
    begun = time.perf_counter()
    run(other.words, other.folder)
    took = time.perf_counter() - begun
    for number in range(options.kills):
        other.reset()
        with subprocess.Popen(other.words, cwd=other.folder, stdout=subprocess.DEVNULL, stderr=subprocess.DEVNULL) as process:
            time.sleep(drawn.uniform(0, took))
            process.kill()
        held = other.held()
        if held != "lost":
            count.saw(held)
        count.add("lost" if held == "lost" else None, str(number))
    return count


def device_faults(other, _):
    count = Count(other.name + ": faults of calls of the system")
    for call, errors in CALLS.items():
        for error in (*errors, "KILL"):
            for number in range(1, 200):
                other.reset()
                how = "signal=KILL" if error == "KILL" else "error=" + error
                trace = os.path.join(other.folder, "trace")
                inject = ["-e", "trace=" + call, "-e", "inject=%s:%s:when=%d" % (call, how, number)]
                done = run(["strace", "-f", "-qq", "-o", trace, *inject, *other.words], other.folder)
                with open(trace, errors="replace") as file:
                    told = file.read()
                if ("killed by SIGKILL" if error == "KILL" else "INJECTED") not in told:
                    break
                if done.status != 127:  # the loader's call
                    judged(count, other, done, "%s %d %s" % (call, number, error), error == "KILL")
    return count


def little_memory(other, _):
    count = Count(other.name + ": little memory")
    for place in range(20):
        other.reset()
        done = run(other.words, other.folder, (2 + 2 * place) << 20)
        if done.status != 127 and not (done.status < 0 and place < 2):
            judged(count, other, done, "%d MiB" % (2 + 2 * place))
    return count


def file_sizes(other, _):
    count = Count(other.name + ": files of some size at most")
    for size in (0, 1, 512, 1024, 4096, 8192, 16384, 32768, 65536):
        other.reset()
        judged(count, other, run(["sh", "-c", 'trap "" XFSZ; exec "$@"', "-", "prlimit", "--fsize=%d" % size, *other.words], other.folder), str(size))
    return count


def damaged(other, options):
    count, drawn, begun = Count(other.name + ": damaged input"), random.Random(options.seed), time.monotonic()
    while time.monotonic() - begun < options.fuzz:
        other.reset()
        content = fuzz.damaged(drawn, other.first)
        write(os.path.join(other.folder, other.input), content)
        done = run(other.words, other.folder)
        name = signal.Signals(-done.status).name if done.status < 0 else None
        count.add(name and "ended by " + name, repr(content[:60]))
    return count


def main():
    parser = argparse.ArgumentParser(description=__doc__.split("\n")[0])
    parser.add_argument("--encoder", default=os.path.join(TOP, "release", "encode_dimacs-x86_64-linux"))
    parser.add_argument("--kills", type=int, default=200)
    parser.add_argument("--fuzz", type=float, default=60, help="seconds")
    parser.add_argument("--seed", type=int, default=1)
    options = parser.parse_args()
    for kind in (Sqlite, Cadical):
        if not shutil.which(kind.tool):
            print("%s is not there" % kind.tool)
            continue
        with tempfile.TemporaryDirectory() as folder:
            other = kind(folder, os.path.abspath(options.encoder))
            for part in (kills, device_faults, little_memory, file_sizes, damaged):
                part(other, options).tell()


if __name__ == "__main__":
    main()
