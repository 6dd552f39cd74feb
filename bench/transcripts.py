#!/usr/bin/env python3
"""Compares runs over the machine with runs over a desk in memory that is made of what the machine handed over.

    bench/transcripts.py [--program PROGRAM] [--replayer PROGRAM] [--count COUNT] [--keep FOLDER] FILE..

A case is a line of JSON, in a file that may be packed by gzip: `name`; `files`, from paths to base64 texts; `words`, those of the
command. `count` cases are taken, as many of each file as it has. Each runs over files on the disk; after a `concretize` with a graph
`judge`, `fresh`, `plan` and `check` run besides, after one without `refute` and `explain`, over what it wrote. A log is asked for where the words ask for none.

Each run is watched by strace: what its reads gave, the names that its listings gave, and the paths that it renamed a file to. Of these
alone a scenario is made (docs/SCENARIOS.md): its files are those that were read, with the bytes that were read; a name that was listed and
below which nothing was read has a recipe of no bytes. It wants the status of the run, what it said on both streams, and the
files that were put, as they stand on the disk, each put once and no other. The replay runs it over whole files, and byte by byte.
Any file on the disk that changed without a put is a difference too. It ends with 1 where one differs, or there were fewer cases.
"""
import argparse
import base64
import collections
import gzip
import json
import os
import re
import subprocess
import sys
import tempfile
from concurrent.futures import ThreadPoolExecutor

TOP = os.path.dirname(os.path.dirname(os.path.abspath(__file__)))
sys.dont_write_bytecode = True
STATUSES = {number: name for number, name in enumerate(
    "Done Unsatisfiable Usage Undecided BadInput ReadFault WriteFault TooLarge Refused NoMemory".split())}
STATUSES[11] = "Stale"
CALLS = "openat,lseek,read,pread64,readv,preadv,mmap,getdents64,close,rename,renameat,renameat2"
TEXT = r'"((?:\\x[0-9a-f]{2})*)"'


def cases_of(file, count):
    with (gzip.open if file.endswith(".gz") else open)(file, "rt") as lines:
        cases = [json.loads(line) for line in lines]
    step = max(1, len(cases) // count)
    return cases[::step][:count]


def spread(files, count):
    """As many cases of each file, where it has them; the others give the rest."""
    taken = {file: cases_of(file, count) for file in files}
    found, left, rest = [], count, sorted(files, key=lambda file: len(taken[file]))
    for place, file in enumerate(rest):
        share = min(len(taken[file]), -(-left // (len(rest) - place)))
        step = max(1, len(taken[file]) // share) if share else 1
        found += taken[file][::step][:share]
        left -= share
    return found


def unpack(case, folder):
    for path, content in case["files"].items():
        target = os.path.join(folder, path)
        os.makedirs(os.path.dirname(target), exist_ok=True)
        with open(target, "wb") as file:
            file.write(base64.b64decode(content))


def on_disk(folder):
    found = {}
    for place, _, names in os.walk(folder):
        for name in names:
            path = os.path.join(place, name)
            with open(path, "rb") as file:
                found[os.path.relpath(path, folder)] = file.read()
    return found


def bytes_of(text):
    return bytes.fromhex(text.replace("\\x", ""))


class Transcript:
    """What the calls of one run gave: files by what was read of them, folders by their names, and the paths that were put."""

    def __init__(self, lines):
        self.files, self.folders, self.puts, self.open = {}, {}, [], {}
        for line in lines:
            call = re.match(r"(\w+)\((.*)\)\s+= (-?\d+|0x[0-9a-f]+)", line)
            if call and not call[3].startswith("-"):
                getattr(self, call[1])(call[2], int(call[3], 0))

    def openat(self, words, fd):
        path = bytes_of(re.search(TEXT, words)[1]).decode()
        kind = "folder" if "O_DIRECTORY" in words else "file" if "O_RDONLY" in words else "put"
        self.open[fd] = [kind, path, 0, not path.startswith("/")]
        if self.open[fd][3] and kind == "folder":
            self.folders.setdefault(path, [])

    def lseek(self, words, place):
        self.open[int(words.split(",")[0])][2] = place

    def read(self, words, length):
        kind, path, place, is_ours = self.open[int(words.split(",")[0])]
        if not is_ours:
            return
        assert kind == "file", words
        given = bytes_of(re.search(TEXT, words)[1])
        assert len(given) == length, (len(given), length)
        known = self.files.get(path, b"")
        assert place <= len(known) and known[place:place + length] in (b"", given), "bytes of %s changed, or were passed over" % path
        self.files[path] = known[:place] + given + known[place + length:]
        self.open[int(words.split(",")[0])][2] = place + length

    def getdents64(self, words, _):
        path = self.open[int(words.split(",")[0])][1]
        names = [bytes_of(name).decode() for name in re.findall(r"d_name=" + TEXT, words)]
        self.folders[path] += [name for name in names if name not in (".", "..")]

    def other_read(self, words, _):
        assert not self.open[int(words.split(",")[0])][3], "read by a call that is not looked at: " + words

    pread64 = readv = preadv = other_read

    def mmap(self, words, _):
        fd = words.split(", ")[4]
        assert fd == "-1" or not self.open[int(fd)][3], "read by a call that is not looked at: " + words

    def close(self, words, _):
        self.open.pop(int(words), None)

    def rename(self, words, _):
        self.puts.append(bytes_of(re.findall(TEXT, words)[-1]).decode())

    renameat = renameat2 = rename

    def desk(self):
        """The files of a desk that answers as the machine did."""
        desk = dict(self.files)
        for folder, names in self.folders.items():
            for name in names:
                if not any(path.startswith(folder + name + "/") for path in desk):
                    desk[folder + name + "/package.py"] = b""
        return desk


def quoted(data):
    """The lines of a quoted section."""
    escapes = {ord("\n"): "\\n", ord("\t"): "\\t", ord("\r"): "\\r", ord('"'): '\\"', ord("\\"): "\\\\"}
    pieces = [data[first:first + 4000] for first in range(0, len(data), 4000)]
    return ["".join(['"', *(escapes.get(it) or (chr(it) if 32 <= it < 127 else "\\x%02x" % it) for it in piece), '"']) for piece in pieces]


def scenario(words, desk, status, out, err, puts):
    sections = [("words", [line for word in words for line in (quoted(word.encode()) or ['""'])])]
    sections += [(path, quoted(data)) for path, data in sorted(desk.items())]
    sections += [("want/out", quoted(out)), ("want/err", quoted(err))]
    sections += [("want/files/" + path, quoted(data)) for path, data in sorted(puts.items())]
    lines = ["Made of the transcript of a run.", "", "-- want/status --", status]
    for name, held in sections:
        lines += ["-- quoted %s --" % name, *held]
    return "\n".join(lines) + "\n"


def watched(program, words, folder, room):
    """What a run over the machine answers, says and leaves, and its transcript."""
    trace = os.path.join(room, "trace")
    done = subprocess.run(["strace", "-f", "-qq", "-v", "-xx", "-s", str(1 << 26), "-e", "trace=" + CALLS, "-e", "signal=none", "-o", trace,
                           program, *words], cwd=folder, capture_output=True, timeout=600)
    with open(trace) as lines:
        threads = collections.defaultdict(list)
        for line in lines:
            thread, rest = line.split(None, 1)
            threads[thread].append(rest)
    # one thread makes all calls of the desk; a call that another one interrupts is written in two parts
    first = next(iter(threads.values()))
    joined, begun = [], ""
    for line in first:
        if line.rstrip().endswith("<unfinished ...>"):
            begun = line.rstrip()[:-len(" <unfinished ...>")]
        elif line.startswith("<... "):
            joined.append(begun + re.sub(r"<\.\.\. \w+ resumed>", "", line))
        else:
            joined.append(line)
    for lines in list(threads.values())[1:]:
        assert not any(re.match(r"(openat|rename|getdents64)\(", line) for line in lines), "another thread works on files"
    return done, Transcript(joined)


class Comparison:
    def __init__(self, program, replayer, keep):
        self.program, self.replayer, self.keep = program, replayer, keep
        self.runs = collections.Counter()

    def difference(self, name, words, folder, room):
        """Runs over the disk and over the desk of the transcript; gives the status and what differs."""
        before = on_disk(folder)
        done, transcript = watched(self.program, words, folder, room)
        after = on_disk(folder)
        status = STATUSES.get(done.returncode, "exit %d" % done.returncode)
        self.runs[words[0], status] += 1
        changed = {path for path in {*before, *after} if before.get(path) != after.get(path)}
        if changed - {os.path.normpath(path) for path in transcript.puts}:
            return status, "changed without a put: %s" % sorted(changed)
        puts = {path: after[os.path.normpath(path)] for path in transcript.puts}
        file = os.path.join(self.keep or room, re.sub(r"[^A-Za-z0-9]+", "_", "%s %s" % (name, words[0])))
        with open(file, "w") as to:
            to.write(scenario(words, transcript.desk(), status, done.stdout, done.stderr, puts))
        said = subprocess.run([self.replayer, file], capture_output=True, timeout=1800)
        if said.returncode == 0 and said.stdout.startswith(b"same "):
            return status, None
        return status, (said.stdout + said.stderr).decode(errors="replace")[:2000]

    def of_case(self, case):
        with tempfile.TemporaryDirectory() as folder, tempfile.TemporaryDirectory() as room:
            unpack(case, folder)
            words = list(case["words"])
            told = []
            if words[0] == "concretize" and words[5] == "-":
                words[5] = "log"
            status, text = self.difference(case["name"], words, folder, room)
            told.append((words[0], text))
            if words[0] == "concretize":
                _, repo, settings, database, lock, log, *spec = words
                later = {
                    "Done": [[verb, repo, settings, database, lock, *spec] for verb in ("judge", "fresh", "plan")]
                    + [["check", repo, settings, database, lock, log, *spec]],
                    "Unsatisfiable": [["refute", repo, settings, database, log, *spec], ["explain", repo, settings, database, *spec]],
                }
                for more in later.get(status, []):
                    told.append((more[0], self.difference(case["name"], more, folder, room)[1]))
            return [(verb, text) for verb, text in told if text]


def main():
    reader = argparse.ArgumentParser(usage=__doc__)
    reader.add_argument("--program", default=os.path.join(TOP, "release", "spack_concretize-x86_64-linux"))
    reader.add_argument("--replayer", default=os.path.join(TOP, "release", "replay_scenarios-x86_64-linux"))
    reader.add_argument("--count", type=int, default=200)
    reader.add_argument("--keep", help="an empty folder for the scenarios")
    reader.add_argument("files", nargs="+")
    asked = reader.parse_args()
    cases = spread(asked.files, asked.count)
    work = Comparison(os.path.abspath(asked.program), os.path.abspath(asked.replayer), asked.keep)
    with ThreadPoolExecutor(2) as pool:
        found = list(pool.map(work.of_case, cases))
    wrong = [(case, told) for case, told in zip(cases, found) if told]
    for case, told in wrong:
        for verb, text in told:
            print("%s, %s: %s" % (case["name"], verb, text))
    for (verb, status), number in sorted(work.runs.items()):
        print("%5d %s %s" % (number, verb, status))
    print("%d runs of %d cases; %d cases differ" % (sum(work.runs.values()), len(cases), len(wrong)))
    sys.exit(1 if wrong or len(cases) < asked.count else 0)


if __name__ == "__main__":
    main()
