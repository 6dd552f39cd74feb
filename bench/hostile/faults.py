"""Faults of the machine, one in a run: each call of the system fails, by `strace`."""
import os
import re
import tempfile

from problem import Count, Problem, run

# Calls with the faults that they are given.
FAULTS = {
    "openat": ("EACCES", "EMFILE", "EIO", "EINTR", "ENOSPC"),
    "open": ("EACCES", "EMFILE", "EIO", "EINTR", "ENOSPC"),
    "read": ("EIO", "EINTR"),
    "write": ("EIO", "ENOSPC", "EINTR", "EAGAIN"),
    "close": ("EIO", "ENOSPC"),
    "fsync": ("EIO", "ENOSPC"),
    "fdatasync": ("EIO", "ENOSPC"),
    "rename": ("EIO", "EACCES", "ENOSPC"),
    "renameat": ("EIO", "EACCES", "ENOSPC"),
    "renameat2": ("EIO", "EACCES", "ENOSPC"),
    "unlink": ("EIO", "EACCES"),
    "unlinkat": ("EIO", "EACCES"),
    "ftruncate": ("EIO",),
    "statx": ("EIO", "EACCES"),
    "newfstatat": ("EIO", "EACCES"),
    "fstat": ("EIO",),
    "lseek": ("EIO",),
    "getdents64": ("EIO",),
}

# Calls on files in `out`, by a path or by a descriptor, and syncs of the folder; to clean up may fail.
AT_PUT = re.compile(r"""^\d+\s+(?!unlink).*(["/]out/|sync\(.*/out>)""")


def traced(problem, words, rest):
    """A run under `strace`, and the lines of what was traced."""
    path = os.path.join(problem.folder, "trace")
    done = run(["strace", "-f", "-y", "-qq", "-o", path, *rest, *words], problem.folder)
    with open(path, errors="replace") as file:
        return done, file.read().splitlines()


def first_own(lines, call):
    """The place of the call's first use, from 1, that is the program's: what the loader does comes before the first own file is named."""
    seen = 0
    is_own = False
    for line in lines:
        is_own = is_own or '"r/' in line or '"r"' in line
        if re.match(r"\d+ +%s\(" % call, line):
            seen += 1
            if is_own:
                return seen
    return None


def fault_of(problem, done, lines, is_writer):
    """What is wrong of a run with a fault, or None."""
    if done.fault():
        return done.fault()
    held = problem.held()
    if is_writer and "lost" in held:
        return "lost"
    if not is_writer:
        return None
    if done.status == 0 and held != ("new", "new"):
        return "done, and LOCK or CERT is not there"
    at_put = next((line for line in lines if "(INJECTED)" in line and AT_PUT.search(line)), None)
    if done.status == 0 and at_put and not re.search("EINTR|EAGAIN", at_put):
        call = re.match(r"\d+ +(\w+)", at_put).group(1)
        return "%s of a put failed unnoticed" % call
    return None


def device_faults(program, options):
    count = Count("faults of calls of the system")
    with tempfile.TemporaryDirectory() as folder:
        problem = Problem(program, folder)
        lock, cert = os.path.join(folder, "lock"), os.path.join(folder, "cert")
        for name, path in (("l", lock), ("c", cert)):
            with open(path, "wb") as file:
                file.write(problem.new[name])
        commands = [problem.words] + [[program, word, *problem.input, "lock", *more, problem.root]
                                      for word, more in (("judge", ()), ("check", ("cert",)))]
        for words in commands:
            is_writer = words is problem.words
            for call, errors in FAULTS.items():
                _, lines = traced(problem, words, ["-e", "trace=%s,openat,statx" % call])
                first = first_own(lines, call)
                last = sum(re.match(r"\d+ +%s\(" % call, line) is not None for line in lines)
                for number in range(first, last + 1) if first else ():
                    for error in errors:
                        problem.reset()
                        inject = ["-e", "trace=" + call, "-e", "inject=%s:error=%s:when=%d" % (call, error, number)]
                        done, lines = traced(problem, words, inject)
                        if done.status == 127:  # the loader's call after all
                            continue
                        count.add(fault_of(problem, done, lines, is_writer), "%s, %s %d %s" % (words[1], call, number, error))
    return count
