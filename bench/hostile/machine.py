"""Kills, full disks, little memory, several runs at once."""
import os
import random
import signal
import statistics
import subprocess
import tempfile
import time

from problem import KILLED, OLD, Count, Problem, read, run, write

FILE_CALLS = "openat open write fsync fdatasync close rename renameat renameat2 unlink unlinkat ftruncate".split()


def after_kill(problem, count, what):
    """LOCK and CERT are whole, each the old or the new one, and what stays beside hinders no later run."""
    held = problem.held()
    count.saw("lock %s, cert %s" % held)
    if problem.beside():
        count.saw("with a file beside")
    later = run(problem.words, problem.folder)
    count.add("lost" if "lost" in held else "the next run fails" if later.fault() or later.status else None, what)


def stopped(program, options, name, sent, times):
    """Runs that a signal ends at a random moment."""
    count, drawn = Count(name), random.Random("%s %s" % (options.seed, name))
    with tempfile.TemporaryDirectory() as folder:
        problem = Problem(program, folder, 104)
        took = []
        for _ in range(5):
            begun = time.perf_counter()
            run(problem.words, folder)
            took.append(time.perf_counter() - begun)
        for number in range(times):
            problem.reset()
            with subprocess.Popen(problem.words, cwd=folder, stdout=subprocess.DEVNULL, stderr=subprocess.DEVNULL) as process:
                time.sleep(drawn.uniform(0, 1.1 * statistics.median(took)))
                process.send_signal(sent)
            if sent != signal.SIGKILL and problem.beside():
                count.add("a file stays beside", "signal %d" % number)
            else:
                after_kill(problem, count, "signal %d" % number)
    return count


def kills(program, options):
    """SIGKILL, after which a file may stay beside."""
    return stopped(program, options, "killed at random", signal.SIGKILL, options.kills)


def by_hand(program, options):
    """SIGTERM, after which nothing stays beside."""
    return stopped(program, options, "stopped by SIGTERM at random", signal.SIGTERM, options.kills // 4)


def file_sizes(program, options, is_ignored=True):
    """`ulimit -f` at some sizes. With SIGXFSZ ignored, as the launcher has it, a put fails by name; else that signal ends the bare program."""
    count = Count("files of some size at most" + ("" if is_ignored else ", the bare program"))
    with tempfile.TemporaryDirectory() as folder:
        problem = Problem(program, folder, 104)
        for size in (0, 1, 512, 1024, 4096, 8192, 16384, 32768, 65536, 131072, 262144):
            problem.reset()
            ignored = ["sh", "-c", 'trap "" XFSZ; exec "$@"', "-"] if is_ignored else []
            done, held = run([*ignored, "prlimit", "--fsize=%d" % size, *problem.words], folder), problem.held()
            count.saw("status %d, lock %s, cert %s" % (done.status, *held))
            is_lost = "lost" in held or done.status == 0 and held != ("new", "new")
            is_ended = done.status == -signal.SIGXFSZ and not is_ignored  # docs/formats/command-line.md says so
            count.add((not is_ended and done.fault()) or ("lost" if is_lost else None), "%d bytes" % size)
    return count


def kills_at_calls(program, options):
    """SIGKILL at each use of each call of the system by which files are opened, written, synced, closed and renamed."""
    count = Count("killed at a call of the system")
    with tempfile.TemporaryDirectory() as folder:
        problem = Problem(program, folder)
        for call in FILE_CALLS:
            for number in range(1, 1000):
                problem.reset()
                inject = ["-e", "trace=" + call, "-e", "inject=%s:signal=KILL:when=%d" % (call, number)]
                if run(["strace", "-f", "-qq", "-o", "/dev/null", *inject, *problem.words], folder).status != KILLED:
                    break
                after_kill(problem, count, "%s %d" % (call, number))
    return count


def full_disk(program, options):
    """LOCK and CERT on a disk of some KiB; a put that fails leaves what was there."""
    count = Count("full disk")
    with tempfile.TemporaryDirectory() as folder:
        problem = Problem(program, folder, 104)
        for kibibytes in (8, 12, 16, 20, 24, 32, 40, 48, 64, 96, 128, 192, 256, 512):
            disk = os.path.join(folder, "out")
            if subprocess.run(["mount", "-t", "tmpfs", "-o", "size=%dk" % kibibytes, "none", disk], capture_output=True).returncode:
                count.saw("not run: no disk can be mounted")
                return count
            try:
                for name in ("l", "c"):
                    write(os.path.join(disk, name), OLD)
                done, held = run(problem.words, folder), problem.held()
                count.saw("status %d, lock %s, cert %s" % (done.status, *held))
                is_wrong = "lost" in held or done.status == 0 and held != ("new", "new")
                count.add(done.fault() or ("lost" if is_wrong else None), "%d KiB" % kibibytes)
            finally:
                subprocess.run(["umount", disk], check=True)
    return count


def little_memory(program, options):
    """`ulimit -v` at twenty sizes: memory runs out by name, or the answer is right."""
    count = Count("little memory")
    with tempfile.TemporaryDirectory() as folder:
        problem = Problem(program, folder, 104)
        for place in range(20):
            megabytes = 2 + 2 * place
            problem.reset()
            done, held = run(problem.words, folder, megabytes << 20), problem.held()
            is_loader = done.status == 127 or done.status < 0 and megabytes < 6  # the program never began
            count.saw("the loader" if is_loader else "status %d" % done.status)
            right = done.status == 9 or done.status == 0 and done.out == problem.said and held == ("new", "new")
            fault = None if is_loader else done.fault() or ("lost" if "lost" in held else None if right else "another answer")
            count.add(fault, "%d MiB" % megabytes)
    return count


def at_once(program, options, runs, rounds):
    """Runs of different problems to one LOCK and CERT: each file is one run's whole text."""
    count = Count("%d runs at once" % runs)
    with tempfile.TemporaryDirectory() as folder:
        problems = []
        for number in range(runs):
            problems.append(Problem(program, os.path.join(folder, "p%d" % number), 64 + 16 * number))
        texts = {name: [problem.new[name] for problem in problems] for name in ("l", "c")}
        out = os.path.join(folder, "out")
        os.makedirs(out)
        for number in range(rounds):
            started = []
            for problem in problems:
                words = [*problem.words[:5], out + "/l", out + "/c", problem.root]
                started.append(subprocess.Popen(words, cwd=problem.folder, stdout=subprocess.DEVNULL, stderr=subprocess.DEVNULL))
            statuses = [process.wait() for process in started]
            places = [texts[name].index(found) if (found := read(os.path.join(out, name))) in texts[name] else None for name in ("l", "c")]
            if None not in places and places[0] != places[1]:
                count.saw("whole, of two runs")
            mixed = ["LOCK", "CERT"][places.index(None)] + " mixed" if None in places else None
            count.add("status %s" % statuses if any(statuses) else mixed, "round %d" % number)
        if len(os.listdir(out)) > 2:
            count.add("files stay beside", "the end")
    return count
