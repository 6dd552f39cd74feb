"""Scripts of their own, each as a part: the machine's edges, long lists on a small stack, files made to stop the importers."""
import os
import re
import subprocess
import sys

from problem import TOP, Count


def of_script(name, words, total, wrong):
    """Runs a script: `total` is its last line, with how often it tried, or passed, and how often that was wrong; `wrong` begins lines that say what."""
    count = Count(name)
    done = subprocess.run(words, cwd=TOP, stdin=subprocess.DEVNULL, capture_output=True, text=True, errors="replace", check=False)
    lines = (done.stdout + done.stderr).splitlines()
    found = next(filter(None, (re.fullmatch(total, line) for line in lines)), None)
    if not found or (done.returncode != 0) != (found["wrong"] != "0"):
        count.add("status %d" % done.returncode, lines[-1][:150] if lines else "")
        return count
    count.wrong = int(found["wrong"])
    count.tried = int(found["tried"]) + (count.wrong if "passed" in total else 0)
    count.notes = ["    " + line[:150] for line in lines if re.match(wrong, line)][:3]
    for line in lines:
        if line.startswith("left out: "):
            count.saw(line)
    return count


def edges(program, options):
    """Links, pipes, devices, folders, closed and full streams, names that are none, other users; with few of the kills and meetings."""
    words = [os.path.join(TOP, "tools", "test_machine"), program, str(max(options.kills // 20, 1))]
    return of_script("links, pipes, devices, streams, names", words, r"(?P<tried>\d+) passed, (?P<wrong>\d+) failed", r".*(: wanted | changed$|: LOCK|: CERT)")


def stack(program, _):
    """Long lists of every kind on a stack of 256 KiB: a signal is wrong, and a run that takes too long is not."""
    words = [sys.executable, os.path.join(TOP, "bench", "stack.py"), program, "--kib", "256"]
    return of_script("long lists on 256 KiB of stack", words, r"(?P<tried>\d+) runs, (?P<wrong>\d+) ended by a signal.*", "SIG")


def importers(*_):
    """Bombs of YAML, JSON, expressions and recipes for the scripts of site_tools, which ask no program."""
    words = [sys.executable, os.path.join(TOP, "site_tools", "hostile.py")]
    return of_script("files made to stop the importers", words, r"(?P<tried>\d+) files, (?P<wrong>\d+) wrong.*", "WRONG")
