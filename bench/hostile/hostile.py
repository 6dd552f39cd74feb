#!/usr/bin/env python3
"""Tries the program where machines fail and files are hostile, outside the gate; see bench/hostile/README.md.

    bench/hostile.sh [--program FILE] [OPTION..] [WORD..]

A line for each part whose name has one of the words: how often it was tried, how often something was wrong, and what was seen how often.
It ends with 1 where something was wrong.
"""
import argparse
import os
import sys

import allocations
import faults
import fuzz
import machine
import others

PARTS = {
    "kills": machine.kills,
    "kills-at-calls": machine.kills_at_calls,
    "stopped": machine.by_hand,
    "file-sizes": machine.file_sizes,
    "file-sizes-bare": lambda program, options: machine.file_sizes(program, options, is_ignored=False),
    "full-disk": machine.full_disk,
    "memory": machine.little_memory,
    "two-at-once": lambda program, options: machine.at_once(program, options, 2, options.rounds),
    "eight-at-once": lambda program, options: machine.at_once(program, options, 8, options.rounds // 5),
    "allocations": allocations.allocations,
    "faults": faults.device_faults,
    **{"fuzz-" + kind: lambda program, options, kind=kind: fuzz.fuzz(program, options, kind) for kind in [*fuzz.PATHS, "spec"]},
    "edges": others.edges,
    "stack": others.stack,
    "importers": others.importers,
}


def main():
    parser = argparse.ArgumentParser(description=__doc__.split("\n")[0])
    parser.add_argument("words", nargs="*", help="only parts whose name has one of these, of " + ", ".join(PARTS))
    parser.add_argument("--program", required=True)
    parser.add_argument("--seed", type=int, default=1)
    parser.add_argument("--kills", type=int, default=200)
    parser.add_argument("--rounds", type=int, default=500, help="of two runs at once; of eight a fifth of it")
    parser.add_argument("--allocations", type=int, default=300, help="that are refused of each command; 0 for all")
    parser.add_argument("--fuzz", type=float, default=60, help="seconds for each kind of file")
    parser.add_argument("--most", type=int, default=10**9, help="no more damaged files of a kind than so many")
    options = parser.parse_args()
    program, tried, wrong = os.path.abspath(options.program), 0, 0
    for name, part in PARTS.items():
        if not options.words or any(word in name for word in options.words):
            count = part(program, options)
            count.tell()
            tried, wrong = tried + count.tried, wrong + count.wrong
    print("%d tried, %d wrong" % (tried, wrong))
    sys.exit(1 if wrong else 0)


if __name__ == "__main__":
    main()
