#!/usr/bin/env python3
"""Compares the logs that the program makes shorter with those of `site_tools/trim_log`: trims.py PROGRAM [SEED [COUNT]].

PROGRAM is `log_rows`. Of random clauses of three literals each it tells the log of a search (`search`) and the shorter one (`trim`);
the script of site_tools, which shares nothing with it, makes the second from the first. Both have to be the same, byte for byte.
"""
import os
import random
import subprocess
import sys

sys.path.insert(0, os.path.join(os.path.dirname(os.path.abspath(__file__)), "..", "..", "site_tools"))
from bridge import proof_logs


def random_problem(rng):
    """Words of a row: variables, bits and clauses, some of which have no model."""
    variables = rng.randint(4, 40)
    bits = rng.sample(range(1, variables + 1), rng.randint(0, min(variables, 8)))
    words = [str(variables), *map(str, bits), "0"]
    for _ in range(int(variables * rng.choice((3, 3.5, 4, 4.3)))):
        words += [str(rng.choice((1, -1)) * chosen) for chosen in rng.sample(range(1, variables + 1), 3)] + ["0"]
    return " ".join(words)


def answers(program, rows):
    """What was found in each row, and its log."""
    done = subprocess.run([program], input="".join(row + "\n" for row in rows), capture_output=True, text=True, check=True)
    return [answer.split("\n", 1) for answer in done.stdout.split("--\n")[:-1]]


def main(program, seed=1, count=2000):
    rng = random.Random(int(seed))
    problems = ["%d %s" % (rng.choice((100000, 100000, 3)), random_problem(rng)) for _ in range(int(count))]
    searched = answers(program, ["search " + problem for problem in problems])
    shorter = answers(program, ["trim " + problem for problem in problems])
    learnt, stay, spent, wrong = 0, 0, 0, 0
    for problem, before, behind in zip(problems, searched, shorter, strict=True):
        kept = proof_logs.trimmed(before[1].encode())
        learnt, stay, spent = learnt + kept.of_learnt, stay + kept.learnt, spent + (before[0] == "spent")
        if [before[0], kept.text.decode()] != behind:
            wrong += 1
            print("trim", problem)
    print("%d searches, %d of them spent: %d of %d learnt clauses stay, %d logs differ" % (len(problems), spent, stay, learnt, wrong))
    return 1 if wrong else 0


if __name__ == "__main__":
    sys.exit(main(*sys.argv[1:]))
