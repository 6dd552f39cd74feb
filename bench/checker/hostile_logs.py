#!/usr/bin/env python3
"""Logs that were made to take their checker's time and memory: each family at n and 2n.

    hostile_logs.py PROGRAM ENCODE [N [FAMILY..]]

The logs are over the rules' clauses of a problem of examples/mpi without a graph, as ENCODE (`encode_dimacs`) prints them. All their lines
are right and none ends them, so PROGRAM (`spack_concretize refute`) goes through all of them and says Unfinished behind the last; each also
with its last line damaged, which is refused there. A line for each log has its bytes, the processor's seconds and the memory; and the last
one how the time grew where the log was twice as long. It ends with 1 where an answer was another one, or where the time grew more than
2.5 times; of `turns` and `lines`, which are made so that b bytes have b to the power of 1.5 literals looked at, 3.3 times (2.8 and what a machine
under load adds).

N (20,000) is the number of ids or lines; the families:

  chain       three clauses by turns, one chain of N ids
  wide        the same, with N / 4 literals of variables above V in each clause
  wide-below  the same, with as many literals below V as there are
  turns       as many clauses as each has literals, by turns, one chain of N ids
  lines       many lines with chains over long clauses
  numbers     N clauses with one number, as `log_checker::index` makes it by its first factor
  factors     N clauses with one number by its first factor, and one by the second
  fronts      N clauses that differ in their last literal alone
"""
import os
import subprocess
import sys
import tempfile
import time

TOP = os.path.dirname(os.path.dirname(os.path.dirname(os.path.abspath(__file__))))
WORDS = [f"{TOP}/examples/mpi", f"{TOP}/examples/mpi/settings.json", "-"]
SPEC = "hdf5@1.14: ~mpi ^mpich"
STEEP = ("turns", "lines")
FACTORS, WHOLE = (12160024628638980471, 16869996333008978667), 1 << 64


def rules(encode):
    """The number of variables, and the clauses of the rules."""
    text = subprocess.run([encode, *WORDS, SPEC], capture_output=True, check=True, text=True).stdout
    head = next(line.split() for line in text.splitlines() if line.startswith("c rules"))
    clauses = [[int(word) for word in line.split()[:-1]] for line in text.splitlines() if line[:1] in "-123456789"]
    return int(head[2]), clauses[:int(head[3])]


class Log:
    """A log that is being written: its lines, and the next id."""

    def __init__(self, variables, clauses):
        self.lines = [f"p 1 {variables} {len(clauses)} 0"]
        self.variables, self.clauses, self.next = variables, clauses, len(clauses) + 1
        self.base = min(range(len(clauses)), key=lambda at: len(clauses[at]))

    def learn(self, literals, chain):
        literals = sorted(literals, key=abs)
        self.lines.append(f"l {self.next} {' '.join(map(str, literals))} 0 {' '.join(map(str, chain))} 0")
        self.next += 1
        return self.next - 1

    def weaken(self, literals):
        """A clause of the input with more literals."""
        return self.learn(self.clauses[self.base] + literals, [self.base + 1])

    def free(self):
        """The variables below V that do not stand in the clause that is weakened."""
        used = {abs(literal) for literal in self.clauses[self.base]}
        return [variable for variable in range(1, self.variables + 1) if variable not in used]


def by_turns(log, ids, more):
    """Three clauses by turns, each with more literals."""
    x, y, z = log.free()[:3]
    first, there, back = log.weaken([x, *more]), log.weaken([-x, y, *more]), log.weaken([-y, x, *more])
    chain = [first] + [there, back] * (ids // 2)
    log.learn(log.clauses[log.base] + [x, z, *more], chain)


def turns(log, ids):
    """As many clauses as each has literals: the literal of one step is the next one's pivot."""
    width = max(4, int((ids / 4) ** 0.5))
    more = [log.variables + 1 + at for at in range(width)]
    ring = [2 * log.variables + width + at for at in range(width)]
    steps = [log.weaken([*more, -ring[at], ring[(at + 1) % width]]) for at in range(width)]
    chain = [log.weaken([*more, ring[0]])] + [steps[at % width] for at in range(ids)]
    end = ring[ids % width]
    log.learn(log.clauses[log.base] + [*more, end, ring[0] + width], chain)


def long_lines(log, ids):
    width = max(4, int((ids / 4) ** 0.5))
    more = [log.variables + 1 + at for at in range(width)]
    ring = [2 * log.variables + width + at for at in range(width + 1)]
    steps = [log.weaken([*more, -ring[at], ring[at + 1]]) for at in range(width)]
    first = log.weaken([*more, ring[0]])
    for at in range(ids // width):
        log.learn(log.clauses[log.base] + [*more, ring[-1], ring[-1] + 1 + at], [first, *steps])


def number(factor, literals):
    found = 0
    for literal in sorted(literals, key=abs):
        found = (found * factor + (abs(literal) - 1) * 2 + (literal > 0)) % WHOLE
    return found


def literal_of(code, least):
    """The literal with a code, above another one."""
    variable = code // 2 + (0 if code // 2 >= least else WHOLE // 2) + 1
    return variable if code % 2 else -variable


def one_number(log, count):
    base, wanted = log.clauses[log.base], number(FACTORS[0], log.clauses[log.base]) | 1
    for at in range(count):
        first = log.variables + 1 + at
        code = (wanted - number(FACTORS[0], [*base, first]) * FACTORS[0]) % WHOLE
        log.weaken([first, literal_of(code, first)])


def two_numbers(log, count):
    """The codes a, b of the last two literals solve a * factor + b = what is left, for both factors."""
    base, gap = log.clauses[log.base], (FACTORS[0] - FACTORS[1]) % WHOLE
    even = gap & -gap
    odd = pow(gap // even, -1, WHOLE)
    parts = [number(factor, base) * factor for factor in FACTORS]
    wanted = (1, 1 - parts[0] + parts[1])
    for at in range(count):
        first = log.variables + 1 + at
        left = [(want - number(factor, [*base, first]) * factor * factor) % WHOLE for want, factor in zip(wanted, FACTORS)]
        a = (left[0] - left[1]) % WHOLE // even * odd % (WHOLE // even)
        b = (left[0] - a * FACTORS[0]) % WHOLE
        one, other = literal_of(a, first), literal_of(b, WHOLE // 2)
        assert (left[0] - left[1]) % even == 0 and abs(one) < abs(other) < WHOLE
        log.weaken([first, one, other])


def fronts(log, count):
    width = max(4, int(count ** 0.5))
    more = [log.variables + 1 + at for at in range(width)]
    for at in range(count // width):
        log.weaken([*more, log.variables + width + 1 + at])


FAMILIES = {
    "chain": lambda log, n: by_turns(log, n, []),
    "wide": lambda log, n: by_turns(log, n, [log.variables + 1 + at for at in range(n // 4)]),
    "wide-below": lambda log, n: by_turns(log, n, log.free()[3:]),
    "turns": turns,
    "lines": long_lines,
    "numbers": one_number,
    "factors": two_numbers,
    "fronts": fronts,
}


def refute(program, lines):
    """What PROGRAM says of a log, its processor's seconds and its megabytes."""
    with tempfile.TemporaryDirectory() as folder:
        path = f"{folder}/log"
        with open(path, "w", encoding="ascii") as file:
            file.write("\n".join(lines) + "\n")
        run = subprocess.Popen([program, "refute", *WORDS, path, SPEC], stdout=subprocess.PIPE,
                               stderr=subprocess.STDOUT, text=True)
        said = run.stdout.read().strip()
        _, _, used = os.wait4(run.pid, 0)
        run.returncode = 0
        return said, used.ru_utime + used.ru_stime, used.ru_maxrss // 1024, os.path.getsize(path)


def main():
    program, encode = sys.argv[1:3]
    size = int(sys.argv[3]) if len(sys.argv) > 3 else 20_000
    names = sys.argv[4:] or list(FAMILIES)
    variables, clauses = rules(encode)
    wrong = 0
    for name in names:
        make, times = FAMILIES[name], []
        for count in (size, 2 * size):
            log = Log(variables, clauses)
            make(log, count)
            said, seconds, memory, length = refute(program, log.lines)
            wanted = f"refused: certificate line {len(log.lines) + 1} Unfinished"
            words = log.lines[-1].split()
            words[-2] = str(log.next)
            damaged = refute(program, [*log.lines[:-1], " ".join(words)])[0]
            refused = f"refused: certificate line {len(log.lines)} UnknownId"
            wrong += (said != wanted) + (damaged != refused)
            times.append(max(seconds, 0.02))
            print(f"{name:11} {length:10} bytes {seconds:8.2f} s {memory:6} MB"
                  f"{'' if said == wanted else '  WRONG: ' + said}{'' if damaged == refused else '  WRONG: ' + damaged}", flush=True)
        wrong += times[1] > (3.3 if name in STEEP else 2.5) * times[0]
        print(f"{name:11} twice as long: {times[1] / times[0]:.1f} times", flush=True)
    print(f"wrong {wrong}")
    return 1 if wrong else 0


if __name__ == "__main__":
    sys.exit(main())
