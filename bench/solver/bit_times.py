#!/usr/bin/env python3
"""Where the time of a search for the least bits goes: bit_times.py PROGRAM KIND SEED SIZE VERSIONS [PARTS] [--flat].

KIND is `chains` or `totals` of `sets.py`. Asks for the first bits, some more each time, as many parts as PARTS (8): the search
for the first bits does the same whatever bits follow, so the differences are the processor time of each part. Parts end where
numbers end. The log tells what was learnt for each bit; the bits with the most are named. With --flat the bits of a number
are not decided first.
"""
import os, resource, subprocess, sys

flat = "--flat" in sys.argv
program, kind, seed, size, versions, *more = [a for a in sys.argv[1:] if a != "--flat"]
parts = int(more[0]) if more else 8
here = os.path.dirname(os.path.abspath(__file__))
made = [sys.executable, f"{here}/sets.py", kind, "1", seed, size, versions]
words = subprocess.run(made, capture_output=True, text=True).stdout.split()
head, rest, ends = words[:3], words[3:], None
if head[0] == "numbers":
    end = rest.index("0")
    ends, rest = list(map(int, rest[:end])), rest[end + 1:]
end = rest.index("0")
bits, rest = rest[:end], rest[end:]
print(f"{words[2]} variables, {rest.count('0') - 1} clauses, {len(bits)} bits" + (f" of {len(ends)} numbers" if ends else ""))


def used():
    return resource.getrusage(resource.RUSAGE_CHILDREN).ru_utime


def searched(count):
    """The time, the letters of the log's lines, and how much was learnt before each settled bit."""
    inside = [str(e) for e in ends if e <= count] + ["0"] if ends and not flat else []
    row = " ".join(["numbers" if inside else "search"] + head[1:] + inside + bits[:count] + rest) + "\n"
    best = None
    for _ in range(3):
        start = used()
        answer = subprocess.run([program], input=row, capture_output=True, text=True).stdout
        spent = used() - start
        best = spent if best is None else min(best, spent)
    return best, [line[0] for line in answer.split("\n")[1:] if line]


def cuts():
    places = sorted(set(ends)) if ends else range(1, len(bits) + 1)
    for part in range(1, parts + 1):
        wanted = len(bits) * part // parts
        yield min(places, key=lambda p: abs(p - wanted))


first, kinds = searched(0)
rows, low, last, learnt = [], 0, first, kinds.count("l")
for high in sorted(set(cuts())):
    seconds, kinds = searched(high)
    settled = [k for k in kinds if k in "zo"][low:high]
    rows.append((low, high, seconds - last, kinds.count("l") - learnt, settled.count("o")))
    low, last, learnt = high, seconds, kinds.count("l")
print(f"reading and the first model: {first:.2f} s, {100 * first / last:.0f}%")
for low, high, seconds, more, ones in rows:
    print(f"bits {low + 1} to {high}: {seconds:.2f} s, {100 * seconds / last:.0f}%, {more} learnt, {ones} at 1")
print(f"together {last:.2f} s, {learnt} learnt")
counts, bit = {}, 0
for k in kinds:
    if k == "l":
        counts[bit] = counts.get(bit, 0) + 1
    bit += k in "zo"
most = sorted(counts.items(), key=lambda c: -c[1])[:5]
print("most learnt: " + ", ".join(f"bit {b + 1}: {n} ({100 * n / learnt:.0f}%)" for b, n in most))
