#!/usr/bin/env python3
"""Compares `find` and `plan` with a second reading, written apart from them: 300 random databases with a spec each, and the plans of
300 graphs that `concretize` writes over random repositories, of which some packages are installed.

    bench/find_plan.py [PROGRAM [CASES]]

It prints each case that differs, and at the end how many there were; it ends with 1 where one differs.
"""
import argparse
import base64
import hashlib
import json
import os
import random
import subprocess
import sys
import tempfile

TOP = os.path.dirname(os.path.dirname(os.path.abspath(__file__)))
VERSIONS, NAMES, VIRTUALS = ("1.0", "1.2", "1.10", "2.0"), [f"p{i}" for i in range(4)], ("va", "vb")
LISTS = (None, None, "1", "1.2", "=1.2", "1.1:", ":1", ":1.2", "1.2:1.9", "2:")

# ---- the second reading: a part is its name, its list of versions, the value of `+a`, and its compiler


def ends(text):
    """The lowest and the highest version of an item, and whether it is one version alone."""
    low, colon, high = text.lstrip("=").partition(":")
    whole = [tuple(map(int, end.split("."))) if end else None for end in (low, high if colon else low)]
    return whole[0], whole[1], text.startswith("=")


def up_to(version, high):
    return high is None or version[: len(high)] <= high


def contains(text, version):
    if text is None:
        return True
    low, high, alone = ends(text)
    return version == low if alone else (low is None or version >= low) and up_to(version, high)


def overlap(one, other):
    if one is None or other is None:
        return True
    (low, high, alone), (low_2, high_2, alone_2) = ends(one), ends(other)
    if alone or alone_2:
        return contains(other if alone else one, low if alone else low_2)
    return (low is None or up_to(low, high_2)) and (low_2 is None or up_to(low_2, high))


def rest_holds(part, record):
    _, _, variant, compiler = part
    return (variant is None or record["variants"].get("a") == [variant]) and (
        compiler is None or record["compiler"] is not None and record["compiler"]["name"] == compiler)


def holds(part, record):
    version = tuple(map(int, record["version"].split(".")))
    return part[0] in (None, record["name"]) and contains(part[1], version) and rest_holds(part, record)


def suits(part, record, provided):
    if part[0] in VIRTUALS:
        return any(name == part[0] and overlap(texts, part[1]) for name, texts in provided.get(record["name"], ())) and rest_holds(part, record)
    return part[0] is not None and holds(part, record)


def needed(record):
    return [d["hash"] for d in record["dependencies"] if "link" in d["kinds"] or "run" in d["kinds"]]


def found(records, provided, parts):
    """The hashes of the records that meet the spec; children stand before their parents."""
    below = {}
    for record in records:
        below[record["hash"]] = set(needed(record)).union(*(below[h] for h in needed(record)))
    by_hash = {record["hash"]: record for record in records}
    meet = [r["hash"] for r in records if holds(parts[0], r) and all(
        any(suits(part, by_hash[h], provided) for h in below[r["hash"]]) for part in parts[1:])]
    return sorted(meet)


def planned(nodes):
    """The waves, and the chain, of the nodes of a lock file."""
    built = {node["hash"]: node for node in nodes if node["origin"] == "built"}

    def wave(h):
        return 1 + max((wave(d["hash"]) for d in built[h]["dependencies"] if d["hash"] in built), default=0)

    waves = {}
    for h, node in built.items():
        waves.setdefault(wave(h), []).append(node["name"])
    lines, chain, above = [f"wave {k} {' '.join(sorted(waves[k]))}" for k in sorted(waves)], [], None
    by_name = {node["name"]: node for node in built.values()}
    for k in sorted(waves, reverse=True):
        names = [n for n in waves[k] if above is None or by_name[n]["hash"] in [d["hash"] for d in by_name[above]["dependencies"]]]
        above = min(names)
        chain.append(above)
    return lines + [" ".join(["chain", *chain])]


# ---- cases


def hash_of(record):
    text = json.dumps({key: record[key] for key in record if key != "hash"}, separators=(",", ":"), sort_keys=True)
    return base64.b32encode(hashlib.sha256(text.encode()).digest()[:20]).decode().lower()


def record_of(draw, name, version, children, kinds=None):
    dependencies = [{"hash": h, "kinds": kinds or draw.choice((["link"], ["run"], ["build"], ["build", "link"], ["link", "run"]))} for h in children]
    record = {
        "compiler": draw.choice(({"name": "gcc", "version": "12.3.0"}, {"name": "clang", "version": "15"}, None)), "external": None,
        "dependencies": sorted(dependencies, key=lambda d: d["hash"]), "name": name, "os": "ubuntu22.04", "target": "x86_64",
        "variants": draw.choice(({}, {"a": ["true"]}, {"a": ["false"]})), "version": version,
    }
    return record | {"hash": hash_of(record)}


def text_of(part):
    name, texts, variant, compiler = part
    return (name or "") + (f"@{texts}" if texts else "") + {None: "", "true": "+a", "false": "~a"}[variant] + (f"%{compiler}" if compiler else "")


def write(folder, name, text):
    os.makedirs(os.path.dirname(os.path.join(folder, name)), exist_ok=True)
    with open(os.path.join(folder, name), "w") as file:
        file.write(text)


def run(program, folder, *words):
    return subprocess.run([program, *words], cwd=folder, capture_output=True, text=True)


def find_case(program, folder, draw):
    records, provided = [], {}
    for _ in range(draw.randrange(24)):
        children = draw.sample([r["hash"] for r in records], min(len(records), draw.randrange(4)))
        record = record_of(draw, draw.choice(NAMES), draw.choice(VERSIONS), children)
        if record["hash"] not in [r["hash"] for r in records]:
            records.append(record)
    for name in NAMES:
        provided[name] = [(draw.choice(VIRTUALS), draw.choice(LISTS)) for _ in range(draw.randrange(2))]
        lines = [f'    provides("{virtual}{"@" + texts if texts else ""}")\n' for virtual, texts in provided[name]]
        write(folder, f"r/packages/{name}/package.py", f'class P(Package):\n    version("1.0")\n{"".join(lines)}')
    is_virtual = sorted({virtual for each in provided.values() for virtual, _ in each})
    parts = [(draw.choice([None, None, *NAMES]), draw.choice((None, None, None, *LISTS)), None, draw.choice((None, None, None, "gcc")))]
    for _ in range(draw.choice((0, 1, 1, 2))):
        name = draw.choice([*NAMES, *is_virtual, *is_virtual])
        parts.append((name, draw.choice((None, *LISTS)), draw.choice((None, None, None, None, "true")), draw.choice((None, None, None, None, "gcc"))))
    shuffled = draw.sample(records, len(records))
    write(folder, "d", json.dumps({"records": shuffled, "version": 1}))
    spec = " ^".join(text_of(part) for part in parts)
    if not text_of(parts[0]):
        spec = "os=ubuntu22.04" + spec
    wanted = found(records, provided, parts)
    got = run(program, folder, "find", "r", "-", "d", spec)
    lines = got.stdout.splitlines()
    hashes = [line.split(" ")[0] for line in lines[:-1]]
    return hashes == wanted and lines[-1:] == [f"found {len(wanted)}"], (spec, wanted, got.stdout, got.stderr)


def plan_case(program, folder, draw):
    names = draw.sample([f"p{i}" for i in range(30)], draw.randrange(1, 20))
    children, records = {}, {}
    for i, name in enumerate(names):
        children[name] = draw.sample(names[:i], min(i, draw.randrange(4)))
        kinds = {child: draw.choice((["build"], ["link"], ["build", "link", "run"])) for child in children[name]}
        lines = [f'    depends_on("{c}", type=({", ".join(map(json.dumps, kinds[c]))},))\n' for c in children[name]]
        write(folder, f"r/packages/{name}/package.py", f'class P(Package):\n    version("1.0")\n{"".join(lines)}')
        if draw.randrange(4) == 0 and all(child in records for child in children[name]):
            record = record_of(draw, name, "1.0", [records[child]["hash"] for child in children[name]], ["link"])
            records[name] = record
    write(folder, "d", json.dumps({"records": list(records.values()), "version": 1}))
    roots = draw.sample(names, min(len(names), 1 + draw.randrange(3)))
    made = run(program, folder, "concretize", "r", "-", "d", "l", "-", *roots)
    got = run(program, folder, "plan", "r", "-", "d", "l", *roots)
    if made.returncode:
        return False, (roots, made.stderr)
    with open(os.path.join(folder, "l")) as file:
        wanted = planned(json.load(file)["nodes"])
    return got.stdout.splitlines() == wanted, (roots, wanted, got.stdout, got.stderr)


def main():
    parser = argparse.ArgumentParser(description=__doc__, formatter_class=argparse.RawDescriptionHelpFormatter)
    parser.add_argument("program", nargs="?", default=os.path.join(TOP, "spack_concretize"), help="the launcher, where none is given")
    parser.add_argument("cases", nargs="?", type=int, default=300)
    words = parser.parse_args()
    program, cases, differ = os.path.abspath(words.program), words.cases, 0
    for kind, case in (("find", find_case), ("plan", plan_case)):
        for seed in range(cases):
            with tempfile.TemporaryDirectory() as folder:
                is_right, shown = case(program, folder, random.Random(f"{kind} {seed}"))
            if not is_right:
                differ += 1
                print(kind, seed, *shown, sep="\n  ")
    print(f"{2 * cases} cases, {differ} differ")
    return differ > 0


if __name__ == "__main__":
    sys.exit(main())
