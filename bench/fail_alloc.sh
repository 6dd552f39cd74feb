#!/usr/bin/env bash
# Runs `zlib` with each of the first BOUND allocations failing in turn (default 200), with no proof.
#
#   bench/fail_alloc.sh [BOUND]
#
# Each run has to end as Done with everything right, or as NoMemory with every file but the lock file as
# it was, and the lock file as it was or whole. A line for each N says what was seen. It ends with 1 at
# the first N where the run ended in another way, and with 2 where nothing ran.
#
# `rt try --test --fail-alloc N` builds anew for each N. So one build has a test for each N here, over a
# copy of the tests: it uses up BOUND - N allocations first, and the one with the number BOUND fails.
set -euo pipefail

bound=${1:-200}
case $bound in
'' | *[!0-9]* | 0*)
    echo "usage: $0 [BOUND]" >&2
    exit 2
    ;;
esac
root=$(cd "$(dirname "$0")/.." && pwd)
copy=$(mktemp -d)
trap 'rm -rf "$copy"' EXIT

# A repository of the same crates, with their built libraries and without what checks keep.
cp "$root/crates.txt" "$copy/"
if [ -f "$root/HANDLES" ]; then
    cp "$root/HANDLES" "$copy/"
fi
tar -C "$root" --exclude='crates/*/out/incremental' --exclude='crates/worked_*/out' -cf - crates |
    tar -C "$copy" -xf -
tests=$copy/crates/worked_runs/src
printf '\n#[cfg(test)]\nmod fail_alloc;\n' >>"$tests/lib.rt"
{
    echo 'use crate::faults::check_zlib_or_no_memory;'
    echo 'use std::test::Fail;'
    for ((n = 1; n <= bound; n++)); do
        printf '\n#[test]\nfn at_%d(rt: HostRuntime) -> Result<(), Fail> {\n' "$n"
        printf '    check_zlib_or_no_memory(&rt, %d)\n}\n' $((bound - n))
    done
} >"$tests/fail_alloc.rt"

cd "$copy/crates/worked_runs"
rt try --test --fail-alloc "$bound" -- fail_alloc:: >"$copy/log" 2>&1 || true

# The lines of each test, in the order of the numbers.
for ((n = 1; n <= bound; n++)); do
    lines=$(awk -v test="fail_alloc::at_$n" '
        $1 == "test" { ours = ($2 == test) }
        ours { print }' "$copy/log")
    case $lines in
    '')
        cat "$copy/log"
        echo "$n: no answer"
        exit 2
        ;;
    *' ... ok'*'seen: '*)
        echo "$n: ${lines##*seen: }"
        ;;
    *)
        echo "$lines"
        echo "$n: another answer"
        exit 1
        ;;
    esac
done
