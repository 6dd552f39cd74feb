#!/usr/bin/env bash
# Times large formulas, sums, totals and levels over the clause list, by a proved program over the built crates, and the
# memory that each clause takes.
#
#   bench/clauses.sh             (PROGRAM=FILE bench/clauses.sh times a build that is there)
#
# Each line is the best of three runs, in processor seconds; the times of a doubling are to have a ratio near 2 (n log n).
# A formula of a million nodes is to take less than a second, totals of 31 lists of 5,000 terms less than half of one, and
# levels of 1,024 numbers and 30,000 arcs with 50 targets less than one and 200 MB. Where all numbers are in one component, each
# arc and target takes three clauses of eight literals in all: 88 bytes, 132 MB of 1,500,000 such pairs.
#
# It proves the crates below where nothing of them is kept, so its first run takes some minutes.
set -euo pipefail

top="$(cd "$(dirname "${BASH_SOURCE[0]}")/.." && pwd)"
rt="$(command -v rt || echo /opt/rattle/bin/rt)"
work="$(mktemp -d)"
trap 'rm -rf "$work"' EXIT

made() { # FILE: a file of the program, from the standard input
    mkdir -p "$work/crates/clause_load/$(dirname "$1")"
    cat >"$work/crates/clause_load/$1"
}

invariant() { # FUNCTION LOOP FACT MODULE.NAME..: what holds at each turn of a loop
    local function="$1" loop="$2" fact="$3" word
    shift 3
    {
        for word in "$@"; do
            case "${word%%.*}" in
                Common) echo "use Rattle.std.proofs.Common.{${word#*.}}" ;;
                List) echo "use Rattle.std.specs.List.{${word#*.}}" ;;
                Lits) echo "use Rattle.clause_store.specs.Lits.{${word#*.}}" ;;
                Trees) echo "use Rattle.clause_circuits.specs.Trees.{${word#*.}}" ;;
                *) echo "use Rattle.criteria_totals.specs.${word%%.*}.{${word#*.}}" ;;
            esac
        done
        echo "use Rattle.clause_load.proofs.${function//\//.}.Given as goal"
        echo
        echo "abbrev pub invariant-loop-$loop : goal.invariant-loop-$loop"
        echo "invariant-loop-$loop l = $fact"
    } | made "proofs/$function/Invariants.antt"
}

if [ -z "${PROGRAM:-}" ]; then
    cp "$top/HANDLES" "$work/"
    mkdir -p "$work/crates"
    for name in plain_data reachability clause_store clause_circuits clause_formulas criteria_totals level_encoding; do
        cp -r "$top/crates/$name" "$work/crates/"
        grep "^$name:" "$top/crates.txt" >>"$work/crates.txt"
    done
    echo "clause_load: clause_store clause_circuits clause_formulas criteria_totals level_encoding anyhow" >>"$work/crates.txt"
    made src/main.rt <<'PART'
//! Makes large formulas, sums, totals and levels, and says how many variables and clauses they take: for
//! measuring. A line is `formula LEAVES`, `sum TERMS`, `totals LISTS TERMS`, or
//! `levels NUMBERS ARCS TARGETS SIZE`, where components have SIZE numbers each.
#![tactic(auto)]

mod loads;
mod networks;

use clause_store::ClauseList;
use std::alloc::{AllocError, Global};

fn main(rt: HostRuntime) -> anyhow::Result<()> {
    for line in rt.lines(rt.alloc()) {
        let text = answered(rt.alloc(), line?.as_str())?;
        println!(rt; "{text}")?;
    }
    Ok(())
}

fn answered(alloc: Global, line: &str) -> Result<String, AllocError> {
    let words: Vec<&str> = line.split_whitespace().collect(alloc)?;
    let mut clauses = ClauseList::new(alloc);
    match words.as_slice() {
        ["formula", leaves] => loads::formula(alloc, &mut clauses, count_of(leaves))?,
        ["sum", terms] => loads::sum(alloc, &mut clauses, count_of(terms))?,
        ["totals", lists, terms] => {
            loads::totals_of(alloc, &mut clauses, count_of(lists), count_of(terms))?
        }
        ["levels", numbers, arcs, targets, size] => networks::levels_of(
            alloc,
            &mut clauses,
            count_of(numbers),
            count_of(arcs),
            count_of(targets),
            count_of(size),
        )?,
        _ => {}
    }
    format!(in alloc; "{} variables, {} clauses", clauses.vars(), clauses.len())
}

fn count_of(word: &str) -> u64 {
    word.parse::<u64>().unwrap_or(0).min(10_000_000)
}
PART
    made src/loads.rt <<'PART'
//! What is made.
ghost use Rattle.std.specs.Prelude.{◌≡◌, ◌<◌, ◌^◌, IsTrue};
ghost use Rattle.clause_circuits.specs.Trees.{total, TermsBelow};
ghost use Rattle.criteria_totals.specs.Totals.{AllTermsBelow, tops};
ghost use Rattle.criteria_totals.specs.Spellings.{AllSmall};

use clause_formulas::{Formula, define, is_below};
use clause_store::{ClauseList, Lit, Var};
use criteria_totals::{Terms, sum_by_digits, totals};
use std::alloc::{AllocError, Global};

/// Defines a formula of so many leaves, each with a variable of its own: none-ofs of four below
/// one another, so about four thirds as many nodes.
pub fn formula(alloc: Global, clauses: &mut ClauseList, leaves: u64) -> Result<(), AllocError> {
    let mut parts = Vec::new(alloc);
    for x in 0..leaves {
        clauses.new_var()?;
        parts.push(Formula::lit(lit(x)))?;
    }
    // Four to the sixteenth leaves are more than there is memory for.
    for _round in 0..16 {
        if parts.len() > 1 {
            parts = by_four(alloc, parts)?;
        }
    }
    if let Some(formula) = parts.pop() {
        if is_below(&formula, clauses.vars()) {
            define(alloc, clauses, &formula)?;
        }
    }
    Ok(())
}

// A none-of of each four.
fn by_four(alloc: Global, parts: Vec<Formula>) -> Result<Vec<Formula>, AllocError> {
    let mut fours = Vec::new(alloc);
    let mut four = Vec::new(alloc);
    for part in parts {
        four.push(part)?;
        if four.len() == 4 {
            fours.push(Formula::any(four).negated())?;
            four = Vec::new(alloc);
        }
    }
    if four.len() > 0 {
        fours.push(Formula::any(four).negated())?;
    }
    Ok(fours)
}

/// A sum of so many terms, each with a variable of its own, of weights from 1 to 7.
pub fn sum(alloc: Global, clauses: &mut ClauseList, count: u64) -> Result<(), AllocError> {
    let terms = terms(alloc, clauses, count)?;
    if are_below(&terms, clauses.vars()) && are_small(&terms) {
        sum_by_digits(alloc, clauses, &terms)?;
    }
    Ok(())
}

/// So many such sums as totals.
pub fn totals_of(
    alloc: Global,
    clauses: &mut ClauseList,
    count: u64,
    terms_each: u64,
) -> Result<(), AllocError> {
    let mut lists = Vec::new(alloc);
    for _i in 0..count {
        lists.push(Terms::from_vec(terms(alloc, clauses, terms_each)?))?;
    }
    if all_below(&lists, clauses.vars()) && all_small(&lists) {
        totals(alloc, clauses, &lists)?;
    }
    Ok(())
}

fn lit(x: u64) -> Lit {
    Lit {
        var: Var(x),
        positive: x % 3 != 0,
    }
}

// Weighted literals of new variables.
fn terms(
    alloc: Global,
    clauses: &mut ClauseList,
    count: u64,
) -> Result<Vec<(u64, Lit)>, AllocError> {
    let mut terms = Vec::new(alloc);
    for i in 0..count {
        let x = clauses.new_var()?;
        terms.push((i % 7 + 1, lit(x.0)))?;
    }
    Ok(terms)
}

fn are_below(terms: &[(u64, Lit)], vars: u64) -> bool
    ensures { IsTrue result → TermsBelow vars terms.now }
{
    for term in terms {
        if term.1.var.0 >= vars {
            return false;
        }
    }
    true
}

// Whether the weights' sum is below 2^63.
fn are_small(terms: &[(u64, Lit)]) -> bool
    ensures { IsTrue result → total terms.now < 2 ^ 63 }
{
    let mut left = (1u64 << 63) - 1;
    for term in terms {
        if term.0 > left {
            return false;
        }
        left -= term.0;
    }
    true
}

fn all_below(lists: &[Terms], vars: u64) -> bool
    ensures { IsTrue result → AllTermsBelow vars lists.now }
{
    for terms in lists {
        if !are_below(terms.as_slice(), vars) {
            return false;
        }
    }
    true
}

fn all_small(lists: &[Terms]) -> bool
    ensures { IsTrue result → AllSmall (tops lists.now) }
{
    for terms in lists {
        if !are_small(terms.as_slice()) {
            return false;
        }
    }
    true
}
PART
    made src/networks.rt <<'PART'
//! Levels of large networks.
ghost use Rattle.std.specs.Prelude.{◌≡◌, ◌<◌, length, IfOk, IfSome};
ghost use Rattle.std.specs.List.{All};
ghost use Rattle.clause_store.specs.Lits.{var_of};

use clause_store::{ClauseList, Lit, Var};
use level_encoding::{Arc, levels};
use std::alloc::{AllocError, Global};

/// Levels of so many numbers and arcs, and paths from the first number to so many targets. Numbers
/// stand in rings of `size`; further arcs lead to later rings, or anywhere where there is one ring.
pub fn levels_of(
    alloc: Global,
    clauses: &mut ClauseList,
    numbers: u64,
    arcs: u64,
    targets: u64,
    size: u64,
) -> Result<(), AllocError> {
    for _i in 0..numbers {
        clauses.new_var()?;
    }
    for _i in 0..arcs {
        clauses.new_var()?;
    }
    let vars = clauses.vars();
    let nodes = nodes_of(alloc, numbers, vars)?;
    let arcs = arcs_of(alloc, arcs, nodes.len() as u64, size, vars)?;
    let asked = asked_of(alloc, targets, nodes.len() as u64)?;
    levels(
        alloc,
        clauses,
        nodes.as_slice(),
        &[0],
        arcs.as_slice(),
        asked.as_slice(),
    )?;
    Ok(())
}

fn nodes_of(alloc: Global, numbers: u64, vars: u64) -> Result<Vec<Lit>, AllocError>
    ensures { IfOk result (λ nodes. All (λ l. var_of l < vars) nodes.items) }
{
    let mut nodes = Vec::new(alloc);
    for i in 0..numbers {
        if let Some(lit) = lit_of(i, vars) {
            nodes.push(lit)?;
        }
    }
    Ok(nodes)
}

fn arcs_of(
    alloc: Global,
    count: u64,
    numbers: u64,
    size: u64,
    vars: u64,
) -> Result<Vec<Arc>, AllocError>
    ensures ends { IfOk result (λ arcs. All (λ a. (a.parent < numbers) × (a.child < numbers)) arcs.items) }
    ensures old { IfOk result (λ arcs. All (λ a. var_of a.lit < vars) arcs.items) }
{
    let mut arcs = Vec::new(alloc);
    for k in 0..count {
        if let Some(arc) = arc_of(k, numbers, size, vars) {
            arcs.push(arc)?;
        }
    }
    Ok(arcs)
}

fn asked_of(alloc: Global, targets: u64, numbers: u64) -> Result<Vec<(u64, u64)>, AllocError>
    ensures { IfOk result (λ pairs. All (λ pair. (pair.0 < numbers) × (pair.1 < numbers)) pairs.items) }
{
    let mut pairs = Vec::new(alloc);
    for k in 0..targets {
        if let Some(pair) = pair_of(0, k.wrapping_mul(13), numbers) {
            pairs.push(pair)?;
        }
    }
    Ok(pairs)
}

fn lit_of(x: u64, vars: u64) -> Option<Lit>
    ensures { IfSome result (λ lit. var_of lit < vars) }
{
    if x >= vars {
        return None;
    }
    Some(Lit {
        var: Var(x),
        positive: true,
    })
}

fn pair_of(first: u64, second: u64, numbers: u64) -> Option<(u64, u64)>
    ensures { IfSome result (λ pair. (pair.0 < numbers) × (pair.1 < numbers)) }
{
    if numbers == 0 {
        return None;
    }
    Some((first % numbers, second % numbers))
}

// The first arcs go round the rings; the others lead inside a ring or, every fourth, to a later one.
fn arc_of(k: u64, numbers: u64, size: u64, vars: u64) -> Option<Arc>
    ensures ends { IfSome result (λ a. (a.parent < numbers) × (a.child < numbers)) }
    ensures old { IfSome result (λ a. var_of a.lit < vars) }
{
    if numbers == 0 || size == 0 {
        return None;
    }
    let parent = k % numbers;
    let ring = parent - parent % size;
    let step = (k / numbers).wrapping_mul(37).wrapping_add(1);
    let inside = ring.wrapping_add((parent % size).wrapping_add(step) % size);
    let child = if k >= numbers && k % 4 == 0 {
        later_of(parent, step, numbers)
    } else {
        inside % numbers
    };
    let lit = lit_of(numbers.wrapping_add(k), vars)?;
    Some(Arc { parent, child, lit })
}

fn later_of(parent: u64, step: u64, numbers: u64) -> u64
    requires { parent < numbers }
    ensures { result < numbers }
{
    parent + step % (numbers - parent)
}
PART
    made specs/Lib.antt </dev/null
    made proofs/Lib.antt </dev/null
    invariant loads/all_below terms 'AllTermsBelow l.vars (drop l.terms-index l.lists) → AllTermsBelow l.vars l.lists' \
        Common.drop Totals.AllTermsBelow
    invariant loads/all_small terms 'AllSmall (tops (drop l.terms-index l.lists)) → AllSmall (tops l.lists)' \
        Common.drop Totals.tops Spellings.AllSmall
    invariant loads/are_below term 'TermsBelow l.vars (drop l.term-index l.terms) → TermsBelow l.vars l.terms' \
        Common.drop Trees.TermsBelow
    invariant loads/are_small term 'l.left + total l.terms + 1 ≡ 2 ^ 63 + total (drop l.term-index l.terms)' \
        Common.◌≡◌ Common.◌+◌ Common.◌^◌ Common.drop Trees.total
    invariant networks/arcs_of k \
        'All (λ a. (a.parent < l.numbers) × (a.child < l.numbers)) l.arcs.items × All (λ a. var_of a.lit < l.vars) l.arcs.items' \
        Common.◌'<'◌ List.All Lits.var_of
    invariant networks/asked_of k 'All (λ pair. (pair.0 < l.numbers) × (pair.1 < l.numbers)) l.pairs.items' \
        Common.◌'<'◌ List.All
    invariant networks/nodes_of i 'All (λ x. var_of x < l.vars) l.nodes.items' Common.◌'<'◌ List.All Lits.var_of
    (cd "$work/crates/clause_load" && "$rt" run </dev/null) >"$work/log" 2>&1 || { tail -20 "$work/log" >&2; exit 1; }
    PROGRAM="$work/crates/clause_load/out/clause_load"
fi

python3 - "$PROGRAM" <<'PYTHON'
import os, re, subprocess, sys

program = sys.argv[1]
ROWS = (
    ("formula of %d leaves", "formula %d", (187500, 375000, 750000)),
    ("sum of %d terms", "sum %d", (5000, 10000, 20000)),
    ("totals of 31 lists of %d terms", "totals 31 %d", (1250, 2500, 5000)),
    ("levels in one component of %d numbers with %d arcs", "levels %d %d 50 1000000", ((256, 7500), (512, 15000), (1024, 30000))),
    ("levels in components of 32, %d numbers with %d arcs", "levels %d %d 50 32", ((256, 7500), (512, 15000), (1024, 30000))),
)


def measured(line):
    """The best of three times, the most memory in bytes, and what the program says."""
    best, memory, said = None, 0, ""
    for _ in range(3):
        child = subprocess.Popen([program], stdin=subprocess.PIPE, stdout=subprocess.PIPE, text=True)
        child.stdin.write(line + "\n")
        child.stdin.close()
        said = child.stdout.read()
        _pid, status, used = os.wait4(child.pid, 0)
        assert status == 0, status
        child.returncode = 0
        seconds = used.ru_utime + used.ru_stime
        best = seconds if best is None else min(best, seconds)
        memory = max(memory, used.ru_maxrss * 1024)
    return best, memory, said.strip()


for name, line, sizes in ROWS:
    before = None
    for size in sizes:
        seconds, memory, said = measured(line % size)
        clauses = int(re.search(r"(\d+) clauses", said).group(1))
        ratio = "" if before is None else ", %.1f times the one before" % (seconds / before)
        print("%s: %.3f s%s; %s; %d MB, %d bytes a clause" % (name % size, seconds, ratio, said, memory // 1000000, memory // max(clauses, 1)))
        before = seconds
PYTHON
