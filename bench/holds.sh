#!/usr/bin/env bash
# Times a condition with three parts after `^` in a graph, by a proved program over the built crates: graphs of 256, 512 and 1,024 nodes with
# 20 edges each, which are searched once for all parts. Each number is in microseconds, of one question; the last line gives the ratios of a
# doubling. At 1,024 nodes a question is to take less than 5,000; it takes 2,900 where all processors are busy (520 and 1,250 at the smaller
# ones), where a search for each part took 14,000.
#
#   bench/holds.sh
#
# It proves the crates below where nothing of them is kept, so its first run takes some minutes.
set -euo pipefail

top="$(cd "$(dirname "${BASH_SOURCE[0]}")/.." && pwd)"
rt="$(command -v rt || echo /opt/rattle/bin/rt)"
work="$(mktemp -d)"
trap 'rm -rf "$work"' EXIT

crates="plain_data spec_hash variant_values version_order spec_grammar reachability keyed_lists target_table graph_core recipe_data virtuals condition_rules site_settings"
mkdir -p "$work/crates/holds_bench/src"
cp "$top/HANDLES" "$work/"
for name in $crates; do
    cp -r "$top/crates/$name" "$work/crates/"
    grep "^$name:" "$top/crates.txt" >>"$work/crates.txt"
done
echo "holds_bench: plain_data version_order spec_grammar graph_core recipe_data virtuals condition_rules site_settings anyhow" >>"$work/crates.txt"
cat >"$work/crates/holds_bench/src/main.rt" <<'PROGRAM'
//! Times of conditions in graphs.
#![tactic(auto)]

use condition_rules::{Paths, World, holds};
use graph_core::{Edge, Graph, Kinds, Node, Origin};
use plain_data::{List, Word};
use recipe_data::Recipe;
use site_settings::Settings;
use spec_grammar::{Spec, read_condition};
use std::alloc::{AllocError, Global};
use std::time::Instant;
use version_order::{Version, VersionFault};
use virtuals::Providers;

fn name_of(alloc: Global, number: u64) -> Result<Word, AllocError> {
    let text = format!(in alloc; "package{number}")?;
    Word::new(alloc, text.as_str())
}

fn node_of(alloc: Global, number: u64) -> Result<Node, VersionFault> {
    let version = Version::read(alloc, "1.0")?;
    Ok(Node {
        name: name_of(alloc, number)?,
        version,
        variants: List::new(alloc),
        compiler: None,
        os: Word::new(alloc, "linux")?,
        target: Word::new(alloc, "x86_64")?,
        prefix: None,
        origin: Origin::Built,
    })
}

fn edge_of(alloc: Global, from: u64, to: u64) -> Result<Edge, AllocError> {
    let parent = name_of(alloc, from)?;
    let child = name_of(alloc, to)?;
    Ok(Edge {
        parent,
        child,
        kinds: Kinds {
            build: false,
            link: true,
            run: false,
        },
    })
}

fn graph_of(alloc: Global, nodes: u64) -> Result<Graph, VersionFault> {
    let mut graph = Graph::new(alloc);
    if nodes == 0 {
        return Ok(graph);
    }
    for number in 0..nodes {
        graph.add_node(node_of(alloc, number)?)?;
    }
    for number in 0..nodes {
        for step in 1u64..21 {
            let to = number.wrapping_add(step.wrapping_mul(step)) % nodes;
            graph.add_edge(edge_of(alloc, number, to)?)?;
        }
    }
    Ok(graph)
}

fn asked(rt: &HostRuntime, world: &World, graph: &Graph, spec: &Spec) -> anyhow::Result<u128> {
    let begun = Instant::now(rt)?;
    let mut found = 0u64;
    for _ in 0..10 {
        if holds(rt.alloc(), world, spec, graph, "package0")? {
            found = found.wrapping_add(1);
        }
    }
    let spent = begun.elapsed(rt)?.as_micros();
    println!(rt; "found {found}")?;
    Ok(spent / 10)
}

fn time_graph(rt: &HostRuntime, nodes: u64) -> anyhow::Result<()> {
    let alloc = rt.alloc();
    let graph = graph_of(alloc, nodes)?;
    let settings = Settings::standard(alloc)?;
    let recipes: &[Recipe] = &[];
    let providers = Providers::of_recipes(alloc, recipes)?;
    let world = World::new(settings.platform.as_str(), &settings.targets, recipes, &providers);
    let last = nodes.saturating_sub(1);
    let middle = nodes / 2;
    let text = format!(in alloc; "@1 ^package{last}@1 ^package{middle}@1 ^package1@1")?;
    let spec = read_condition(alloc, text.as_str())?;
    let search = asked(rt, &world, &graph, &spec)?;
    let edges = graph.edges().len();
    println!(rt; "graph {nodes} nodes {edges} edges: search {search}")?;
    Ok(())
}

fn main(rt: HostRuntime) -> anyhow::Result<()> {
    for nodes in [256u64, 512, 1024] {
        time_graph(&rt, nodes)?;
    }
    Ok(())
}
PROGRAM
mkdir -p "$work/crates/holds_bench/proofs/time_graph"
cat >"$work/crates/holds_bench/proofs/time_graph/Answers.antt" <<'ANSWERS'
use Rattle.std.specs.List.Sorted.{IsStrictlySortedBy}
use Rattle.holds_bench.proofs.time_graph.Goals as goal

pub new-world-requires-clause-order : goal.new-world-requires-clause-order
unfolding IsStrictlySortedBy
new-world-requires-clause-order c = tt
ANSWERS
cd "$work/crates/holds_bench"
"$rt" run 2>"$work/log" | awk '
    /^graph / { print; search[++g] = $7 }
    function ratio(a, i) { return a[i - 1] ? sprintf(" %.2f", a[i] / a[i - 1]) : " -" }
    END {
        if (!g) exit 1
        print "ratios: search" ratio(search, 2) ratio(search, 3)
    }' || { tail -20 "$work/log" >&2; exit 1; }
