#!/usr/bin/env bash
# Times graphs and tables of targets, by a proved program over the built crates: a graph of 256, 512 and
# 1,024 nodes with 20 edges each is built, searched once (`reaches`), all its paths are found (`Reach`) and
# asked a thousand times; a chain of 250, 500 and 1,000 targets becomes a table and is asked a thousand
# times. Each number is in microseconds; the last line gives the ratios of a doubling. Building and one
# search are to grow by a little over 2, all paths by about 4.
#
#   bench/graphs.sh
#
# It proves the crates below where nothing of them is kept, so its first run takes some minutes.
set -euo pipefail

top="$(cd "$(dirname "${BASH_SOURCE[0]}")/.." && pwd)"
rt="$(command -v rt || echo /opt/rattle/bin/rt)"
work="$(mktemp -d)"
trap 'rm -rf "$work"' EXIT

crates="plain_data spec_hash variant_values version_order reachability keyed_lists target_table graph_core"
mkdir -p "$work/crates/graph_bench/src"
cp "$top/HANDLES" "$work/"
for name in $crates; do
    cp -r "$top/crates/$name" "$work/crates/"
    grep "^$name:" "$top/crates.txt" >>"$work/crates.txt"
done
echo "graph_bench: plain_data variant_values version_order target_table graph_core anyhow" >>"$work/crates.txt"
cat >"$work/crates/graph_bench/src/main.rt" <<'PROGRAM'
//! Times of graphs and targets.
#![tactic(auto)]

use graph_core::{Edge, Graph, Kinds, Node, Origin, Reach, reaches};
use plain_data::{List, Word};
use std::alloc::{AllocError, Global};
use std::time::Instant;
use target_table::{TargetEntry, TargetFault, TargetTable};
use version_order::{Version, VersionFault};

fn name_of(alloc: Global, number: u64) -> Result<Word, AllocError> {
    let text = format!(in alloc; "package{number}")?;
    Word::new(alloc, text.as_str())
}

fn node_of(alloc: Global, number: u64) -> Result<Node, VersionFault> {
    let version = Version::read(alloc, "1.0")?;
    Ok(Node {
        name: name_of(alloc, number)?,
        version,
        variants: List::new(alloc),
        compiler: None,
        os: Word::new(alloc, "linux")?,
        target: Word::new(alloc, "x86_64")?,
        prefix: None,
        origin: Origin::Built,
    })
}

fn edge_of(alloc: Global, from: u64, to: u64) -> Result<Edge, AllocError> {
    let parent = name_of(alloc, from)?;
    let child = name_of(alloc, to)?;
    Ok(Edge {
        parent,
        child,
        kinds: Kinds {
            build: false,
            link: true,
            run: false,
        },
    })
}

fn graph_of(alloc: Global, nodes: u64) -> Result<Graph, VersionFault> {
    let mut graph = Graph::new(alloc);
    if nodes == 0 {
        return Ok(graph);
    }
    for number in 0..nodes {
        graph.add_node(node_of(alloc, number)?)?;
    }
    for number in 0..nodes {
        for step in 1u64..21 {
            let to = number.wrapping_add(step.wrapping_mul(step)) % nodes;
            graph.add_edge(edge_of(alloc, number, to)?)?;
        }
    }
    Ok(graph)
}

fn chain_of(alloc: Global, targets: u64) -> Result<TargetTable, TargetFault> {
    let mut entries = List::new(alloc);
    for number in 0..targets {
        let name = name_of(alloc, number)?;
        let mut parents = List::new(alloc);
        if number > 0 {
            parents.push(name_of(alloc, number.wrapping_sub(1))?)?;
        }
        entries.push(TargetEntry { name, parents })?;
    }
    TargetTable::new(alloc, entries)
}

fn ask_paths(reach: &Reach, last: &str) -> u64 {
    let mut found = 0u64;
    for _ in 0..1000 {
        if reach.leads("package0", last) {
            found = found.wrapping_add(1);
        }
    }
    found
}

fn ask_targets(table: &TargetTable, last: &str) -> u64 {
    let mut found = 0u64;
    for _ in 0..1000 {
        if table.at_least(last, "package0") {
            found = found.wrapping_add(1);
        }
    }
    found
}

fn time_graph(rt: &HostRuntime, nodes: u64) -> anyhow::Result<()> {
    let alloc = rt.alloc();
    let last = name_of(alloc, nodes.saturating_sub(1))?;
    let begun = Instant::now(rt)?;
    let graph = graph_of(alloc, nodes)?;
    let build = begun.elapsed(rt)?.as_micros();
    let begun = Instant::now(rt)?;
    let is = reaches(alloc, &graph, "package0", last.as_str())?;
    let search = begun.elapsed(rt)?.as_micros();
    let begun = Instant::now(rt)?;
    let reach = Reach::new(alloc, &graph)?;
    let all = begun.elapsed(rt)?.as_micros();
    let begun = Instant::now(rt)?;
    let found = ask_paths(&reach, last.as_str());
    let asked = begun.elapsed(rt)?.as_micros();
    let edges = graph.edges().len();
    println!(rt; "graph {nodes} nodes {edges} edges: build {build} search {search} all {all} asked {asked} ({is}, {found})")?;
    Ok(())
}

fn time_targets(rt: &HostRuntime, targets: u64) -> anyhow::Result<()> {
    let alloc = rt.alloc();
    let last = name_of(alloc, targets.saturating_sub(1))?;
    let begun = Instant::now(rt)?;
    let table = chain_of(alloc, targets)?;
    let build = begun.elapsed(rt)?.as_micros();
    let begun = Instant::now(rt)?;
    let found = ask_targets(&table, last.as_str());
    let asked = begun.elapsed(rt)?.as_micros();
    println!(rt; "chain {targets} targets: build {build} asked {asked} ({found})")?;
    Ok(())
}

fn main(rt: HostRuntime) -> anyhow::Result<()> {
    for nodes in [256u64, 512, 1024] {
        time_graph(&rt, nodes)?;
    }
    for targets in [250u64, 500, 1000] {
        time_targets(&rt, targets)?;
    }
    Ok(())
}
PROGRAM
cd "$work/crates/graph_bench"
"$rt" run 2>"$work/log" | awk '
    /^graph / { print; build[++g] = $7; search[g] = $9; all[g] = $11 }
    /^chain / { print; chain[++c] = $5 }
    function ratio(a, i) { return a[i - 1] ? sprintf(" %.2f", a[i] / a[i - 1]) : " -" }
    END {
        if (!g) exit 1
        print "ratios: build" ratio(build, 2) ratio(build, 3) ", search" ratio(search, 2) ratio(search, 3) \
            ", all" ratio(all, 2) ratio(all, 3) ", chain" ratio(chain, 2) ratio(chain, 3)
    }' || { tail -20 "$work/log" >&2; exit 1; }
