#!/bin/sh
# Measures passes of rules at the limits of a graph: `kind_scale.sh`. It writes a small program over mutator_kinds and
# transition_rules beside copies of the crates in a temporary folder, and proves, builds and runs it there: a rule that
# answers a copy over 2^18 nodes with about 2^20 edges, on 1, 2 and 4 workers, and a transition in which each of 2^17
# nodes gets a second variant. It needs `rt` and Python 3, and is no part of the gate. What a crate's out/ has kept is
# used again.
set -eu

top=$(cd "$(dirname "$0")/.." && pwd)
work=$(mktemp -d)
trap 'rm -rf "$work"' EXIT
mkdir -p "$work/crates/kind_scale/src" "$work/crates/kind_scale/specs" "$work/crates/kind_scale/proofs"
for crate in bp_faults bp_ports serial_pass pass_core graph_nodes module_graph ready_counters visit_workers pass_ways \
    mutator_rules variant_graphs mutator_kinds transition_rules; do
    mkdir -p "$work/crates/$crate/out"
    for part in src specs proofs; do
        cp -r "$top/crates/$crate/$part" "$work/crates/$crate/"
    done
    if [ -d "$top/crates/$crate/out/rlib" ]; then
        cp -r "$top/crates/$crate/out/rlib" "$work/crates/$crate/out/"
    fi
    grep "^$crate[ :]" "$top/crates.txt" >> "$work/crates.txt"
done
echo "kind_scale: bp_faults bp_ports serial_pass pass_core graph_nodes module_graph mutator_rules variant_graphs" \
    "mutator_kinds transition_rules anyhow" >> "$work/crates.txt"
cp "$top/HANDLES" "$work/HANDLES"
cd "$work/crates/kind_scale"
cat > src/main.rt << 'END'
//! Measures passes of rules at the limits of a graph.
#![tactic(auto)]

ghost use Rattle.std.specs.Prelude.{◌≤◌};

mod copies;
mod made;
mod targets;

use copies::copied;
use made::{SmallRule, graph_of, transitioned};
use std::alloc::Global;
use std::io;
use std::rt::Clock;
use std::thread::Threads;
use std::time::Instant;
use targets::{Shape, lists_of, targets_of};

const NONE: u32 = u32::MAX;

/// Milliseconds since a moment.
fn since(clock: &impl Clock, start: &Instant) -> io::Result<u128> {
    Ok(start.elapsed(clock)?.as_millis())
}

fn run_copies<R: Threads + Clock + Sync>(rt: &R, alloc: Global, workers: u32) -> anyhow::Result<(usize, u128)>
    requires { (1 ≤ workers) × (workers ≤ 64) }
{
    let flat = targets_of(alloc, Shape::Scattered, 1 << 18)?;
    let lists = lists_of(alloc, &flat)?;
    if lists.len() >= 300_000 {
        return Ok((0, 0));
    }
    let g = graph_of(alloc, &lists)?;
    let start = Instant::now(rt)?;
    let made = copied(rt, alloc, g, workers)?;
    Ok((made.graph.nodes.as_slice().len(), since(rt, &start)?))
}

fn run_wants<R: Threads + Clock + Sync>(rt: &R, alloc: Global) -> anyhow::Result<(usize, u128)> {
    let flat = targets_of(alloc, Shape::Tree, 1 << 17)?;
    let lists = lists_of(alloc, &flat)?;
    if lists.len() >= 300_000 {
        return Ok((0, 0));
    }
    let g = graph_of(alloc, &lists)?;
    let rule = SmallRule {
        vendor: (1 << 17) - 1,
        recovery: NONE,
        stops: NONE,
    };
    let start = Instant::now(rt)?;
    let made = transitioned(rt, alloc, g, &rule)?;
    Ok((made.graph.nodes.as_slice().len(), since(rt, &start)?))
}

fn main(rt: HostRuntime) -> anyhow::Result<()> {
    let alloc = rt.alloc();
    for workers in [1u32, 2, 4] {
        if workers == 0 || workers > 64 {
            continue;
        }
        let (nodes, passed) = run_copies(&rt, alloc, workers)?;
        println!(rt; "a copy of each of {nodes} nodes, {workers} workers: {passed} ms")?;
    }
    let (nodes, passed) = run_wants(&rt, alloc)?;
    println!(rt; "a transition to {nodes} nodes, 2 workers: {passed} ms")?;
    Ok(())
}
END
cat > src/targets.rt << 'END'
use bp_faults::OutOfMemory;
use std::alloc::Global;

/// Which nodes a node leads to.
#[derive(Clone, Copy)]
pub enum Shape {
    /// Four nodes below it, here and there.
    Scattered,
    /// Four nodes of its own, so that the last node leads to all.
    Tree,
}

fn target(shape: Shape, count: u32, n: u32, k: u32) -> u32 {
    match shape {
        Shape::Scattered => {
            if n == 0 {
                return u32::MAX;
            }
            n.wrapping_sub(1 + k.wrapping_mul(4_099) % n)
        }
        Shape::Tree => {
            let place = count.wrapping_sub(1).wrapping_sub(n);
            let child = place.wrapping_mul(4).wrapping_add(k).wrapping_add(1);
            if child < count {
                count.wrapping_sub(1).wrapping_sub(child)
            } else {
                u32::MAX
            }
        }
    }
}

/// Four targets for each of so many nodes, one after another. `u32::MAX` stands for none.
pub fn targets_of(alloc: Global, shape: Shape, count: u32) -> Result<Vec<u32>, OutOfMemory> {
    let mut flat = Vec::new(alloc);
    for n in 0..count {
        for k in 0..4u32 {
            flat.push(target(shape, count, n, k))?;
        }
    }
    Ok(flat)
}

/// The targets of each node.
pub fn lists_of(alloc: Global, flat: &[u32]) -> Result<Vec<&[u32]>, OutOfMemory> {
    let mut lists = Vec::new(alloc);
    for list in flat.chunks(4) {
        lists.push(list)?;
    }
    Ok(lists)
}
END
cat > src/copies.rt << 'END'
ghost use Rattle.std.specs.Prelude.{◌≤◌, ◌<◌, length, ⊤};
ghost use Rattle.module_graph.specs.Graphs.{IsValid};
ghost use Rattle.mutator_rules.specs.Conditions.{MayRun};

use bp_faults::{NodeId, Seq};
use bp_ports::OpenGate;
use module_graph::{Axis, Graph, Variation};
use mutator_kinds::{PassGraph, run_bottom_up};
use mutator_rules::{BottomUp, KindError, Split};
use pass_core::VisitError;
use std::alloc::Global;
use std::sync::Arc;
use std::thread::Threads;

/// Each node answers a copy of what it holds.
#[derive(Drop)]
struct Copies;

impl BottomUp<NodeId> for Copies {
    ghost use Rattle.std.specs.Prelude.{None};
    ghost use Rattle.kind_scale.specs.Copies.{copy_at, copy_shaped};

    ghost splits_along = { λ _. None };

    ghost meaning = { λ _ nodes n _. copy_at nodes n };

    ghost accepts = { λ _ _. ⊤ };

    fn axis(&self) -> Option<Axis> {
        None
    }

    fn visit(
        &self,
        alloc: Global,
        g: &Graph<NodeId>,
        n: NodeId,
        _ins: &[Arc<Split<NodeId>>],
    ) -> Result<Split<NodeId>, VisitError> {
        let mut variants = Vec::new(alloc);
        variants.push((Variation::Empty, g.nodes.as_slice()[n.0 as usize].payload))?;
        Ok(Split {
            variants: Seq::new(variants),
            requests: Seq::new(Vec::new(alloc)),
        })
    }

    ghost shaped = { λ _ nodes n _ made is. copy_shaped nodes n made is };
}

pub fn copied<R: Threads + Sync>(
    rt: &R,
    alloc: Global,
    g: Graph<NodeId>,
    workers: u32,
) -> Result<PassGraph<NodeId>, KindError>
    requires valid { IsValid g.nodes }
    requires may { MayRun (λ _. ⊤) g.nodes }
    requires workers { (1 ≤ workers) × (workers ≤ 64) }
{
    run_bottom_up(rt, alloc, 1, g, &Copies, workers, &OpenGate)
}
END
cat > specs/Copies.antt << 'END'
-- What the copying rule answers.
use Rattle.std.specs.Prelude.{◌≡◌, ℕ, List, [], ◌∷◌, None, Result, Ok, Err, slice_index_or, slice_get}
use Rattle.std.specs.Option.{option_map_or}
use Rattle.std.proofs.Common.{ap, subst, refl}
use Rattle.bp_faults.specs.declared.fault.Fault.{Fault}
use Rattle.bp_faults.specs.declared.ids.NodeId.{NodeId}
use Rattle.graph_nodes.specs.declared.graph.Node.{Node}
use Rattle.graph_nodes.specs.declared.variation.Variation.TheVariants.{Empty}
use Rattle.mutator_rules.specs.declared.split.Split.{Split}
use Rattle.mutator_rules.specs.Shapes.{HasShape}

-- What a node holds.
abbrev pub held_at : List (Node NodeId) → ℕ → NodeId
held_at nodes n = option_map_or (λ (x : Node NodeId). x.payload) (slice_get nodes n) (record { 0 = 0 })

-- The one variant, with a copy of it.
abbrev pub copy_at : List (Node NodeId) → ℕ → Result (Split NodeId) Fault
copy_at nodes n = Ok (record { variants = (Empty, held_at nodes n) ∷ []; requests = [] })

made_or : Split NodeId → Result (Split NodeId) Fault → Split NodeId
made_or d (Ok made) = made
made_or d (Err fault) = d

-- A result has one variant.
pub copy_shaped : (nodes : List (Node NodeId)) (n : ℕ) (made : Split NodeId) → copy_at nodes n ≡ Ok made
    → HasShape None made
unfolding made_or
copy_shaped nodes n made is = subst (λ (s : Split NodeId). HasShape None s) (ap (made_or made) is) refl
END
# The rule and the graphs are those of the tests of transition_rules, with their proofs, for more nodes.
python3 - "$top/crates/mutator_tests" << 'END'
import os, re, shutil, sys
own = sys.argv[1]

def moved(text):
    text = re.sub(r"(< |< *)100\b", "< 300000", text)
    text = text.replace("mutator_tests.proofs.transitions", "kind_scale.proofs.made")
    return re.sub(r"mutator_tests\.(specs|proofs)\.(Transitions|BareNodes)", r"kind_scale.\1.\2", text)

tests = open(f"{own}/src/transitions.rt").read()
head = tests[: tests.index("/// Each node has the empty variation; one")].replace("//! Which", "// Which")
head = re.sub(r"use transition_rules::\{TransitionGraph, laws, run_transition\};", "use transition_rules::{TransitionGraph, run_transition};", head)
head = re.sub(r"use std::test::Fail;\n", "", head)
body = tests[tests.index("/// Each node has the empty variation; one") : tests.index("const EMPTY: Variation")]
last = re.search(r"/// Runs the small rule on two workers\.\n.*?\n}\n", tests, re.S)[0]
text = head + body + last
text = text.replace("struct SmallRule {\n    vendor", "pub struct SmallRule {\n    pub vendor").replace("    recovery: u32,\n    stops: u32,", "    pub recovery: u32,\n    pub stops: u32,")
text = text.replace("fn graph_of", "pub fn graph_of").replace("fn transitioned", "pub fn transitioned")
open("src/made.rt", "w").write(moved(text))
for path in ("specs/Transitions.antt", "proofs/BareNodes.antt"):
    open(path, "w").write(moved(open(f"{own}/{path}").read()))
for name in os.listdir(f"{own}/proofs/transitions"):
    os.makedirs(f"proofs/made/{name}")
    for file in os.listdir(f"{own}/proofs/transitions/{name}"):
        open(f"proofs/made/{name}/{file}", "w").write(moved(open(f"{own}/proofs/transitions/{name}/{file}").read()))
END
printf 'pub mod Copies\npub mod Transitions\n' > specs/Lib.antt
printf 'pub mod BareNodes\n' > proofs/Lib.antt
rt run
