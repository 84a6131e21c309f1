#!/bin/sh
# Measures a board, and passes on 1, 2 and 4 workers, at 2^18 nodes: `pass_scale.sh`. It writes a small program over
# ready_counters and visit_workers beside copies of the crates in a temporary folder, and proves, builds and runs it
# there. The last two lines are the most memory of a plan of about 2^22 edges alone, and with a board, in KiB. It needs
# `rt` and Python 3, and is no part of the gate. What a crate's out/ has kept is used again.
set -eu

top=$(cd "$(dirname "$0")/.." && pwd)
work=$(mktemp -d)
trap 'rm -rf "$work"' EXIT
mkdir -p "$work/crates/pass_scale/src" "$work/crates/pass_scale/specs" "$work/crates/pass_scale/proofs/shape/rises"
for crate in bp_faults bp_ports serial_pass pass_core ready_counters visit_workers; do
    mkdir -p "$work/crates/$crate/out"
    for part in src specs proofs; do
        cp -r "$top/crates/$crate/$part" "$work/crates/$crate/"
    done
    if [ -d "$top/crates/$crate/out/rlib" ]; then
        cp -r "$top/crates/$crate/out/rlib" "$work/crates/$crate/out/"
    fi
    grep "^$crate[ :]" "$top/crates.txt" >> "$work/crates.txt"
done
echo "pass_scale: bp_faults bp_ports serial_pass pass_core ready_counters visit_workers anyhow" >> "$work/crates.txt"
cp "$top/HANDLES" "$work/HANDLES"
cd "$work/crates/pass_scale"
cat > src/main.rt << 'END'
//! Measures a board, and passes on several workers, at the limits of a graph.
#![tactic(auto)]

ghost use Rattle.std.specs.Prelude.{◌≤◌};
ghost use Rattle.serial_pass.specs.Outcomes.{TakesPlan};
ghost use Rattle.serial_pass.specs.Plans.{IsPlan, HasNoCycle};

mod shape;
mod visitors;

use bp_faults::OutOfMemory;
use bp_ports::OpenGate;
use pass_core::{PassError, Plan, Visit, run_serial};
use ready_counters::Board;
use shape::{Shape, plan_of_shape, rises};
use std::alloc::Global;
use std::env;
use std::io;
use std::rt::Clock;
use std::thread::Threads;
use std::time::Instant;
use visit_workers::visit_all;
use visitors::{Empty, Slow};

/// Microseconds since a moment.
fn since(clock: &impl Clock, start: &Instant) -> io::Result<u128> {
    Ok(start.elapsed(clock)?.as_micros())
}

/// A board, made and dropped.
fn board_of(alloc: Global, plan: &Plan) -> Result<(), OutOfMemory>
    requires { IsPlan plan.now }
{
    let (_board, _seat) = Board::new(alloc, plan, &Empty)?;
    Ok(())
}

/// A pass on so many workers.
fn pass_of<R: Threads + Sync, V: Visit<Out: Send + Sync> + Sync>(
    rt: &R,
    alloc: Global,
    plan: &Plan,
    v: &V,
    workers: u32,
) -> Result<(), PassError>
    requires plan { IsPlan plan.now }
    requires free { HasNoCycle plan.now.edges }
    requires takes { TakesPlan (V.takes v.now) plan.now }
    requires workers { (1 ≤ workers) × (workers ≤ 64) }
{
    let _run = visit_all(rt, alloc, 0, plan, v, workers, &OpenGate)?;
    Ok(())
}

/// Makes the plan of most edges, and with it a board or none.
fn memory_of(alloc: Global, with_board: bool) -> Result<(), OutOfMemory> {
    let plan = plan_of_shape(alloc, Shape::Full)?;
    if with_board && rises(&plan) {
        board_of(alloc, &plan)?;
    }
    Ok(())
}

/// Measures a board and passes over plans of each shape.
fn times<R: Print + Clock + Threads + Sync + AllocGlobal>(rt: &R) -> anyhow::Result<()> {
    let alloc = rt.alloc();
    let shapes = [
        ("alone", Shape::Alone),
        ("wide", Shape::Wide),
        ("chain", Shape::Chain),
        ("blocks", Shape::Blocks),
        ("full", Shape::Full),
    ];
    for (name, shape) in shapes {
        let plan = plan_of_shape(alloc, shape)?;
        if !rises(&plan) {
            continue;
        }
        let many = plan.edges.as_slice().len();
        println!(rt; "{name}: {} nodes, {many} edges", plan.count)?;
        let start = Instant::now(rt)?;
        board_of(alloc, &plan)?;
        println!(rt; "  board made and dropped: {} us", since(rt, &start)?)?;
        let start = Instant::now(rt)?;
        let _outs = run_serial(alloc, &plan, &Empty)?;
        println!(rt; "  run_serial: {} us", since(rt, &start)?)?;
        for workers in [1, 2, 4] {
            let start = Instant::now(rt)?;
            pass_of(rt, alloc, &plan, &Empty, workers)?;
            println!(rt; "  visit_all, {workers} workers: {} us", since(rt, &start)?)?;
        }
        for workers in [1, 2, 4] {
            let start = Instant::now(rt)?;
            pass_of(rt, alloc, &plan, &Slow { clock: rt }, workers)?;
            println!(rt; "  visits of 20 us, {workers} workers: {} us", since(rt, &start)?)?;
        }
    }
    Ok(())
}

fn main(rt: HostRuntime) -> anyhow::Result<()> {
    let mut words = env::args(&rt)?;
    let _name = words.next();
    match words.next() {
        Some(word) if word.as_str() == "plan" => memory_of(rt.alloc(), false)?,
        Some(word) if word.as_str() == "board" => memory_of(rt.alloc(), true)?,
        _ => times(&rt)?,
    }
    Ok(())
}
END
cat > src/shape.rt << 'END'
ghost use Rattle.std.specs.Prelude.{◌<◌, IsTrue};
ghost use Rattle.serial_pass.specs.Plans.{IsPlan, HasNoCycle};

use bp_faults::{NodeId, OutOfMemory, Seq};
use pass_core::{Plan, PlanEdge};
use std::alloc::Global;

/// The nodes of every plan.
pub const NODES: u32 = 262_144;

/// How the edges of a plan lie.
#[derive(Clone, Copy)]
pub enum Shape {
    /// No edges.
    Alone,
    /// 4,096 nodes, and every other after four of them.
    Wide,
    /// Each node after the one before it.
    Chain,
    /// Blocks of 64, in each of which a node stands after the two before it.
    Blocks,
    /// Each node after the sixteen before it: 2^22 edges but few.
    Full,
}

fn push(edges: &mut Vec<PlanEdge>, from: u32, to: u32) -> Result<(), OutOfMemory> {
    edges.push(PlanEdge {
        from: NodeId(from),
        to: NodeId(to),
    })?;
    Ok(())
}

/// Puts the edges into a node.
fn push_into(edges: &mut Vec<PlanEdge>, shape: Shape, to: u32) -> Result<(), OutOfMemory>
    requires { to < 262144 }
{
    match shape {
        Shape::Alone => Ok(()),
        Shape::Wide => {
            if to >= 4_096 {
                for k in 0..4 {
                    push(edges, (to % 1_024) + 1_024 * k, to)?;
                }
            }
            Ok(())
        }
        Shape::Chain => {
            if to > 0 {
                push(edges, to - 1, to)?;
            }
            Ok(())
        }
        Shape::Blocks => {
            if to % 64 > 1 {
                push(edges, to - 2, to)?;
            }
            if to % 64 > 0 {
                push(edges, to - 1, to)?;
            }
            Ok(())
        }
        Shape::Full => {
            if to >= 16 {
                for k in 0..16 {
                    push(edges, to - 16 + k, to)?;
                }
            }
            Ok(())
        }
    }
}

pub fn plan_of_shape(alloc: Global, shape: Shape) -> Result<Plan, OutOfMemory> {
    let mut edges = Vec::new(alloc);
    for to in 0..NODES {
        push_into(&mut edges, shape, to)?;
    }
    Ok(Plan {
        count: NODES,
        edges: Seq::new(edges),
    })
}

/// Whether the edges stand by target and each leads to a greater node.
pub fn rises(plan: &Plan) -> bool
    ensures plan { IsTrue result → IsPlan plan.now }
    ensures free { IsTrue result → HasNoCycle plan.now.edges }
{
    let mut target = 0;
    for edge in plan.edges.as_slice() {
        if edge.to.0 < target || edge.to.0 <= edge.from.0 || edge.to.0 >= plan.count {
            return false;
        }
        target = edge.to.0;
    }
    plan.edges.as_slice().len() < 1 << 32
}
END
cat > src/visitors.rt << 'END'
ghost use Rattle.std.specs.Prelude.{Ok, ⊤};

use bp_faults::NodeId;
use pass_core::{Visit, VisitError};
use std::alloc::Global;
use std::rt::Clock;
use std::sync::Arc;
use std::time::Instant;

/// Makes nothing.
#[derive(Drop)]
pub struct Empty;

impl Visit for Empty {
    type Out = u32;

    ghost meaning = { λ _ _ _. Ok 0 };

    ghost takes = { λ _ _ _. ⊤ };

    fn visit(&self, _alloc: Global, _n: NodeId, _ins: &[Arc<u32>]) -> Result<u32, VisitError> {
        Ok(0)
    }
}

/// Makes nothing in about twenty microseconds.
#[derive(Drop)]
pub struct Slow<'a, R: Clock> {
    pub clock: &'a R,
}

impl<'a, R: Clock> Visit for Slow<'a, R> {
    type Out = u32;

    ghost meaning = { λ _ _ _. Ok 0 };

    ghost takes = { λ _ _ _. ⊤ };

    fn visit(&self, _alloc: Global, _n: NodeId, _ins: &[Arc<u32>]) -> Result<u32, VisitError> {
        if let Ok(start) = Instant::now(self.clock) {
            for _turn in 0..100_000 {
                match start.elapsed(self.clock) {
                    Ok(passed) if passed.as_micros() < 20 => (),
                    _ => break,
                }
            }
        }
        Ok(0)
    }
}
END
cat > proofs/shape/rises/Invariants.antt << 'END'
use Rattle.std.proofs.Common.{◌<◌, ◌≤◌, ℕ, List, take}
use Rattle.std.specs.List.{AllByRecursion}
use Rattle.serial_pass.specs.declared.plan.PlanEdge.{PlanEdge}
use Rattle.serial_pass.specs.Plans.{HaveEndsBelow, StandByTarget}
use Rattle.pass_scale.proofs.shape.rises.Given as goal

pub record Rises (count target : ℕ) (es : List PlanEdge) : Type 0 where
  pub ends : HaveEndsBelow count es
  pub by_target : StandByTarget es
  pub least : AllByRecursion (λ (e : PlanEdge). e.to.0 ≤ target) es
  pub rising : AllByRecursion (λ (e : PlanEdge). e.from.0 < e.to.0) es

abbrev pub invariant-loop-edge : goal.invariant-loop-edge
invariant-loop-edge l = Rises l.plan.count l.target (take l.edge-index l.edge-items)
END
cat > proofs/shape/rises/Answers.antt << 'END'
use Rattle.std.proofs.Common.{◌≡◌, ◌<◌, ◌≤◌, ◌-◌, ◌++◌, ◌∙◌, ℕ, List, [], ◌∷◌, length, take, ap, subst, arith}
use Rattle.std.specs.List.{AllByRecursion}
use Rattle.std.proofs.Math.Seq.{take-length}
use Rattle.std.proofs.lemmas.List.{take_more}
use Rattle.serial_pass.specs.declared.plan.PlanEdge.{PlanEdge}
use Rattle.serial_pass.specs.Plans.{StandByTarget, HasNoCycle}
use Rattle.pass_scale.proofs.shape.rises.Invariants.{Rises}
use Rattle.bp_faults.proofs.Lists.{all_map, all_pushed}
use Rattle.pass_scale.proofs.shape.rises.Goals as goal

by_target_pushed : (es : List PlanEdge) (e : PlanEdge) → StandByTarget es → AllByRecursion (λ (x : PlanEdge). x.to.0 ≤ e.to.0) es → StandByTarget (es ++ e ∷ [])
by_target_pushed [] e by least = (tt, tt)
by_target_pushed (x ∷ xs) e by least = (all_pushed (λ (later : PlanEdge). x.to.0 ≤ later.to.0) xs e by.0 least.0, by_target_pushed xs e by.1 least.1)

rises_more : (count target : ℕ) (es : List PlanEdge) (e : PlanEdge) → Rises count target es → target ≤ e.to.0
    → e.from.0 < e.to.0 → e.to.0 < count → Rises count e.to.0 (es ++ e ∷ [])
rises_more count target es e h le lt inside =
    let least : AllByRecursion (λ (x : PlanEdge). x.to.0 ≤ e.to.0) es =
        all_map (λ (x : PlanEdge). x.to.0 ≤ target) (λ (x : PlanEdge). x.to.0 ≤ e.to.0) (λ x below. omega arith) es h.least in
    record {
      ends = all_pushed (λ (x : PlanEdge). (x.from.0 < count) × (x.to.0 < count)) es e h.ends (omega arith, inside);
      by_target = by_target_pushed es e h.by_target least;
      least = all_pushed (λ (x : PlanEdge). x.to.0 ≤ e.to.0) es e least (omega arith);
      rising = all_pushed (λ (x : PlanEdge). x.from.0 < x.to.0) es e h.rising lt;
    }

free_of_cycles : (count target : ℕ) (es : List PlanEdge) → Rises count target es → HasNoCycle es
free_of_cycles count target es h = record { rank = λ n. n; rises = h.rising }

pub loop-edge-preserved : goal.loop-edge-preserved
loop-edge-preserved c =
    rw (take_more c.as_slice-edge-items.result.now c.loop-edge.edge-index (record { from = record { 0 = 0 }; to = record { 0 = 0 } }) c.loop-edge-test.true)
    (rises_more c.args.plan.now.count c.loop-edge.target (take c.loop-edge.edge-index c.as_slice-edge-items.result.now) _ c.loop-edge.invariant c.if-edge-target.false c.if-edge.false c.if-edge-plan.false)

pub returns-clause-free : goal.returns-clause-free
returns-clause-free c few =
    let whole : c.loop-edge.edge-index ≡ length c.as_slice-edge-items.result.now = omega arith in
    subst (λ es. HasNoCycle es) (ap (λ i. take i c.as_slice-edge-items.result.now) whole ∙ take-length c.as_slice-edge-items.result.now ∙ c.as_slice-edge-items.ensures)
    (free_of_cycles c.args.plan.now.count c.loop-edge.target (take c.loop-edge.edge-index c.as_slice-edge-items.result.now) c.loop-edge.invariant)
END
touch specs/Lib.antt proofs/Lib.antt
rt run
for what in plan board; do
    python3 - out/pass_scale $what << 'END'
import resource, subprocess, sys
subprocess.run(sys.argv[1:], check=True)
print(sys.argv[2], resource.getrusage(resource.RUSAGE_CHILDREN).ru_maxrss)
END
done
