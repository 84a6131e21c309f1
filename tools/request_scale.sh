#!/bin/sh
# Measures requests at the limits of a graph: `request_scale.sh`. It writes a small program over reverse_deps beside
# copies of the crates in a temporary folder, and proves, builds and runs it there: 2^17 modules with two nodes each
# ask for 2^21 edges. It needs `rt` and Python 3, and is no part of the gate. What a crate's out/ has kept is used again.
set -eu

top=$(cd "$(dirname "$0")/.." && pwd)
work=$(mktemp -d)
trap 'rm -rf "$work"' EXIT
mkdir -p "$work/crates/request_scale/src" "$work/crates/request_scale/specs"
mkdir -p "$work/crates/request_scale/proofs/checks"
for crate in bp_faults bp_names name_index bp_props serial_pass pass_core graph_nodes module_graph mutator_rules \
    reverse_deps; do
    mkdir -p "$work/crates/$crate/out"
    for part in src specs proofs; do
        cp -r "$top/crates/$crate/$part" "$work/crates/$crate/"
    done
    if [ -d "$top/crates/$crate/out/rlib" ]; then
        cp -r "$top/crates/$crate/out/rlib" "$work/crates/$crate/out/"
    fi
    grep "^$crate[ :]" "$top/crates.txt" >> "$work/crates.txt"
done
echo "request_scale: bp_faults bp_props serial_pass pass_core graph_nodes module_graph mutator_rules reverse_deps anyhow" \
    >> "$work/crates.txt"
cp "$top/HANDLES" "$work/HANDLES"
cd "$work/crates/request_scale"
cat > src/main.rt << 'END'
//! Measures what requests cost at the limits of a graph.
#![tactic(auto)]

mod checks;
mod made;

use bp_faults::Refusal;
use checks::{ask_inside, may_run};
use made::{graph, modules, requests};
use reverse_deps::apply;
use std::io;
use std::rt::Clock;
use std::time::Instant;

/// Milliseconds since a moment.
fn since(clock: &impl Clock, start: &Instant) -> io::Result<u128> {
    Ok(start.elapsed(clock)?.as_millis())
}

fn main(rt: HostRuntime) -> anyhow::Result<()> {
    let alloc = rt.alloc();
    let mods = modules(alloc)?;
    for reverse in [false, true] {
        let g = graph(alloc)?;
        let asked = requests(alloc, reverse)?;
        let many = asked.len();
        let few = mods.as_slice().len() < 1 << 32;
        if !few || !may_run(&mods, &g) || !ask_inside(&asked, g.nodes.as_slice().len()) {
            println!(rt; "no graph")?;
            continue;
        }
        let start = Instant::now(&rt)?;
        let answer = apply(alloc, &mods, g, &asked);
        let passed = since(&rt, &start)?;
        let said = match answer {
            Ok(_) => "all resolved",
            Err(Refusal::Bad(_)) => "a fault",
            Err(Refusal::OutOfMemory) => "out of memory",
        };
        println!(rt; "{many} requests, reverse {reverse}: {passed} ms, {said}")?;
    }
    Ok(())
}
END
cat > src/made.rt << 'END'
use bp_faults::{ModuleId, NodeId, OutOfMemory, Path, Place, Seq, Target, Text};
use bp_props::{Module, ModuleKind, Props};
use module_graph::{Axis, EdgeKind, Graph, Node, Variation, Variations};
use mutator_rules::{Request, Wanted};
use std::alloc::Global;

const MODULES: u32 = 131_072;

const TARGETS: [Target; 2] = [Target::AndroidArm64, Target::AndroidArm];

fn name(alloc: Global, module: u32) -> Result<Text, OutOfMemory> {
    Text::from_str(alloc, format!(in alloc; "module_with_a_name_{module}")?.as_str())
}

pub fn modules(alloc: Global) -> Result<Vec<Module>, OutOfMemory> {
    let mut mods = Vec::new(alloc);
    for module in 0..MODULES {
        mods.push(Module {
            name: name(alloc, module)?,
            kind: ModuleKind::LibraryStatic,
            dir: Path::root(alloc),
            at: Place::start(1),
            props: Props::empty(alloc),
        })?;
    }
    Ok(mods)
}

pub fn graph(alloc: Global) -> Result<Graph<bool>, OutOfMemory> {
    let mut nodes = Vec::new(alloc);
    for module in 0..MODULES {
        for target in TARGETS {
            let mut vars = Variations::empty(alloc);
            vars.set(Axis::Target, Variation::Target(target));
            vars.set(Axis::Link, Variation::Static);
            nodes.push(Node {
                module: ModuleId(module),
                vars,
                payload: false,
                edges: Seq::new(Vec::new(alloc)),
            })?;
        }
    }
    Ok(Graph {
        nodes: Seq::new(nodes),
    })
}

/// Each node asks for eight edges to modules before its own, but those of the first, which have none before them.
pub fn requests(alloc: Global, reverse: bool) -> Result<Vec<(NodeId, Request)>, OutOfMemory> {
    let mut asked = Vec::new(alloc);
    for n in 2..2 * MODULES {
        let target = TARGETS[(n % 2) as usize];
        for k in 0..8u32 {
            let module = n / 2;
            let step = 1 + (k * 4_099) % module;
            let to = module.wrapping_sub(step);
            let want = Wanted {
                target: Variation::Target(target),
                image: Variation::Empty,
                link: Variation::Static,
            };
            asked.push((
                NodeId(n),
                Request {
                    reverse,
                    kind: EdgeKind::Static,
                    name: name(alloc, to)?,
                    at: Place::start(1),
                    want,
                },
            ))?;
        }
    }
    Ok(asked)
}
END
cat > src/checks.rt << 'END'
ghost use Rattle.std.specs.Prelude.{IsTrue, length};
ghost use Rattle.mutator_rules.specs.Conditions.{MayRun, indices_in};
ghost use Rattle.reverse_deps.specs.Applied.{AskInside};

use bp_faults::NodeId;
use bp_props::Module;
use module_graph::Graph;
use mutator_rules::Request;

END
# The checks are those of the tests of reverse_deps, with their proofs.
python3 - "$top/crates/mutator_tests" << 'END'
import os, re, shutil, sys
own = sys.argv[1]
text = open(f"{own}/src/reverse.rt").read()
with open("src/checks.rt", "a") as out:
    for name in ("may_run", "ask_inside"):
        found = re.search(r"((?:///[^\n]*\n)?)fn " + name + r"\(.*?\n}\n", text, re.S)
        out.write(found[0].replace("fn " + name, "pub fn " + name) + "\n")
for name in ("may_run", "ask_inside"):
    shutil.copytree(f"{own}/proofs/reverse/{name}", f"proofs/checks/{name}")
    for file in os.listdir(f"proofs/checks/{name}"):
        path = f"proofs/checks/{name}/{file}"
        text = open(path).read().replace("Rattle.mutator_tests.proofs.reverse", "Rattle.request_scale.proofs.checks")
        open(path, "w").write(text)
END
touch specs/Lib.antt proofs/Lib.antt
rt run
