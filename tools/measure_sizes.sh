#!/bin/sh
# Prints the sizes in bytes of the values that a tree has most of, as a row of docs/PERFORMANCE.md each. It copies the crates
# into a repository of its own, with a program that prints them, and runs that by `rt try`, without proof. It needs rt, and is
# no part of the gate.
set -eu

top=$(cd "$(dirname "$0")/.." && pwd)
work=$(mktemp -d)
trap 'rm -rf "$work"' EXIT
cd "$work"
git init -q .
(cd "$top" && tar -c --exclude=out crates crates.txt) | tar -x
mkdir -p crates/sizes/src
echo "sizes: bp_faults bp_props graph_nodes module_graph module_rules" >> crates.txt
cat > crates/sizes/src/main.rt << 'END'
#![tactic(auto)]

use bp_faults::{Item, Text};
use bp_props::{GroupProps, Module, Props};
use module_graph::{Edge, Node};
use module_rules::Record;
use std::io;
use std::mem::size_of;

fn main(rt: HostRuntime) -> io::Result<()> {
    println!(rt; "| `Text` | {} |", size_of::<Text>())?;
    println!(rt; "| `Item`: a text and its place | {} |", size_of::<Item>())?;
    println!(rt; "| `Props`: a record without groups | {} |", size_of::<Props>())?;
    println!(rt; "| `GroupProps`: each group of a record | {} |", size_of::<GroupProps>())?;
    println!(rt; "| `Module`: a typed module | {} |", size_of::<Module>())?;
    println!(rt; "| `Node<Props>`: a node of what `graph_after` gives | {} |", size_of::<Node<Props>>())?;
    println!(rt; "| `Record`: what a node has of its own | {} |", size_of::<Record<'static>>())?;
    println!(rt; "| `Node<Record>`: a node of the program's graphs | {} |", size_of::<Node<Record<'static>>>())?;
    println!(rt; "| `Edge` | {} |", size_of::<Edge>())?;
    Ok(())
}
END
cd crates/sizes
echo "| Value | Bytes |"
echo "|---|---|"
rt try --steps 1000 2> "$work/log" || { cat "$work/log" >&2; exit 1; }
