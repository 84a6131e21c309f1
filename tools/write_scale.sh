#!/bin/sh
# Measures how long the text of a large file takes: `write_scale.sh`. It writes a small program over ninja_write beside
# copies of the crates in a temporary folder, and proves, builds and runs it there: files of 500 to 400,000 statements,
# by `write` and by `write_in` with 1, 2 and 4 workers, five times each. In 1 column the texts lie in memory as they are
# written, and in 1,000 those of neighbours lie far apart, as after the passes. Times are by the clock, each behind a pause,
# without which Linux stops a program of the highest priority for a while. It needs `rt`, and is no part of the gate. What
# a crate's out/ has kept is used again.
set -eu

top=$(cd "$(dirname "$0")/.." && pwd)
work=$(mktemp -d)
trap 'rm -rf "$work"' EXIT
mkdir -p "$work/crates/write_scale/src" "$work/crates/write_scale/specs" "$work/crates/write_scale/proofs"
for crate in bp_faults bp_names ninja_file ninja_write; do
    mkdir -p "$work/crates/$crate/out"
    for part in src specs proofs; do
        cp -r "$top/crates/$crate/$part" "$work/crates/$crate/"
    done
    if [ -d "$top/crates/$crate/out/rlib" ]; then
        cp -r "$top/crates/$crate/out/rlib" "$work/crates/$crate/out/"
    fi
    grep "^$crate[ :]" "$top/crates.txt" >> "$work/crates.txt"
done
echo "write_scale: bp_faults ninja_file ninja_write anyhow" >> "$work/crates.txt"
cp "$top/HANDLES" "$work/HANDLES"
cd "$work/crates/write_scale"
touch specs/Lib.antt proofs/Lib.antt
cat > src/main.rt << 'END'
//! Measures how long the text of a large file takes.
#![tactic(auto)]

ghost use Rattle.std.specs.Prelude.{◌≤◌};

use bp_faults::{OutOfMemory, Seq, Text};
use ninja_file::{NinjaFile, Statement};
use ninja_write::{write, write_in};
use std::alloc::Global;
use std::rt::Clock;
use std::thread;
use std::thread::Threads;
use std::time::{Duration, Instant};

fn ins(alloc: Global, number: u32) -> Result<Seq<Text>, OutOfMemory> {
    let mut ins = Vec::new(alloc);
    ins.push(Text::new(format!(in alloc; "module{number}.c")?))?;
    if number % 8 == 0 {
        for other in 0..8 {
            ins.push(Text::new(format!(in alloc; "out/m/module{other}/android_arm64/bin/module{other}.a")?))?;
        }
    }
    Ok(Seq::new(ins))
}

fn statement(alloc: Global, number: u32) -> Result<Statement, OutOfMemory> {
    let mut vars = Vec::new(alloc);
    vars.push((Text::from_str(alloc, "target")?, Text::from_str(alloc, "--target=aarch64-linux-android")?))?;
    let mut outs = Vec::new(alloc);
    outs.push(Text::new(format!(in alloc; "out/m/module{number}/android_arm64/obj/module{number}.c.o")?))?;
    Ok(Statement {
        outs: Seq::new(outs),
        rule: Text::from_str(alloc, "cc")?,
        ins: ins(alloc, number)?,
        implicit: Seq::new(Vec::new(alloc)),
        order_only: Seq::new(Vec::new(alloc)),
        vars: Seq::new(vars),
    })
}

fn column(alloc: Global, count: u32, columns: u32, first: u32) -> Result<Vec<Statement>, OutOfMemory> {
    let mut statements = Vec::new(alloc);
    for row in 0..count / columns.max(1) {
        statements.push(statement(alloc, row.wrapping_mul(columns).wrapping_add(first))?)?;
    }
    Ok(statements)
}

// The texts of a statement lie beside those of the next or, with several columns, far from them.
fn statements(alloc: Global, count: u32, columns: u32) -> Result<Vec<Statement>, OutOfMemory> {
    let mut all: Vec<Vec<Statement>> = Vec::new(alloc);
    for first in 0..columns {
        all.push(column(alloc, count, columns, first)?)?;
    }
    let mut statements = Vec::new(alloc);
    for _ in 0..count / columns.max(1) {
        for column in all.as_mut_slice().iter_mut() {
            if let Some(statement) = column.pop() {
                statements.push(statement)?;
            }
        }
    }
    Ok(statements)
}

fn large_file(alloc: Global, count: u32, columns: u32) -> Result<NinjaFile, OutOfMemory> {
    Ok(NinjaFile {
        rules: Seq::new(Vec::new(alloc)),
        statements: Seq::new(statements(alloc, count, columns)?),
        defaults: Seq::new(Vec::new(alloc)),
    })
}

/// Bytes and microseconds.
fn alone(clock: &impl Clock, alloc: Global, f: &NinjaFile) -> anyhow::Result<(usize, u128)> {
    thread::sleep(clock, Duration::from_millis(400));
    let start = Instant::now(clock)?;
    let text = write(alloc, f)?;
    Ok((text.len(), start.elapsed(clock)?.as_micros()))
}

fn by<R: Threads + Clock + Sync>(rt: &R, alloc: Global, f: &NinjaFile, workers: u32) -> anyhow::Result<u128>
    requires low { 1 ≤ workers }
    requires high { workers ≤ 64 }
{
    thread::sleep(rt, Duration::from_millis(400));
    let start = Instant::now(rt)?;
    let _text = write_in(rt, alloc, f, workers)?;
    Ok(start.elapsed(rt)?.as_micros())
}

fn main(rt: HostRuntime) -> anyhow::Result<()> {
    let alloc = rt.alloc();
    for (count, columns) in [(500u32, 1u32), (1000, 1), (2000, 1), (4000, 1), (400_000, 1), (400_000, 1000)] {
        let f = large_file(alloc, count, columns)?;
        for _ in 0..5 {
            let (bytes, write) = alone(&rt, alloc, &f)?;
            let (one, two, four) = (by(&rt, alloc, &f, 1)?, by(&rt, alloc, &f, 2)?, by(&rt, alloc, &f, 4)?);
            println!(rt; "{count} statements in {columns} columns, {bytes} bytes: write {write} us, 1 worker {one}, 2 {two}, 4 {four}")?;
        }
    }
    Ok(())
}
END
rt run
