#!/usr/bin/env python3
"""Measures programs in turns on one tree: `tools/compare_programs.py PROGRAM PROGRAM ..`.

Each PROGRAM is `bpgen` of some commit, as `tools/build_unproved.py` or the gate builds it. Each builds the tree with one
worker and with four, with the settings of `./bpgen`. The programs of a round follow one another, so a slow minute meets
all of them, and every other round goes backwards. A row is printed for each: the least and the middle user and system
time of RUNS runs (7), the least time by the clock, and the greatest memory. The script stops where two programs write
different bytes.

The tree is that of `tools/many_modules.sh` with MODULES modules in FILES files (100000 and 1563), or the folder TREE,
whose files LIST names (`list`). WORKERS are the numbers of workers ("1 4"). It needs awk, and is no part of the gate.
"""
import filecmp
import os
import pathlib
import statistics
import subprocess
import sys
import tempfile

from measure_turns import TOP, run, settings


def rows_of(programs, work):
    """Each row: what it is called, the command and what it writes."""
    names = os.environ.get("LIST", "list")
    rows = []
    for workers in os.environ.get("WORKERS", "1 4").split():
        for program in programs:
            out = work / f"{program.name}-{workers}"
            rows.append((f"`{program.name}` | {workers}", [program, "build", "-l", names, "-o", out, "-j", workers], out))
    return rows


def measured(rows, runs, tree):
    """The figures of each row, by rounds; the last text of each is that of the first."""
    figures = [[] for _ in rows]
    for number in range(runs):
        turns = list(zip(figures, rows))
        for found, (_, words, _) in turns if number % 2 == 0 else reversed(turns):
            found.append(run(words, tree, settings()))
    for label, _, out in rows:
        if not filecmp.cmp(rows[0][2], out, shallow=False):
            sys.exit(f"compare_programs: {label} wrote another text")
    return figures


def print_rows(rows, figures):
    """Prints the table."""
    print("| Program | Workers | Processor time | Least by the clock | Memory |")
    print("|---|---|---|---|---|")
    for (label, _, _), found in zip(rows, figures):
        used = [processor for processor, _, _ in found]
        print(f"| {label} | {min(used):.2f}, {statistics.median(used):.2f} s | "
              f"{min(clock for _, clock, _ in found):.2f} s | {max(memory for _, _, memory in found):.0f} MB |")


def main():
    if len(sys.argv) < 3:
        sys.exit("usage: tools/compare_programs.py PROGRAM PROGRAM ..")
    programs = [pathlib.Path(word).resolve() for word in sys.argv[1:]]
    modules, files = os.environ.get("MODULES", "100000"), os.environ.get("FILES", "1563")
    with tempfile.TemporaryDirectory() as folder:
        work = pathlib.Path(folder)
        tree = pathlib.Path(os.environ.get("TREE", work / "tree"))
        if "TREE" not in os.environ:
            subprocess.run([TOP / "tools/many_modules.sh", tree, modules, files], check=True)
        rows = rows_of(programs, work)
        print_rows(rows, measured(rows, int(os.environ.get("RUNS", "7")), tree))


if __name__ == "__main__":
    main()
