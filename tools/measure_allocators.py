#!/usr/bin/env python3
"""Measures a program with other allocators in front of the C library's: `tools/measure_allocators.py [PROGRAM]`.

PROGRAM is `./bpgen` where none is named. `build`, and `graph` after the last mutator, are run with four workers on a
tree of tools/synthetic_modules.py, with each allocator of LIBRARIES that is there, in turns, so that a slow minute
meets all of them. A row of docs/PERFORMANCE.md is printed for each: the least and the middle user and system time of
RUNS runs (5), the least and the middle time by the clock, and the greatest memory of `build`. It stops where two
write different bytes.

MODULES is the size of the tree (100000), LIBRARIES a list of files with a colon between two (those of Debian's
packages libjemalloc2, libmimalloc2.0 and libtcmalloc-minimal4). It is no part of the gate, and no other work should
run beside it.
"""
import filecmp
import os
import pathlib
import statistics
import subprocess
import sys
import tempfile
import time

TOP = pathlib.Path(__file__).resolve().parent.parent
DEBIAN = pathlib.Path("/usr/lib/x86_64-linux-gnu")
KNOWN = ["libjemalloc.so.2", "libmimalloc.so.2.0", "libtcmalloc_minimal.so.4"]


def libraries():
    """The allocators that are there: none in front first, then the files."""
    named = os.environ.get("LIBRARIES")
    files = named.split(":") if named else [str(DEBIAN / name) for name in KNOWN]
    return [None] + [file for file in files if os.path.exists(file)]


def run(words, tree, library, out):
    """Runs a command in a tree: its processor time, its time by the clock, and its memory in MB."""
    more = {} if library is None else {"LD_PRELOAD": library}
    with open(out, "wb") as file:
        start = time.monotonic()
        child = subprocess.Popen(words, cwd=tree, env={**os.environ, **more}, stdout=file)
        _, status, used = os.wait4(child.pid, 0)
        clock = time.monotonic() - start
    if status != 0:
        sys.exit(f"measure_allocators: {' '.join(map(str, words))} ended with {os.waitstatus_to_exitcode(status)}")
    return used.ru_utime + used.ru_stime, clock, used.ru_maxrss / 1000


def measured(program, tree, work, runs):
    """The figures of each allocator and command, by rounds."""
    commands = {"build": [program, "build", "-l", "list", "-o", "/dev/stdout", "-j", "4"],
                "graph": [program, "graph", "-l", "list", "-a", "info", "-j", "4"]}
    figures = {(library, name): [] for library in libraries() for name in commands}
    for _ in range(runs):
        for (library, name), found in figures.items():
            out = work / f"{name}-{libraries().index(library)}"
            found.append(run(commands[name], tree, library, out))
            if not filecmp.cmp(work / f"{name}-0", out, shallow=False):
                sys.exit(f"measure_allocators: {name} wrote another text with {library}")
    return figures


def two(figures):
    """The least and the middle of some figures."""
    return f"{min(figures):.2f}, {statistics.median(figures):.2f} s"


def main():
    program = pathlib.Path(sys.argv[1]).resolve() if len(sys.argv) > 1 else TOP / "bpgen"
    # The first run of ./bpgen builds the program.
    subprocess.run([program, "--version"], check=True, stdout=subprocess.DEVNULL)
    with tempfile.TemporaryDirectory() as folder:
        work = pathlib.Path(folder)
        tree = work / "tree"
        subprocess.run([TOP / "tools/synthetic_modules.py", tree, os.environ.get("MODULES", "100000")], check=True)
        figures = measured(program, tree, work, int(os.environ.get("RUNS", "5")))
    print("| Allocator | `build` | By the clock | Memory | `graph -a info` | By the clock |")
    print("|---|---|---|---|---|---|")
    for library in libraries():
        build, graph = figures[library, "build"], figures[library, "graph"]
        name = "that of the C library" if library is None else pathlib.Path(library).name
        print(f"| {name} | {two([it[0] for it in build])} | {two([it[1] for it in build])} | "
              f"{max(it[2] for it in build):.0f} MB | {two([it[0] for it in graph])} | {two([it[1] for it in graph])} |")


if __name__ == "__main__":
    main()
