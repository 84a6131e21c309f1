#!/usr/bin/env python3
"""Says what one worker and four spend their processor time on: `tools/sample_parts.py PROGRAM`.

It samples `build` of a tree of `tools/many_modules.sh` with one target by Linux's perf, 4,000 times a second, with
the settings of `./bpgen`, and sorts the samples by the function that they are in. One worker and four are run in
turns, RUNS times (5), and the middle of each part is printed, a row of docs/PERFORMANCE.md each. Sampling makes all
of it longer.

MODULES and FILES are those of the tree (100000 and 1563). It needs perf and awk, and is no part of the gate. No other
work should run beside it.
"""
import os
import pathlib
import re
import statistics
import subprocess
import sys
import tempfile

TOP = pathlib.Path(__file__).resolve().parent.parent
RATE = 4000
# A part: what the name of a function begins with, or what stands in the name of the object that it is in. The first part
# that fits counts.
PARTS = [
    ("clearing pages that are touched first", r"clear_(page|huge_page|subpage)", None),
    ("the system, but for clearing pages", None, r"\[(kernel|guest\.kernel)|\[unknown\]|vmlinux|\.ko$"),
    ("`malloc` and `free`", r"(_*(libc_)?(malloc|free|realloc|calloc|memalign)$|_int_|malloc_|unlink_chunk|sysmalloc|"
     r"systrim|tcache_|arena_get|heap_|alloc_perturb|lll_lock|_*lll_lock)", None),
    ("copies of memory", r"_*(memcpy|memmove|memset)", None),
    ("boards, deques and stealing", r"(ready_counters|visit_workers|crossbeam_deque|atomic_table)\b", None),
]
REST = "all else"


def settings():
    """The settings that `./bpgen` hands to the C library where the caller sets none."""
    found = re.search(r"^settings=(\S+)$", (TOP / "bpgen").read_text(), re.M)
    return {"GLIBC_TUNABLES": found[1], "LD_BIND_NOW": "1"}


def part_of(symbol, thing):
    """The part that a sample counts for."""
    for part, names, objects in PARTS:
        if names is not None and re.match(names, symbol) or objects is not None and re.search(objects, thing):
            return part
    return REST


def sampled(program, tree, workers, work):
    """The seconds that each part took in one run."""
    data = work / "perf.data"
    words = [program, "build", "-l", "list", "-o", work / "out", "-t", "android_arm64", "-j", str(workers)]
    subprocess.run(["perf", "record", "-q", "-F", str(RATE), "-e", "cpu-clock", "-o", data, *words], cwd=tree, check=True,
                   env={**os.environ, **settings()})
    told = subprocess.run(["perf", "script", "-i", data, "-F", "ip,sym,dso"], capture_output=True, text=True, check=True)
    times = {part: 0.0 for part in [name for name, _, _ in PARTS] + [REST]}
    for line in told.stdout.splitlines():
        match = re.match(r"\s*[0-9a-f]+\s+(.*?)\s+\((.*)\)$", line)
        if match:
            times[part_of(match[1], match[2])] += 1 / RATE
    return times


def main():
    if len(sys.argv) != 2:
        sys.exit("usage: tools/sample_parts.py PROGRAM")
    program = pathlib.Path(sys.argv[1]).resolve()
    modules, files = os.environ.get("MODULES", "100000"), os.environ.get("FILES", "1563")
    found = {1: [], 4: []}
    with tempfile.TemporaryDirectory() as folder:
        work = pathlib.Path(folder)
        subprocess.run([TOP / "tools/many_modules.sh", work / "tree", modules, files], check=True)
        for _ in range(int(os.environ.get("RUNS", "5"))):
            for workers, runs in found.items():
                runs.append(sampled(program, work / "tree", workers, work))
    print("| Part | One worker | Four workers |")
    print("|---|---|---|")
    for part in found[1][0]:
        middle = [statistics.median(run[part] for run in found[workers]) for workers in (1, 4)]
        print(f"| {part} | {middle[0]:.2f} s | {middle[1]:.2f} s |")
    whole = [statistics.median(sum(run.values()) for run in found[workers]) for workers in (1, 4)]
    print(f"| in all | {whole[0]:.2f} s | {whole[1]:.2f} s |")


if __name__ == "__main__":
    main()
