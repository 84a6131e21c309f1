#!/usr/bin/env python3
"""Says how long each stage of `build` takes by the clock: `tools/stage_clock.py PROGRAM TREE [WORKERS ..]`.

It samples a run with `perf`, and takes for a stage the time from the first to the last sample in a function of the
crates that do it. TREE is a folder with a `list` (tools/synthetic_modules.py makes one). Each number of workers is run
RUNS times (3), and the least time of each stage is printed, a row of docs/PERFORMANCE.md each. It needs Linux's perf,
and is no part of the gate.
"""
import os
import pathlib
import subprocess
import sys
import tempfile

# A stage: the functions that begin it and end it, by the beginnings of their names.
STAGES = [
    ("tokens and trees", ("bp_lexer::", "bp_parser::", "bp_load::parsed", "bp_load::parsing")),
    ("values", ("bp_values::file", "bp_values::expression", "bp_values::sums", "bp_values::scope", "bp_load::opened",
                "bp_load::evaluating")),
    ("records", ("property_values::", "property_tables::")),
    ("passes", ("visit_workers::", "serial_pass::", "pass_core::", "mutator_kinds::", "transition_rules::",
                "reverse_deps::")),
    ("printing", ("ninja_write::",)),
]


def samples(program, tree, workers, work):
    """The time and the function of each sample of a run, and the time of the whole run."""
    data = work / "perf.data"
    words = [program, "build", "-l", "list", "-o", work / "out", "-j", str(workers)]
    subprocess.run(["perf", "record", "-q", "-F", "2500", "-o", data, *words], cwd=tree, check=True)
    told = subprocess.run(["perf", "script", "-i", data, "-F", "time,ip,sym"], capture_output=True, text=True, check=True)
    found = []
    for line in told.stdout.splitlines():
        parts = line.split(None, 2)
        if len(parts) == 3:
            found.append((float(parts[0].rstrip(":")), parts[2]))
    return found


def main():
    program, tree = pathlib.Path(sys.argv[1]).resolve(), pathlib.Path(sys.argv[2]).resolve()
    counts = [int(word) for word in sys.argv[3:]] or [1, 2, 4]
    runs = int(os.environ.get("RUNS", "3"))
    least = {}
    with tempfile.TemporaryDirectory() as folder:
        for workers in counts:
            for _ in range(runs):
                found = samples(program, tree, workers, pathlib.Path(folder))
                spans = {"the whole run": found[-1][0] - found[0][0]}
                for stage, names in STAGES:
                    times = [time for time, name in found if name.startswith(names)]
                    spans[stage] = max(times) - min(times) if times else 0.0
                for stage, span in spans.items():
                    key = stage, workers
                    least[key] = min(span, least.get(key, span))
    print("| Stage |" + "".join(f" {workers} |" for workers in counts))
    print("|---|" + "---|" * len(counts))
    for stage in [stage for stage, _ in STAGES] + ["the whole run"]:
        print(f"| {stage} |" + "".join(f" {least[stage, workers]:.3f} s |" for workers in counts))


main()
