#!/usr/bin/env python3
"""Looks whether a process that runs the passes many times grows: `tools/steady_memory.py [PROGRAM]`.

PROGRAM is `repeated_runs`, as `rt run` builds it below crates/repeated_runs/out (the default) or
`tools/build_unproved.py CHECKOUT PROGRAM repeated_runs`. Each row is one process, which loads one tree RUNS times (100)
and does each time what the first column says. Between the runs the process waits, and its memory is read from /proc: a
row of docs/PERFORMANCE.md is printed, with the memory after the third run and after the last.

In the first rows the C library has one arena, whatever the number of workers, and hands what is freed back to the system,
so they show what the process holds: the script ends with status 1 where the last is more than a twentieth above the third.
The other rows have the settings of `./bpgen`, and are printed alone. There the library keeps up to 32 MB in each arena,
each thread takes an arena, these come to their full size one after another, and the system gives 2 MB at a time.

MODULES is the size of the tree (5000), and WORKERS the numbers of workers ("1 4"). It is no part of the gate.
"""
import os
import pathlib
import re
import subprocess
import sys

TOP = pathlib.Path(__file__).resolve().parent.parent
WORDS = ("generate", "graph", "replay")


# One arena, out of which what is freed goes back to the system.
STRICT = {"GLIBC_TUNABLES": "glibc.malloc.arena_max=1:glibc.malloc.mxfast=0:glibc.malloc.top_pad=0"}


def settings():
    """The settings that `./bpgen` hands to the C library where the caller sets none."""
    found = re.search(r"^settings=(\S+)$", (TOP / "bpgen").read_text(), re.M)
    return {"GLIBC_TUNABLES": found[1], "LD_BIND_NOW": "1"}


def memory(process, field):
    """A field of what the system says of a process's memory, in MB."""
    status = pathlib.Path(f"/proc/{process.pid}/status").read_text()
    return int(re.search(rf"^{field}:\s+(\d+) kB$", status, re.M)[1]) / 1000


def run_once(process, word):
    """Asks for a run, and waits for its answer."""
    process.stdin.write(word + "\n")
    process.stdin.flush()
    if not re.fullmatch(rf"{word} [1-9]\d*\n", process.stdout.readline()):
        sys.exit(f"steady_memory: {word} made nothing")


def measured(program, word, workers, more):
    """The memory after the third run and after the last, and the greatest of all."""
    words = [program, os.environ.get("MODULES", "5000"), workers]
    runs = int(os.environ.get("RUNS", "100"))
    with subprocess.Popen(words, env={**os.environ, **more}, text=True,
                          stdin=subprocess.PIPE, stdout=subprocess.PIPE) as process:
        for _ in range(3):
            run_once(process, word)
        third = memory(process, "VmRSS")
        for _ in range(runs - 3):
            run_once(process, word)
        return third, memory(process, "VmRSS"), memory(process, "VmHWM")


def main():
    program = sys.argv[1] if len(sys.argv) > 1 else TOP / "crates/repeated_runs/out/repeated_runs"
    grows = False
    print("| Each run | Workers | Arenas | After the third | After the last | Greatest |")
    print("|---|---|---|---|---|---|")
    for more, name, is_judged in ((STRICT, "one", True), (settings(), "as many as threads", False)):
        for word in WORDS:
            for workers in os.environ.get("WORKERS", "1 4").split():
                third, last, most = measured(program, word, workers, more)
                grows |= is_judged and last > third * 1.05
                print(f"| {word} | {workers} | {name} | {third:.1f} MB | {last:.1f} MB | {most:.1f} MB |", flush=True)
    sys.exit(1 if grows else 0)


if __name__ == "__main__":
    main()
