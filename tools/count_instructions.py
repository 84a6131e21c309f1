#!/usr/bin/env python3
"""Counts the instructions and the calls of `malloc` of programs: `tools/count_instructions.py FIRST TODAY [TODAY ..]`.

FIRST is the program of 27 November, commit `29b6041`, which has no `-j`, and each TODAY one of a later commit, as
`tools/build_unproved.py` or the gate builds them. Each builds a tree of `tools/many_modules.sh` with one target under
valgrind's callgrind, with the settings of `./bpgen`, each TODAY with one worker and with four. The counts are the
same on every machine. A row of docs/PERFORMANCE.md is printed for each run.

MODULES is the size of the tree (10000), with 64 modules in a file. It needs valgrind and awk, and is no part of the
gate.
"""
import os
import pathlib
import re
import subprocess
import sys
import tempfile

TOP = pathlib.Path(__file__).resolve().parent.parent


def settings():
    """The settings that `./bpgen` hands to the C library where the caller sets none."""
    found = re.search(r"^settings=(\S+)$", (TOP / "bpgen").read_text(), re.M)
    return {"GLIBC_TUNABLES": found[1], "LD_BIND_NOW": "1"}


def counted(words, tree, work):
    """The instructions of a run, and its calls of `malloc`."""
    calls = work / "calls"
    subprocess.run(["valgrind", "-q", "--tool=callgrind", f"--callgrind-out-file={calls}", *words], cwd=tree, check=True,
                   env={**os.environ, **settings()})
    total, blocks, callee = 0, 0, ""
    names = {}
    for line in calls.read_text().split("\n"):
        if line.startswith(("summary:", "totals:")):
            total = max(total, int(line.split()[1]))
        named = re.match(r"c?fn=\((\d+)\)(?: (.*))?$", line)
        if named:
            if named[2]:
                names[named[1]] = named[2]
            if line.startswith("cfn"):
                callee = names[named[1]]
        elif line.startswith("calls=") and re.fullmatch(r"malloc(?:'\d+)?", callee):
            blocks += int(line[len("calls="):].split()[0])
    return total, blocks


def main():
    if len(sys.argv) < 3:
        sys.exit("usage: tools/count_instructions.py FIRST TODAY [TODAY ..]")
    first, *programs = [pathlib.Path(word).resolve() for word in sys.argv[1:]]
    modules = int(os.environ.get("MODULES", "10000"))
    target = ["-t", "android_arm64"]
    with tempfile.TemporaryDirectory() as folder:
        work = pathlib.Path(folder)
        tree = work / "tree"
        subprocess.run([TOP / "tools/many_modules.sh", tree, str(modules), str((modules + 63) // 64)], check=True)
        build = ["build", "-l", "list", "-o", work / "out", *target]
        runs = [("the first", [first, *build])]
        for program in programs:
            for workers in ("1", "4"):
                runs.append((f"`{program.name}`, -j {workers}", [program, *build, "-j", workers]))
        found = [(name, *counted(words, tree, work)) for name, words in runs]
    print("| Program | Instructions | Of the first | Calls of `malloc` |")
    print("|---|---|---|---|")
    for name, total, blocks in found:
        print(f"| {name} | {total / 1e6:.0f} million | {100 * total / found[0][1]:.0f} % | {blocks:,} |")


if __name__ == "__main__":
    main()
