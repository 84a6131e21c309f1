#!/usr/bin/env python3
"""Measures programs in turns on one tree: `tools/measure_turns.py FIRST TODAY [TODAY ..]`.

FIRST is the program of 27 November, commit `29b6041`, which has no `-j`, and each TODAY one of a later commit, as
`tools/build_unproved.py` or the gate builds them. The tree is that of `tools/many_modules.sh`, with one target. A row of
docs/PERFORMANCE.md is printed for each: the least and the middle user and system time of RUNS runs (7), what they come to
of FIRST without settings, the least time by the clock, and the greatest memory. Each program is run as it is and with the
settings of `./bpgen`, each TODAY with one worker and with four, and Ninja loads the text. The programs of a round follow
one another, so a slow minute meets all of them. The script stops where two programs write different bytes.

MODULES and FILES are those of the tree (100000 and 1563). It needs Ninja and awk, and is no part of the gate. No other
work should run beside it.
"""
import filecmp
import os
import pathlib
import re
import statistics
import subprocess
import sys
import tempfile
import time

TOP = pathlib.Path(__file__).resolve().parent.parent


def settings():
    """The settings that `./bpgen` hands to the C library where the caller sets none."""
    found = re.search(r"^settings=(\S+)$", (TOP / "bpgen").read_text(), re.M)
    return {"GLIBC_TUNABLES": found[1], "LD_BIND_NOW": "1"}


def run(words, tree, more):
    """Runs a command in a tree: its processor time, its time by the clock, and its memory in MB."""
    start = time.monotonic()
    child = subprocess.Popen(words, cwd=tree, env={**os.environ, **more}, stdout=subprocess.DEVNULL)
    _, status, used = os.wait4(child.pid, 0)
    clock = time.monotonic() - start
    if status != 0:
        sys.exit(f"measure_turns: {' '.join(map(str, words))} ended with {os.waitstatus_to_exitcode(status)}")
    return used.ru_utime + used.ru_stime, clock, used.ru_maxrss / 1000


def rows_of(first, programs, work):
    """Each row: what it is called, the command, what it writes, and its settings."""
    with_settings, text = settings(), work / "first"
    build = ["build", "-l", "list", "-o"]
    target = ["-t", "android_arm64"]
    rows = [("the first", [first, *build, text, *target], text, {}),
            ("the first with settings", [first, *build, text, *target], text, with_settings)]
    for program in programs:
        for name, more in ((" with settings", with_settings), (" as it is", {})):
            for workers in ("1", "4"):
                out = work / f"today-{workers}"
                label = f"`{program.name}`{name}, {'one worker' if workers == '1' else 'four workers'}"
                rows.append((label, [program, *build, out, *target, "-j", workers], out, more))
    rows.append(("Ninja, `-t targets depth 1`", ["ninja", "-f", text, "-t", "targets", "depth", "1"], text, {}))
    return rows


def measured(rows, runs, tree):
    """The figures of each row, by rounds; the text of each is that of the first."""
    figures = [[] for _ in rows]
    for _ in range(runs):
        for found, (label, words, out, more) in zip(figures, rows):
            found.append(run(words, tree, more))
            if not filecmp.cmp(rows[0][2], out, shallow=False):
                sys.exit(f"measure_turns: {label} wrote another text")
    return figures


def print_rows(rows, figures):
    """Prints the table; shares are of the first row."""
    print("| Program | Processor time | Of the first | Least by the clock | Memory |")
    print("|---|---|---|---|---|")
    times = [[used for used, _, _ in found] for found in figures]
    least, middle = min(times[0]), statistics.median(times[0])
    for (label, _, _, _), used, found in zip(rows, times, figures):
        shares = f"{100 * min(used) / least:.0f}, {100 * statistics.median(used) / middle:.0f} %"
        print(f"| {label} | {min(used):.2f}, {statistics.median(used):.2f} s | {shares} | "
              f"{min(clock for _, clock, _ in found):.2f} s | {max(memory for _, _, memory in found):.0f} MB |")


def main():
    if len(sys.argv) < 3:
        sys.exit("usage: tools/measure_turns.py FIRST TODAY [TODAY ..]")
    first, *programs = [pathlib.Path(word).resolve() for word in sys.argv[1:]]
    modules, files = os.environ.get("MODULES", "100000"), os.environ.get("FILES", "1563")
    with tempfile.TemporaryDirectory() as folder:
        work = pathlib.Path(folder)
        subprocess.run([TOP / "tools/many_modules.sh", work / "tree", modules, files], check=True)
        rows = rows_of(first, programs, work)
        print_rows(rows, measured(rows, int(os.environ.get("RUNS", "7")), work / "tree"))


if __name__ == "__main__":
    main()
