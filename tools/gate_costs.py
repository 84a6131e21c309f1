#!/usr/bin/env python3
"""Runs a command of `rt` and prints what each crate cost: `tools/gate_costs.py rt ci`. It is no part of the gate.

It looks at the processes below the command twice a second, and prints the table of docs/CONTRIBUTING.md, in minutes of
processor time: the proof of each crate, the proof of its tests, the check that comes before its must-fail edits, and
these edits. Where it is interrupted (Ctrl-C) it interrupts the command, and prints what was used up to then. What runs
for less than half a second between two looks is missed, so the sums are a little low. It ends with the status of the
command.
"""
import collections
import os
import re
import signal
import subprocess
import sys
import time

TICKS = os.sysconf("SC_CLK_TCK")
KINDS = ["proof", "tests", "before edits", "edits"]


def read(path):
    """The bytes of a file of /proc, or none where the process is gone."""
    try:
        with open(path, "rb") as file:
            return file.read()
    except OSError:
        return b""


def processes():
    """Each process by its number: its parent's number, when it started, and its processor time in ticks."""
    found = {}
    for name in os.listdir("/proc"):
        if name.isdigit():
            fields = read(f"/proc/{name}/stat").rpartition(b")")[2].split()
            if len(fields) > 19:
                found[int(name)] = (int(fields[1]), int(fields[19]), int(fields[11]) + int(fields[12]))
    return found


def below(top, found):
    """The processes below one, itself among them."""
    children = collections.defaultdict(list)
    for number, (parent, _, _) in found.items():
        children[parent].append(number)
    reached, todo = set(), [top]
    while todo:
        number = todo.pop()
        if number not in reached:
            reached.add(number)
            todo += children[number]
    return reached


def kind_of(number):
    """The crate that a process works for, and what it does for it; or nothing, where it is no check of a crate."""
    words = read(f"/proc/{number}/cmdline").split(b"\0")
    if b"--crate-name" not in words[:-1]:
        return None
    crate = words[words.index(b"--crate-name") + 1].decode()
    try:
        place = os.readlink(f"/proc/{number}/cwd")
    except OSError:
        place = ""
    if re.search(r"/rt-edits?-", place + b" ".join(words).decode(errors="replace")):
        return crate, "edits"
    return crate, "tests" if b"--test" in words else "proof"


def look(top, used, kinds):
    """Notes what the processes below one have used."""
    found = processes()
    for number in below(top, found):
        if number in found:
            key = (number, found[number][1])
            used[key] = found[number][2]
            if kinds.get(key) is None:
                kinds[key] = kind_of(number)


def watch(command, used, kinds):
    """Looks until the command ends. An interruption is handed on to the command."""
    try:
        while command.poll() is None:
            look(command.pid, used, kinds)
            time.sleep(0.5)
    except KeyboardInterrupt:
        command.send_signal(signal.SIGINT)
        command.wait()


def sums_of(used, kinds):
    """The ticks of each crate and kind. Of the checks of a crate's edits the one that began first comes before them."""
    table, begun = collections.Counter(), set()
    for key, ticks in sorted(used.items(), key=lambda item: item[0][1]):
        crate, kind = kinds[key] or ("all else", "proof")
        if kind == "edits" and crate not in begun:
            begun.add(crate)
            kind = "before edits"
        table[crate, kind] += ticks
    return table


def main():
    # A shell has what it starts in the background ignore interruptions.
    signal.signal(signal.SIGINT, signal.default_int_handler)
    command = subprocess.Popen(sys.argv[1:])
    began = time.monotonic()
    used, kinds = {}, {}
    watch(command, used, kinds)
    table = sums_of(used, kinds)
    minutes = (time.monotonic() - began) / 60
    print("\n| Crate | Proof | Its tests | Before edits | Edits | In all |\n|---|---|---|---|---|---|")
    for crate in sorted({crate for crate, _ in table}):
        row = [table[crate, kind] / TICKS / 60 for kind in KINDS]
        print(f"| {crate} | " + " | ".join(f"{it:.1f}" for it in row + [sum(row)]) + " |")
    sums = [sum(n for (_, kind), n in table.items() if kind == it) / TICKS / 60 for it in KINDS]
    print("| all | " + " | ".join(f"{it:.1f}" for it in sums + [sum(sums)]) + " |")
    print(f"\n{minutes:.1f} minutes by the clock")
    return command.returncode


if __name__ == "__main__":
    sys.exit(main())
