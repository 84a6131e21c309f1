#!/usr/bin/env python3
"""Runs `rt ci` and has it try each must-fail edit from nothing: `tools/edits_from_nothing.py LOG`.

`rt ci` tries the edits of a crate over what one check of it has kept; the kit of the first gate tried each from
nothing, which is a whole check of the crate. This runs a copy of the text of `rt` in memory, in which two lines are
changed: no crate has a check that its edits begin with, and the edits are tried by turns, the first of each crate and
then the second, so that each crate has had about as many when the run is interrupted. LOG gets a line for each edit
that was tried: its crate, its file, what it came to, and how many seconds it took. It ends with the status of `rt ci`.
It is no part of the gate.
"""
import os
import shutil
import sys
import time

CHANGES = [
    ("    has_seed = len(edits) > 1 or edits and start\n", "    has_seed = False\n"),
    ("key=lambda it: (fills(it), -behind[it])", "key=lambda it: (fills(it), it[2] if len(it) > 2 else 0, -behind[it])"),
]


def changed(text):
    """The text of `rt` with the changes."""
    for old, new in CHANGES:
        if text.count(old) != 1:
            sys.exit(f"this kit's rt has no line to change: {old.strip()}")
        text = text.replace(old, new)
    return text


def logged(must_fail, path):
    """`must_fail` of `rt`, which tries one edit, with a line of the log for each."""

    def tried(crate, edit, flags, kept=None):
        began = time.time()
        found = must_fail(crate, edit, flags, kept)
        with open(path, "a", encoding="utf-8") as log:
            print(crate.name, os.path.basename(edit), found[0], f"{time.time() - began:.1f}", file=log)
        return found

    return tried


def main():
    if len(sys.argv) != 2:
        sys.exit("usage: tools/edits_from_nothing.py LOG")
    path = os.path.realpath(shutil.which("rt") or sys.exit("rt isn't on the path"))
    with open(path, encoding="utf-8") as file:
        text = changed(file.read())
    names = {"__name__": "rt", "__file__": path}
    exec(compile(text, path, "exec"), names)
    names["must_fail"] = logged(names["must_fail"], os.path.abspath(sys.argv[1]))
    sys.exit(names["main"](["ci"]))


if __name__ == "__main__":
    main()
