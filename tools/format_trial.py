#!/usr/bin/env python3
"""Formats trees of its own making, and shows that formatting again changes nothing and that `build` writes the same
bytes before and after. It is no part of the gate.

    tools/format_trial.py [--exe PROGRAM] [--files N] [--seed N]

The trees are those of `random_trees.py` that have no fault: odd spacing, comments everywhere, CR LF, maps, sums,
variables. As many are made as have N files (1000). Each is formatted by `format_list.sh`. It ends with 1 at the first
tree that is otherwise, and keeps it. At the end it takes the time of `fmt` for a file of 1 MiB.
"""
import argparse
import os
import random
import shutil
import subprocess
import sys
import tempfile
import time

sys.dont_write_bytecode = True
import odd_files
import random_trees

TOP = os.path.dirname(os.path.dirname(os.path.abspath(__file__)))
FORMAT_LIST = os.path.join(TOP, "tools", "format_list.sh")


class Wrong(Exception):
    """A tree isn't as it should be."""


def ran(words, folder):
    """What a command prints. Its status must be 0."""
    done = subprocess.run(words, cwd=folder, capture_output=True)
    if done.returncode != 0:
        raise Wrong(f"{' '.join(words)}: status {done.returncode}, {done.stdout.decode()}{done.stderr.decode()}")
    return done.stdout.decode()


def built(program, folder):
    ran([program, "build", "-l", "list", "-o", "build.ninja"], folder)
    with open(os.path.join(folder, "build.ninja"), "rb") as text:
        return text.read()


def contents(tree, folder):
    """The bytes of the tree's files."""
    found = {}
    for directory in tree.directories:
        with open(os.path.join(folder, tree.path(directory)), "rb") as file:
            found[directory] = file.read()
    return found


def try_tree(program, tree, folder):
    """Answers how many files changed, and the bytes of build.ninja."""
    before, old = built(program, folder), contents(tree, folder)
    ran([FORMAT_LIST, "list", program], folder)
    new = contents(tree, folder)
    ran([FORMAT_LIST, "--check", "list", program], folder)
    ran([FORMAT_LIST, "list", program], folder)
    if contents(tree, folder) != new:
        raise Wrong("formatting again changes it")
    if built(program, folder) != before:
        raise Wrong("build.ninja differs")
    return sum(old[directory] != new[directory] for directory in old), len(before)


def seconds_of_a_large_file(program):
    """Formats a file of 1 MiB."""
    with tempfile.TemporaryDirectory() as folder:
        # The layout of a module has 49 bytes, so that of the file isn't too long.
        text = ("m{a:[1,2], // c\n}".ljust(63) + "\n") * 2 ** 14
        with open(os.path.join(folder, "large"), "w", encoding="utf-8") as file:
            file.write(text)
        begun = time.monotonic()
        ran([program, "fmt", "-i", "large", "-o", "large"], folder)
        return time.monotonic() - begun


def main():
    words = argparse.ArgumentParser()
    words.add_argument("--exe", default=os.path.join(TOP, "crates", "bpgen", "out", "bpgen"))
    words.add_argument("--files", type=int, default=1000)
    words.add_argument("--seed", type=int, default=1)
    given = words.parse_args()
    program = os.path.abspath(given.exe)
    if not os.access(program, os.X_OK):
        print("format_trial: skipped, since there is no built program")
        return 0
    rows, trees, files, changed, written, begun = odd_files.table(), 0, 0, 0, 0, time.monotonic()
    while files < given.files:
        tree = random_trees.LinkedTree(random.Random(given.seed * 1000003 + trees), rows)
        folder = tempfile.mkdtemp(prefix=f"format{trees}_")
        tree.write(folder)
        try:
            in_tree, bytes_written = try_tree(program, tree, folder)
        except Wrong as wrong:
            print(f"format_trial: tree {trees} of seed {given.seed}, kept in {folder}: {wrong}")
            return 1
        shutil.rmtree(folder)
        trees, files, changed, written = trees + 1, files + len(tree.files), changed + in_tree, written + bytes_written
    print(f"format_trial: {files} files in {trees} trees were formatted, of which {changed} changed, in "
          f"{time.monotonic() - begun:.0f} s; formatting again changed none, and `build` wrote the same {written} bytes")
    try:
        print(f"format_trial: a file of 1 MiB took {seconds_of_a_large_file(program):.2f} s")
    except Wrong as wrong:
        print(f"format_trial: a file of 1 MiB: {wrong}")
        return 1
    return 0


if __name__ == "__main__":
    sys.exit(main())
