#!/usr/bin/env python3
"""Says what the memory of a run holds when it is greatest: `tools/memory_parts.py PROGRAM`.

It runs `build` of a tree of tools/synthetic_modules.py with one worker under valgrind's massif, and prints which
functions asked for the blocks that are there at the greatest moment, with their share of all. The first function
counts that is neither the C library's nor of a list, text or map of the standard library, where massif knows it.

MODULES is the size of the tree (10000), LEAST the least share that is printed, in percent (2). It needs valgrind, and
is no part of the gate.
"""
import collections
import os
import pathlib
import re
import subprocess
import sys
import tempfile

TOP = pathlib.Path(__file__).resolve().parent.parent
# The beginnings of names that say only that memory was asked for.
ASKED = re.compile(r"(rattle_(re)?alloc|malloc|realloc|calloc|std|core|alloc|std_\w+|smallvec|indexmap)\b|\(heap allocation")
LINE = re.compile(r"^( *)n(\d+): (\d+) (.*)$")


def greatest(text):
    """The lines of the tree of the snapshot in which memory is greatest."""
    parts = text.split("heap_tree=peak\n")
    return [] if len(parts) < 2 else parts[1].split("#-----------")[0].splitlines()


def name_of(place):
    """The function of a line, without its address, its object and the hash of its types."""
    name = re.sub(r"^0x[0-9A-F]+: | \(in .*\)$", "", place)
    return re.sub(r"::<#[0-9a-f]+>", "", name)


def asked_by(lines):
    """The bytes of each function, and all of them. Where no caller is known, what asks counts itself."""
    nodes = [(len(one[1]), int(one[3]), name_of(one[4])) for one in map(LINE.match, lines) if one]
    sums = collections.Counter()
    for at, (depth, count, name) in enumerate(nodes):
        above = []
        for other, _, caller in reversed(nodes[:at]):
            if other < depth and (not above or other < above[-1][0]):
                above.append((other, caller))
        if all(ASKED.match(caller) for _, caller in above) and not re.match(r"\?\?\?|in \d+ place", name):
            sums[name] += count
            if above:
                sums[above[0][1]] -= count
    return sums, nodes[0][1] if nodes else 0


def main():
    if len(sys.argv) != 2:
        sys.exit("usage: tools/memory_parts.py PROGRAM")
    program = pathlib.Path(sys.argv[1]).resolve()
    least = float(os.environ.get("LEAST", "2"))
    with tempfile.TemporaryDirectory() as folder:
        work = pathlib.Path(folder)
        tree, told = work / "tree", work / "massif"
        subprocess.run([TOP / "tools/synthetic_modules.py", tree, os.environ.get("MODULES", "10000")], check=True)
        subprocess.run(["valgrind", "-q", "--tool=massif", "--depth=12", "--threshold=0.2", f"--massif-out-file={told}",
                        program, "build", "-l", "list", "-o", work / "out", "-j", "1"], cwd=tree, check=True)
        sums, whole = asked_by(greatest(told.read_text()))
    print(f"{whole / 1e6:.1f} MB when memory is greatest")
    print("| Asked for by | MB | Of all |")
    print("|---|---|---|")
    for name, count in sorted(sums.items(), key=lambda item: -item[1]):
        if 100 * count >= least * whole:
            print(f"| `{name}` | {count / 1e6:.1f} | {100 * count / whole:.0f} % |")


if __name__ == "__main__":
    main()
