#!/usr/bin/env python3
"""Makes random trees of Android.bp files and random command lines, runs the program on them, and compares what it
answers. It is no part of the gate.

    tools/random_trees.py [--exe PROGRAM] [--count N] [--seconds N] [--seed N] [--keep DIRECTORY]

At most N trees are made (100), for at most N seconds (300). The trees are whole, or have faults: planted ones, whose
line is known (`odd_files.py`), names that don't resolve, cycles, variants that aren't there, and files that can't be
read. On each tree `build` runs with several numbers of workers, `graph`, `replay` with the journals and with damaged
orders, `fmt` and `edit` where the program has them, and wrong command lines; and `synth` beside it. After each run the
status is 0 to 5, what is printed has the form of docs/FAULTS.md and docs/USAGE.md, a fault's place is in the text that
it names, and no file has changed but those that the run may write. All numbers of workers and all legal orders give the
same bytes, and Ninja loads them. It ends with 1 at the first answer that is otherwise, and keeps that tree.
"""
import argparse
import os
import random
import re
import shutil
import subprocess
import sys
import tempfile
import time

sys.dont_write_bytecode = True
import odd_files

TOP = os.path.dirname(os.path.dirname(os.path.abspath(__file__)))
TARGETS = ["android_arm64", "android_arm", "android_x86_64", "android_x86", "linux_glibc_x86_64", "linux_glibc_x86"]
MUTATORS = ["defaults_deps", "defaults", "arch", "image", "link", "deps", "plugins", "per_src", "sanitize", "sdk",
            "info"]
EDGES = "defaults|whole|static|shared|header|data|sources"
VALUES = {"Flags": odd_files.FLAGS, "Dirs": odd_files.INCLUDED}
FREE_KINDS = ["Flags", "Dirs", "Word", "Words", "Bool"]
EFFECTS = {"name", "enabled", "srcs", "device_supported", "host_supported", "vendor", "vendor_available", "recovery",
           "recovery_available", "test_per_src"}
LIBRARIES = {
    "whole_static_libs": ["cc_library", "cc_library_static"],
    "static_libs": ["cc_library", "cc_library_static"],
    "shared_libs": ["cc_library", "cc_library_shared"],
    "header_libs": ["cc_library_headers"],
}
KINDS = odd_files.TYPES + ["cc_library", "cc_library_static", "cc_binary", "cc_defaults", "filegroup"]
SOURCES = ["a{}.c", "./a{}.c", "b//c{}.cpp", "d/./e{}.S", "x y{}.c", "ä{}.cc", "$x{}.cxx", "a:b{}.c", "'q{}'.s",
           "h{}.h", "...{}.inc"]


class Disagreement(Exception):
    """The program answered otherwise than it should."""


# ---- trees

class Planned:
    """A module before it is written: its type, its directory and its entries."""

    def __init__(self, kind, name, directory):
        self.kind, self.name, self.directory = kind, name, directory
        self.entries = {"name": name}


class LinkedTree(odd_files.Tree):
    """A tree whose modules depend on each other, and which has no fault. `sources` are the files that they name."""

    def __init__(self, rng, rows):
        self.sources = []
        super().__init__(rng, rows)

    def some_directories(self):
        rng = self.rng
        if rng.random() < 0.15:
            # A chain of directories, some without a file. Ninja 1.11 takes paths of at most 60 components.
            parts = tuple(rng.choice(["a", "b c", "ä", "lib"]) for _ in range(rng.randint(10, 50)))
            directories = [parts[:n] for n in range(len(parts) + 1) if rng.random() < 0.5] or [()]
        else:
            directories = super().some_directories()
        self.images = [name for name in ("vendor_available", "recovery_available") if rng.random() < 0.3]
        self.hosts = rng.random() < 0.5
        self.groups_left = []
        self.modules = []
        for _ in range(rng.choice([0, 1, 4, 8, 16, 40])):
            self.modules.append(self.planned(rng.choice(KINDS), rng.choice(directories)))
        return directories

    def file(self, directory, inherited):
        return LinkedFile(self, inherited, [m for m in self.modules if m.directory == directory])

    def planned(self, kind, directory):
        """A module that depends on some of those that are planned already."""
        module = Planned(kind, self.name(), directory)
        if kind == "filegroup":
            module.entries["srcs"] = self.some_sources(directory, 3)
            self.groups_left.append(module.name)
            return module
        # A path that a module has by two ways is a fault, so modules of defaults have none.
        with_sources = kind != "cc_defaults"
        entries = self.linked(directory, with_sources)
        entries.update(module.entries, **self.settings(kind), **self.grouped(kind, directory, with_sources))
        if with_sources:
            entries["srcs"] = self.some_sources(directory, 3)
        entries["defaults"] = self.some_of(["cc_defaults"], 0.4)
        self.plug(module)
        kept = [(n, v) for n, v in entries.items() if v != [] or self.rng.random() < 0.1]
        self.rng.shuffle(kept)
        module.entries = dict(kept)
        return module

    def settings(self, kind):
        """What says for which targets and images a module is built, the same for all of the tree, and how."""
        rng = self.rng
        entries = {name: True for name in self.images}
        if self.hosts:
            entries["host_supported"] = True
        if kind == "cc_test":
            entries["data_bins"] = self.some_of(["cc_binary"])
            entries["test_per_src"] = rng.random() < 0.3
        if rng.random() < 0.3:
            entries["sanitize"] = {n: rng.random() < 0.6 for n in rng.sample(["address", "never"], rng.randint(1, 2))}
        if rng.random() < 0.3:
            entries["min_sdk_version"] = rng.choice(["29", "0030", "9999", "current"])
        return entries

    def grouped(self, kind, directory, with_sources):
        """Groups for targets and links."""
        rng = self.rng
        entries = {}
        for name in ("arch", "multilib", "target"):
            if rng.random() < 0.15:
                chosen = rng.sample(odd_files.GROUPS[name], rng.randint(1, 2))
                entries[name] = {n: self.linked(directory, with_sources) for n in chosen}
        if kind in ("cc_library", "cc_defaults") and rng.random() < 0.3:
            entries[rng.choice(["static", "shared"])] = self.linked(directory, with_sources)
        return entries

    def linked(self, directory, with_sources):
        """What a module or a group may hold: libraries that are there already, so that there is no cycle."""
        rng = self.rng
        entries = {name: self.some_of(kinds) for name, kinds in LIBRARIES.items() if rng.random() < 0.3}
        for name in list(entries):
            if rng.random() < 0.3 and name != "whole_static_libs":
                entries[f"export_{name[:-5]}_lib_headers"] = entries[name][:1]
        for name in odd_files.BASE:
            if self.rows[name][0] in VALUES and rng.random() < 0.1:
                entries[name] = [rng.choice(VALUES[self.rows[name][0]]) for _ in range(rng.randint(1, 3))]
        if with_sources and rng.random() < 0.2:
            entries["srcs"] = self.some_sources(directory, 2)
        return {n: v for n, v in entries.items() if v}

    def some_of(self, kinds, chance=0.7):
        """The names of some modules of these types."""
        names = [m.name for m in self.modules if m.kind in kinds]
        count = self.rng.choice([1, 1, 2, 3]) if self.rng.random() < chance else 0
        return self.rng.sample(names, min(len(names), count))

    def some_sources(self, directory, most):
        """Paths that no other module has, and at times a file group that none has."""
        rng = self.rng
        items = []
        for _ in range(rng.randint(0, most)):
            item = rng.choice(SOURCES).format(len(self.sources))
            parts = [part for part in item.split("/") if part not in ("", ".")]
            self.sources.append("/".join(directory + tuple(parts)))
            items.append(item)
        if self.groups_left and rng.random() < 0.5:
            items.append(":" + self.groups_left.pop())
        return items

    def plug(self, module):
        """Makes an earlier library a plugin of the module."""
        libraries = [m for m in self.modules if m.kind in ("cc_library", "cc_library_shared")]
        if libraries and module.kind in ("cc_library", "cc_library_shared") and self.rng.random() < 0.2:
            self.rng.choice(libraries).entries.setdefault("plugin_of", []).append(module.name)

    def write(self, top):
        super().write(top)
        for path in self.sources:
            where = os.path.join(top, path)
            os.makedirs(os.path.dirname(where), exist_ok=True)
            open(where, "w", encoding="utf-8").close()


class LinkedFile(odd_files.File):
    """The text of a file with the modules that are planned in its directory, and variables among them."""

    def __init__(self, tree, inherited, planned):
        self.planned = planned
        super().__init__(tree, inherited)

    def definitions(self):
        rng = self.rng
        steps = [None] * rng.randint(0, 4) + self.planned
        rng.shuffle(steps)
        for step in steps:
            if step:
                self.module(step.kind, self.filled(step))
            elif rng.random() > 0.2 or not self.grow():
                self.assign(self.a_wanted_value())
        if rng.random() < 0.1:
            self.module(rng.choice(["package", "license"]))


    def a_wanted_value(self):
        """A value that a module of this file or of one below it wants, or any."""
        modules = [m for m in self.tree.modules if m.entries]
        if modules and self.rng.random() < 0.8:
            return self.rng.choice(list(self.rng.choice(modules).entries.values()))
        return None

    def filled(self, module):
        """The entries of a module, with some that have no effect on others."""
        rng = self.rng
        entries = dict(module.entries)
        known = [n for n, (kind, types) in self.rows.items() if module.kind in types and n not in EFFECTS]
        for name in rng.sample(sorted(known), min(len(known), rng.choice([0, 0, 1, 3]))):
            if self.rows[name][0] in FREE_KINDS:
                entries.setdefault(name, self.of_kind(name, self.rows[name][0]))
        return entries


def damage(tree):
    """Puts into a plan what chance brings: names that lead nowhere or around, and what isn't built."""
    rng = tree.rng
    modules = [m for m in tree.modules if m.kind != "filegroup"] or tree.modules
    for _ in range(rng.randint(1, 3)):
        if not modules:
            return
        module, other = rng.choice(modules), rng.choice(tree.modules)
        way = rng.randint(0, 10)
        if way == 0:
            add(module, rng.choice(sorted(LIBRARIES) + ["defaults"]), rng.choice(["none", "", "é", "a b"]))
        elif way <= 3:
            add(module, rng.choice(sorted(LIBRARIES) + ["defaults"]), other.name)
        elif way == 4:
            add(module, "srcs", ":" + other.name)
        elif way == 5:
            add(module, "srcs", rng.choice(["a", "a.o", ".c", "x.C", "same.c"]))
        elif way == 6 and module.kind != "filegroup":
            module.entries["target"] = {rng.choice(odd_files.GROUPS["target"]): {"enabled": False}}
        elif way == 7:
            other.entries["enabled"] = False
        elif way == 8 and module.kind != "filegroup":
            module.entries["compile_multilib"] = rng.choice(["both", "first", "32", "64"])
        elif way == 9 and module.kind != "filegroup":
            name = rng.choice(["host_supported", "device_supported", "vendor", "recovery", "vendor_available"])
            module.entries[name] = rng.random() < 0.5
        elif module.kind in ("cc_library", "cc_library_shared"):
            add(module, "plugin_of", other.name)


def add(module, name, item):
    if module.kind != "filegroup" or name == "srcs":
        module.entries[name] = module.entries.get(name, []) + [item]


class DamagedTree(LinkedTree):
    """A tree whose modules are wrong together."""

    def some_directories(self):
        directories = super().some_directories()
        damage(self)
        return directories


def tree_of(rng, rows, case):
    """A tree, what is known of its fault, and what it is. What is known is None, or the fault's line in two parts."""
    way = case % 10
    if way < 4:
        return LinkedTree(rng, rows), None, "whole"
    if way < 7:
        return DamagedTree(rng, rows), None, "wrong together"
    if way == 7:
        tree, wanted, what = odd_files.make(rng, rows, rng.randrange(1000))
        return tree, wanted, "odd" if what == "legal" else "planted"
    tree = LinkedTree(rng, rows)
    while True:
        fault = rng.choice([f for phase in odd_files.PHASES for f in phase])
        wanted = odd_files.plant(tree, rng.choice(tree.directories), fault)
        if wanted:
            return tree, wanted, "planted"


# ---- runs

class Answer:
    """What a run came to."""

    def __init__(self, status, out, err):
        self.status, self.out, self.err = status, out, err

    def all(self):
        return self.status, self.out, self.err

    def message(self):
        """A fault's line without its place."""
        return self.err.split(": error ", 1)[-1]


class Session:
    """Runs of the program in one folder, each of which is looked at."""

    def __init__(self, program, texts, folder, counts):
        self.program, self.texts, self.folder, self.counts = program, texts, folder, counts
        self.words = []

    def path(self, name):
        return os.path.join(self.folder, name)

    def bytes_of(self, name):
        with open(self.path(name), "rb") as file:
            return file.read()

    def put(self, name, content):
        with open(self.path(name), "wb") as file:
            file.write(content)

    def files(self):
        """All that is in the folder: directories, and files with their bytes."""
        found = {}
        for where, directories, files in os.walk(self.folder):
            for name in directories:
                found[os.path.relpath(os.path.join(where, name), self.folder)] = None
            for name in files:
                path = os.path.join(where, name)
                with open(path, "rb") as file:
                    found[os.path.relpath(path, self.folder)] = file.read()
        return found

    def run(self, words, writes=()):
        """Runs the program. A run with status 0 writes each file of `writes`, and no run changes another."""
        self.words = words
        before = self.files()
        try:
            done = subprocess.run([self.program] + words, cwd=self.folder, capture_output=True, timeout=120)
        except subprocess.TimeoutExpired:
            raise Disagreement("it doesn't end within 120 s")
        answer = Answer(done.returncode, done.stdout, done.stderr.decode("utf-8", "replace"))
        if answer.status not in range(6):
            raise Disagreement(f"status {answer.status}, and it says {answer.err!r}")
        self.counts[answer.status] += 1
        self.look_at_files(before, self.files(), answer, writes)
        self.look_at_words(answer)
        return answer

    def look_at_files(self, before, after, answer, writes):
        changed = sorted(p for p in before.keys() | after.keys() if before.get(p, 0) != after.get(p, 0))
        allowed = writes if answer.status in (0, 4) else ()
        others = [p for p in changed if p not in allowed]
        if others:
            raise Disagreement(f"status {answer.status}, and these changed: {others}")
        missing = [p for p in writes if answer.status == 0 and after.get(p) is None]
        if missing:
            raise Disagreement(f"status 0, and these aren't there: {missing}")

    def look_at_words(self, answer):
        status, said = answer.status, answer.err
        if status == 1:
            self.look_at_fault(said)
            wanted = None
        else:
            wanted = {0: "", 2: r"usage: bpgen [a-z|]+ OPTIONS\n", 3: r"bpgen: cannot read .+\n",
                      4: r"bpgen: cannot write .+\n", 5: r"bpgen: out of memory\n"}[status]
        if wanted is not None and not re.fullmatch(wanted, said, re.S):
            raise Disagreement(f"status {status}, and it says {said!r}")
        if status != 0 and answer.out:
            raise Disagreement(f"status {status}, and it prints {answer.out[:200]!r}")

    def look_at_fault(self, said):
        """The line has its form, and its place is in the text that it names."""
        found = re.fullmatch(r"(.+?):([0-9]+):([0-9]+): error ([0-9]+): (.*)\n", said, re.S)
        if not found or "\n" in found.group(5):
            raise Disagreement(f"this isn't the line of a fault: {said!r}")
        path, line, column, number, text = found.groups()
        line, column, number = int(line), int(column), int(number)
        kind = self.texts.get(number)
        if kind is None or not (text == kind or text.startswith(kind + ": ")):
            raise Disagreement(f"fault {number} isn't said so: {said!r}")
        self.counts["faults"].add(number)
        if path == "synth" or number in (31, 32):
            if (line, column) != (1, 1):
                raise Disagreement(f"this place is no start: {said!r}")
            return
        if not os.path.isfile(self.path(path)):
            raise Disagreement(f"there is no such text: {said!r}")
        lines = self.bytes_of(path).split(b"\n")
        # Order files that end early are faulty at the line behind the last one, which may have no LF.
        if number == 36 and line == len(lines) + 1 and column == 1 and lines[-1]:
            return
        if not (1 <= line <= len(lines) and 1 <= column <= len(lines[line - 1].decode("utf-8", "surrogateescape")) + 1):
            raise Disagreement(f"this place isn't in the text: {said!r}")


def same(one, other, what):
    if one != other:
        raise Disagreement(f"{what} differ: {shown(one)} and {shown(other)}")


def shown(value):
    text = repr(value)
    return text if len(text) < 600 else text[:300] + " .. " + text[-300:]


# ---- what is run on a tree

def spelled(rng, short, long, value):
    """An option in one of its spellings."""
    ways = [[long, value], [f"{long}={value}"]] + ([[short, value], [short + value]] if short else [])
    return rng.choice(ways)


def some_targets(rng):
    if rng.random() < 0.3:
        return []
    return spelled(rng, "-t", "--targets", ",".join(rng.sample(TARGETS, rng.randint(1, 4))))


def try_builds(session, rng, wanted, what):
    """Builds with several numbers of workers. Answers the first answer, the targets, and the journals."""
    targets = some_targets(rng)
    first, text, journals = None, None, []
    for jobs in rng.sample(["1", "2", "4", "64"], 4):
        words = [["-l", "list"], ["-o", "build.ninja"], targets, spelled(rng, "-j", "--jobs", jobs)]
        writes = ["build.ninja"]
        if rng.random() < 0.5:
            words.append(spelled(rng, None, "--journal", "journal"))
            writes.append("journal")
        rng.shuffle(words)
        answer = session.run(["build"] + sum(words, []), writes)
        if first is None:
            first = answer
            text = session.bytes_of("build.ninja") if answer.status == 0 else None
        same(first.all(), answer.all(), "the answers for several -j")
        if answer.status == 0:
            same(text, session.bytes_of("build.ninja"), "the texts for several -j")
            if "journal" in writes:
                journals.append(session.bytes_of("journal"))
    if what == "whole" and first.status != 0:
        raise Disagreement(f"a fault where there is none: {first.err!r}")
    if what == "planted" and first.status != 1:
        raise Disagreement(f"status {first.status} where {wanted} is wanted")
    if wanted:
        start, subject = wanted
        if not first.err.startswith(start) or subject and not first.err.endswith(": " + subject + "\n"):
            raise Disagreement(f"it says {first.err!r} where {wanted} is wanted")
    return first, targets, text, journals


def try_ninja(session, what, counts):
    """Ninja loads the text, and lists the outs of its statements; it can plan the build of a whole tree."""
    listed = subprocess.run(["ninja", "-t", "targets", "all"], cwd=session.folder, capture_output=True)
    if listed.returncode != 0:
        raise Disagreement(f"Ninja doesn't load the text: {listed.stderr or listed.stdout!r}")
    statements = [line for line in session.bytes_of("build.ninja").split(b"\n") if line.startswith(b"build ")]
    known = len(listed.stdout.splitlines())
    if known != len(statements):
        raise Disagreement(f"Ninja knows {known} targets, and there are {len(statements)} statements")
    if what == "whole":
        planned = subprocess.run(["ninja", "-n"], cwd=session.folder, capture_output=True)
        if planned.returncode != 0:
            raise Disagreement(f"Ninja can't plan the build: {planned.stderr or planned.stdout[-500:]!r}")
        shutil.rmtree(session.path("out"), ignore_errors=True)
    counts["ninja"] += 1


def try_graphs(session, rng, built, targets):
    for mutator in sorted(rng.sample(MUTATORS, 3), key=MUTATORS.index):
        words = ["graph", "-l", "list", *targets, *spelled(rng, "-a", "--after", mutator)]
        one = session.run(words + ["-j", rng.choice(["1", "2"])])
        same(one.all(), session.run(words + ["-j", rng.choice(["4", "64"])]).all(), "the graphs for several -j")
        if one.status == 1:
            same(one.err, built.err, "the faults of graph and build")
        elif one.status != 0 and one.status != built.status:
            raise Disagreement(f"status {one.status} where build has {built.status}")
        for line in one.out.decode().splitlines():
            if not re.fullmatch(r"[0-9]+ \S+ \S+|  (" + EDGES + r") [0-9]+", line):
                raise Disagreement(f"this is no line of a graph: {line!r}")


NO_VISITS = [b"", b"1", b"1 0 ", b"01 0", b" 1 0", b"1  0", b"14 0", b"0 0", b"1 4294967296", b"\xff", b"\xc3\xa9",
             b"1\t0", b"-1 0", b"x" * 200]


def damaged_order(rng, order):
    """An order that is somehow wrong, or still legal."""
    lines = order.split(b"\n")[:-1] or [b""]
    at, other = rng.randrange(len(lines)), rng.randrange(len(lines))
    way = rng.randint(0, 8)
    if way == 0:
        del lines[at]
    elif way == 1:
        lines.insert(other, lines[at])
    elif way == 2:
        lines[at], lines[other] = lines[other], lines[at]
    elif way == 3:
        return order[:rng.randrange(len(order) + 1)]
    elif way == 4:
        lines[at] = rng.choice(NO_VISITS + [lines[at] + b"\r"])
    elif way == 5:
        lines += [rng.choice([b"1 0", b"13 0", b"14 0", b""])]
    elif way == 6:
        return b""
    elif way == 7:
        # Neighbours are exchanged, which is often legal.
        for n in range(0, len(lines) - 1, 2):
            if rng.random() < 0.5:
                lines[n], lines[n + 1] = lines[n + 1], lines[n]
    else:
        rng.shuffle(lines)
    return b"\n".join(lines) + rng.choice([b"\n", b""])


def try_replays(session, rng, built, targets, text, journals):
    words = ["replay", "-l", "list", "-o", "again", *targets, "--order", "order"]
    for journal in journals:
        session.put("order", journal)
        same(built.all(), session.run(words, ["again"]).all(), "the answers of build and replay")
        same(text, session.bytes_of("again"), "the texts of build and replay")
    for _ in range(3):
        session.put("order", damaged_order(rng, rng.choice(journals) if journals else b"1 0\n1 1\n2 1\n2 0\n"))
        answer = session.run(words, ["again"])
        if answer.status == 0:
            same(text, session.bytes_of("again"), "the texts of build and replay")
        elif answer.status == 1 and not re.match(r"order:[0-9]+:1: error (35|36): ", answer.err):
            same(built.err, answer.err, "the faults of build and replay")
        elif answer.status != 1 and answer.status != built.status:
            raise Disagreement(f"status {answer.status} where build has {built.status}")


def try_synth(session, rng):
    seed, modules = rng.choice([0, 7, 2 ** 32 - 1, rng.randrange(2 ** 32)]), rng.choice([1, 2, 50, 300])
    words = ["synth", "--seed", str(seed), "--modules", str(modules)]
    one = session.run(words + ["-j", "1"])
    same(one.all(), session.run(words + ["-j", rng.choice(["2", "4", "64"])]).all(), "the summaries for several -j")
    if one.status != 0 or len(one.out.splitlines()) != 6:
        raise Disagreement(f"status {one.status} and {one.out!r} of synth")


BUILD = ["build", "-l", "list", "-o", "build.ninja"]
REPLAY = ["replay", "-l", "list", "-o", "build.ninja"]
GRAPH = ["graph", "-l", "list", "-a", "info"]
SYNTH = ["synth", "--seed", "1", "--modules", "10"]
EDIT = ["edit", "-i", "list", "-o", "laid", "-m", "a", "-p"]
# Command lines that are wrong, also where the program has neither fmt nor edit.
WRONG = [
    [], ["built"], ["build"], ["-l", "list", "build", "-o", "build.ninja"], ["--help", "--help"],
    ["--version", "build"], ["help", "build"], BUILD[:3], BUILD[:1] + BUILD[3:], BUILD[:4], BUILD[:4] + ["list"],
    BUILD[:4] + ["-out"], ["build", "-l", "", "-o", "build.ninja"], BUILD + ["-l", "list"], BUILD + ["--list=list"],
    BUILD + ["more"], BUILD + ["--"], BUILD + ["--none", "1"], BUILD + ["-a", "arch"],
    BUILD + ["-j", "0"], BUILD + ["-j", "65"], BUILD + ["-j", "+4"],
    BUILD + ["-j", "00000000004"], BUILD + ["-t", ""], BUILD + ["-t", "android"], BUILD + ["-t", "android_arm,"],
    BUILD + ["-t", "android_arm,android_arm"], BUILD + ["--journal"], BUILD + ["--journal", "build.ninja"],
    REPLAY, REPLAY + ["--order", "build.ninja"], REPLAY + ["--order", "order", "-j", "4"],
    GRAPH[:3], GRAPH[:1] + GRAPH[3:], GRAPH[:4] + ["none"], GRAPH + ["-o", "build.ninja"],
    SYNTH[:3], SYNTH[:1] + SYNTH[3:], SYNTH[:4] + ["0"], SYNTH[:4] + ["100001"], SYNTH + ["-l", "list"],
    ["synth", "--seed", "4294967296", "--modules", "10"], ["synth", "--seed", "-1", "--modules", "10"],
    ["fmt"], ["fmt", "-i", "list"], ["fmt", "-i", "list", "-o", "laid", "-p", "srcs"],
    EDIT[:-1], EDIT + ["1"], EDIT + ["srcs", "--items", "a,,b"], EDIT + ["srcs", "--items", ""],
]


def try_words(session, rng):
    for words in rng.sample(WRONG, 3):
        answer = session.run(words)
        if answer.status != 2:
            raise Disagreement(f"status {answer.status} where 2 is wanted")


def expect(session, words, status, said):
    answer = session.run(words, ["build.ninja", "journal"])
    same((status, said), (answer.status, answer.err), "the answers that are wanted and given")


def try_outside(session, rng, tree):
    """What the outside may do to a whole tree: files that are absent, can't be read or written, or are too large."""
    path = tree.path(rng.choice(tree.directories))
    kept = session.bytes_of(path)
    way = rng.randint(0, 8)
    if way == 0:
        expect(session, ["build", "-l", "none", "-o", "build.ninja"], 1, "none:1:1: error 31: no such file\n")
    elif way == 1:
        os.mkdir(session.path("folder"))
        expect(session, ["build", "-l", "folder", "-o", "build.ninja"], 3, "bpgen: cannot read folder\n")
    elif way == 2:
        os.remove(session.path(path))
        expect(session, BUILD, 1, f"{path}:1:1: error 31: no such file\n")
    elif way == 3:
        os.remove(session.path(path))
        os.mkdir(session.path(path))
        expect(session, BUILD, 3, f"bpgen: cannot read {path}\n")
        os.rmdir(session.path(path))
    elif way == 4:
        session.put(path, kept + b"\n" * (2 ** 20 + 1 - len(kept)))
        expect(session, BUILD, 1, f"{path}:1:1: error 32: file is too large\n")
    elif way == 5:
        expect(session, ["build", "-l", "list", "-o", "none/build.ninja"], 4, "bpgen: cannot write none/build.ninja\n")
    elif way == 6:
        os.mkdir(session.path("folder"))
        expect(session, ["build", "-l", "list", "-o", "folder"], 4, "bpgen: cannot write folder\n")
    elif way == 7:
        expect(session, BUILD + ["--journal", "none/journal"], 4, "bpgen: cannot write none/journal\n")
    else:
        expect(session, REPLAY + ["--order", "none"], 1, "none:1:1: error 31: no such file\n")
    session.put(path, kept)


# ---- formatting and editing

def try_formatting(session, rng, built, targets, text, path):
    """A file that is formatted is so, and means the same to build."""
    answer = session.run(["fmt", *spelled(rng, "-i", "--in", path), *spelled(rng, "-o", "--out", "laid")], ["laid"])
    if answer.status == 1:
        if not answer.err.startswith(path + ":") or not re.search(r": error ([1-9]|40): ", answer.err):
            raise Disagreement(f"this is no fault of fmt: {answer.err!r}")
        return
    same(answer.status, 0, "the statuses that are wanted and given")
    laid, kept = session.bytes_of("laid"), session.bytes_of(path)
    session.run(["fmt", "-i", "laid", "-o", "twice"], ["twice"])
    same(laid, session.bytes_of("twice"), "the texts that are formatted once and twice")
    session.run(["fmt", "-i", path, "-o", path], [path])
    same(laid, session.bytes_of(path), "the texts that are formatted beside and in place")
    answer = session.run(["build", "-l", "list", "-o", "after", *targets], ["after"])
    same((built.status, built.message()), (answer.status, answer.message()), "the answers before and after formatting")
    if answer.status == 0:
        same(text, session.bytes_of("after"), "the texts of build before and after formatting")
    session.put(path, kept)


ESCAPED = str.maketrans({c: "\\" + letter for c, letter in odd_files.ESCAPES.items()})


def try_edit(session, rng, path, modules):
    """An edit changes one span, and once more changes nothing."""
    # No value of an option begins with `-`.
    name = rng.choice([m.name for m in modules if not m.name.startswith("-")] or ["none"])
    wanted = rng.choice(["srcs", "cflags", "static_libs", "name", "zzz", "defaults"])
    items = [rng.choice(["a.c", "é", "q\"x", "\\n", "b\tc", " ", ":x", "$a", "日本"]) for _ in range(rng.randint(0, 3))]
    words = ["-m", name, *spelled(rng, "-p", "--property", wanted)] + (["--items", ",".join(items)] if items else [])
    answer = session.run(["edit", "-i", path, "-o", "edited", *words], ["edited"])
    if answer.status == 1:
        if not answer.err.startswith(path + ":") or not re.search(r": error ([1-9]|4[012]): ", answer.err):
            raise Disagreement(f"this is no fault of edit: {answer.err!r}")
        return
    same(answer.status, 0, "the statuses that are wanted and given")
    old, new = session.bytes_of(path), session.bytes_of("edited")
    put_in = ("[" + ", ".join("\"" + item.translate(ESCAPED) + "\"" for item in items) + "]").encode()
    if not any(is_edit(old, new, at, put_in, wanted) for at in range(len(new)) if new.startswith(put_in, at)):
        raise Disagreement(f"this edit of {wanted} of {name} isn't one span: {shown(old)} and {shown(new)}")
    session.run(["edit", "-i", "edited", "-o", "twice", *words], ["twice"])
    same(new, session.bytes_of("twice"), "the texts that are edited once and twice")
    same(session.run(["fmt", "-i", "edited", "-o", "laid"], ["laid"]).status, 0, "the statuses of fmt behind edit")


def is_edit(old, new, at, put_in, wanted):
    """The list stands there in the new text in place of a value, or in an entry that was added."""
    head, tail = new[:at], new[at + len(put_in):]
    added = f", {wanted}: ".encode()
    if head.endswith(added) and head[:-len(added)] + tail == old:
        return True
    return old.startswith(head + b"[") and old.endswith(b"]" + tail) and len(head) + len(tail) < len(old)


# ---- the whole

def texts_of_faults():
    """The number and the text of each fault, from docs/FAULTS.md."""
    with open(os.path.join(TOP, "docs", "FAULTS.md"), encoding="utf-8") as page:
        return {int(n): text for n, text in re.findall(r"^\| (\d+) \| \w+ \| (.+?) \|", page.read(), re.M)}


def try_tree(session, rng, tree, wanted, what, has):
    built, targets, text, journals = try_builds(session, rng, wanted, what)
    if text is not None and has["ninja"]:
        try_ninja(session, what, session.counts)
    try_graphs(session, rng, built, targets)
    try_replays(session, rng, built, targets, text, journals)
    path = tree.path(rng.choice(tree.directories))
    if has["fmt"]:
        try_formatting(session, rng, built, targets, text, path)
    if has["edit"]:
        here = [m for m in getattr(tree, "modules", []) if tree.path(m.directory) == path]
        try_edit(session, rng, path, here)
    try_words(session, rng)
    if rng.random() < 0.2:
        try_synth(session, rng)
    if what == "whole":
        try_outside(session, rng, tree)


def arguments():
    words = argparse.ArgumentParser()
    words.add_argument("--exe", default=os.path.join(TOP, "crates", "bpgen", "out", "bpgen"))
    words.add_argument("--count", type=int, default=100)
    words.add_argument("--seconds", type=float, default=300)
    words.add_argument("--seed", type=int, default=1)
    words.add_argument("--keep")
    return words.parse_args()


def main():
    given = arguments()
    program = os.path.abspath(given.exe)
    if not os.access(program, os.X_OK):
        print("random_trees: skipped, since there is no built program")
        return 0
    said = subprocess.run([program, "--help"], capture_output=True).stdout
    has = {name: b"\n" + name.encode() + b":" in said for name in ("fmt", "edit")}
    has["ninja"] = shutil.which("ninja") is not None
    for name in [name for name in has if not has[name]]:
        print(f"random_trees: {name} isn't tried, since it isn't there")
    rows, texts, ends = odd_files.table(), texts_of_faults(), time.monotonic() + given.seconds
    counts = {status: 0 for status in range(6)}
    counts["ninja"], counts["faults"] = 0, set()
    kinds = {}
    for case in range(given.count):
        if time.monotonic() > ends:
            break
        rng = random.Random(given.seed * 1000003 + case)
        tree, wanted, what = tree_of(rng, rows, case)
        folder = tempfile.mkdtemp(prefix=f"random{case}_")
        tree.write(folder)
        kinds[what] = kinds.get(what, 0) + 1
        session = Session(program, texts, folder, counts)
        try:
            try_tree(session, rng, tree, wanted, what, has)
        except Disagreement as wrong:
            if given.keep:
                folder = shutil.move(folder, given.keep)
            print(f"random_trees: tree {case} of seed {given.seed} ({what}), kept in {folder}")
            print(f"random_trees: bpgen {' '.join(session.words)}: {wrong}")
            return 1
        shutil.rmtree(folder)
    trees = ", ".join(f"{number} {what}" for what, number in sorted(kinds.items()))
    runs = ", ".join(f"{counts[status]} with status {status}" for status in range(6))
    print(f"random_trees: {sum(kinds.values())} trees ({trees}); runs: {runs}; faults {sorted(counts['faults'])}; "
          f"Ninja loaded {counts['ninja']} texts; none wrong")
    return 0


if __name__ == "__main__":
    sys.exit(main())
