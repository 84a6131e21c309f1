#!/usr/bin/env python3
"""Writes odd but legal Android.bp files in trees of nested directories, runs the program on each tree, and says what it
answers otherwise than it should. It is no part of the gate.

    tools/odd_files.py [--program PROGRAM] [--trees N] [--seed N] [--keep DIRECTORY]

Half of the trees have no fault, and the program must answer none of loading. The others have one fault, or two of
different phases, whose place the script knows. Each tree has up to twelve files. The properties are those of the table
in docs/PROPERTIES.md. PROGRAM is run in the tree as `PROGRAM build -l list -o out.ninja -t android_arm64`.
"""
import argparse
import os
import random
import re
import shutil
import subprocess
import sys
import tempfile

TOP = os.path.dirname(os.path.dirname(os.path.abspath(__file__)))
OF_LOADING = set(range(1, 21)) | {26, 27, 30, 33}
TYPES = ["cc_binary", "cc_library", "cc_library_static", "cc_library_shared", "cc_library_headers", "cc_test", "cc_defaults"]
GROUPS = {
    "arch": ["arm", "arm64", "riscv64", "x86", "x86_64"],
    "multilib": ["lib32", "lib64"],
    "target": ["android", "host", "linux", "linux_glibc", "not_windows", "darwin", "windows", "vendor", "recovery",
               "android_arm64", "android_arm", "android_x86_64", "android_x86", "linux_glibc_x86_64", "linux_glibc_x86"],
}
ODD_TEXT = ["", "a", "é", "äöü", "日本語", "😀", "\u00a0", "a b", "  ", "//", "/*", "*/", "{", "}", "[", ",", "=", "$", "\\",
            "\"", "'", "\t", "\n", "\r", "\a", "\b", "\v", "\f", "# x", "\u2028", "\ufeff", "%s", "-1", "true"]
FLAGS = ["-Wall", "-DX=\"é\"", "", "a b", "-D'x'", "$(y)", "日本", "\u0080"]
INCLUDED = [".", "", "inc", "./inc/", "a/b", "ä"]
ESCAPES = {"\a": "a", "\b": "b", "\f": "f", "\n": "n", "\r": "r", "\t": "t", "\v": "v", "\\": "\\", "\"": "\""}


def table():
    """The properties of docs/PROPERTIES.md: name, kind, types, and whether groups have it."""
    rows = {}
    with open(os.path.join(TOP, "docs", "PROPERTIES.md"), encoding="utf-8") as text:
        for line in text:
            found = re.match(r"\| `(\w+)` \| (\w+) \| (.*?) \| (yes)? *\|", line)
            if found:
                name, kind, types, in_groups = found.groups()
                of_types = set(re.findall(r"`(\w+)`", types))
                if types in ("cc types", "all"):
                    of_types = set(TYPES) | ({"filegroup"} if types == "all" else set())
                rows[name] = (kind, of_types, in_groups == "yes")
    return rows


class Tree:
    """Files in directories, and what is known of all of them."""

    def __init__(self, rng, rows):
        self.rng, self.rows = rng, rows
        self.names = 0
        self.directories = self.some_directories()
        self.files = {}
        for directory in self.directories:
            above = [d for d in self.files if directory[:len(d)] == d]
            inherited = self.files[max(above, key=len)].scope if above else {}
            self.files[directory] = self.file(directory, inherited)
        self.lists = None

    def some_directories(self):
        rng = self.rng
        directories = {()}
        while len(directories) < rng.randint(1, 12):
            above = rng.choice(sorted(directories))
            if len(above) < 6:
                directories.add(above + (rng.choice(["a", "b", "A", "b.c", "b-c", "lib", "x y", "ä", "0", "~", "é日"]),))
        # A directory may have no file, so that the nearest ancestor's is not the parent's.
        having = [d for d in sorted(directories) if rng.random() < 0.8] or [()]
        return sorted(having, key=lambda d: [part.encode() for part in d])

    def file(self, directory, inherited):
        return File(self, inherited)

    def path(self, directory):
        return "/".join(directory + ("Android.bp",))

    def name(self):
        self.names += 1
        return self.rng.choice(["m", "lib", "a.b", "x+y", "@", "_", "-"]) + str(self.names)

    def list_bytes(self):
        rng = self.rng
        lines = [self.path(d) for d in self.directories]
        lines += [rng.choice(lines) for _ in range(rng.randint(0, 3))]
        rng.shuffle(lines)
        text = ""
        for line in lines:
            text += rng.choice(["", "", "./", "././"]) + line + rng.choice(["\n", "\n", "\r\n", "\n\n", "\n \t\n"])
        return (text if rng.random() < 0.7 else text.rstrip("\r\n")).encode()

    def write(self, top):
        for directory, file in self.files.items():
            where = os.path.join(top, *directory)
            os.makedirs(where, exist_ok=True)
            with open(os.path.join(where, "Android.bp"), "wb") as out:
                out.write(file.bytes())
        with open(os.path.join(top, "list"), "wb") as out:
            out.write(self.lists if self.lists is not None else self.list_bytes())


class File:
    """The text of a file, as pieces; its scope by names: the value, and whether it may still grow here."""

    def __init__(self, tree, inherited):
        self.tree, self.rng, self.rows = tree, tree.rng, tree.rows
        self.pieces = []
        self.scope = dict(inherited)
        self.own, self.used = set(), set()
        self.ends = self.rng.choice(["\n", "\n", "\n", "\r\n"])
        self.places = {}
        self.definitions()
        self.gap()
        if self.rng.random() < 0.2:
            self.pieces.append(self.rng.choice(["// the end", "/* the end */", "/***/", "//", "// é 日本"]))

    def definitions(self):
        if self.rng.random() < 0.08:
            self.gap()
        else:
            for _ in range(self.rng.randint(0, 7)):
                self.definition()

    # bytes and places

    def bytes(self):
        return b"".join(p if isinstance(p, bytes) else p.encode() for p in self.pieces)

    def place(self, piece):
        """Line and column of the first byte of a piece."""
        before = b"".join(p if isinstance(p, bytes) else p.encode() for p in self.pieces[:piece]).decode()
        return before.count("\n") + 1, len(before) - (before.rfind("\n") + 1) + 1

    # what stands between tokens

    def comment(self):
        rng = self.rng
        inside = "".join(rng.choice(ODD_TEXT[:24]) for _ in range(rng.randint(0, 3)))
        if rng.random() < 0.5:
            return "//" + inside.replace("\n", " ") + self.ends
        inside = rng.choice(["", "*", "**", "/", " * "]) + inside + rng.choice([" ", self.ends]) + rng.choice(["", "*", "**"])
        while "*/" in inside:
            inside = inside.replace("*/", "* /")
        return "/*" + inside + "*/"

    def gap(self, needed=False):
        rng = self.rng
        if needed or rng.random() < 0.6:
            self.pieces.append(rng.choice([" ", " ", "  ", "\t", self.ends, self.ends + self.ends, self.ends + "    "]))
        while rng.random() < 0.12:
            self.pieces.append(self.comment())
            if rng.random() < 0.5:
                self.pieces.append(rng.choice([" ", self.ends]))

    def put(self, token):
        self.gap()
        self.pieces.append(token)
        return len(self.pieces) - 1

    def word(self, token):
        self.gap(needed=True)
        self.pieces.append(token)
        return len(self.pieces) - 1

    # expressions that have a value which is given

    def string(self, value):
        rng = self.rng
        if "`" not in value and rng.random() < 0.25:
            return self.put("`" + value + "`")
        text = ""
        for c in value:
            text += "\\" + ESCAPES[c] if c in "\n\"\\" or c in ESCAPES and rng.random() < 0.7 else c
        return self.put("\"" + text + "\"")

    def variable(self, value):
        """A variable that has the value, if there is one."""
        named = [n for n, v in self.scope.items() if repr(v) == repr(value)]
        if not named or self.rng.random() < 0.3:
            return False
        name = self.rng.choice(named)
        self.used.add(name)
        self.word(name)
        return True

    def expression(self, value, depth=0):
        rng = self.rng
        if self.variable(value):
            return
        splits = depth < 3 and not isinstance(value, bool) and rng.random() < 0.2
        if isinstance(value, bool):
            self.word("true" if value else "false")
        elif isinstance(value, int):
            if splits and abs(value) < 2 ** 40:
                part = rng.randint(-1000, 1000)
                self.sum(part, value - part, depth)
            else:
                self.word(rng.choice(["", "", "0", "00"]) + str(value) if value >= 0 else str(value))
        elif isinstance(value, (str, list)):
            if splits:
                at = rng.randint(0, len(value))
                self.sum(value[:at], value[at:], depth)
            elif isinstance(value, str):
                self.string(value)
            else:
                self.many("[", "]", [(lambda item=item: self.expression(item, depth + 1)) for item in value])
        elif splits and value:
            at = rng.randint(0, len(value))
            entries = list(value.items())
            self.sum(dict(entries[:at]), dict(entries[at:]), depth)
        else:
            self.many("{", "}", [(lambda entry=entry: self.entry(entry[0], entry[1], depth + 1)) for entry in value.items()])

    def sum(self, first, second, depth):
        self.expression(first, depth + 1)
        self.put("+")
        self.expression(second, depth + 1)

    def many(self, opening, closing, items):
        self.put(opening)
        for count, item in enumerate(items):
            item()
            if count + 1 < len(items) or self.rng.random() < 0.5:
                self.put(",")
        self.put(closing)

    def entry(self, name, value, depth=0):
        at = self.word(name)
        self.places[name] = at
        self.put(":")
        self.expression(value, depth)

    # values

    def odd(self):
        return "".join(self.rng.choice(ODD_TEXT) for _ in range(self.rng.randint(0, 3)))

    def any_value(self, depth=0):
        rng = self.rng
        kind = rng.choice(["string", "string", "list", "list", "bool", "int", "map"])
        if kind == "string":
            return self.odd()
        if kind == "list":
            return [self.odd() for _ in range(rng.choice([0, 1, 2, 3, 40]))]
        if kind == "bool":
            return rng.random() < 0.5
        if kind == "int":
            return rng.choice([0, 1, -1, 7, 2 ** 63 - 1, -2 ** 63, rng.randint(-10 ** 9, 10 ** 9)])
        return {n: self.any_value(depth + 1) for n in rng.sample(["a", "b", "c", "d", "true", "name"], rng.randint(0, 3 if depth < 4 else 0))}

    def path_item(self):
        rng = self.rng
        return rng.choice(["a.c", "./a.c", "b//c.cpp", "d/./e.S", "x y.c", "ä.c", "...", "$x.c", "a:b.c", ":group", ": x", ":..", "'q'.c"])

    def of_kind(self, name, kind):
        rng = self.rng
        count = rng.choice([0, 1, 1, 2, 3, 30])
        if kind == "Bool":
            return rng.random() < 0.5
        if kind == "Word":
            return self.odd()
        if kind == "Multi":
            return rng.choice(["both", "first", "32", "64"])
        if kind == "Level":
            return rng.choice(["1", "29", "0030", "9999", "current", "", "S", "x1"])
        if kind == "Flags":
            return [rng.choice(FLAGS) for _ in range(count)]
        if kind == "Paths":
            return [self.path_item() for _ in range(count)]
        if kind == "Dirs":
            return [rng.choice(INCLUDED) for _ in range(count)]
        if kind in ("Names", "Words"):
            return [rng.choice(["libx", "", "a b", "é", "//visibility:public"]) for _ in range(count)]
        return self.group(name)

    def group(self, name):
        rng = self.rng
        if name == "sanitize":
            return {n: rng.random() < 0.5 for n in rng.sample(["address", "never"], rng.randint(0, 2))}
        if name in GROUPS:
            return {n: self.base() for n in rng.sample(GROUPS[name], rng.randint(0, 2))}
        return self.base()

    def base(self):
        in_groups = sorted(n for n, row in self.rows.items() if row[2])
        return {n: self.of_kind(n, self.rows[n][0]) for n in self.rng.sample(in_groups, self.rng.randint(0, 4))}

    # definitions

    def body(self, kind, name):
        rng = self.rng
        known = sorted(n for n, row in self.rows.items() if kind in row[1] and n != "name")
        chosen = rng.sample(known, min(len(known), rng.choice([0, 1, 2, 5, 12])))
        entries = [(n, self.of_kind(n, self.rows[n][0])) for n in chosen] + ([("name", name)] if name is not None else [])
        rng.shuffle(entries)
        return dict(entries)

    def module(self, kind=None, entries=None):
        rng = self.rng
        self.places = {}
        kind = kind or rng.choice(TYPES + ["filegroup", "package", "license"])
        if entries is None:
            if kind in ("package", "license"):
                entries = {n: self.any_value() for n in rng.sample(["default_visibility", "name", "x"], rng.randint(0, 3))}
            else:
                entries = self.body(kind, self.tree.name())
        at = self.word(kind)
        # The body is written as one map: a sum can't stand here.
        self.many("{", "}", [(lambda entry=entry: self.entry(*entry)) for entry in entries.items()])
        return at

    def new_name(self):
        while True:
            name = self.rng.choice(["x", "_", "flags", "X1", "name", "cc_binary", "srcs"]) + str(self.rng.randint(0, 999))
            if name not in self.scope:
                return name

    def assign(self, value=None):
        name = self.new_name()
        value = self.any_value() if value is None else value
        at = self.word(name)
        self.put("=")
        self.expression(value)
        self.scope[name] = value
        self.own.add(name)
        return name, at

    def grow(self):
        """Adds to a variable that may still grow, if there is one."""
        growing = [n for n in self.own - self.used if isinstance(self.scope[n], (str, list))]
        if not growing:
            return False
        name = self.rng.choice(sorted(growing))
        old = self.scope[name]
        more = self.odd() if isinstance(old, str) else [self.odd()]
        self.word(name)
        self.put("+=")
        # The name itself could be taken for the new value's variable.
        self.scope.pop(name)
        self.expression(more)
        self.scope[name] = old + more
        return True

    def definition(self):
        what = self.rng.random()
        if what < 0.35:
            # Values that properties want, so that variables stand in modules.
            self.assign(self.rng.choice([None, None, ["-Wall"], "both", True, ["a.c"], "libx", "29", ["libx"]]))
        elif what >= 0.45 or not self.grow():
            self.module()


class Late(File):
    """A piece of a file that is put behind all of it: it sees the file's scope."""

    def __init__(self, file):
        self.__dict__.update(file.__dict__)
        self.pieces = []
        self.gap(needed=True)


# Faults. Each takes a late piece, writes what is wrong, and answers the index of the piece where the fault stands, its
# number and its subject, or None where it can't be written here.

def bad_char(f):
    token = f.rng.choice(["$", "@", "é", "-", "/", ".", "'", "\u00a0", "\x00", "%"])
    f.word("x0")
    return f.word(token), 2, token


def open_string(f):
    f.word("x0")
    f.put("=")
    return f.put("\"é" + "\n"), 3, ""


def open_raw(f):
    f.word("x0")
    f.put("=")
    return f.put("`" + "é\n"), 3, ""


def open_comment(f):
    return f.put("/*" + f.rng.choice(["", "/", "é\n", " * "])), 4, ""


def bad_escape(f):
    f.word("x0")
    f.put("=")
    f.put("\"é\\n")
    f.pieces.append("\\")
    c = f.rng.choice("qxé0u'")
    f.pieces.append(c + "\"")
    return len(f.pieces) - 2, 5, c


def bad_number(f):
    token = f.rng.choice(["9223372036854775808", "-9223372036854775809", "1" * 40])
    f.word("x0")
    f.put("=")
    return f.word(token), 6, token


def unexpected(f):
    way = f.rng.randint(0, 5)
    if way == 0:
        return f.put("}"), 7, "}"
    if way == 1:
        f.word("x0")
        f.put("=")
        return f.put(","), 7, ","
    if way == 2:
        return f.word("true"), 7, "true"
    if way == 3:
        f.word("x0")
        f.put("=")
        f.put("[")
        return f.put(","), 7, ","
    if way == 4:
        f.word("cc_binary")
        f.put("{")
        f.word("name")
        return f.put("="), 7, "="
    f.word("x0")
    f.put("=")
    return f.put("("), 7, "("


def ends_early(f):
    f.word("cc_binary")
    f.put("{")
    f.pieces.append(f.rng.choice(["", "\n", " // é"]))
    return len(f.pieces), 7, "end of file"


def too_nested(f):
    f.word("x0")
    f.put("=")
    for _ in range(64):
        f.put("[")
    return f.put(f.rng.choice("[{")), 8, ""


def duplicate_property(f):
    f.word(f.rng.choice(["cc_binary", "package"]))
    f.put("{")
    f.entry("a", 1)
    f.put(",")
    f.entry("b", {"a": True})
    f.put(",")
    return f.word("a"), 9, "a"


def unknown_variable(f):
    name = f.new_name()
    if f.rng.random() < 0.5:
        f.word(f.new_name() + "_")
        f.put("=")
        return f.word(name), 10, name
    at = f.word(name)
    f.put("+=")
    f.expression("a")
    return at, 10, name


def already_set(f):
    if not f.scope:
        return None
    name = f.rng.choice(sorted(f.scope))
    at = f.word(name)
    f.put("=")
    f.expression(1)
    return at, 11, name


def inherited(f):
    above = sorted(set(f.scope) - f.own)
    if not above:
        return None
    name = f.rng.choice(above)
    at = f.word(name)
    f.put("+=")
    f.expression(1)
    return at, 12, name


def after_use(f):
    used = sorted(f.own & f.used)
    if not used:
        return None
    name = f.rng.choice(used)
    at = f.word(name)
    f.put("+=")
    f.expression(1)
    return at, 13, name


def bad_sum(f):
    f.word(f.new_name())
    f.put("=")
    first, second, subject = f.rng.choice([("a", ["b"], "string + list"), (True, True, "bool + bool"), (1, "x", "integer + string"),
                                           (2 ** 63 - 1, 1, "integer + integer"), ({}, [], "map + list"), ([], "", "list + string")])
    f.scope.clear()
    f.expression(first, 9)
    at = f.put("+")
    f.expression(second, 9)
    return at, 14, subject


def list_item(f):
    f.word(f.new_name())
    f.put("=")
    f.put("[")
    f.string("a")
    f.put(",")
    at = f.word(f.rng.choice(["1", "true", "-7"]))
    f.put("]")
    return at, 17, "list item"


def unknown_type(f):
    kind = f.rng.choice(["cc_binaryx", "java_library", "Package", "_", "x9"])
    return f.module(kind, {"x": 1}), 15, kind


def unknown_property(f):
    name = f.rng.choice(["nam", "Srcs", "_", "sdk"])
    f.module("cc_library", {name: [], "name": f.tree.name()})
    return f.places[name], 16, name


def unknown_in_group(f):
    f.scope.clear()
    f.module("cc_test", {"target": {"android": {"defaults": []}}, "name": f.tree.name()})
    return f.places["defaults"], 16, "target.android.defaults"


def wrong_type(f):
    kind, name, value = f.rng.choice([("cc_binary", "srcs", "a.c"), ("cc_test", "test_per_src", "true"), ("filegroup", "path", []),
                                      ("cc_library", "static", []), ("cc_defaults", "name", 7), ("cc_library", "cflags", {})])
    f.module(kind, {name: value} if name == "name" else {"name": f.tree.name(), name: value})
    return f.places[name], 17, name


def missing_name(f):
    kind = f.rng.choice(TYPES + ["filegroup"])
    return f.module(kind, {"enabled": True}), 18, kind


def bad_name(f):
    name = f.rng.choice(["", ".", "..", "a/b", "é", "a b", "x" * 256])
    f.module("filegroup", {"name": name})
    return f.places["name"], 19, name


def duplicate_name(f):
    f.module("filegroup", {"name": "first.of.two"})
    f.module(f.rng.choice(TYPES), {"enabled": False, "name": "first.of.two"})
    return f.places["name"], 20, "first.of.two"


def bad_value(f):
    name, value = f.rng.choice([("compile_multilib", "Both"), ("min_sdk_version", "0"), ("min_sdk_version", "10000")])
    f.module("cc_library", {"name": f.tree.name(), name: value})
    return f.places[name], 26, name


def in_list(f, name, item, number, subject):
    f.scope.clear()
    f.word("cc_library")
    f.put("{")
    f.entry("name", f.tree.name())
    f.put(",")
    f.word(name)
    f.put(":")
    f.put("[")
    f.string("a")
    f.put(",")
    at = f.string(item)
    f.put("]")
    f.put("}")
    return at, number, subject


def bad_flag(f):
    return in_list(f, "cflags", f.rng.choice(["-D\t", "\n", "a\x7fb"]), 26, "cflags")


def bad_path(f):
    item = f.rng.choice(["/a.c", "../a.c", "a/../b.c", "*.c", "a|b.c", "a\tb.c", "", ".", "//"])
    return in_list(f, "srcs", item, 27, item)


PARSING = [bad_char, open_string, open_raw, open_comment, bad_escape, bad_number, unexpected, ends_early, too_nested, duplicate_property]
EVALUATION = [unknown_variable, already_set, inherited, after_use, bad_sum, list_item]
TYPING = [unknown_type, unknown_property, unknown_in_group, wrong_type, missing_name, bad_name, bad_value, bad_flag, bad_path]
NAMES = [duplicate_name]
PHASES = [PARSING, EVALUATION, TYPING, NAMES]


def plant(tree, directory, fault):
    """Puts a fault behind a file. Answers the start of its line."""
    file = tree.files[directory]
    late = Late(file)
    late.scope = dict(file.scope)
    found = fault(late)
    if found is None:
        return None
    at, number, subject = found
    start = len(file.pieces) + 1
    # A comment at the end of the file must not take in the fault, nor a word what stands before it.
    file.pieces = file.pieces + ["\n"] + late.pieces
    line, column = file.place(start + at)
    # A fault of tokens may be followed by nothing at all; others by more text.
    if fault in (unknown_type, missing_name, bad_path, already_set, unexpected, duplicate_property, bad_name):
        file.pieces.append(file.rng.choice(["", "\n", "\n// after", "\nlate_" + str(file.rng.randint(0, 9)) + "x = 1"]))
    shown = "".join("?" if ord(c) < 32 or ord(c) == 127 else c for c in subject[:80])
    return f"{tree.path(directory)}:{line}:{column}: error {number}: ", shown


def not_utf8(tree, directory):
    file = tree.files[directory]
    at = len(file.pieces) + 1
    file.pieces = file.pieces + ["\n", "// é", file.rng.choice([b"\xff", b"\xc3", b"\xed\xa0\x80", b"\xe6\x97", b"\xc0\x80"]), "\n"]
    line, column = file.place(at + 1)
    return f"{tree.path(directory)}:{line}:{column}: error 1: ", ""


def bad_list(tree):
    rng = tree.rng
    lines = [tree.path(d) for d in tree.directories]
    bad = rng.choice(["../Android.bp", "/Android.bp", "a//Android.bp", "Android.bpx", "a/", "a/./Android.bp", "a|/Android.bp", "x", "a\tb/Android.bp",
                      " Android.bp", "Android.bp ", "Android.bp\r", "éAndroid.bp"])
    at = rng.randint(0, len(lines))
    lines.insert(at, bad)
    tree.lists = ("\n".join(lines) + "\n").encode()
    # One CR before LF is no part of the line.
    if bad.endswith("\r"):
        lines[at] = bad + "\r"
        tree.lists = ("\n".join(lines) + "\n").encode()
    return f"list:{at + 1}:1: error 33: ", bad.replace("\t", "?").replace("\r", "?")


def answer(program, top):
    out = os.path.join(top, "out.ninja")
    run = subprocess.run([program, "build", "-l", "list", "-o", "out.ninja", "-t", "android_arm64"], cwd=top, capture_output=True, timeout=120)
    return run.returncode, run.stderr.decode(errors="replace"), os.path.exists(out)


def judge(wanted, code, said, wrote):
    """What is wrong with an answer, or None."""
    number = re.search(r":\d+:\d+: error (\d+): ", said)
    if code not in (0, 1) or code == 0 and said or code == 1 and not number or (code == 0) != wrote:
        return "no answer of the program's kind"
    if wanted is None:
        return "a fault where there is none" if code == 1 and int(number.group(1)) in OF_LOADING else None
    start, subject = wanted
    if not said.startswith(start) or subject and not said.endswith(": " + subject + "\n"):
        return f"wanted {start!r} and {subject!r}"
    return None


def make(rng, rows, case):
    tree = Tree(rng, rows)
    if case % 2 == 0:
        return tree, None, "legal"
    if case % 20 == 1:
        return tree, not_utf8(tree, rng.choice(tree.directories)), "not_utf8"
    if case % 20 == 3:
        return tree, bad_list(tree), "bad_list"
    if case % 20 == 5 and len(tree.directories) > 1:
        # The fault of the earlier phase stands in the later file.
        first, second = sorted(rng.sample(range(4), 2))
        one, other = sorted(rng.sample(range(len(tree.directories)), 2))
        late = rng.choice([f for f in PHASES[second] if f not in (already_set, inherited, after_use)])
        early = rng.choice([f for f in PHASES[first] if f not in (already_set, inherited, after_use)])
        plant(tree, tree.directories[one], late)
        return tree, plant(tree, tree.directories[other], early), f"{late.__name__} and then {early.__name__}"
    while True:
        fault = rng.choice([f for phase in PHASES for f in phase])
        wanted = plant(tree, rng.choice(tree.directories), fault)
        if wanted:
            return tree, wanted, fault.__name__


def main():
    words = argparse.ArgumentParser()
    words.add_argument("--program", default=os.path.join(TOP, "crates", "bpgen", "out", "bpgen"))
    words.add_argument("--trees", type=int, default=400)
    words.add_argument("--seed", type=int, default=1)
    words.add_argument("--keep")
    given = words.parse_args()
    program = os.path.abspath(given.program)
    if not os.access(program, os.X_OK):
        print("odd_files: skipped, since there is no built program")
        return 0
    rows, wrong, files, tried = table(), 0, 0, {}
    for case in range(given.trees):
        tree, wanted, what = make(random.Random(given.seed * 1000003 + case), rows, case)
        top = tempfile.mkdtemp(prefix=f"odd{case}_")
        tree.write(top)
        files += len(tree.files)
        tried[what] = tried.get(what, 0) + 1
        code, said, wrote = answer(program, top)
        bad = judge(wanted, code, said, wrote)
        if bad:
            wrong += 1
            kept = os.path.join(given.keep, str(case)) if given.keep else None
            if kept:
                shutil.copytree(top, kept, dirs_exist_ok=True)
            print(f"tree {case} ({what}): {bad}; status {code}, said {said!r}" + (f"; kept in {kept}" if kept else ""))
        shutil.rmtree(top)
    print(f"odd_files: {given.trees} trees with {files} files, {len(tried)} kinds of tree, {wrong} wrong")
    return 1 if wrong else 0


if __name__ == "__main__":
    sys.exit(main())
