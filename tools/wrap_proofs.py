#!/usr/bin/env python3
"""Wraps the long lines of .antt files at 120 columns. It is no part of the gate.

    tools/wrap_proofs.py [--check] [--top DIRECTORY] [CRATE ..]

It takes the files of proofs/ and specs/ of the crates that are named, or of all. Lines that fit stay as they are. A
line that doesn't fit is broken from the outside in: an import becomes several of the same path; a type is broken
before its arrows; a definition behind its `=`, before each step of a chain and behind each `let .. in`; a tuple or a
record has a line for each part; else arguments go to the next line, the outer ones first. `rattle fmt`, which is what
`rt fmt` runs, indents what is broken, and the script goes on until every line fits or has no place for a break. With
--check it writes nothing, and prints the lines that are too long.

A file stays as it was, and is named, where its tokens would be others afterwards. Only the marks at the end of a tuple
or record and before cases, which `rattle fmt` sets, may differ. A line that stays too long is named too. The status is
1 where one is named. A second run changes nothing.
"""
import argparse
import glob
import json
import os
import re
import subprocess
import sys

HERE = os.path.dirname(os.path.dirname(os.path.abspath(__file__)))
WIDEST = 120
ROUNDS = 12
# What breaks cost, of which the sum over a text is made small: of each line, of each bracket that a break stands in, of
# one that would fit in a line, and of a place where no break is wanted. What is too wide costs most.
LINE, INSIDE, SPLIT, UNWANTED, WIDE = 24, 9, 14, 60, 10000
# Operators, the loosest first: a break stands before the operator, and costs more the tighter it binds.
LOOSE = [["→"], ["×", "⊎", "↔"], ["≡", "≢", "<", "≤", "∙"], ["||"], ["&&"], ["=="], ["++", "∷"]]
COSTS = {operator: 2 * at for at, several in enumerate(LOOSE) for operator in several}
# Words of symbols that are no operators.
PLAIN = {"[]", "_", "⊤", "⊥", "?", "[", "]", "¬", "|", "↦", ":", "=", "←", ","}
# Tactics, whose lists stay beside them.
TACTICS = set("omega grind search rw simp grw first_of assumption hlevel".split())
ATOM = re.compile(r'"(?:\\.|[^"\\])*"|«[^»]*»|[(){}.;,@]|[^\s(){}.;,@"«»]+')
IMPORT = re.compile(r"( *)((?:pub )?use [^\s{}]+\.)\{([^{}]*)\}")


class Space:
    """A place for a break: the space before a word, and what stands about it."""

    def __init__(self, at, depth, groups, before, after, nth, in_binders, let_ends):
        self.at, self.depth, self.groups, self.before, self.after = at, depth, groups, before, after
        self.nth, self.in_binders, self.let_ends = nth, in_binders, let_ends
        self.is_last = False


class Group:
    """What stands in a pair of brackets."""

    def __init__(self, opener, start, head):
        self.opener, self.start, self.end, self.head = opener, start, None, head
        self.has_comma = self.has_colon = False

    def width(self, text):
        """The width of the group, with what belongs to its line before and behind it."""
        head = {"[": "elim", "{": "record"}.get(self.opener, self.head)
        start = text.rfind(head, 0, self.start) if head in TACTICS | {"elim", "record"} else self.start
        start = text.rfind(" ", 0, start) + 1
        end = text.find(" ", self.end)
        return (end if end >= 0 else len(text)) - start

    def is_listed(self):
        """It is a tuple, a record or cases, each part of which has a line of its own where one break stands in it."""
        return self.opener == "[" or self.has_comma or (self.opener == "{" and self.head == "record")

    def is_named(self):
        """It is an implicit argument or a binder."""
        return self.opener == "{" and self.head != "record" or self.has_colon


def is_operator(atom):
    return atom not in PLAIN and not any(char.isalnum() for char in atom) and atom[0] not in '"«(){}.;,@λ'


def spaces_of(text):
    """The places for breaks in a line of code, and its groups."""
    found, groups, stack = [], [], []
    # For each open bracket: how many words stand since an operator, whether binders of a λ go on, and open lets.
    states = [[0, False, 0]]
    depth, end, before, record = 0, 0, "", False
    for match in ATOM.finditer(text):
        atom = match.group(0)
        if match.start() > end > 0:
            state = states[-1]
            found.append(Space(match.start(), depth, list(stack), before, atom, state[0], state[1],
                               before == "in" and state[2] == 0))
        if atom in "({" or atom == "[":
            group = Group(atom, match.start(), "record" if record else before)
            groups.append(group)
            states[-1][0] += before != "."
            stack.append(group)
            states.append([0, False, 0])
            depth += 1
        elif atom in ")}" or atom == "]":
            depth -= 1
            if stack:
                stack.pop().end = match.end()
                states.pop()
            else:
                states = [[2, False, 0]]
        else:
            state = states[-1]
            if stack and atom == "," and not state[1]:
                stack[-1].has_comma = True
            if stack and atom == ":" and stack[-1].opener == "(" and state[0] > 0 and not state[2]:
                stack[-1].has_colon = True
            state[2] += (atom == "let") - (atom == "in")
            if atom == "λ":
                state[1] = True
            elif atom == "." and state[1] and (match.end() == len(text) or text[match.end()] == " "):
                state[0], state[1] = 0, False
            elif is_operator(atom) or atom in ("let", "in", "=", ":", ",", ";", "↦", "|", "if", "then", "else"):
                state[0] = 0
            elif atom != "." and match.start() > end or before in ("(", "{", ""):
                state[0] += 1
        record = (atom == "record") or (record and atom not in "({" and before == "record")
        before, end = atom, match.end()
    if found:
        found[-1].is_last = True
        # A bracket that opens at the end stays at the end.
        if text[found[-1].at:] in ("(", "{", "["):
            found.pop()
    return found, groups


def may_break(space):
    """Whether a line may end there; tuples, records and cases are broken elsewhere."""
    if space.in_binders or space.after in ("=", ":", "in", "{", "[", "where", "↦"):
        return False
    return space.before not in ("λ", ":", "let", "record", "elim") and not any(
        group.is_listed() for group in space.groups)


def cost_of(space, least, rest):
    """What a break there costs, beside its line."""
    before, after = space.before, space.after
    cost = INSIDE * (space.depth - least) + UNWANTED * sum(group.is_named() for group in space.groups)
    cost += SPLIT * sum(group.end is not None and group.end - group.start + rest < WIDEST for group in space.groups)
    if is_operator(before) or before in ("if", "then", "else", "↦", "¬") or before in TACTICS:
        return cost + 2 * UNWANTED
    if is_operator(after) and space.is_last:
        return cost + 2 * UNWANTED
    if before == "in":
        return cost + 2
    if before == "=":
        return cost + 4
    if before == ".":
        return cost + 14
    if is_operator(after):
        return cost + COSTS.get(after, 14)
    if after in ("then", "else"):
        return cost + 4
    return cost + (16 if after in ("(", "λ") else 19) + (26 if space.nth == 1 else 0)


def cut(text, places):
    """The parts of a text between places."""
    ends = [0] + sorted(places) + [len(text)]
    return [text[a:b].strip() for a, b in zip(ends, ends[1:])]


def cheapest(text, spaces, first, rest):
    """The text in lines, by the breaks that cost least; first and rest are the columns at which lines begin."""
    least = min(space.depth for space in spaces)
    spaces = [space for space in spaces if may_break(space)]
    ends = [space.at - 1 for space in spaces] + [len(text)]
    starts = [0] + [space.at for space in spaces]
    costs = [0] + [cost_of(space, least, rest) for space in spaces]
    if kind_of(text) == "signature" or text.startswith("→ "):
        for at, space in enumerate(spaces, 1):
            costs[at] += UNWANTED * (space.depth > least or space.after != "→")
    count = len(starts)
    best, following = [0] * (count + 1), [count] * count
    for one in range(count - 1, -1, -1):
        best[one] = None
        for other in range(count, one, -1):
            width = ends[other - 1] - starts[one] + (rest if one else first)
            sum_ = WIDE * max(0, width - WIDEST) + best[other]
            if other < count:
                sum_ += costs[other] + LINE
            if best[one] is None or sum_ < best[one]:
                best[one], following[one] = sum_, other
    places, one = [], following[0]
    while one < count:
        places.append(starts[one])
        one = following[one]
    return cut(text, places)


def wrapped(text, first, rest):
    """A line of code in several, which `rattle fmt` then indents; first and rest are as above."""
    if first + len(text) <= WIDEST:
        return [text]
    spaces, groups = spaces_of(text)
    if not spaces:
        return [text]
    least = min(space.depth for space in spaces)
    outer = [space for space in spaces if space.depth == least]

    def each(places):
        parts = cut(text, places)
        return [line for at, part in enumerate(parts) for line in wrapped(part, rest if at else first, rest)]

    kind, is_group = kind_of(text), False
    if kind == "definition":
        equals = [space.at for space in outer if space.before == "="][:1]
        body = text[equals[0]:] if equals else ""
        is_group = is_listed(body) and (body[0] == "r" or rest + len(body) > WIDEST)
        if equals and not is_group:
            return each(equals)
    lets = [space.at for space in outer if space.let_ends]
    if lets and kind != "signature":
        return each(lets)
    # A tuple, record or cases that no line holds gets a break in its first part, and `rattle fmt` does the rest.
    for group in groups:
        if group.is_listed() and group.end and (
                group.width(text) + rest > WIDEST or is_group and group.start >= equals[0]):
            inside = [space for space in spaces if group in space.groups]
            mark = {"{": (";", "{"), "[": ("[",), "(": (",",)}[group.opener]
            here = [space.at for space in inside if space.groups[-1] is group and space.before in mark]
            if here:
                return cut(text, [here[0]])
    if kind != "signature":
        steps = [space.at for space in outer if space.after == "∙" and not space.is_last]
        typed = re.match(r"let \S+ : ", text) and [space.at for space in outer if space.before == "="][:1]
        if typed and rest + len(text) - typed[0] <= WIDEST and first + typed[0] <= WIDEST:
            return each(typed)
        if steps:
            return each((typed or []) + steps)
    return cheapest(text, spaces, first, rest)


def is_listed(body):
    """A body is a tuple or a record."""
    groups = spaces_of(body)[1]
    begins = re.match(r"\(|record( [^\s{}]+)? \{", body)
    return bool(begins and groups and groups[0].end == len(body.rstrip(";,")) and groups[0].is_listed())


def kind_of(text):
    """A line is a signature, a definition (of a field too) or goes on with another line."""
    depth = 0
    for match in ATOM.finditer(text):
        atom = match.group(0)
        depth += (atom in "({" or atom == "[") - (atom in ")}" or atom == "]")
        if depth < 0:
            return "more"
        if depth == 0 and (atom in ("let", "λ", "∙", "↦", "|", "→", "elim", "if") or atom == ","):
            return "more"
        if depth == 0 and atom == ":":
            return "signature"
        if depth == 0 and atom == "=":
            return "definition"
    return "more"


def comment_lines(line):
    """A comment of one line in several."""
    indent = line[:len(line) - len(line.lstrip())]
    lines = [indent + "--"]
    for word in line.split()[1:]:
        if len(lines[-1]) + 1 + len(word) > WIDEST and lines[-1] != indent + "--":
            lines.append(indent + "--")
        lines[-1] += " " + word
    return lines


def import_lines(indent, path, items):
    """An import as several of the same path."""
    lines, here = [], []
    for item in [item.strip() for item in items.split(",") if item.strip()]:
        if here and len(indent + path + "{" + ", ".join(here + [item]) + "}") > WIDEST:
            lines.append(here)
            here = []
        here.append(item)
    return [indent + path + "{" + ", ".join(here) + "}" for here in lines + [here]]


def lines_for(line):
    """What stands in the place of a long line."""
    text = line.strip()
    indent = line[:len(line) - len(line.lstrip())]
    if text.startswith("--"):
        return comment_lines(line)
    taken = IMPORT.fullmatch(line)
    if taken:
        return import_lines(*taken.groups())
    if " -- " in re.sub(r'"(?:\\.|[^"\\])*"', "", text):
        return [line]
    goes_on = kind_of(text) == "more" and not re.match(r"(module|data|record|pub data|pub record|unfolding) ", text)
    rest = len(indent) + (0 if goes_on else 4)
    parts = wrapped(text, len(indent), rest)
    return [indent + parts[0]] + [" " * (rest if not goes_on else len(indent)) + part for part in parts[1:]]


def tokens_of(paths):
    """The tokens of each file, without what `rattle fmt` may set, each import as its items."""
    ran = subprocess.run(["rattle", "fmt", "--tokens", *paths], capture_output=True, text=True, check=True)
    files = []
    for line in ran.stdout.splitlines():
        if line.startswith("file "):
            files.append([])
        else:
            files[-1].append(json.loads(line.split(" ", 4)[4]))
    kept = []
    for tokens in files:
        some, path = [], None
        for at, token in enumerate(tokens):
            following = tokens[at + 1] if at + 1 < len(tokens) else ""
            if token == "use":
                path = [some.pop()] if some[-1:] == ["pub"] else []
            if token in (",", ";") and following in (")", "}") or token == "|" and at and tokens[at - 1] == "[":
                continue
            if path is None:
                some.append(token)
            elif token == "{":
                path, items = tuple(path), []
                some.append(path)
            elif isinstance(path, tuple) and token == "}":
                path = None
            elif isinstance(path, tuple) and token == ",":
                some.append(path)
            elif isinstance(path, tuple):
                some.append(token)
            else:
                path.append(token)
                if following not in (".", "{") and token not in ("use", "."):
                    some += path
                    path = None
        kept.append(some)
    return dict(zip(paths, kept))


def comments_of(text):
    """The words of the comments."""
    return [word for line in text.splitlines() if line.lstrip().startswith("--") for word in line.split()[1:]]


def read(path):
    with open(path, encoding="utf-8") as file:
        return file.read()


def write(path, text):
    with open(path, "w", encoding="utf-8") as file:
        file.write(text)


def too_long(text):
    return [number for number, line in enumerate(text.splitlines(), 1) if len(line) > WIDEST]


def main():
    parser = argparse.ArgumentParser(description="Wraps the long lines of .antt files.")
    parser.add_argument("--check", action="store_true", help="write nothing and print the lines that are too long")
    parser.add_argument("--top", default=HERE, metavar="DIRECTORY")
    parser.add_argument("crates", nargs="*", metavar="CRATE")
    options = parser.parse_args()
    os.chdir(options.top)
    paths = []
    for crate in options.crates or ["*"]:
        for folder in ("proofs", "specs"):
            paths += glob.glob(f"crates/{crate}/{folder}/**/*.antt", recursive=True)
    before = {path: read(path) for path in sorted(paths)}
    before = {path: text for path, text in before.items() if too_long(text)}
    status = 0
    if not options.check and before:
        tokens = tokens_of(list(before))
        refused, changing = set(), list(before)
        for _ in range(ROUNDS):
            here = []
            for path in changing:
                text = read(path)
                new = "".join(line + "\n" for old in text.splitlines()
                              for line in (lines_for(old) if len(old) > WIDEST else [old]))
                if new != text:
                    write(path, new)
                    here.append((path, text))
            if not here:
                break
            changing = []
            ran = subprocess.run(["rattle", "fmt", "--write", *[path for path, _ in here]],
                                 capture_output=True, text=True)
            for path, text in here:
                told = [line for line in (ran.stdout + ran.stderr).splitlines() if line.startswith(path + ":")]
                if told:
                    print(told[0])
                    write(path, before[path])
                    refused.add(path)
                elif read(path) != text and too_long(read(path)):
                    changing.append(path)
        after = tokens_of(list(before))
        for path in before:
            if after[path] != tokens[path] or comments_of(before[path]) != comments_of(read(path)):
                print(f"{path}: its tokens would be others")
                write(path, before[path])
                refused.add(path)
        status = 1 if refused else 0
    for path in before:
        lines = read(path).splitlines()
        for number in too_long(read(path)):
            print(f"{path}:{number}: {len(lines[number - 1])} columns")
            status = 1
    return status


if __name__ == "__main__":
    sys.exit(main())
