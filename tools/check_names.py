#!/usr/bin/env python3
"""Checks what a script can of the naming page in docs/CONTRIBUTING.md. It is no part of the gate.

    tools/check_names.py [--counts] [--top DIRECTORY] [CRATE ..]

It prints a line `PATH:LINE: RULE: WHAT` for each place and ends with status 1 where there is one; with --counts it also
prints a table by crate and rule. With names of crates it prints the places in these crates alone. DIRECTORY is the top of
the repository, by default the one in which this script is. The rules:

    width       a line of more than 120 columns in a .rt, .antt or .md file; imports of .rt, and tables and quoted
                blocks of .md, may be wider; tools/wrap_proofs.py wraps those of .antt
    comment     a definition in specs/ has no comment of its own, or one that isn't a sentence with a full stop
    meanings    one name is defined in specs/ of two crates, in files of which public contracts speak; laws aside
    bool        a name that begins with is_ or has_ is no Bool in specs/, or no bool in the code, where a call that
                takes memory may answer that it ran out
    participle  a function's name in specs/ is a bare participle
    means       a relation Is.., Are.. or Has.. to an outcome whose name doesn't end in Means
    laws        laws stand in src/law.rt, or in a module that isn't public
    readme      a crate has no README.md
    cites       a file cites the proofs/ of another crate, other than the shared files of bp_faults
    number      a paper, a demand or an issue is cited by its number
    table       docs/PROPERTIES.md has another row for a property than crates/property_tables/specs/Tables.antt
    path        a document names a file of crates/, docs/, tools/ or examples/ that isn't there, or in a table of its own
                columns a word that the file beside it doesn't define
"""
import argparse
import collections
import os
import re
import subprocess
import sys

HERE = os.path.dirname(os.path.dirname(os.path.abspath(__file__)))
WIDEST = 120
RULES = ["width", "comment", "meanings", "bool", "participle", "means", "laws", "readme", "cites", "number", "table",
         "path"]
PRIVATE = "No public contract speaks of it"
TABLE = "crates/property_tables/specs/Tables.antt"
DOCUMENT = "docs/PROPERTIES.md"
WORD = "(?:abbrev|unfoldable|pub|data|record)"
HEAD = re.compile(rf"( *)({WORD}(?: {WORD})*) ([^\s:]+)(.*)")
# Participles that don't end in -ed.
IRREGULAR = set("bound built cut drawn found given held kept known left made met put read seen sent set shown sought "
                "spelt taken told within written".split())
# The files of lemmas in bp_faults that every crate may cite.
SHARED = {"Lists", "Phases", "Gathered", "Refusals", "Paths"}
# Words that end in -ed and are nouns.
NOUNS = set("bed feed head need seed speed thread".split())
NUMBERED = re.compile(r"\b(?:[Dd]ocument|[Pp]aper|[Ii]ssue|[Rr]equest|[Rr]ow) #?\d+\b|\bissues show\b|"
                      r"(?<![\w.+/-])(?:0[1-4]\.\d{1,2}|[TDW]\d{1,2}(?:\.\d)?|R(?:[1-9]|1\d|20))(?![\w.]\w|\w)")


class Definition:
    """One definition of specs/: its name, where it is, its comment and its text."""

    def __init__(self, crate, path, line, words, name, comment, signature):
        self.crate, self.path, self.line, self.name, self.comment = crate, path, line, name, comment
        self.is_data = "data" in words or "record" in words
        self.arguments = parts_of(signature)


def cut_at(mark, text):
    """The parts of a text between the marks that stand outside brackets."""
    parts, depth, part = [], 0, ""
    for char in text:
        depth += (char in "({[") - (char in ")}]")
        if char == mark and depth == 0:
            parts.append(part.strip())
            part = ""
        else:
            part += char
    return parts + [part.strip()]


def parts_of(signature):
    """The types of a definition: those between the outer arrows, behind what stands in brackets before the colon."""
    before, *rest = cut_at(":", signature)
    groups = re.findall(r"\(([^()]*(?:\([^()]*\)[^()]*)*)\)", before)
    named = [cut_at(":", group)[-1] for group in groups]
    return named + cut_at("→", ":".join(rest))


def definitions_of(crate, path, lines):
    """The definitions of a file of specs/; the fields and constructors of a record are none."""
    found, comment, inside = [], [], None
    for number, line in enumerate(lines, 1):
        indent = len(line) - len(line.lstrip(" "))
        if not line.strip():
            comment = []
            continue
        if inside is not None and indent > inside:
            continue
        inside = None
        if line.strip().startswith("--"):
            comment.append(line.strip()[2:].strip())
            continue
        head = HEAD.fullmatch(line)
        if head and head.group(3) not in ("mod", "mutual", "use", "{"):
            spaces, words, name, rest = head.groups()
            more = number
            while more < len(lines) and lines[more].startswith(spaces + "  ") and "=" not in rest:
                rest += " " + lines[more].strip()
                more += 1
            one = Definition(crate, path, number, words.split(), name, " ".join(comment), rest)
            if one.is_data:
                inside = indent
            found.append(one)
        comment = []
    return found


def files():
    """The files of the repository, which is the current directory, that git knows or would take."""
    asked = ["git", "ls-files", "-co", "--exclude-standard"]
    listed = subprocess.run(asked, capture_output=True, text=True, check=True)
    return sorted(path for path in set(listed.stdout.splitlines()) if os.path.isfile(path))


def lines_of(path):
    """The lines of a text, or none where it is no text."""
    try:
        with open(path, encoding="utf-8") as text:
            return text.read().splitlines()
    except UnicodeDecodeError:
        return []


def crate_of(path):
    return path.split("/")[1] if path.startswith("crates/") else "the rest"


def is_participle(name):
    """A function's name of one word that is a participle."""
    return "_" not in name and name not in NOUNS and (name in IRREGULAR or name.endswith("ed"))


def may_be_wide(path, line, quoted):
    """Lines whose width isn't looked at."""
    if path.endswith(".md"):
        return quoted or line.startswith("|")
    if path.endswith(".rt"):
        return re.match(r" *(pub )?(ghost )?use ", line)
    return not path.endswith(".antt")


def check_texts(paths, tell):
    """Widths and numbers, line by line."""
    for path in paths:
        if not path.endswith((".rt", ".antt", ".md", ".sh", ".py", ".edit", ".txt")):
            continue
        quoted = False
        for number, line in enumerate(lines_of(path), 1):
            quoted ^= path.endswith(".md") and line.lstrip().startswith("```")
            if len(line) > WIDEST and not may_be_wide(path, line, quoted):
                tell(path, number, "width", f"{len(line)} columns")
            cited = NUMBERED.search(line)
            if cited and not path.endswith("check_names.py"):
                tell(path, number, "number", cited.group(0))


def check_links(paths, tell):
    """The files that documents name, and the words in the column beside them."""
    for path in paths:
        if not path.endswith(".md"):
            continue
        for number, line in enumerate(lines_of(path), 1):
            for named in re.findall(r"`((?:crates|docs|tools|examples)/[\w./-]+)`", line):
                if "/out/" not in named and not os.path.exists(named):
                    tell(path, number, "path", named)
            for named, words in re.findall(r"`(crates/[\w/]+\.antt)` *\|((?: *`[\w-]+`,?)+) *\|", line):
                there = {one.name for one in definitions_of("", named, lines_of(named))} if os.path.exists(named) else set()
                for word in re.findall(r"[\w-]+", words):
                    if os.path.exists(named) and word not in there:
                        tell(path, number, "path", f"{named} doesn't define {word}")


def check_table(tell):
    """The properties of the definition, with kind, types and groups, and those of the documents' table."""
    types = {"Every": "all", "Cc": "cc types", "Filegroup": "`filegroup`", "BothLinks": "`cc_library`, `cc_defaults`",
             "PlugIns": "`cc_library`, `cc_library_shared`, `cc_defaults`", "Tests": "`cc_test`, `cc_defaults`"}
    row = re.compile(r' (inert|sets|joint) \(codes "(\w+)"\) K\.(\w+) (?:[^∷]* )?(\w+) ∷')
    defined = {}
    for line in lines_of(TABLE):
        for maker, name, kind, kinds in row.findall(line):
            defined[name] = (kind, types.get(kinds), "yes" if maker == "joint" else "", maker != "inert")
    for number, line in enumerate(lines_of(DOCUMENT), 1):
        cells = [cell.strip() for cell in line.strip().strip("|").split("|")]
        if len(cells) == 6 and cells[0].startswith("`"):
            row_of = (cells[1], cells[2], cells[3], cells[5] != "none")
            if defined.pop(cells[0].strip("`"), None) != row_of:
                tell(DOCUMENT, number, "table", cells[0])
    for name in defined:
        tell(DOCUMENT, 1, "table", f"there is no row for `{name}`")


def check_code(paths, tell):
    """The names of functions in the code, and where laws stand."""
    for path in paths:
        if not re.fullmatch(r"crates/\w+/src/.*\.rt", path):
            continue
        if path.endswith("/src/law.rt"):
            tell(path, 1, "laws", "laws stand in src/laws.rt")
        for number, line in enumerate(lines_of(path), 1):
            named = re.match(r" *(?:pub )?(?:const )?fn ((?:is|has)_\w+)", line)
            if named and "->" in line and not re.search(r"-> (?:Result<)?bool\b", line):
                tell(path, number, "bool", named.group(1))
            if path.endswith("/src/lib.rt") and re.match(r"mod laws?;", line):
                tell(path, number, "laws", "the module of laws isn't public")


def check_citations(paths, tell):
    """No crate cites the lemmas of another, but for those that all share."""
    for path in paths:
        if path.endswith((".rt", ".antt")):
            for number, line in enumerate(lines_of(path), 1):
                for crate, file in re.findall(r"\bRattle\.(\w+)\.proofs\.(\w+)", line):
                    shared = crate == "bp_faults" and file in SHARED
                    if crate != crate_of(path) and not shared and os.path.isdir(f"crates/{crate}"):
                        tell(path, number, "cites", f"{crate}.proofs.{file}")


def check_crates(paths, tell):
    """Each crate that crates.txt lists has a README.md."""
    for number, line in enumerate(lines_of("crates.txt"), 1):
        name = re.match(r"(\w+)(?: staticlib)?:", line)
        if name and f"crates/{name.group(1)}/README.md" not in paths:
            tell(f"crates/{name.group(1)}/README.md", 1, "readme", "there is none")


def check_definitions(found, tell):
    """Comments and names of the definitions."""
    for one in found:
        if not one.comment:
            tell(one.path, one.line, "comment", f"{one.name} has none")
        elif not re.search(r"[.:!?][\"`)]*$", one.comment) or not re.match(r"[^a-z]", one.comment):
            tell(one.path, one.line, "comment", f"{one.name}: no sentence")
        result = one.arguments[-1].split("=")[0].strip()
        if re.match(r"(?:is|has)_", one.name) and result != "Bool":
            tell(one.path, one.line, "bool", f"{one.name} is a {result}")
        if re.match(r"[a-z]", one.name) and is_participle(one.name):
            tell(one.path, one.line, "participle", one.name)
        outcome = one.arguments[-2] if len(one.arguments) > 1 else ""
        # The word for the cause of any call's answer, whatever its types, is no relation to what an input comes to.
        of_an_outcome = "→" not in outcome and re.match(r"\(?(?:Result (?![A-Z] [A-Z]$)|Outcome\b)", outcome)
        if re.match(r"(?:Is|Are|Has)[A-Z]", one.name) and of_an_outcome:
            tell(one.path, one.line, "means", one.name)


def check_meanings(found, private, tell):
    """Names that public files of two crates define."""
    by_name = collections.defaultdict(list)
    for one in found:
        if one.path not in private:
            by_name[one.name].append(one)
    for name, several in by_name.items():
        if len({one.crate for one in several}) > 1:
            for one in several:
                others = ", ".join(sorted({other.crate for other in several} - {one.crate}))
                tell(one.path, one.line, "meanings", f"{name}, also in {others}")


def main():
    parser = argparse.ArgumentParser(description="Checks the names and texts of the repository.")
    parser.add_argument("--counts", action="store_true", help="print a table by crate and rule too")
    parser.add_argument("--top", default=HERE, metavar="DIRECTORY")
    parser.add_argument("crates", nargs="*", metavar="CRATE")
    options = parser.parse_args()
    os.chdir(options.top)
    places = []

    def tell(path, line, rule, what):
        if not options.crates or crate_of(path) in options.crates:
            places.append((path, line, rule, what))

    paths = files()
    found, private = [], set()
    for path in paths:
        if re.fullmatch(r"crates/\w+/specs/.*\.antt", path):
            lines = lines_of(path)
            found += definitions_of(crate_of(path), path, lines)
            if re.search(r"/specs/(Inside|Laws)", path) or (lines and PRIVATE in lines[0]):
                private.add(path)
    check_texts(paths, tell)
    check_links(paths, tell)
    check_table(tell)
    check_code(paths, tell)
    check_citations(paths, tell)
    check_crates(set(paths), tell)
    check_definitions(found, tell)
    check_meanings(found, private, tell)
    for path, line, rule, what in sorted(places):
        print(f"{path}:{line}: {rule}: {what}")
    if options.counts:
        table = collections.Counter((crate_of(path), rule) for path, _, rule, _ in places)
        crates = sorted({crate for crate, _ in table})
        print("\n" + " ".join(f"{head:>{len(head)}}" for head in [f"{'crate':16}"] + RULES))
        for crate in crates + ["all"]:
            row = [sum(n for (c, r), n in table.items() if r == rule and crate in (c, "all")) for rule in RULES]
            print(" ".join([f"{crate:16}"] + [f"{n:>{len(rule)}}" for n, rule in zip(row, RULES)]))
        print(f"{len(found)} definitions in specs/, {len(places)} places")
    return 1 if places else 0


if __name__ == "__main__":
    sys.exit(main())
