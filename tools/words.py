#!/usr/bin/env python3
"""Writes the manual pages and the completions of bpgen, fault_view and graph_picture from their help texts. It is no
part of the gate.

    tools/words.py [--check]

The help text of bpgen is the constant HELP of crates/command_words/src/help.rt, whose parts stand there one after
another; a test holds it against the table of options. Those of the other two are in their crates. For bpgen the files are
docs/bpgen.1, and bpgen.bash, _bpgen (zsh) and bpgen.fish under completions/, and for the others those of their names.
With --check nothing is written: it prints the files that aren't as they would be written, and ends with status 1 where
there is one.
"""
import os
import re
import sys

TOP = os.path.dirname(os.path.dirname(os.path.abspath(__file__)))
SOURCE = "crates/command_words/src/help.rt"
PURPOSE = "write build.ninja from the Android.bp files of a source tree"
BESIDE = {"fault_view": "show the faults of bpgen where they are",
          "graph_picture": "draw a graph of modules for Graphviz"}
LIST, FILE, NAMES, OTHER = range(4)
KINDS = {"TARGETS": LIST, "MUTATOR": NAMES, "LIST": FILE, "OUT": FILE, "PATH": FILE, "FILE": FILE}
OPTION = re.compile(r" ([ \[])(?:-(\w), |    )--([a-z]+) ([A-Z]+)\]? +(.*)")
COMMAND = re.compile(r"([a-z]+): (.*)")
WORD = re.compile(r" \[(?:-(\w) )?([A-Z]+)\] +(.*)")


class Option:
    """An option of a command: its names, the word for its value, what it is for, and whether it must be given."""

    def __init__(self, mark, short, name, value, text):
        self.is_required, self.short, self.name, self.value, self.text = mark == " ", short, name, value, text
        self.kind = KINDS.get(value, OTHER)

    def spellings(self):
        return (["-" + self.short] if self.short else []) + ["--" + self.name]


class Command:
    """A command: its name, what it does, its options and an example."""

    def __init__(self, name, text):
        self.name, self.text, self.options, self.example = name, text, [], None


class Help:
    """The help text in its parts."""

    def __init__(self, text):
        self.commands, paragraphs = [], []
        for block in text.strip().split("\n\n"):
            lines = block.split("\n")
            head = COMMAND.fullmatch(lines[0])
            if head and len(lines) > 1:
                self.commands.append(command_of(head, lines[1:]))
            else:
                paragraphs.append(" ".join(lines))
        self.about, self.usage = paragraphs[0], paragraphs[1]
        self.rules, self.statuses, self.asking = paragraphs[3], paragraphs[6], paragraphs[7]
        self.names = {"TARGETS": names_of(paragraphs[4]), "MUTATOR": names_of(paragraphs[5])}
        self.lists = paragraphs[4:6]


def command_of(head, lines):
    command = Command(*head.groups())
    for line in lines:
        if line.startswith("  bpgen "):
            command.example = line.strip()
        else:
            command.options.append(Option(*OPTION.fullmatch(line).groups()))
    return command


def names_of(paragraph):
    """The names behind the colon of a paragraph."""
    return [name.strip(" .") for name in paragraph.split(":", 1)[1].split(",")]


class Program:
    """The help text of a program that has no commands: its words in order, each with its option, if it has one."""

    def __init__(self, name, text):
        self.name = name
        self.about, self.usage, words, self.rule, statuses, _ = [block.split("\n") for block in text.strip().split("\n\n")]
        self.words = [WORD.fullmatch(line).groups() for line in words[:-1]]
        self.example = words[-1].strip()
        self.statuses = " ".join(statuses)


def source_text(path):
    with open(os.path.join(TOP, path), encoding="utf-8") as source:
        return source.read()


def help_text():
    """The parts of the help text of bpgen, with a blank line between them."""
    parts = source_text(SOURCE).split("macro_rules! joined", 1)[0]
    return "\n".join(re.findall(r'"\\\n(.*?)"', parts, re.S))


def help_beside(name):
    return re.search(r'HELP: &str = "\\\n(.*?)";', source_text(f"crates/{name}/src/help.rt"), re.S).group(1)


def version(source=SOURCE):
    return re.search(r'VERSION: &str = "(.*)\\n";', source_text(source)).group(1)


# ---- the manual page

def roff(text):
    return text.replace("\\", "\\e").replace("-", "\\-").replace("'", "\\(aq")


def option_tag(option):
    return ", ".join(f"\\fB{roff(word)}\\fR" for word in option.spellings()) + f" \\fI{option.value}\\fR"


def synopsis(command):
    parts = []
    for option in command.options:
        part = f"\\fB{roff(option.spellings()[0])}\\fR \\fI{option.value}\\fR"
        parts.append(part if option.is_required else f"[{part}]")
    return f"\\fBbpgen {command.name}\\fR " + " ".join(parts)


def manual(text):
    out = [f'.TH BPGEN 1 "" "{version()}" "User Commands"', ".SH NAME", "bpgen \\- " + PURPOSE]
    out += [".SH SYNOPSIS"]
    for command in text.commands:
        out += [synopsis(command), ".br"]
    out += ["\\fBbpgen help\\fR [\\fICOMMAND\\fR | \\fIWORDS\\fR]", ".br"]
    out += ["\\fBbpgen\\fR \\fB\\-\\-help\\fR | \\fB\\-\\-version\\fR", ".SH DESCRIPTION", roff(text.about), ".PP"]
    out += [roff(text.rules), ".PP", roff(text.asking.split(". ", 1)[1]), ".SH COMMANDS"]
    for command in text.commands:
        out += [f".SS {command.name}", roff(command.text[0].upper() + command.text[1:]) + "."]
        for option in command.options:
            out += [".TP", option_tag(option), roff(option.text[0].upper() + option.text[1:]) + "."]
        out += [".PP", "Example:", ".PP", ".EX", "    " + roff(command.example), ".EE"]
    out += [".SH VALUES"]
    for paragraph in text.lists:
        out += [roff(paragraph), ".PP"]
    out[-1:] = exit_statuses(text.statuses)
    out += [".SH SEE ALSO", "\\fBninja\\fR(1), \\fBfault_view\\fR(1), \\fBgraph_picture\\fR(1)"]
    return "\n".join(out) + "\n"


def exit_statuses(statuses):
    out = [".SH EXIT STATUS"]
    for status in statuses.split(": ", 1)[1].rstrip(".").split(", "):
        number, meaning = status.split(" ", 1)
        out += [".TP", f"\\fB{number}\\fR", roff(meaning[0].upper() + meaning[1:]) + "."]
    return out


def word_tag(short, value):
    return (f"\\fB\\-{short}\\fR " if short else "") + f"\\fI{value}\\fR"


def manual_beside(program):
    name = roff(program.name)
    out = [f'.TH {program.name.upper()} 1 "" "{version(f"crates/{program.name}/src/help.rt")}" "User Commands"', ".SH NAME"]
    out += [f"{name} \\- {BESIDE[program.name]}", ".SH SYNOPSIS"]
    out += [f"\\fB{name}\\fR {roff(program.usage[0].split(' ', 2)[2])}", ".br"]
    out += [f"\\fB{name}\\fR \\fB\\-\\-help\\fR | \\fB\\-\\-version\\fR", ".SH DESCRIPTION"]
    out += [roff(" ".join(program.about)), ".PP", roff(" ".join(program.rule)), ".SH WORDS"]
    for short, value, text in program.words:
        out += [".TP", word_tag(short, value), roff(text[0].upper() + text[1:]) + "."]
    out += [".SH EXAMPLE", ".EX", "    " + roff(program.example), ".EE"]
    out += exit_statuses(program.statuses)
    out += [".SH SEE ALSO", "\\fBbpgen\\fR(1)"]
    return "\n".join(out) + "\n"


# ---- completions

NOTE = "# Made by tools/words.py from the help text of bpgen. Change it there."


def bash(text):
    lines = [NOTE, "", "_bpgen() {", '    local command=${COMP_WORDS[1]} current=${COMP_WORDS[COMP_CWORD]} before=${COMP_WORDS[COMP_CWORD-1]}']
    lines += ["    COMPREPLY=()", "    if [ \"$COMP_CWORD\" -eq 1 ]; then"]
    commands = " ".join(command.name for command in text.commands)
    lines += [f'        COMPREPLY=($(compgen -W "{commands} help --help --version" -- "$current"))', "        return", "    fi"]
    lines += ['    if [ "$COMP_CWORD" -eq 2 ] && [ "$command" = help ]; then',
              f'        COMPREPLY=($(compgen -W "{commands}" -- "$current"))', "        return", "    fi"]
    lines += ["    # Readline takes `--out=x` for three words.", '    if [ "$current" = = ]; then', "        current=",
              '    elif [ "$before" = = ]; then', "        before=${COMP_WORDS[COMP_CWORD-2]}", "    fi"]
    lines += ['    case "$command $before" in']
    cases = {FILE: [], LIST: [], NAMES: [], OTHER: []}
    for command in text.commands:
        for option in command.options:
            cases[option.kind] += [(f'"{command.name} {word}"', option.value) for word in option.spellings()]
    lines += ["    " + joined_cases(cases[FILE]) + ")", '        COMPREPLY=($(compgen -f -- "$current"))', "        compopt -o filenames ;;"]
    lines += ["    " + joined_cases(cases[LIST]) + ")", "        # Names are joined by commas: the last one is completed.",
              "        local front=", '        case "$current" in *,*) front=${current%,*}, ;; esac',
              f'        COMPREPLY=($(compgen -P "$front" -W "{" ".join(text.names["TARGETS"])}" -- "${{current##*,}}"))',
              "        compopt -o nospace ;;"]
    lines += ["    " + joined_cases(cases[NAMES]) + ")",
              f'        COMPREPLY=($(compgen -W "{" ".join(text.names["MUTATOR"])}" -- "$current")) ;;']
    lines += ["    " + joined_cases(cases[OTHER]) + ") ;;"]
    for command in text.commands:
        words = " ".join(word for option in command.options for word in option.spellings())
        lines += [f'    "{command.name} "*)', f'        COMPREPLY=($(compgen -W "{words}" -- "$current")) ;;']
    lines += ["    esac", "}", "", "complete -F _bpgen bpgen"]
    return "\n".join(lines) + "\n"


def joined_cases(cases):
    return " | ".join(pattern for pattern, _ in cases)


def zsh_value(option, text):
    action = {FILE: "_files", NAMES: f"({' '.join(text.names['MUTATOR'])})", OTHER: " ",
              LIST: "_values -s , target " + " ".join(text.names["TARGETS"])}[option.kind]
    return f"{option.value}:{action}"


def zsh(text):
    lines = ["#compdef bpgen", NOTE, "", "_bpgen() {", "    local context state line", "    local -a commands", "    commands=("]
    lines += [f"        '{command.name}:{command.text}'" for command in text.commands]
    lines += ["        'help:print the part of a command, or what is wrong with words'", "    )"]
    lines += ["    _arguments -C '(- *)--help[print a help text]' '(- *)--version[print the version]' \\",
              "        '1:command:->command' '*::option:->option'", "    case $state in",
              "    command) _describe command commands ;;", "    option)", "        case $line[1] in"]
    for command in text.commands:
        lines += [f"        {command.name})", "            _arguments -s \\"]
        last = len(command.options) - 1
        for index, option in enumerate(command.options):
            words = option.spellings()
            what = f"[{option.text}]:{zsh_value(option, text)}"
            both = f"'({' '.join(words)})'" + "{" + f"-{option.short}+,--{option.name}=" + "}" if option.short else f"--{option.name}="
            lines.append(f"                {both}'{what}'" + (" ;;" if index == last else " \\"))
    lines += ["        help) _describe command commands ;;", "        esac ;;", "    esac", "}", "", '_bpgen "$@"']
    return "\n".join(lines) + "\n"


def fish(text):
    lines = [NOTE, "", "complete -c bpgen -f",
             "complete -c bpgen -n __fish_use_subcommand -l help -d 'print a help text'",
             "complete -c bpgen -n __fish_use_subcommand -l version -d 'print the version'"]
    for command in text.commands:
        for place in ["__fish_use_subcommand", "'__fish_seen_subcommand_from help'"]:
            lines.append(f"complete -c bpgen -n {place} -a {command.name} -d '{command.text}'")
    lines.append("complete -c bpgen -n __fish_use_subcommand -a help -d 'print the part of a command, or what is wrong with words'")
    for command in text.commands:
        for option in command.options:
            short = f" -s {option.short}" if option.short else ""
            value = {FILE: "-r -F", OTHER: "-x", NAMES: f"-x -a '{' '.join(text.names['MUTATOR'])}'",
                     LIST: f"-x -a '(__fish_append , {' '.join(text.names['TARGETS'])})'"}[option.kind]
            lines.append(f"complete -c bpgen -n '__fish_seen_subcommand_from {command.name}'{short} -l {option.name} {value}"
                         f" -d '{option.text}'")
    return "\n".join(lines) + "\n"


def note_beside(program):
    return f"# Made by tools/words.py from the help text of {program.name}. Change it there."


def first_words(program):
    """The words that may stand first: options, and the two that ask for a text."""
    return ["-" + short for short, _, _ in program.words if short] + ["--help", "--version"]


def bash_beside(program):
    lines = [note_beside(program), "", f"_{program.name}() {{", '    local current=${COMP_WORDS[COMP_CWORD]} before=${COMP_WORDS[COMP_CWORD-1]}']
    lines += ["    COMPREPLY=()"]
    for short, value, _ in program.words:
        if short and KINDS.get(value) == FILE:
            lines += [f'    if [ "$before" = -{short} ]; then', '        COMPREPLY=($(compgen -f -- "$current"))',
                      "        compopt -o filenames", "        return", "    fi"]
    lines += ['    if [ "$COMP_CWORD" -eq 1 ]; then',
              f'        COMPREPLY=($(compgen -W "{" ".join(first_words(program))}" -- "$current"))', "    fi", "}", ""]
    lines += [f"complete -F _{program.name} {program.name}"]
    return "\n".join(lines) + "\n"


def zsh_beside(program):
    lines = [f"#compdef {program.name}", note_beside(program), "", f"_{program.name}() {{",
             "    _arguments '(- *)--help[print a help text]' '(- *)--version[print the version]' \\"]
    for index, (short, value, text) in enumerate(program.words):
        action = "_files" if KINDS.get(value) == FILE else " "
        what = f"-{short}[{text}]:{value}:{action}" if short else f"{index + 1}:{value}: "
        lines.append(f"        '{what}'" + ("" if index == len(program.words) - 1 else " \\"))
    lines += ["}", "", f'_{program.name} "$@"']
    return "\n".join(lines) + "\n"


def fish_beside(program):
    lines = [note_beside(program), "", f"complete -c {program.name} -f",
             f"complete -c {program.name} -l help -d 'print a help text'",
             f"complete -c {program.name} -l version -d 'print the version'"]
    for short, value, text in program.words:
        if short:
            what = text.replace("'", "\\'")
            lines.append(f"complete -c {program.name} -s {short} {'-r -F' if KINDS.get(value) == FILE else '-x'} -d '{what}'")
    return "\n".join(lines) + "\n"


def made_beside(name):
    program = Program(name, help_beside(name))
    return {f"docs/{name}.1": manual_beside(program), f"completions/{name}.bash": bash_beside(program),
            f"completions/_{name}": zsh_beside(program), f"completions/{name}.fish": fish_beside(program)}


def main(words):
    if words not in ([], ["--check"]):
        sys.exit(__doc__)
    text = Help(help_text())
    made = {"docs/bpgen.1": manual(text), "completions/bpgen.bash": bash(text), "completions/_bpgen": zsh(text),
            "completions/bpgen.fish": fish(text)}
    for name in BESIDE:
        made.update(made_beside(name))
    stale = []
    for name, content in made.items():
        path = os.path.join(TOP, name)
        if not os.path.exists(path) or open(path, encoding="utf-8").read() != content:
            stale.append(name)
        if not words:
            os.makedirs(os.path.dirname(path), exist_ok=True)
            with open(path, "w", encoding="utf-8") as out:
                out.write(content)
    if words and stale:
        print("\n".join(stale))
        sys.exit(1)


main(sys.argv[1:])
