#!/usr/bin/env python3
"""Asks `bpgen help` about random command lines, and compares it with what the program does for them. It is no part of the
gate.

    tools/explain_words.py PROGRAM [COUNT [SEED]]

PROGRAM is a built bpgen (tools/build_unproved.py makes one). For each line the program runs twice, in an empty
directory: with the line, where status 2 means that the words are refused, and with `help` before it, where the words are
explained or accepted. It prints each line for which the two disagree, or whose explanation has another form than one
line with status 0, and ends with status 1 where there is one. Lines that ask for a help text or the version are left out.
"""
import os
import random
import subprocess
import sys
import tempfile

COMMANDS = ["build", "replay", "graph", "synth", "fmt", "edit"]
OPTIONS = {"-l": ["list", "o"], "--list": ["list", "o"], "-o": ["o", "list", "p"], "--out": ["o", "p"], "-j": ["4", "0", "65", "x"],
           "--jobs": ["1", "04", "+1"], "-t": ["android_arm64", "android_arm,android_x86", "arm", "android_arm,android_arm"],
           "--targets": ["linux_glibc_x86", "android_arm,"], "--journal": ["p", "o"], "--order": ["p", "o"],
           "-a": ["info", "inf", "defaults_deps"], "--after": ["arch", "deps", ""], "--seed": ["7", "4294967296", "4294967295"],
           "--modules": ["2", "0", "100001", "0000000002"], "-i": ["f", "o"], "--in": ["f"], "-m": ["app"], "--module": ["app", "-"],
           "-p": ["srcs", "1st", "_a"], "--property": ["b-c", "x9"], "--items": ["a", "a,b", "a,,b", ","]}
OF = {"build": ["-l", "-o", "-j", "-t", "--journal"], "replay": ["-l", "-o", "--order", "-t"], "graph": ["-l", "-a", "-j", "-t"],
      "synth": ["--seed", "--modules", "-j"], "fmt": ["-i", "-o"], "edit": ["-i", "-o", "-m", "-p", "--items"]}
LONG = {"-l": "--list", "-o": "--out", "-j": "--jobs", "-t": "--targets", "-a": "--after", "-i": "--in", "-m": "--module",
        "-p": "--property"}
OTHERS = ["", "-", "--", "help", "--help", "-h", "--version", "--lst", "--lits=x", "-x", "=", "foo", "-lo", "--out", "ä", "\n", "a b"]
ACCEPTED = "these words are accepted\n"


def random_line(random):
    """A command with its options, most of them in form, some of them changed, left out or given twice."""
    command = random.choice(COMMANDS)
    words = []
    for option in random.sample(OF[command], len(OF[command])):
        if random.random() < 0.12:
            continue
        for _ in range(2 if random.random() < 0.05 else 1):
            words += spelled(random, option, value_of(random, option))
    line = [command if random.random() < 0.95 else random.choice(OTHERS + ["biuld", "Build"])] + words
    for _ in range(random.choice([0, 0, 0, 1, 2])):
        place = random.randrange(len(line) + 1)
        line[place:place + random.randrange(2)] = [random.choice(OTHERS + list(OPTIONS))] * random.randrange(2)
    return line


def value_of(random, option):
    values = OPTIONS[option] + (OPTIONS[LONG[option]] if option in LONG else [])
    return random.choice(values[:1] * 6 + values)


def spelled(random, option, value):
    long = LONG.get(option, option)
    way = random.randrange(4)
    if way == 0 and option != long:
        return [option + value]
    if way == 1:
        return [f"{long}={value}"]
    return [random.choice([option, long]), value]


def is_asking(line):
    """Whether the line, or `help` before it, asks for a text in place of a command."""
    return not line or line[0] == "help" or line in (["--help"], ["-h"], ["--version"], ["-V"]) \
        or len(line) == 1 and line[0] in COMMANDS or len(line) == 2 and line[1] == "--help" and line[0] in COMMANDS


def main(words):
    if not 1 <= len(words) <= 3:
        sys.exit(__doc__)
    program, count = os.path.abspath(words[0]), int(words[1]) if len(words) > 1 else 2000
    generator = random.Random(int(words[2]) if len(words) > 2 else 1)
    wrong, refused, lines = 0, 0, 0
    with tempfile.TemporaryDirectory() as empty:
        while lines < count:
            line = random_line(generator)
            if is_asking(line) or any("\0" in word for word in line):
                continue
            lines += 1
            ran = subprocess.run([program] + line, cwd=empty, capture_output=True, timeout=60)
            asked = subprocess.run([program, "help"] + line, cwd=empty, capture_output=True, timeout=60)
            told = asked.stdout.decode()
            is_told = asked.returncode == 0 and asked.stderr == b"" and told.count("\n") == 1 and told.endswith("\n")
            refused += ran.returncode == 2
            if not is_told or (ran.returncode == 2) == (told == ACCEPTED):
                wrong += 1
                print(f"{line}: status {ran.returncode}, {told!r}, status {asked.returncode}")
    print(f"{lines} lines, {refused} of them refused, {wrong} wrongly explained")
    sys.exit(1 if wrong else 0)


main(sys.argv[1:])
