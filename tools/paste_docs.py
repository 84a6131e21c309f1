#!/usr/bin/env python3
"""Pastes the commands of the documents into a shell, and compares what they print with what the pages show.

    tools/paste_docs.py [NAME=PATH ..] [PAGE ..]

Without a PAGE the pages are README.md, docs/USAGE.md and the README.md of each sample under examples/. Each page has a
shell and a scratch copy of the repository of its own, and its commands run there in the order of the page. Each section
(`## ..`) begins at the top of the repository, or, on a sample's page, in its folder. On the path are the programs
crates/NAME/out/NAME that are built; NAME=PATH puts another program there, and in the copy in its place, as
bpgen=/tmp/bpgen.

A fenced block that begins with a line `$ COMMAND` is pasted. A command goes on in the next line where a backslash ends
it. The lines behind it, up to the next command, are what it prints on both streams; a line `...` stands for any lines.
Words behind the opening fence say what differs from this:

    not-run       the block isn't pasted
    may-differ    it is pasted and must end with status 0, but what it prints isn't compared, as times
    needs=TOOL    it is pasted where TOOL is on the path, and passed over else

It needs git and bash, and ends with status 1 where a page shows something else. It is no part of the gate.
"""
import glob
import os
import re
import select
import shutil
import subprocess
import sys
import tempfile
import time

TOP = os.path.dirname(os.path.dirname(os.path.abspath(__file__)))
FENCE = re.compile(r"```(.*)")
END = "paste_docs-the-command-has-ended"
SECONDS = 300


class Command:
    """A command of a page: its line and section there, its text, what the page shows, and the words of its fence."""

    def __init__(self, line, section, text, marks):
        self.line, self.section, self.text, self.marks, self.shown = line, section, text, marks, []

    def needs(self):
        return [mark[len("needs="):] for mark in self.marks if mark.startswith("needs=")]


def commands_of(path):
    """The commands of a page, in its order."""
    found, marks, block, section = [], None, [], 0
    with open(path, encoding="utf-8") as page:
        for number, line in enumerate(page.read().split("\n"), 1):
            fence = FENCE.match(line)
            if fence and marks is None:
                marks, block = fence.group(1).split(), []
            elif fence:
                found += session(section, marks, block)
                marks = None
            elif marks is not None:
                block.append((number, line))
            elif line.startswith("## "):
                section += 1
    return found


def session(section, marks, block):
    """The commands of a fenced block, or none where it doesn't begin with one."""
    found = []
    if not block or not block[0][1].startswith("$ "):
        return found
    for number, line in block:
        if line.startswith("$ "):
            found.append(Command(number, section, line[2:], marks))
        elif found[-1].text.endswith("\\") and not found[-1].shown:
            found[-1].text += "\n" + line
        else:
            found[-1].shown.append(line)
    return found


def fits(shown, printed):
    """What is printed is what is shown, where a line `...` stands for any lines."""
    if not shown:
        return not printed
    if shown[0] == "...":
        return any(fits(shown[1:], printed[index:]) for index in range(len(printed) + 1))
    return bool(printed) and shown[0] == printed[0] and fits(shown[1:], printed[1:])


class Shell:
    """A shell that commands are pasted into, one after another."""

    def __init__(self, folder, environment):
        self.rest = b""
        self.process = subprocess.Popen(["bash", "--norc", "--noprofile"], cwd=folder, env=environment,
                                        stdin=subprocess.PIPE, stdout=subprocess.PIPE, stderr=subprocess.STDOUT)

    def run(self, text):
        """The lines that a command prints and its status; none where it takes too long or ends the shell."""
        self.process.stdin.write(f"{{ {text}\n}} < /dev/null\nprintf '%s %d\\n' {END} $?\n".encode())
        self.process.stdin.flush()
        until = time.monotonic() + SECONDS
        mark = re.compile(END.encode() + rb" (\d+)\n")
        while not mark.search(self.rest):
            ready, _, _ = select.select([self.process.stdout], [], [], max(0, until - time.monotonic()))
            piece = os.read(self.process.stdout.fileno(), 65536) if ready else b""
            if not piece:
                return self.rest.decode(errors="replace").splitlines() + ["(it didn't end)"], None
            self.rest += piece
        ended = mark.search(self.rest)
        printed, self.rest = self.rest[:ended.start()], self.rest[ended.end():]
        return printed.decode(errors="replace").splitlines(), int(ended.group(1))

    def close(self):
        self.process.kill()
        self.process.wait()


def copy_repository(to):
    """A copy of what git knows or would take."""
    asked = ["git", "-C", TOP, "ls-files", "-z", "-co", "--exclude-standard"]
    for name in subprocess.run(asked, capture_output=True, check=True).stdout.decode().split("\0"):
        if name and os.path.isfile(os.path.join(TOP, name)):
            os.makedirs(os.path.dirname(os.path.join(to, name)), exist_ok=True)
            shutil.copy2(os.path.join(TOP, name), os.path.join(to, name))


def built_programs():
    """The programs of the repository that are built, by their names."""
    found = {}
    for path in glob.glob(os.path.join(TOP, "crates", "*", "out", "*")):
        name = os.path.basename(path)
        if path.split("/")[-3] == name and os.path.isfile(path) and os.access(path, os.X_OK):
            found[name] = path
    return found


def put_programs(programs, copy, folder):
    """Puts programs where the copy would have built them, and into a folder for the path."""
    os.makedirs(folder)
    for name, path in programs.items():
        place = os.path.join(copy, "crates", name, "out")
        os.makedirs(place, exist_ok=True)
        shutil.copy2(path, os.path.join(place, name))
        os.symlink(os.path.join(place, name), os.path.join(folder, name))


def told(page, command, printed, status):
    """Says what differs at a command."""
    print(f"paste_docs: {page}:{command.line}: $ {command.text}")
    print("\n".join(["the page shows:"] + command.shown + [f"it prints (status {status}):"] + printed))


def paste(page, programs):
    """Pastes a page: how many commands are compared, run alone and not run, and how many differ."""
    counts = {"compared": 0, "run": 0, "not run": 0, "differ": 0}
    with tempfile.TemporaryDirectory() as work:
        copy, folder = os.path.join(work, "bpgen"), os.path.join(work, "bin")
        copy_repository(copy)
        put_programs(programs, copy, folder)
        environment = dict(os.environ, PATH=folder + ":" + os.environ["PATH"], HOME=work, TERM="dumb")
        start = os.path.join(copy, os.path.dirname(page) if page.startswith("examples/") else "")
        shell, section = Shell(start, environment), 0
        for command in commands_of(os.path.join(TOP, page)):
            lacking = [tool for tool in command.needs() if not shutil.which(tool, path=environment["PATH"])]
            if lacking or "not-run" in command.marks:
                counts["not run"] += 1
                for tool in lacking:
                    print(f"paste_docs: {page}:{command.line}: passed over, since there is no {tool} on this machine")
                continue
            if command.section != section:
                section = command.section
                shell.run(f"cd '{start}'")
            printed, status = shell.run(command.text)
            is_free = "may-differ" in command.marks
            counts["run" if is_free else "compared"] += 1
            if status is None or (status != 0 if is_free else not fits(command.shown, printed)):
                counts["differ"] += 1
                told(page, command, printed, status)
            if status is None:
                break
        shell.close()
    print(f"paste_docs: {page}: {counts['compared']} compared, {counts['run']} run alone, {counts['not run']} not run, "
          f"{counts['differ']} differ")
    return counts["differ"]


def main(words):
    programs, pages = built_programs(), []
    for word in words:
        if word.startswith("-"):
            sys.exit(__doc__)
        name, mark, path = word.partition("=")
        if mark:
            programs[name] = os.path.abspath(path)
        else:
            pages.append(word)
    if "bpgen" not in programs:
        sys.exit("paste_docs: there is no program; ./bpgen builds it")
    samples = sorted(os.path.relpath(path, TOP) for path in glob.glob(os.path.join(TOP, "examples", "*", "README.md")))
    differ = sum(paste(page, programs) for page in pages or ["README.md", "docs/USAGE.md"] + samples)
    sys.exit(1 if differ else 0)


if __name__ == "__main__":
    main(sys.argv[1:])
