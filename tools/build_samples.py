#!/usr/bin/env python3
"""Builds the samples under examples/ with the real tools: tools/build_samples.py [--write] [PROGRAM]

PROGRAM is by default the one that ./bpgen builds. All is done in a scratch copy of examples/. Of
each sample: the command that its README shows first writes the text of its build.ninja.expected, and Ninja loads that
text. With --write these texts are written instead, and nothing else is done. Then `tests` and `host` are built and run;
in `host` also

    a second run of Ninja has nothing to do, and a changed header has just its objects made anew;
    the list of commands for editors names each source;
    fresh.ninja and the Makefile keep build.ninja as new as the Android.bp files;
    distcc builds it on two daemons of this machine, from the same text.

It needs clang, llvm-ar and ninja (Debian: apt-get install clang llvm lld ninja-build); where one has a name with a
number alone, as clang-14, a link stands in for it. It runs what it builds on x86-64 Linux alone. make and distcc may be
missing: then it says so and passes over what needs them. It ends with status 1 where a check fails, and with 2 where a
tool is missing. It is no part of the gate.
"""
import json
import os
import platform
import re
import shutil
import socket
import subprocess
import sys
import tempfile
import time

sys.dont_write_bytecode = True
from paste_docs import TOP, commands_of

EXAMPLES = os.path.join(TOP, "examples")
EXPECTED = "build.ninja.expected"
# What is called, and the package of Debian in which it is.
TOOLS = {"clang": "clang", "clang++": "clang", "llvm-ar": "llvm", "ninja": "ninja-build"}
MASQUERADE = "/usr/lib/distcc"
passed = []


def tell(text):
    print("build_samples: " + text)


def fail(what, detail=""):
    tell("FAILED: " + what)
    sys.exit(detail or 1)


def check(is_so, what, detail=""):
    """A check of the list at the top."""
    if not is_so:
        fail(what, detail)
    passed.append(what)
    tell(what)


# ---- tools

def numbered(name):
    """The tool of that name with the greatest number behind it, as clang-14, or nothing."""
    found = []
    for folder in os.environ["PATH"].split(":"):
        for entry in os.listdir(folder) if os.path.isdir(folder) else []:
            number = re.fullmatch(re.escape(name) + r"-(\d+)", entry)
            if number:
                found.append((int(number.group(1)), os.path.join(folder, entry)))
    return max(found)[1] if found else None


def put_tools(folder, program):
    """Puts the program on the path, and links for tools that have a name with a number alone."""
    os.makedirs(folder)
    os.symlink(os.path.abspath(program), os.path.join(folder, "bpgen"))
    missing = set()
    for name, package in TOOLS.items():
        if not shutil.which(name):
            other = numbered(name)
            if other:
                tell(f"{other} stands in for {name}")
                os.symlink(other, os.path.join(folder, name))
            else:
                missing.add(f"{name} (Debian: {package})")
    if missing:
        tell("not run, since this machine has no " + ", no ".join(sorted(missing)))
        sys.exit(2)
    os.environ["PATH"] = folder + ":" + os.environ["PATH"]


# ---- commands in a folder

class Sample:
    """A sample in its scratch folder."""

    def __init__(self, name, folder):
        self.name, self.folder = name, folder

    def path(self, name):
        return os.path.join(self.folder, name)

    def read(self, name):
        with open(self.path(name), encoding="utf-8") as text:
            return text.read()

    def write(self, name, text):
        os.makedirs(os.path.dirname(self.path(name)), exist_ok=True)
        with open(self.path(name), "w", encoding="utf-8") as out:
            out.write(text)

    def change(self, name, old, new):
        self.write(name, self.read(name).replace(old, new))

    def run(self, command, status=0, **environment):
        """What a command prints on both streams."""
        done = subprocess.run(["sh", "-c", command], cwd=self.folder, env=dict(os.environ, **environment),
                              stdout=subprocess.PIPE, stderr=subprocess.STDOUT, text=True)
        if done.returncode != status:
            fail(f"{self.name}: `{command}` ends with status {done.returncode}", done.stdout)
        return done.stdout

    def steps(self, command="ninja", **environment):
        """The descriptions of the steps that Ninja runs, in ascending order."""
        return sorted(re.findall(r"^\[\d+/\d+\] (.*)$", self.run(command, **environment), re.M))

    def is_done(self, command="ninja"):
        """The command prints nothing but that Ninja has nothing to do; make prints its own commands too."""
        return set(self.run(command).splitlines()) - {"ninja"} == {"ninja: no work to do."}

    def commands(self):
        """The commands that the README shows."""
        return commands_of(os.path.join(EXAMPLES, self.name, "README.md"))

    def write_ninja(self):
        """Runs the first command of the README, which is that of bpgen."""
        command = self.commands()[0].text
        if not command.startswith("bpgen build -l list -o build.ninja"):
            fail(f"{self.name}: the README doesn't begin with `bpgen build`")
        self.run(command)
        return self.read("build.ninja")

    def shown(self, command):
        """What the README shows that a command prints."""
        for one in self.commands():
            if one.text == command:
                return "\n".join(one.shown + [""])
        return fail(f"{self.name}: the README doesn't show `{command}`")


def copied(work, name):
    """A sample in a new scratch folder."""
    folder = os.path.join(tempfile.mkdtemp(dir=work), name)
    shutil.copytree(os.path.join(EXAMPLES, name), folder,
                    ignore=shutil.ignore_patterns("out", "build.ninja", ".ninja*", "compile_commands.json"))
    return Sample(name, folder)


# ---- texts

def check_text(sample):
    text = sample.write_ninja()
    is_same = os.path.exists(sample.path(EXPECTED)) and sample.read(EXPECTED) == text
    loaded = sample.run("ninja -n")
    count = re.findall(r"^\[\d+/(\d+)\]", loaded, re.M)
    what = f"{sample.name}: the text is the expected one, and Ninja loads it: {count[-1] if count else 0} steps"
    check(is_same and count, what, f"{EXPECTED} differs from what bpgen writes")


def write_texts(samples):
    for sample in samples:
        with open(os.path.join(EXAMPLES, sample.name, EXPECTED), "w", encoding="utf-8") as out:
            out.write(sample.write_ninja())


# ---- tests and host

def products(text):
    """The programs of a written text."""
    return re.findall(r"^build (\S+): link ", text, re.M)


def check_tests(sample):
    """The test programs end with status 0; the second one runs the tool."""
    text = sample.write_ninja()
    sample.run("ninja")
    tool = next(path for path in products(text) if path.endswith("/sum_tool"))
    tests = [path for path in products(text) if path.endswith("/sums_test")]
    for path in tests:
        sample.run(f"{path} {tool}")
    check(len(tests) == 2, "tests: Ninja builds the tool and the two tests, and both tests pass")


def check_run(sample):
    text = sample.write_ninja()
    count = len(re.findall(r"^build ", text, re.M)) - 1
    steps = sample.steps()
    check(len(steps) == count, f"host: Ninja builds it with {count} steps")
    program = products(text)[0]
    printed = sample.run(program)
    check(printed == sample.shown(program), f"host: {program} prints `{printed.strip()}`, as its README shows")
    check(sample.is_done(), "host: a second run of Ninja has nothing to do")


def check_header(sample):
    sample.change("words/include/words.h", "The number", "The count")
    wanted = ["AR out/m/words/linux_glibc_x86_64_static/bin/words.a",
              "CC out/m/greet/linux_glibc_x86_64/obj/greet.c.o",
              "CXX out/m/words/linux_glibc_x86_64_static/obj/words/words.cc.o",
              "LINK out/m/greet/linux_glibc_x86_64/bin/greet"]
    steps = sample.steps()
    check(steps == wanted, "host: a changed header has the two objects that include it made anew, and what holds them",
          "\n".join(steps))
    check(sample.is_done(), "host: and then there is nothing to do")


def check_editors(sample):
    listed = [command["file"] for command in json.loads(sample.run("ninja -t compdb cc cxx as"))]
    sources = ["greet.c", "sums/add.S", "sums/twice.c", "words/words.cc"]
    check(sorted(listed) == sources, f"host: `ninja -t compdb cc cxx as` names each of the {len(sources)} sources")


# ---- regenerating

def check_fresh(sample, command, builder):
    """`command` writes build.ninja where it is old, and then all is built."""
    sample.run(command)
    before = sample.read("build.ninja")
    check(sample.is_done(command), f"host: {builder}: build.ninja is written and built; then there is nothing to do")
    sample.change("words/Android.bp", "c++17", "c++20")
    steps = [step for step in sample.steps(command) if not step.startswith("BPGEN")]
    check(sample.read("build.ninja") == before.replace("c++17", "c++20") and len(steps) == 3,
          f"host: {builder}: a changed flag in words/Android.bp has one object, its archive and the program made anew")
    sample.write("more/Android.bp", 'cc_binary { name: "more", defaults: ["for_host"], srcs: ["more.c"] }\n')
    sample.write("more/more.c", "int main(void) { return 0; }\n")
    sample.write("list", sample.read("list") + "./more/Android.bp\n")
    sample.run(command)
    sample.run("out/m/more/linux_glibc_x86_64/bin/more")
    check(sample.is_done(command), f"host: {builder}: a new Android.bp in the list has its program built")


def check_fault(sample, command, builder):
    """A fault in a file leaves build.ninja as it is, and is reported; once it is mended all goes on."""
    before = sample.read("build.ninja")
    column = sample.read("more/Android.bp").index("srcs:") + 1
    sample.change("more/Android.bp", "srcs:", "sources:")
    printed = sample.run(f"{command} || echo refused")
    is_told = f"more/Android.bp:1:{column}: error 16: unknown property: sources" in printed and "refused" in printed
    check(is_told and sample.read("build.ninja") == before,
          f"host: {builder}: a fault is reported, and build.ninja stays as it is", printed)
    sample.change("more/Android.bp", "sources:", "srcs:")
    sample.run(command)
    check(sample.is_done(command), f"host: {builder}: once it is mended, all goes on")


# ---- many machines

def start_daemon(work, number):
    """A daemon of distcc on a free port of the loopback interface: the process, its port and its log."""
    with socket.socket() as free:
        free.bind(("127.0.0.1", 0))
        port = free.getsockname()[1]
    log = open(os.path.join(work, f"distccd.{number}"), "w+", encoding="utf-8")
    words = ["distccd", "--daemon", "--no-detach", "--listen", "127.0.0.1", "--port", str(port), "--allow", "127.0.0.1",
             "--jobs", "2", "--log-stderr", "--log-level", "info"]
    return subprocess.Popen(words, cwd="/", stdin=subprocess.DEVNULL, stderr=log, start_new_session=True), port, log


def wait_for(ports):
    for port in ports:
        until = time.monotonic() + 10
        while socket.socket().connect_ex(("127.0.0.1", port)) != 0:
            if time.monotonic() > until:
                fail("distccd doesn't listen")
            time.sleep(0.1)


def compiled_by(log):
    """The sources that a daemon compiled."""
    log.seek(0)
    return re.findall(r"COMPILE_OK .* (\S+)$", log.read(), re.M)


def check_machines(sample, work):
    text = sample.write_ninja()
    daemons = [start_daemon(work, number) for number in range(2)]
    try:
        wait_for([port for _, port, _ in daemons])
        state = tempfile.mkdtemp(dir=work)
        hosts = " ".join(f"127.0.0.1:{port}/1" for _, port, _ in daemons)
        there = {"PATH": MASQUERADE + ":" + os.environ["PATH"], "DISTCC_HOSTS": hosts, "DISTCC_FALLBACK": "0",
                 "DISTCC_DIR": state}
        steps = sample.steps("ninja -j 4", **there)
        built = [compiled_by(log) for _, _, log in daemons]
        sample.change("words/include/words.h", "The number", "The count")
        again = sample.steps("ninja -j 4", **there)
    finally:
        for process, _, _ in daemons:
            process.terminate()
            process.wait()
    both = " and ".join(", ".join(sorted(sources)) for sources in built)
    check(sorted(sum(built, [])) == ["greet.c", "sums/twice.c", "words/words.cc"] and all(built),
          f"host: two daemons of distcc compile {both}", "\n".join(steps))
    check(sample.read("build.ninja") == text and sample.run(products(text)[0]) == sample.shown(products(text)[0]),
          "host: the text is the same, and the program that comes of it runs")
    check(len(again) == 4 and sample.is_done(), "host: a changed header has just its objects made anew there too")


# ---- all of it

def real_builds(work):
    if platform.machine() != "x86_64" or platform.system() != "Linux":
        tell("host and tests aren't built, since this machine isn't x86-64 Linux")
        return
    check_tests(copied(work, "tests"))
    host = copied(work, "host")
    check_run(host)
    check_header(host)
    check_editors(host)
    ways = {"fresh.ninja": "ninja -f fresh.ninja && ninja"}
    if shutil.which("make"):
        ways["Makefile"] = "make --no-print-directory"
    else:
        tell("the Makefile isn't tried, since this machine has no make (Debian: make)")
    for builder, command in ways.items():
        fresh = copied(work, "host")
        check_fresh(fresh, command, builder)
        check_fault(fresh, command, builder)
    if shutil.which("distcc") and shutil.which("distccd") and os.path.exists(os.path.join(MASQUERADE, "clang++")):
        check_machines(copied(work, "host"), work)
    else:
        tell(f"distcc isn't tried, since this machine has no distcc with {MASQUERADE}/clang++ (Debian: distcc)")


def main(words):
    is_writing = "--write" in words
    programs = [word for word in words if word != "--write"]
    if len(programs) > 1 or any(word.startswith("-") for word in programs):
        sys.exit(__doc__)
    program = programs[0] if programs else os.path.join(TOP, "crates", "bpgen", "out", "bpgen")
    if not os.access(program, os.X_OK):
        tell(f"there is no program {program}; ./bpgen builds it")
        sys.exit(2)
    with tempfile.TemporaryDirectory() as work:
        # A daemon of distcc that is started by root gives its rights up, and still calls the compiler by these links.
        os.chmod(work, 0o755)
        put_tools(os.path.join(work, "bin"), program)
        names = sorted(name for name in os.listdir(EXAMPLES) if os.path.exists(os.path.join(EXAMPLES, name, "list")))
        samples = [copied(work, name) for name in names]
        if is_writing:
            write_texts(samples)
            return
        for sample in samples:
            check_text(sample)
        real_builds(work)
    tell(f"{len(passed)} checks, and none failed")


if __name__ == "__main__":
    main(sys.argv[1:])
