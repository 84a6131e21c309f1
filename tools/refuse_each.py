#!/usr/bin/env python3
"""Refuses each allocation and each read, write and sync of the built program in turn, over real files, outside the gate.

    tools/refuse_each.py [--exe PROGRAM] [--only EXAMPLE] [--kind KIND]

The examples are *plain_start*, *illegal_orders* and *demo_tree*, and the graph of the last. In each run one call is
refused:

    alloc   the Nth allocation answers that there is no memory: the status is 5 or the run's own
    fail    the Nth read, write or sync fails: the status is 3, 4 or the run's own
    short   the Nth read or write of several bytes moves one byte: the run ends as ever

After status 3 and 5 no file has changed. After status 4 a file that the run writes is as before, or whole, or gone in
part, and no other has changed. A line for each example and kind tells how many calls were refused and what came. The
script ends with 1 at the first run that ends otherwise. It needs a C compiler and the built program (./bpgen).
"""
import argparse
import collections
import os
import pathlib
import shutil
import subprocess
import sys
import tempfile

TOP = pathlib.Path(__file__).resolve().parent.parent

SHIM = r"""
#define _GNU_SOURCE
#include <dlfcn.h>
#include <errno.h>
#include <fcntl.h>
#include <stdio.h>
#include <stdlib.h>
#include <string.h>
#include <sys/syscall.h>
#include <unistd.h>

static long wanted = -1, count;
static const char *kind;

static int is(const char *name) {
    if (wanted < 0) {
        const char *number = getenv("REFUSED");
        kind = getenv("KIND");
        wanted = number ? atol(number) : 0;
    }
    return kind && strcmp(kind, name) == 0;
}

static int hits(void) { return __atomic_add_fetch(&count, 1, __ATOMIC_SEQ_CST) == wanted; }

void *malloc(size_t size) {
    static void *(*real)(size_t);
    if (!real) real = (void *(*)(size_t))dlsym(RTLD_NEXT, "malloc");
    return is("alloc") && hits() ? NULL : real(size);
}

void *realloc(void *old, size_t size) {
    static void *(*real)(void *, size_t);
    if (!real) real = (void *(*)(void *, size_t))dlsym(RTLD_NEXT, "realloc");
    return is("alloc") && hits() ? NULL : real(old, size);
}

static ssize_t moved(long call, int fd, void *bytes, size_t size) {
    if (is("fail") && hits()) { errno = EIO; return -1; }
    if (is("short") && size > 1 && hits()) size = 1;
    return syscall(call, fd, bytes, size);
}

ssize_t read(int fd, void *bytes, size_t size) { return moved(SYS_read, fd, bytes, size); }

ssize_t write(int fd, const void *bytes, size_t size) { return moved(SYS_write, fd, (void *)bytes, size); }

int fsync(int fd) {
    if (is("fail") && hits()) { errno = EIO; return -1; }
    return syscall(SYS_fsync, fd);
}

int fdatasync(int fd) {
    if (is("fail") && hits()) { errno = EIO; return -1; }
    return syscall(SYS_fdatasync, fd);
}

static void tell(void) {
    const char *path = getenv("COUNTED");
    char line[32];
    int length = snprintf(line, sizeof line, "%ld", count), fd;
    if (path && (fd = syscall(SYS_openat, AT_FDCWD, path, O_WRONLY | O_CREAT | O_TRUNC, 0600)) >= 0) {
        syscall(SYS_write, fd, line, length);
        syscall(SYS_close, fd);
    }
}

void _exit(int status) {
    tell();
    for (;;) syscall(SYS_exit_group, status);
}
"""

DIAMOND = """cc_binary { name: "app", srcs: ["app.c"], static_libs: ["l", "r"] }
cc_library_static { name: "l", srcs: ["l.c"], static_libs: ["base"] }
cc_library_static { name: "r", srcs: ["r.c"], static_libs: ["base"] }
cc_library_static { name: "base", srcs: ["base.c"] }
"""


def files_of(folder):
    """The files below a folder that LIST names, and LIST."""
    paths = (folder / "list").read_text().split()
    return {path: (folder / path).read_bytes() for path in ["list", *paths]}


def examples():
    """Each example: its name, its files, its words, its status, and the files that it writes."""
    order = "".join(f"1 {n}\n" for n in range(4)) + "2 9\n"
    return [
        ("plain_start", files_of(TOP / "examples/hello"), "build -l list -o build.ninja -t android_arm64", 0, ["build.ninja"]),
        ("illegal_orders", {"list": b"Android.bp\n", "Android.bp": DIAMOND.encode(), "order.txt": order.encode()},
         "replay -l list -o build.ninja -t android_arm64 --order order.txt", 1, ["build.ninja"]),
        ("demo_tree", files_of(TOP / "examples/demo_tree"), "build -l list -o build.ninja -j 1 --journal journal", 0,
         ["build.ninja", "journal"]),
        ("demo_graph", files_of(TOP / "examples/demo_tree"), "graph -l list -a info -j 1", 0, []),
    ]


End = collections.namedtuple("End", "status said made count")


class Trial:
    """One example, run over a folder of its own with one call refused."""

    def __init__(self, program, shim, work, example):
        self.program, self.shim, self.work = program, shim, work
        self.name, self.files, self.words, self.status, self.written = example
        self.tree = work / self.name
        self.fill()

    def fill(self):
        shutil.rmtree(self.tree, ignore_errors=True)
        for path, text in self.files.items():
            (self.tree / path).parent.mkdir(parents=True, exist_ok=True)
            (self.tree / path).write_bytes(text)

    def held(self):
        return {str(p.relative_to(self.tree)): p.read_bytes() for p in self.tree.rglob("*") if p.is_file()}

    def run(self, kind, number):
        counted = self.work / "counted"
        environ = dict(os.environ, LD_PRELOAD=str(self.shim), KIND=kind, REFUSED=str(number), COUNTED=str(counted))
        done = subprocess.run([self.program, *self.words.split()], cwd=self.tree, env=environ, capture_output=True, timeout=60)
        held = self.held()
        made = {path: text for path, text in held.items() if path in self.written}
        if done.stdout:
            made["standard output"] = done.stdout
        return End(done.returncode, done.stderr.decode(), made, int(counted.read_text()))

    def wrong(self, kind, end, whole):
        """Why an end is none that the clauses allow, or None."""
        status, said, made, _ = end
        if {path: text for path, text in self.held().items() if path not in self.written} != self.files:
            return "another file has changed"
        if kind == "short" or status == self.status:
            # The stream for messages may fail too, and then the line stands there in part.
            return None if status == self.status and made == whole else "not the run's own end"
        if status == 5 and kind == "alloc":
            is_quiet = said in ("", "bpgen: out of memory\n")
            return None if not made and is_quiet else "status 5, and a file or another line"
        if status == 3 and kind == "fail":
            return None if not made and said.startswith("bpgen: cannot read ") else "status 3, and a file or another line"
        if status == 4 and kind == "fail":
            is_part = whole.get("standard output", b"").startswith(made.get("standard output", b""))
            return None if is_part and said.startswith("bpgen: cannot write ") else "status 4, and another line or text"
        return f"status {status}"

    def refuse_each(self, kind):
        self.fill()
        usual = self.run(kind, 0)
        if usual.status != self.status:
            sys.exit(f"refuse_each: {self.name} ends with {usual.status} where nothing is refused: {usual.said}")
        came = collections.Counter()
        for number in range(1, usual.count + 1):
            self.fill()
            end = self.run(kind, number)
            reason = self.wrong(kind, end, usual.made)
            if reason:
                told = f"{self.name}, {kind} {number}: {reason} (status {end.status}: {end.said!r})"
                sys.exit(f"refuse_each: {told}, see {self.tree}")
            came[end.status] += 1
        told = ", ".join(f"status {status} in {many}" for status, many in sorted(came.items()))
        print(f"{self.name}, {kind}: {usual.count} calls, each refused in a run of its own: {told}", flush=True)


def main():
    parser = argparse.ArgumentParser()
    parser.add_argument("--exe", type=pathlib.Path, default=TOP / "crates/bpgen/out/bpgen")
    parser.add_argument("--only")
    parser.add_argument("--kind", choices=["alloc", "fail", "short"])
    given = parser.parse_args()
    if not given.exe.exists() or not shutil.which("cc"):
        sys.exit("refuse_each: there is no built program (./bpgen) or no C compiler")
    work = pathlib.Path(tempfile.mkdtemp(prefix="refuse_each_"))
    (work / "shim.c").write_text(SHIM)
    subprocess.run(["cc", "-shared", "-fPIC", "-O1", "-o", work / "shim.so", work / "shim.c", "-ldl"], check=True)
    for example in examples():
        if given.only in (None, example[0]):
            trial = Trial(given.exe.resolve(), work / "shim.so", work, example)
            for kind in [given.kind] if given.kind else ["short", "fail", "alloc"]:
                trial.refuse_each(kind)
    shutil.rmtree(work)


main()
