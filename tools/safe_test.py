#!/usr/bin/env python3
"""The test that the command line tool damages nothing, whatever its streams are and whatever ends it.

    safe_test.py PROGRAM

Every command with standard output appended to each file that it reads, by its name, by a link and by a hard link, to standard input where that is
read, and with standard error there: refused, and the file is as it was. Standard output that is closed, or open for reading alone. Signals at random
moments of writing, a limit on the size of files. The calls by which a file takes its name, in their order, as a library that is loaded before the
C library writes them down: file, name, folder. A stack of 256 kilobytes, and of 128, for every command. The seed is fixed. Prints how many comparisons
agreed; the exit status is 1 where one did not.
"""
import os
import random
import re
import resource
import shutil
import signal
import subprocess
import time

from brute_force import all_points, file_bytes
from expected_files import combined_bytes, map_bytes, map_head
from tool import Tool, tested

SEED = 1976
SIGNALS = 12
COUNTS = b"map 0 2 2 2\n0 0 3 1\n0 1 -3 2\n1 0 3 4\n1 1 -3 0\n"
TEXT = b"group P1\nlengths 2 2 2\n0 0 0 7 0\n1 0 0 5 0\n"
RECORDS = [(0, 0, 0, 7, 0), (1, 0, 0, 5, 0)]
N, LISTS = (2, 2, 2), [[], [], []]

# The words of each command, with FILE, MAP, COMBINED, TEXT, COUNTS, SCORES and LOG for files that it reads and OUT for one that it writes; a command may stand
# here more than once. What standard input has, where it is read without a word.
USES = [
    ("check", "FILE"), ("check", "MAP", "FILE"), ("check", "FILE", "--json"), ("faults", "FILE"), ("info", "FILE"), ("info", "COMBINED", "FILE"),
    ("compare", "FILE", "MAP"), ("compare", "COMBINED", "COMBINED2"), ("log", "FILE", "MAP"), ("log", "--verify", "LOG"),
    ("pack", "TEXT", "-o", "OUT"),
    ("pack", "TEXT", "-o", "-"), ("records", "FILE"), ("records", "FILE", "--header"), ("rewrite", "FILE", "-o", "OUT"), ("map", "FILE"),
    ("map", "FILE", "-o", "OUT"), ("map", "MAP", "--plane", "0"), ("map", "COMBINED", "--whole-cell", "-o", "-"), ("map", "FILE", "--to", "DIR"),
    ("factors", "MAP", "-o", "OUT"), ("point", "FILE", "0", "0", "0"), ("factor", "FILE", "0", "0", "0"), ("stats", "MAP"), ("power", "FILE"),
    ("power", "FILE", "MAP"), ("section", "FILE", "0"), ("picture", "FILE", "0", "-o", "OUT"), ("picture", "FILE", "0", "-o", "-"),
    ("mrc", "FILE", "--cell", "1,2,3,90,90,90", "-o", "OUT"), ("combine", "FILE", "SECOND", "-o", "OUT"),
    ("overlay", "COMBINED", "COMBINED2", "-o", "OUT"), ("best", "COMBINED"), ("best", "COMBINED", "--score"), ("best", "COMBINED", "-n", "3"),
    ("drift", "2", "SCORES"), ("check", "FILE", "--all"), ("pack", "TEXT", "-o", "OUT", "--all"), ("pack", "TEXT", "--both", "-o", "OUT"),
    ("import", "COUNTS", "-o", "OUT"), ("import", "COUNTS", "--both", "-o", "OUT"), ("import", "COUNTS", "--combined", "-o", "-"), ("stats", "MAP", "--peaks", "3"),
    ("match", "COMBINED", "COMBINED2"), ("match", "FILE", "MAP", "--json"), ("match", "FILE", "SECOND", "FILE", "SECOND", "-o", "OUT"),
]
BY_INPUT = [(("point", "FILE"), b"0 0 0\n"), (("factor", "FILE"), b"0 0 0\n"), (("line", "1", "0", "2", "-"), b"1 2\n"), (("drift", "2"), b"1 2 3\n")]

SHIM = r"""
#define _GNU_SOURCE
#include <dlfcn.h>
#include <stdio.h>
#include <stdlib.h>
#include <unistd.h>
static void tell(const char *what, const char *path)
{
    FILE *out = fopen(getenv("TOLD"), "a");
    fprintf(out, "%s %s\n", what, path);
    fclose(out);
}
int fsync(int fd)
{
    char link[64], path[4096] = "";
    snprintf(link, sizeof link, "/proc/self/fd/%d", fd);
    if (readlink(link, path, sizeof path - 1) < 0)
        return -1;
    tell("fsync", path);
    return ((int (*)(int))dlsym(RTLD_NEXT, "fsync"))(fd);
}
int rename(const char *from, const char *to)
{
    tell("rename", to);
    return ((int (*)(const char *, const char *))dlsym(RTLD_NEXT, "rename"))(from, to);
}
"""


class Safe(Tool):
    """The files that the words of USES stand for, in a folder of their own, and what they hold."""

    def prepare(self):
        numbers = {q: 3 * q[0] - q[1] + 7 * q[2] for q in all_points(N)}
        self.contents = {"FILE": file_bytes(0, N, LISTS, RECORDS), "SECOND": file_bytes(0, N, LISTS, RECORDS, 2), "TEXT": TEXT, "SCORES": b"1 2 3\n", "COUNTS": COUNTS,
                         "MAP": map_bytes(0, N, LISTS, {q: x % 86399 for q, x in numbers.items()}), "COMBINED": combined_bytes(0, N, numbers),
                         "COMBINED2": combined_bytes(0, N, {q: 1 for q in numbers})}
        self.restore()
        self.contents["LOG"] = self.run(*self.words("log", "FILE", "MAP", "COMBINED"))[1]
        self.restore()

    def restore(self):
        shutil.rmtree(self.path("safe"), ignore_errors=True)
        os.mkdir(self.path("safe"))
        for name, contents in self.contents.items():
            self.file("safe/" + name, contents)

    def words(self, *use):
        return [self.path("safe/" + word) if word in self.contents or word in ("OUT", "DIR") else word for word in use]

    def unchanged(self, what):
        for name, contents in self.contents.items():
            if open(self.path("safe/" + name), "rb").read() != contents:
                self.expect("%s: %s" % (what, name), "changed", "as it was")
                self.restore()
                return
        self.agreed += 1


# ---- standard output and standard error that are inputs

def appended(tool):
    """Every command and every file that it reads."""
    for use in USES:
        for name in sorted({word for word in use if word in tool.contents}):
            path = tool.path("safe/" + name)
            os.symlink(name, tool.path("safe/link"))
            os.link(path, tool.path("safe/other"))
            for to in (path, tool.path("safe/link"), tool.path("safe/other")):
                with open(to, "ab") as out:
                    what = "%s >> %s" % (" ".join(use), name)
                    said = b"%s is the file to read and the file to write by standard output; name another" % path.encode()
                    tool.fails(what, tool.words(*use), said, stdout=out)
                    tool.unchanged(what)
            with open(path, "ab") as out:
                what = "%s 2>> %s" % (" ".join(use), name)
                status, said, _ = tool.run(*tool.words(*use), stderr=out)
                words = b"recorder: standard error goes to a file that the command line names, or to standard input's; send it to another\n"
                tool.expect(what, (status, said), (2, words))
                tool.unchanged(what)
            with open(path, "ab") as out:
                what = "%s >> %s 2>&1" % (" ".join(use), name)
                tool.expect(what, tool.run(*tool.words(*use), stdout=out, stderr=out), (2, None, None))
                tool.unchanged(what)
            os.remove(tool.path("safe/link"))
            os.remove(tool.path("safe/other"))
    for use, given in BY_INPUT:
        path = tool.file("given", given)
        with open(path, "rb") as source, open(path, "ab") as out:
            tool.fails("%s < X >> X" % use[0], tool.words(*use), b"standard input is the file to read and the file to write", stdin=source, stdout=out)
        tool.expect("%s < X >> X: X" % use[0], open(path, "rb").read(), given)
    path = tool.path("safe/FILE")
    with open(path, "rb") as source, open(path, "ab") as out:
        tool.fails("map - < X >> X", ("map", "-"), b"standard input is the file to read and the file to write", stdin=source, stdout=out)
        tool.unchanged("map - < X >> X")
    with open(path, "rb") as source, open(tool.path("other"), "wb") as out:
        tool.expect("map - < X > Y", tool.run("map", "-", stdin=source, stdout=out)[0], 0)


def every_command(tool):
    """No command of the help is left out: of one that this test has no words for, the file is as it was when it is all words and standard output."""
    text = tool.run("--help")[1].decode()
    usages = dict(re.findall(r"(?m)^  ([a-z]+) (.*)$", text))
    tool.expect("the commands of this test", {use[0] for use in USES} <= set(usages), True)
    for name in set(usages) - {use[0] for use in USES} - {"help", "line"}:
        for count in range(5):
            path = tool.path("safe/FILE")
            with open(path, "ab") as out:
                tool.run(name, *[path] * count, stdout=out)
            tool.expect("%s of %d files" % (name, count), open(path, "rb").read(), tool.contents["FILE"])
            tool.restore()


def other_outputs(tool):
    """Another file is written as ever, and so is one that no word names."""
    for use in USES:
        want = tool.run(*tool.words(*use))
        if "log" in use or use[0] in ("check", "info", "power") and len(use) > 2 or "--to" in use:
            want = (want[0], None, b"")
        with open(tool.path("another"), "w+b") as out:
            got = tool.run(*tool.words(*use), stdout=out)
            out.seek(0)
            tool.expect("%s > another" % " ".join(use), (got[0], out.read() if want[1] is not None else None, got[2]), want)


# ---- streams that are closed

def closed(tool):
    """Standard output that is closed, or open for reading alone: an error where something is to be printed, and none where a file is written."""
    for use in USES:
        words = tool.words(*use)
        status, printed, _ = tool.run(*words)
        want = 2 if printed else status
        for what, more in ((">&-", {"preexec_fn": lambda: os.close(1), "stdout": None}), ("1< X", {"stdout": os.open(os.devnull, os.O_RDONLY)})):
            got, _, said = tool.run(*words, **more)
            if more["stdout"]:
                os.close(more["stdout"])
            tool.expect("%s %s" % (" ".join(use), what), (got, b"cannot write standard output: Bad file descriptor" in said), (want, want == 2))
        tool.unchanged(" ".join(use))
    for words in (("check", "-"), ("drift", "2"), ("line", "1", "0", "2", "-"), ("point", tool.path("safe/FILE"))):
        got = tool.run(*words, stdin=None, preexec_fn=lambda: os.close(0))
        tool.expect("%s <&-" % words[0], (got[0], got[1], b"cannot read standard input: Bad file descriptor" in got[2]), (2, b"", True))
    with open("/dev/full", "wb") as full:
        got = tool.run("check", tool.path("safe/FILE"), stdout=full)
        tool.expect("no room for a line", (got[0], b"cannot write standard output: " in got[2]), (2, True))


# ---- what ends a command while it writes

def large_map(tool):
    n = (144, 144, 144)
    return tool.file("large.map", map_head(0, n, [[2, 4, 3, 3]] * 3) + bytes(4 * n[0] * n[1] * n[2]))


def signals(tool):
    """The old file or the whole new one, and no third, whatever signal comes and when."""
    rng = random.Random(SEED)
    source, folder = large_map(tool), tool.path("ended")
    os.mkdir(folder)
    out = os.path.join(folder, "out")
    began = time.monotonic()
    tool.expect("a map of a map", tool.run("map", source, "-o", out), (0, b"", b""))
    took, size = time.monotonic() - began, os.path.getsize(out)
    for number in (signal.SIGQUIT, signal.SIGUSR1, signal.SIGUSR2, signal.SIGALRM, signal.SIGXCPU, signal.SIGTERM, signal.SIGINT, signal.SIGHUP):
        for turn in range(SIGNALS):
            tool.file("ended/out", b"old")
            with subprocess.Popen([tool.program, "map", source, "-o", out], cwd=folder, preexec_fn=no_core) as run:
                while turn % 3 and run.poll() is None and len(os.listdir(folder)) < 2:
                    pass
                time.sleep(rng.uniform(0, took / 4 if turn % 3 else took))
                run.send_signal(number)
                status = run.wait()
            old = os.path.getsize(out) == 3
            tool.expect("signal %d" % number, (os.listdir(folder), os.path.getsize(out)), (["out"], 3 if old else size))
            tool.expect("signal %d, its status" % number, status in ((-number,) if old else (0, -number)), True)
    tool.file("ended/out", b"old")
    limit = lambda: resource.setrlimit(resource.RLIMIT_FSIZE, (1 << 20,) * 2)
    tool.fails("a file that is too large", ("map", source, "-o", out), b"cannot write %s: File too large" % out.encode(), preexec_fn=limit)
    tool.expect("and what was there", (os.listdir(folder), open(out, "rb").read()), (["out"], b"old"))
    with open(tool.path("stream"), "wb") as stream:
        got = tool.run("map", source, "-o", "-", stdout=stream, preexec_fn=limit)
        tool.expect("a stream that is too large", (got[0], b"cannot write standard output: File too large" in got[2]), (2, True))


def no_core():
    resource.setrlimit(resource.RLIMIT_CORE, (0, 0))


def to_the_disk(tool):
    """The file is on the disk before it has its name, and then the folder that has it."""
    tool.file("shim.c", SHIM.encode())
    shim, told = tool.path("shim.so"), tool.path("told")
    subprocess.run(["gcc", "-shared", "-fPIC", "-o", shim, tool.path("shim.c"), "-ldl"], check=True)
    folder = os.path.realpath(tool.path("disk"))
    os.mkdir(folder)
    environment = {**os.environ, "LD_PRELOAD": shim, "TOLD": told}
    part = r"fsync %s/\.recorder-\d+-0\.part\nrename %s\nfsync %s\n"
    for words, name, where in (([os.path.join(folder, "out")], os.path.join(folder, "out"), folder), (["out"], "out", folder),
                               (["./out"], "./out", folder), (["../disk/out"], "../disk/out", folder)):
        tool.file("told", b"")
        got = tool.run("map", tool.path("safe/FILE"), "-o", *words, cwd=folder, env=environment)
        said = open(told, encoding="utf-8").read()
        tool.expect("written to %s" % words, (got, bool(re.fullmatch(part % (re.escape(folder), re.escape(name), re.escape(where)), said)) or said),
                    ((0, b"", b""), True))
    tool.file("told", b"")
    made = os.path.join(folder, "made")
    got = tool.run("map", tool.path("safe/FILE"), "--to", made, env=environment)
    said = open(told, encoding="utf-8").read()
    want = r"fsync %s\n" % re.escape(folder) + part % (re.escape(made), re.escape(made) + "/FILE.map", re.escape(made))
    tool.expect("a folder that is made", (got[0], bool(re.fullmatch(want, said)) or said), (0, True))
    locked = os.path.join(folder, "locked")
    os.mkdir(locked, 0o333)
    tool.expect("a folder that is not read", tool.run("map", tool.path("safe/FILE"), "-o", os.path.join(locked, "out")), (0, b"", b""))


# ---- small stacks

def small_stacks(tool):
    """What a command gives does not depend on the stack that the system gives it."""
    seconds = re.compile(rb"(\d+\.\d+ s|\"seconds\": \d+\.\d+|\d{4}-\d\d-\d\dT\S+Z)")
    faulty = tool.file("faulty", file_bytes(0, N, LISTS, RECORDS * 2))
    plain = [tool.words(*use) for use in USES] + [["faults", faulty], ["check", faulty], ["--help"], ["help", "--man"], []]
    for kilobytes in (256, 128):
        limit = lambda: resource.setrlimit(resource.RLIMIT_STACK, (kilobytes << 10,) * 2)
        for words in plain:
            want, got = tool.run(*words), tool.run(*words, preexec_fn=limit)
            both = [(status, seconds.sub(b"", out), err) for status, out, err in (want, got)]
            tool.expect("%s with %d KB" % (words[:1], kilobytes), both[1], both[0])
    for use, given in BY_INPUT:
        words = tool.words(*use)
        tool.expect("%s with 256 KB" % use[0], tool.run(*words, given=given, preexec_fn=limit), tool.run(*words, given=given))


def all_parts(tool):
    tool.prepare()
    for part in (appended, every_command, other_outputs, closed, signals, to_the_disk, small_stacks):
        part(tool)


if __name__ == "__main__":
    tested(all_parts, Safe)
