#!/usr/bin/env python3
"""The test of recorder log --verify: every line of a log against what became of its file.

    verify_test.py PROGRAM

The log is that of the files of many_test.py, of every kind, accepted and refused, under odd names; its lines are brute force's and hashlib's, in the
form that is written now and in the one before, which had no version. Then files are changed, removed, made folders and made unreadable, lines are
spoilt in every part, and what is printed of each, the sum and the exit status are compared with what was done to it. Names from another folder, whole
and by their last part. Twenty thousand lines of a thousand files in one run. The seed is fixed. Prints how many comparisons agreed; the exit status
is 1 where one did not.
"""
import hashlib
import os
import pty
import random
import re
import resource
import shutil
import subprocess
import time

from brute_force import file_bytes
from expected_files import map_head
from many_test import Case, cases, date_of, escaped, log_line
from tool import Tool, tested

SEED = 2033
WORDS = ["same", "changed", "missing", "worked out otherwise", "unread", "no entries"]
LINES = 20000
FILES = 1000
SECONDS = 60


class Verify(Tool):
    def verified(self, what, log, want, *more, given=b"", **options):
        """The lines, a number, a name and what became of it each, their sum and the exit status."""
        status, out, err = self.run("log", "--verify", log, *more, given=given, **options)
        lines = out.splitlines()
        counts = [sum(end == word for _, _, end, _ in want) for word in WORDS]
        summed = b"%d lines: %s, " % (len(want), ", ".join("%d %s" % pair for pair in zip(counts, WORDS)).encode())
        for got, (line, name, end, said) in zip(lines, want):
            head = b"%d: " % line + (b"" if end == "no entries" else name + b": ")
            self.expect("%s: line %d" % (what, line), got[:len(head) + len(said)] if said.endswith(b" ") else got, head + said)
        last = lines[-1] if lines else b""
        self.expect(what + ": the sum", (len(lines), bool(re.fullmatch(re.escape(summed) + rb"\d+\.\d\d s", last)) or last), (len(want) + 1, True))
        self.expect(what + ": status", (status, err), (2 if counts[4] + counts[5] else 1 if any(counts[1:4]) else 0, b""))


def before(line):
    """A line in the form that had no version."""
    return line.replace(b" format=2", b"", 1)


def kept(tool):
    """The files that have a line, each with it, in either form."""
    rng = random.Random(SEED)
    found = [case for case in cases(tool) if case.unread is None]
    return [(case, rng.choice([before, bytes])(log_line(case, date_of(rng.randrange(2 ** 31))))) for case in found]


# ---- what becomes of a line

def changed(rng, case):
    """Other bytes in the place of a file's."""
    contents = bytearray(case.contents)
    turn = rng.randrange(3)
    if turn == 0 or not contents:
        contents += b"x"
    elif turn == 1:
        contents[rng.randrange(len(contents))] ^= 1 << rng.randrange(8)
    else:
        del contents[rng.randrange(len(contents)):]
    with open(case.path, "wb") as out:
        out.write(contents)
    return "changed", b"changed: sha256 is now " + hashlib.sha256(contents).hexdigest().encode()


def otherwise(rng, line):
    """A line of which a part is not what is worked out, and what is said of it."""
    head, mark, name = line.partition(b" file=")
    words = head.split(b" ")
    at = rng.randrange(len(words) - 7, len(words))
    part, _, value = words[at].partition(b"=")
    now = b"%s=%s" % (part, rng.choice([value + b"1", b"7", b"-", b"refused,9,9", b""]))
    if now == words[at]:
        now += b"0"
    said = b"worked out otherwise: %s was %s, is %s" % (part, now.partition(b"=")[2], value)
    if part in (b"records", b"densities", b"numbers") and rng.randrange(2):
        other = rng.choice([count for count in (b"records", b"densities", b"numbers") if count != part])
        now = b"%s=%s" % (other, value)
        said = b"worked out otherwise: %s was %s, is %s %s" % (other, value, part, value)
    words[at] = now
    return b" ".join(words) + mark + name, said


def no_entry(rng, line):
    """What is no line of a log, and what is said of it."""
    head, _, name = line.rstrip(b"\n").partition(b" file=")
    words = head.split(b" ")
    digest = next(at for at, word in enumerate(words) if word.startswith(b"sha256="))
    return rng.choice([
        (head, b"it names no file"), (b"x" + line, b"it does not begin with date and time"), (b" " + line, b"it does not begin with date and time"),
        (line.replace(b"T", b" ", 1), b"it does not begin with date and time"), (b"\xff" + line, b"it has bytes that are no UTF-8"),
        (words[0] + b" format=3 " + b" ".join(words[digest:]) + b" file=" + name, b"it is of format 3, and this tool knows those up to 2"),
        (words[0] + b" format=0 " + b" ".join(words[digest:]) + b" file=" + name, b"it is of format 0, and this tool knows those up to 2"),
        (words[0] + b" format=x " + b" ".join(words[digest:]) + b" file=" + name, b"it is of format x, and this tool knows those up to 2"),
        (b" ".join(words[:digest] + words[digest + 1:]) + b" file=" + name, b"it has no sha256"),
        (b" ".join(words[:digest] + [words[digest][:-1]] + words[digest + 1:]) + b" file=" + name, b"it has not the parts of a line"),
        (b" ".join(words[:digest] + [words[digest][:-1] + b"G"] + words[digest + 1:]) + b" file=" + name, b"it has not the parts of a line"),
        (b" ".join(words[:-1]) + b" file=" + name, b"it has not the parts of a line"),
        (b" ".join(words + [b"more=1"]) + b" file=" + name, b"it has not the parts of a line"),
        (b" ".join(words + [b"more"]) + b" file=" + name, b'"more" is no part of a line'),
        (b" ".join(words[:-2] + words[:-3:-1]) + b" file=" + name, b"it has not the parts of a line"),
        (head + b" file=", b"its name is not written as names are"), (head + b" file=a\\q", b"its name is not written as names are"),
        (head + b" file=\\x41", b"its name is not written as names are"), (b"a" * 40000, b"it has more than 32768 bytes"),
        (line.rstrip(b"\n") + b"a" * 200000, b"it has more than 32768 bytes"),
    ])


def ends(tool, rng, found):
    """The lines of a log in any order, empty ones among them, and what is said of each, after something was done to the files."""
    done = {}
    for case, _ in found:
        turn = rng.randrange(12)
        if turn == 0:
            done[case.path] = changed(rng, case)
        elif turn == 1:
            os.remove(case.path)
            done[case.path] = ("missing", b"missing")
        elif turn == 2:
            os.remove(case.path)
            os.mkdir(case.path)
            done[case.path] = ("unread", b"cannot read: it is not a regular file")
    log, want, number = [], [], 0
    for case, line in rng.sample(found, len(found)) + rng.choices(found, k=30):
        end, said = done.get(case.path, ("same", b"same"))
        turn = rng.randrange(12)
        if turn == 0 and end == "same":
            line, said = otherwise(rng, line)
            end = "worked out otherwise"
        elif turn == 1:
            line, said = no_entry(rng, line)
            end, said = "no entries", b"no entry: " + said
        while rng.randrange(9) == 0:
            log.append(rng.choice([b"", b" ", b"\r"]))
            number += 1
        log.append(line.rstrip(b"\n") + rng.choice([b"", b"", b"\r"]) * (end != "no entries"))
        number += 1
        want.append((number, escaped(case.path), end, said))
    return tool.file("LOG", b"\n".join(log) + rng.choice([b"", b"\n", b"\n\n"])), want


def restored(found):
    for case, _ in found:
        if os.path.isdir(case.path):
            os.rmdir(case.path)
        with open(case.path, "wb") as out:
            out.write(case.contents)


def all_the_same(tool, found):
    path = tool.file("LOG", b"".join(line for _, line in found))
    want = [(number, escaped(case.path), "same", b"same") for number, (case, _) in enumerate(found, 1)]
    tool.verified("all the same", path, want)
    tool.verified("by standard input", "-", want, given=b"".join(line for _, line in found))
    paths = [case.path for case, _ in found]
    written = tool.file("LOG", tool.run("log", *paths)[1])
    tool.verified("a log that log wrote", written, want)
    tool.verified("an empty log", tool.file("LOG", b""), [])


def mixtures(tool, found):
    rng = random.Random(SEED)
    seen = set()
    for turn in range(6):
        path, want = ends(tool, rng, found)
        tool.verified("mixture %d" % turn, path, want)
        seen |= {end for _, _, end, _ in want}
        restored(found)
    tool.expect("what becomes of a line", seen, set(WORDS))
    for word, part in (("changed", changed), ("missing", lambda _, case: os.remove(case.path))):
        part(rng, found[0][0])
        log = tool.file("LOG", found[0][1] + found[1][1])
        tool.expect("one that is %s" % word, tool.run("log", "--verify", log)[0], 1)
        restored(found)


# ---- where the files are

def folders(tool, found):
    """Names from the folder of the run, from another by the whole name and by the last part, and absolute ones."""
    small = next(case for case, _ in found if case.refusal is None and case.known)
    moved = tool.path("moved")
    os.makedirs(os.path.join(moved, "deep/er"))
    places = {b"a": "a", b"deep/er/b": "deep/er/b", b"gone/c": "c", b"/gone/too/d": "d", b"/deep/er/e": "deep/er/e", b"../f": "f", b"none": None,
              b"two  blanks ": "two  blanks "}
    lines, want = [], []
    for number, (name, to) in enumerate(places.items(), 1):
        if to:
            with open(os.path.join(moved, to), "wb") as out:
                out.write(small.contents)
        lines.append(log_line(small, date_of(0)).partition(b" file=")[0] + b" file=" + name + b"\n")
        want.append((number, name, "same" if to else "missing", b"same" if to else b"missing"))
    path = tool.file("LOG", b"".join(lines))
    tool.verified("another folder", path, want, "--folder", moved)
    inside = {b"a", b"deep/er/b", b"two  blanks "}
    here = [(number, name, *(("same", b"same") if name in inside else ("missing", b"missing"))) for number, name, _, _ in want]
    tool.verified("the folder of the run", path, here, cwd=moved)
    path = tool.file("LOG", lines[1])
    for words in (("--folder", moved), (tool.path("LOG"), "--verify", path), ("--verify", path, "--folder", moved, "--json"), ("--verify",),
                  ("--verify", path, "-o", "x")):
        tool.fails("log %s" % (words,), ("log", *words), b"recorder log --help says more")
    tool.fails("a missing log", ("log", "--verify", tool.path("nowhere")), b"cannot read")
    target = os.path.join(moved, "deep/er/b")
    with open(target, "ab") as out:
        said = b"%s, of line 1, is the file to read and the file to write by standard output" % target.encode()
        tool.fails("a file of the log as standard output", ("log", "--verify", path, "--folder", moved), said, stdout=out)
    tool.expect("and the file", open(target, "rb").read(), small.contents)
    with open(path, "ab") as out:
        tool.fails("the log as standard output", ("log", "--verify", path), b"is the file to read and the file to write by standard output", stdout=out)


# ---- many lines

def seven_years(tool):
    """A thousand files, twenty lines each in any order, some of them changed; in one run, with a bound on its memory."""
    rng = random.Random(SEED)
    os.mkdir(tool.path("years"))
    each = []
    for place in range(FILES):
        n = rng.choice([(2, 2, 2), (4, 2, 6), (6, 8, 6)])
        lists = [{2: [], 4: [2], 6: [3], 8: [4]}[m] for m in n]
        contents = file_bytes(place % 5, n, lists, [(0, 0, 0, 1 + place, 0)], 1 + place % 2)
        case = Case(tool.path("years/%d.factors" % place), contents)
        with open(case.path, "wb") as out:
            out.write(contents if place % 100 else contents + b"x")
        each.append((case, log_line(case, date_of(1600000000 + place))))
    order = [rng.randrange(FILES) for _ in range(LINES)]
    log = tool.file("LOG", b"".join(each[place][1] for place in order))
    want = [(number, escaped(each[place][0].path), *(("same", b"same") if place % 100 else ("changed", b"changed: sha256 is now ")))
            for number, place in enumerate(order, 1)]
    limit = lambda: resource.setrlimit(resource.RLIMIT_AS, (2 ** 26,) * 2)
    began = time.monotonic()
    tool.verified("twenty thousand lines", log, want, preexec_fn=limit)
    took = time.monotonic() - began
    tool.expect("in time", took < SECONDS or took, True)
    with subprocess.Popen([tool.program, "log", "--verify", log], stdout=subprocess.PIPE, stderr=subprocess.PIPE) as run:
        run.stdout.read(5)
        run.stdout.close()
        status, err = run.wait(), run.stderr.read()
        tool.expect("a reader that leaves", (status in (0, 1), err), (True, b""))


def progress(tool):
    """On a terminal the run is told as a whole, and nothing of it stays."""
    large = [tool.file("large %d" % place, map_head(0, (120,) * 3, [[5, 4, 3]] * 3) + bytes(4 * 120 ** 3)) for place in range(4)]
    log = tool.file("LOG", tool.run("log", *large)[1])
    ours, theirs = pty.openpty()
    with subprocess.Popen([tool.program, "log", "--verify", log], stderr=theirs, stdout=subprocess.DEVNULL) as run:
        os.close(theirs)
        said = b""
        try:
            while part := os.read(ours, 4096):
                said += part
        except OSError:
            pass  # a terminal whose other end is closed
        told = re.fullmatch(rb"(\rverifying: (\d+ % in )?\d+\.\d s *)+\r +\r", said)
        tool.expect("progress", (run.wait(), bool(told) or said), (0, True))
    os.close(ours)


def test(tool):
    found = kept(tool)
    all_the_same(tool, found)
    mixtures(tool, found)
    folders(tool, found)
    seven_years(tool)
    progress(tool)
    shutil.rmtree(tool.path("years"))


if __name__ == "__main__":
    tested(test, Verify)
