#!/usr/bin/env python3
"""The test of the commands that take several files: a line each, JSON objects, maps written to a folder, and the lines of a log.

    many_test.py PROGRAM

Factor files, map files and combined map files of all five groups and both primes, refused in every way that there is, missing, too long or a folder,
under names with blanks, quotes, backslashes, line ends, control characters and bytes that are no UTF-8. What is known of each, its refusal, its map
and its powers are brute force's, over the whole cell. Every line that check, info, power, map --to and log print of all of them and of some in any
order, the last line's counts and the exit status; the seconds by their shape, and that they are no more than what the run took. JSON by Python's
json, its fields in their order; log lines against hashlib, datetime and the sums; files written by --to byte for byte, and every command line that
--to refuses. The seed is fixed. Prints how many comparisons agreed; the exit status is 1 where one did not.
"""
import calendar
import datetime
import hashlib
import json
import os
import random
import re
import socket
import subprocess
import time
import unicodedata

from brute_force import (LIMIT, PRIMES, admitted, all_points, analysed, consistent_map, factor_lists, file_bytes, header_fault, lengths_at,
                         lengths_in, modulus_in, needed, number, open_file, planes, point_images, read_cell, read_map, records_in, volume_length)
from expected_files import combined_bytes, map_bytes, map_head
from faults_cases import files as small_files
from host_test import GREATEST, GROUPS, bounded
from tool import tested

SEED = 2026
OF_HEADER = {3, 4, 5, 8, 9, 15, 16, 26}
# Every refusal that each kind of file can give.
REFUSALS = {"factor file": OF_HEADER | {7, 10, 12, 24}, "map file": OF_HEADER | {7, 14}, "combined map file": {3, 8, 9, 14, 15, 16, 28}}
ODD_NAMES = [b"plain", b"a blank", b"  two  ", b'"quotes" and \'those\'', b"back\\slash\\n", b"a line\nend", b"\r\n", b"tab\there",
             b"\x01\x1b[31mred\x7f", "gr\u00fcn \u2202".encode(), "next\u0085line".encode(), "line\u2028and\u2029paragraph".encode(),
             b"no \xff utf \xc3", b"cut \xe2\x82", b"surrogate \xed\xa0\x80", b"x: P1 2 2 2, 1 records, accepted, 0.000 s", b"a=b file=c",
             b".hidden", b"two.dots.here", b"ends.", b"%s%n{}"]
SECONDS = rb", [0-9]+\.[0-9]{3} s$"
COMBINED_POWER = b"cannot read: a combined map file has no records and no factors"
TOO_LONG = 4 + 9 + 3 * 256 + 4 + 14 * LIMIT


# ---- what brute force says of a file

class Known:
    """What a sound header says."""

    def __init__(self, kind, counted, version, g, n, count, modulus=None, lists=None):
        self.kind, self.counted, self.version, self.count = kind, counted, version, count
        self.g, self.n, self.modulus, self.lists = g, n, modulus, lists

    def described(self):
        return b"%s, %d %d %d, %d %s, " % (GROUPS[self.g].encode(), *self.n, self.count, self.counted.encode())


class Case:
    """A file: its path and contents, what is known of it, its refusal's number and place or none, its factors, and its map or numbers. Of one that
    cannot be read: why."""

    def __init__(self, path, contents, unread=None):
        self.path, self.contents, self.unread = path, contents, unread
        self.known = self.refusal = self.F = self.M = None
        self.kind = {b"RMAP": "map file", b"RCMB": "combined map file"}.get((contents or b"")[:4], "factor file")
        if unread is None:
            {"map file": self.judge_map, "combined map file": self.judge_combined, "factor file": self.judge_factors}[self.kind]()

    def refused(self, refusal, place=0):
        self.refusal = (refusal, place)

    def judge_factors(self):
        file = self.contents
        refusal, place, book = open_file(file, needed(file))
        if refusal not in OF_HEADER:
            head = header_in(file)
            self.known = Known(self.kind, "records", *head[:2], head[3], len(records_in(file)), head[2], head[4])
        if refusal:
            return self.refused(refusal, place)
        self.F, self.M = book.F, book.densities()

    def judge_map(self):
        head = header_in(self.contents)
        if head is None:
            return self.refused(15)
        version, g, modulus, n, lists, end = head
        fault = 16 if version not in (1, 2) else 8 if g > 4 else 26 if modulus not in PRIMES else header_fault(g, n, lists)
        if fault:
            return self.refused(fault)
        stored = planes(g, n) * n[0] * n[1]
        self.known = Known(self.kind, "densities", version, g, n, stored, modulus, lists)
        volume = self.judge_numbers(end, 4, lambda x: x < PRIMES[modulus], 7)
        if volume:
            self.M = read_map(g, n, volume)
            self.F = read_cell(g, n, analysed(g, n, volume, PRIMES[modulus]), PRIMES[modulus])

    def judge_combined(self):
        file = self.contents
        if len(file) < 12:
            return self.refused(15)
        g, n = file[5], tuple(number(file[at:at + 2]) for at in (6, 8, 10))
        fault = 16 if file[4] != 1 else 8 if g > 4 else 3 if not all(map(admitted, n)) else 9 if volume_length(g, n) > LIMIT else 0
        if fault:
            return self.refused(fault)
        self.known = Known(self.kind, "numbers", 1, g, n, planes(g, n) * n[0] * n[1])
        volume = self.judge_numbers(12, 8, lambda x: abs(x) <= GREATEST, 28)
        if volume:
            self.M = read_map(g, n, volume)

    def judge_numbers(self, at, size, sound, beyond):
        """The volume of the numbers that a map has behind its header, unless they are refused."""
        g, n, part = self.known.g, self.known.n, self.contents[at:]
        if len(part) != size * self.known.count:
            return self.refused(15)
        numbers = [int.from_bytes(part[k:k + size], "big", signed=size == 8) for k in range(0, len(part), size)]
        if not all(map(sound, numbers)):
            return self.refused(beyond)
        volume = [x for row in range(0, len(numbers), n[1]) for x in numbers[row:row + n[1]] + [0, 0]]
        return volume if consistent_map(g, n, volume) else self.refused(14)

    def powers(self):
        """The sums of the squares of map and factors over the whole cell, modulo the prime."""
        p = PRIMES[self.known.modulus]
        return sum(x * x for x in self.M.values()) % p, sum(a * a + b * b for a, b in self.F.values()) % p

    def map_file(self):
        """The file that map writes."""
        known = self.known
        if known.kind == "combined map file":
            return combined_bytes(known.g, known.n, self.M)
        return map_bytes(known.g, known.n, known.lists, self.M, known.modulus)


def header_in(contents):
    """Version, group, modulus, lengths and lists of a header behind four bytes, and where it ends; nothing where it is cut."""
    at, lists = lengths_at(contents) + 6, []
    for _ in range(3):
        if at >= len(contents) or at + 1 + contents[at] > len(contents):
            return None
        lists.append(list(contents[at + 1:at + 1 + contents[at]]))
        at += 1 + contents[at]
    return contents[4], contents[5], modulus_in(contents), lengths_in(contents), lists, at


# ---- the files

def drawn(rng, g, n, draw):
    """A number for every point of a cell, the same at all images of a point."""
    by_orbit = {q: draw() for q in all_points(n)}
    return {q: by_orbit[min(point_images(g, n, q))] for q in by_orbit}


def faulty_headers():
    """Group, lengths, lists, modulus, version: every refusal of a header."""
    sound = [[], [], []]
    yield from [(5, (2, 2, 2), sound, 1, 1), (0, (2, 14, 2), [[], [7], []], 1, 1), (1, (2, 2, 0), sound, 2, 2), (3, (8, 2, 2), [[7], [], []], 1, 1),
                (2, (8, 2, 2), [[2], [], []], 2, 2), (0, (288, 288, 288), [[4, 4, 3, 3]] * 3, 1, 1), (4, (2, 2, 2), sound, 3, 2),
                (0, (2, 2, 2), sound, 1, 3)]


def contents_of_all():
    """The files' contents."""
    rng = random.Random(SEED)
    yield from small_files(25)
    for header in faulty_headers():
        g, n, lists, modulus, version = header
        yield file_bytes(g, n, lists, [], modulus, version)
        yield map_head(g, n, lists, modulus, version) + bytes(64)
        yield b"RCMB" + bytes([3 if version == 3 else 1, g]) + b"".join(m.to_bytes(2, "big") for m in n) + bytes(64)
    yield from (b"", b"RM", b"RMAP", b"RCMB", b"RMAP\1", b"RCMB\1\0\0\2", bytes(5), bytes(100000), b"\0\0\0\7" + bytes(300000))
    for g in range(5):
        for n in [(2, 2, 2), (4, 2, 6), (4, 6, 4)]:
            lists = [rng.choice(list(factor_lists(m // 2))) for m in n]
            for modulus, version in ((1, 1), (1, 2), (2, 2)):
                M = drawn(rng, g, n, lambda: rng.randrange(PRIMES[modulus]))
                whole = map_bytes(g, n, lists, M, modulus, version)
                yield from (whole, whole[:-1], whole + b"x", whole[:-4] + PRIMES[modulus].to_bytes(4, "big"))
            whole = combined_bytes(g, n, drawn(rng, g, n, lambda: rng.randrange(-GREATEST, GREATEST + 1)))
            yield from (whole, whole[:-1], whole + b"x", whole[:-8] + (GREATEST + 1).to_bytes(8, "big"))
        n = (4, 4, 4)
        other = {q: int(q == (1, 1, 0)) for q in all_points(n)}
        yield map_bytes(g, n, [[2]] * 3, other, 2)
        yield combined_bytes(g, n, other)


def cases(tool):
    """The files under odd names, each name with a number, so that no two are the same without their extension."""
    rng = random.Random(SEED)
    os.mkdir(tool.path("tray"))
    found = []
    for place, contents in enumerate(contents_of_all()):
        name = b"%s %d%s" % (ODD_NAMES[place % len(ODD_NAMES)], place, rng.choice([b".factors", b".map", b".x"]))
        path = os.path.join(os.fsencode(tool.path("tray")), name)
        with open(path, "wb") as out:
            out.write(contents)
        found.append(Case(os.fsdecode(path), contents))
    found.append(Case(tool.path("tray/miss\ning"), None, b"No such file or directory (os error 2)"))
    os.mkdir(tool.path("tray/folder"))
    found.append(Case(tool.path("tray/folder"), None, b"Is a directory (os error 21)"))
    os.truncate(tool.file("tray/long", b"\xff" * 4), TOO_LONG + 1)
    found.append(Case(tool.path("tray/long"), None, b"it has more bytes than any factor file, which has at most %d" % TOO_LONG))
    rng.shuffle(found)
    for kind, refusals in REFUSALS.items():
        met = {case.refusal[0] for case in found if case.refusal and case.kind == kind}
        tool.expect("the refusals of a " + kind, met, refusals)
        accepted = {(case.known.g, case.known.modulus) for case in found if case.known and not case.refusal and case.kind == kind}
        moduli = (None,) if kind == "combined map file" else (1, 2)
        tool.expect("the groups and primes of a " + kind, accepted, {(g, modulus) for g in range(5) for modulus in moduli})
    return found


# ---- lines

def escaped(path):
    """A name in a line."""
    short = {"\\": "\\\\", "\n": "\\n", "\r": "\\r", "\t": "\\t"}
    said = ""
    for letter in path:
        odd = unicodedata.category(letter) in ("Cc", "Cs", "Zl", "Zp")
        said += short.get(letter) or ("".join("\\x%02x" % byte for byte in os.fsencode(letter)) if odd else letter)
    return said.encode()


def target(case):
    return os.path.splitext(os.path.basename(case.path))[0] + ".map"


def outcome(command, case, folder=None):
    """How a command ends with a file, and what it says."""
    if case.unread:
        return "unread", b"cannot read: " + case.unread
    if command == "power" and case.kind == "combined map file":
        return "unread", COMBINED_POWER
    if case.refusal and not (command == "info" and case.known):
        return "refused", b"refused %d at %d" % case.refusal
    if command == "check":
        return "accepted", b"accepted"
    if command == "map":
        return "written", b"written to " + escaped(os.path.join(folder, target(case)))
    known = case.known
    if command == "power":
        return "agree", b"map %d, factors %d, they agree" % case.powers()
    said = "version %d" % known.version
    if known.modulus:
        said += ", modulus %d, lists %s" % (known.modulus, " ".join(",".join(map(str, fs)) or "-" for fs in known.lists))
    return "sound", said.encode()


ENDS = {"check": ["accepted", "refused", "unread"], "info": ["sound", "refused", "unread"], "power": ["agree", "differ", "refused", "unread"],
        "map": ["written", "refused", "unread", "unwritten"]}


def status_of(ends):
    return 2 if {"unread", "unwritten"} & set(ends) else 1 if {"refused", "differ"} & set(ends) else 0


def lines_of(tool, what, command, found, folder=None, given=b"", names=None, more=()):
    """Runs a command on files, and compares all that it prints but the seconds, of which none is more than the run took."""
    since = time.monotonic()
    status, out, err = tool.run(command, *[case.path for case in found], *more, given=given)
    took = time.monotonic() - since
    ends = [outcome(command, case, folder) for case in found]
    lines = out.split(b"\n")
    want = []
    for case, (_, said) in zip(found, ends):
        name = (names or {}).get(case.path, escaped(case.path))
        want.append(b"%s: %s%s, S" % (name, case.known.described() if case.known else b"", said))
    tool.expect(what + ": the count of lines", len(lines), len(found) + 2)
    for got, expected in zip(lines, want):
        tool.expect(what, re.sub(SECONDS, b", S", got), expected)
    words = ", ".join("%d %s" % (sum(end == word for end, _ in ends), word) for word in ENDS[command])
    sums = "%d file%s: %s, S" % (len(found), "" if len(found) == 1 else "s", words)
    tool.expect(what + ": the sum", (re.sub(rb", [0-9]+\.[0-9]{2} s$", b", S", lines[-2]), lines[-1]), (sums.encode(), b""))
    seconds = [float(line.split()[-2]) for line in lines[:-1]]
    tool.expect(what + ": the seconds", (sum(seconds[:-1]) <= took + 0.001 * len(seconds), seconds[-1] <= took + 0.01), (True, True))
    tool.expect(what + ": status and standard error", (status, err), (status_of([end for end, _ in ends]), b""))


def some(rng, found):
    """Some of the files, those that are accepted alone among them, in any order, some twice."""
    accepted = [case for case in found if not case.refusal and not case.unread]
    known = [case for case in found if not case.unread]
    for among in (accepted, accepted, known, known, found, found, found):
        yield [rng.choice(among) for _ in range(rng.randrange(2, 9))]


def lines(tool, found):
    rng = random.Random(SEED)
    for command in ("check", "info", "power"):
        lines_of(tool, command, command, found)
        for part in some(rng, found):
            lines_of(tool, "some files: " + command, command, part)
    by_stream = Case("-", next(case for case in found if case.M and case.F).contents)
    for command in ("check", "info", "power"):
        part = [found[0], by_stream, found[1]]
        lines_of(tool, "standard input: " + command, command, part, given=by_stream.contents, names={"-": b"standard input"})
        tool.fails("standard input twice: " + command, (command, "-", found[0].path, "-"), b"standard input can be one of several files")
    closed(tool, found)


def closed(tool, found):
    """Standard output that is closed ends the lines quietly, with the status of what was done; one that is full does not."""
    accepted = next(case for case in found if case.M and case.F)
    refused = next(case for case in found if case.refusal)
    for part, status in (([accepted, refused], 0), ([refused, accepted], 1)):
        for words in (["check"], ["check", "--json"], ["power"], ["log"]):
            reading, writing = os.pipe()
            os.close(reading)
            got = tool.run(*words, *[case.path for case in part], stdout=writing)
            os.close(writing)
            tool.expect("a closed pipe of %s" % words, got, (status, None, b""))
    with open("/dev/full", "wb") as full:
        for words in (["check"], ["check", "--json"], ["info"], ["power"], ["log"], ["map", "--to", tool.path("full")]):
            tool.fails("a full output of %s" % words, (*words, accepted.path, refused.path), b"make room", stdout=full)


def memory(tool):
    """One file is held at a time: eight of 7 MB each in no more than one, and one for which there is no memory between two others."""
    n, lists = (120, 120, 120), [[4, 5, 3]] * 3
    large = [tool.file("large%d" % place, file_bytes(0, n, lists, [(1, 2, 3, 4, place)])) for place in range(8)]
    for words in (("check", *large), ("power", *large), ("log", *large), ("map", *large, "--to", tool.path("larges"))):
        status, out, err = tool.run(*words, preexec_fn=bounded(volume_length(0, n)))
        tool.expect("eight large files: " + words[0], (status, out.count(b"\n"), err), (0, 8 + (words[0] != "log"), b""))
    whole = {open(os.path.join(tool.path("larges"), name), "rb").read()[:18] for name in os.listdir(tool.path("larges"))}
    tool.expect("their maps", whole, {map_head(0, n, lists)[:18]})
    larger = tool.file("larger", file_bytes(0, (240, 240, 240), [[4, 5, 3, 2]] * 3, [(1, 2, 3, 4, 5)]))
    status, out, err = tool.run("check", large[0], larger, large[1], preexec_fn=bounded(volume_length(0, n)))
    said = [re.sub(SECONDS, b"", line).split(b", ", 3)[-1] for line in out.split(b"\n")[:3]]
    no_memory = b"cannot read: there is no memory for %d bytes" % (4 * volume_length(0, (240, 240, 240)))
    tool.expect("no memory for one", (status, said, err), (2, [b"accepted", no_memory, b"accepted"], b""))


# ---- JSON

def fields(command, case, said):
    """The fields of a file's object in their order, all but the seconds. Why, what was found and what to do are what check says of it alone."""
    known = case.known
    pairs = [("file", os.fsencode(case.path).decode("utf-8", "replace"))]
    if known:
        pairs += [("kind", known.kind), ("version", known.version), ("group", known.g), ("group_name", GROUPS[known.g])]
        pairs += [("modulus", known.modulus), ("prime", PRIMES[known.modulus])] if known.modulus else []
        pairs += [("lengths", list(known.n))] + ([("lists", known.lists)] if known.modulus else []) + [(known.counted, known.count)]
        if command == "info":
            pairs += [("planes", planes(known.g, known.n)), ("volume", volume_length(known.g, known.n))]
    end, _ = outcome(command, case)
    pairs.append(("result", end))
    if end == "refused":
        pairs += [("number", case.refusal[0]), ("place", case.refusal[1])]
    if end in ("refused", "unread"):
        pairs += said
    return pairs


def said_alone(tool, case):
    """What check says of a file that is refused or cannot be read."""
    _, out, err = tool.run("check", case.path)
    if case.unread:
        why, advice = re.fullmatch(rb"recorder: cannot read .*: (.*); (.*)\n", err, re.DOTALL).groups()
        return [("why", why.decode()), ("what_to_do", advice.decode())]
    pairs = [line.split(": ", 1) for line in out.decode().split("\n")[1:-1]]
    return [(name.replace(" ", "_"), text) for name, text in pairs]


def pairs_in(line):
    """The fields of an object in their order, or the line where it is none."""
    try:
        return json.loads(line, object_pairs_hook=list)
    except ValueError:
        return line


def objects(tool, found):
    rng = random.Random(SEED)
    said = {case.path: said_alone(tool, case) for case in found if case.refusal or case.unread}
    for command in ("check", "info"):
        for part in [found, *some(rng, found), *[[case] for case in rng.sample(found, 40)]]:
            status, out, err = tool.run(command, *[case.path for case in part], "--json")
            got = out.decode().splitlines()
            tool.expect(command + " --json: the count of lines", (len(got), out.endswith(b"\n")), (len(part), True))
            for line, case in zip(got, part):
                tool.expect(command + " --json", pairs_in(line)[:-1], fields(command, case, said.get(case.path)))
                tool.expect(command + " --json: seconds", bool(re.search(r'"seconds": [0-9]+\.[0-9]{3}\}$', line)), True)
            ends = [outcome(command, case)[0] for case in part]
            tool.expect(command + " --json: status and standard error", (status, err), (status_of(ends), b""))
    accepted = next(case for case in found if case.M)
    status, out, err = tool.run("check", "-", "--json", given=accepted.contents)
    tool.expect("standard input as JSON", (status, json.loads(out)["file"], json.loads(out)["result"], err), (0, "-", "accepted", b""))
    tool.fails("standard input twice as JSON", ("check", "-", "-", "--json"), b"standard input can be one of several files")
    for words in (("power", accepted.path, "--json"), ("map", accepted.path, "--json"), ("check", accepted.path, "--json=1")):
        tool.fails("JSON that is not", words, b"--help")


# ---- maps written to a folder

def folders(tool, found):
    """All files at once, some of the files there before, and some again."""
    rng = random.Random(SEED)
    folder = tool.path("maps")
    accepted = [case for case in found if case.M]
    refused = [case for case in found if case.refusal]
    lines_of(tool, "map --to", "map", found, folder, more=("--to", folder))
    wrote(tool, folder, {target(case): case.map_file() for case in accepted})
    old = {target(case): b"old" for case in [*accepted[:5], *refused[:5]]}
    os.mkdir(tool.path("old"))
    for name, contents in old.items():
        tool.file(os.path.join("old", name), contents)
    part = [*accepted[:3], refused[0], refused[6], found[0]]
    part = list({case.path: case for case in part}.values())
    lines_of(tool, "map --to a folder that is there", "map", part, tool.path("old"), more=("--to=" + tool.path("old"),))
    wrote(tool, tool.path("old"), {**old, **{target(case): case.map_file() for case in part if case.M}})
    for case in rng.sample(accepted, 5) + refused[:2]:
        folder = tool.path("one folder")
        lines_of(tool, "map --to of one file", "map", [case], folder, more=("--to", folder))
        wrote(tool, folder, {target(case): case.map_file()} if case.M else {})
        for name in os.listdir(folder):
            os.remove(os.path.join(folder, name))
    unwritten(tool, accepted)
    closed_folder(tool, accepted, refused)


def wrote(tool, folder, want):
    got = {name: open(os.path.join(folder, name), "rb").read() for name in os.listdir(folder)}
    tool.expect("the files of " + folder, sorted(got), sorted(want))
    for name in want:
        tool.expect("a file of " + folder, got.get(name), want[name])


def unwritten(tool, accepted):
    """A folder has the name of a file that is to be written: that is told, and the others are written."""
    first, second, third = accepted[:3]
    folder = tool.path("blocked")
    os.makedirs(os.path.join(folder, target(second)))
    status, out, err = tool.run("map", first.path, second.path, third.path, "--to", folder)
    said = re.sub(SECONDS, b"", out.split(b"\n")[1])
    want = b"%s: %scannot write: Is a directory (os error 21)" % (escaped(second.path), second.known.described())
    tool.expect("a file that cannot be written", (status, said, err), (2, want, b""))
    counts = re.sub(rb", [0-9.]+ s$", b"", out.split(b"\n")[-2])
    tool.expect("its sum", counts, b"3 files: 2 written, 0 refused, 0 unread, 1 unwritten")
    os.rmdir(os.path.join(folder, target(second)))
    wrote(tool, folder, {target(case): case.map_file() for case in (first, third)})
    for folder, part in ((first.path, b"cannot write"), (tool.path("no/where"), b"make its folder first")):
        tool.fails("a folder that cannot be made", ("map", second.path, third.path, "--to", folder), part)


def closed_folder(tool, accepted, refused):
    """Files are written also where nobody reads the lines."""
    part, folder = [accepted[0], refused[0], accepted[1], accepted[2]], tool.path("closed")
    reading, writing = os.pipe()
    os.close(reading)
    got = tool.run("map", *[case.path for case in part], "--to", folder, stdout=writing)
    os.close(writing)
    tool.expect("map --to and a closed pipe", got, (1, None, b""))
    wrote(tool, folder, {target(case): case.map_file() for case in part if case.M})


def wrong_folders(tool, found):
    """Wrong command lines: nothing is written, and no folder is made."""
    folder, none = tool.path("a folder"), tool.path("none")
    os.mkdir(folder)
    sound = next(case for case in found if case.M).contents
    for name in ("a.factors", "a.map", "b.factors", "c.d.factors", "c.d.x"):
        tool.file(os.path.join("a folder", name), sound)
    os.mkdir(os.path.join(folder, "below"))
    path = lambda name: os.path.join(folder, name)
    tool.file("a folder/below/a.x", sound)
    before = contents_in(folder)
    both, read, other = b"would both be written to", b"is a file to read and the file to write", b"do not go together"
    no_name = b"has no name of its own"
    for words, part in ((["a.factors", "b.factors"], b"needs --to"), (["a.factors", "b.factors", "-o", none], b"needs --to"),
                        (["a.factors", "b.factors", "--times"], b"needs --to"), (["a.factors", "--to", none, "-o", none], other),
                        (["a.factors", "--to", none, "--plane", "0"], other), (["a.factors", "--to", none, "--whole-cell"], other),
                        (["a.factors", "b.factors", "--to", none, "-o", "-"], other), (["a.factors", "--to", none, "--times"], other),
                        (["a.factors", "--to", none, "--to", none], b"given twice"),
                        (["a.factors", "b.factors", "--to"], b"needs the name of a folder"),
                        (["--to", none], b"it takes FILE.."), (["a.factors", "a.factors", "--to", none], both),
                        (["a.factors", "b.factors", "below/a.x", "--to", none], both), (["a.factors", "a.map", "--to", none], both),
                        (["c.d.x", "c.d.factors", "--to", none], both), (["a.map", "--to", folder], read),
                        (["b.factors", "a.map", "--to", folder], read), (["a.map", "b.factors", "--to", path("below/..")], read),
                        (["-", "--to", none], no_name), (["a.factors", "-", "--to", none], no_name), (["..", "--to", none], no_name),
                        (["/", "--to", none], no_name)):
        files = [path(word) if word.endswith((".factors", ".map", ".x")) else word for word in words]
        tool.fails("map %s" % words, ("map", *files), part, given=sound)
        tool.fails("map %s" % words, ("map", *files), b"--help", given=sound)
        tool.expect("map %s writes nothing" % words, (os.path.exists(none), contents_in(folder)), (False, before))
    linked(tool, path, sound)


def linked(tool, path, sound):
    """Targets that are the same, or an input, by links."""
    os.mkdir(path("links"))
    os.symlink("b.map", path("links/a.map"))
    words = ("map", path("a.factors"), path("b.factors"), "--to", path("links"))
    tool.fails("two targets by a link to nothing", words, b"would both be written to")
    tool.file(path("links/b.map"), b"old")
    tool.fails("two targets by a link", words, b"would both be written to")
    tool.expect("the target by a link", open(path("links/b.map"), "rb").read(), b"old")
    for link in (os.symlink, os.link):
        os.remove(path("links/a.map"))
        link(path("b.factors"), path("links/a.map"))
        for files in (("a.factors", "b.factors"), ("b.factors", "a.factors")):
            tool.fails("a target that is read", ("map", *map(path, files), "--to", path("links")), b"is a file to read and the file to write")
        tool.expect("the file that is read", open(path("b.factors"), "rb").read(), sound)


def contents_in(folder):
    return {name: open(os.path.join(folder, name), "rb").read() for name in os.listdir(folder) if not os.path.isdir(os.path.join(folder, name))}


# ---- the log

def log_line(case, date):
    """The line of a file; none of one that cannot be read."""
    known, said = case.known, b"group=- lengths=- modulus=- records=- map_power=- factor_power=-"
    if case.unread:
        return b""
    if known:
        powers = tuple(map(str, case.powers())) if case.F else ("-", "-")
        lengths = ",".join(map(str, known.n))
        said = "group=%d lengths=%s modulus=%s %s=%d map_power=%s factor_power=%s" % (
            known.g, lengths, known.modulus or "-", known.counted, known.count, *powers)
        said = said.encode()
    result = b"refused,%d,%d" % case.refusal if case.refusal else b"accepted"
    digest = hashlib.sha256(case.contents).hexdigest().encode()
    return b"%s format=2 sha256=%s %s result=%s file=%s\n" % (date.encode(), digest, said, result, escaped(case.path))


def environment(seconds):
    others = {name: value for name, value in os.environ.items() if name != "SOURCE_DATE_EPOCH"}
    return others if seconds is None else {**others, "SOURCE_DATE_EPOCH": str(seconds)}


def date_of(seconds):
    return (datetime.datetime(1970, 1, 1) + datetime.timedelta(seconds=seconds)).strftime("%Y-%m-%dT%H:%M:%SZ")


def log(tool, found):
    rng = random.Random(SEED)
    for part in [found, *some(rng, found), *[[case] for case in rng.sample(found, 20)]]:
        seconds = rng.randrange(2 ** 32)
        status, out, err = tool.run("log", *[case.path for case in part], env=environment(seconds))
        want = [log_line(case, date_of(seconds)) for case in part]
        for got, expected in zip(out.splitlines(True), filter(None, want)):
            tool.expect("a line of the log", got, expected)
        tool.expect("the log", out, b"".join(want))
        unread = [case for case in part if case.unread]
        tool.expect("the log's standard error", (err.count(b"recorder: cannot read "), bool(err)), (len(unread), bool(unread)))
        ends = ["unread" if case.unread else "refused" if case.refusal else "accepted" for case in part]
        tool.expect("the log's status", status, status_of(ends))
    wrong_logs(tool, found)
    dates(tool, next(case for case in found if case.M and case.F))
    together(tool, [case for case in found if not case.unread])


def wrong_logs(tool, found):
    """What is not a regular file, and a log that is read."""
    sound = next(case for case in found if case.M and case.F)
    path = tool.file("kept", sound.contents)
    for words in (("log",), ("log", "-"), ("log", path, "-"), ("log", path, "-o", tool.path("none")), ("log", path, "--json")):
        tool.fails("log %s" % (words,), words, b"--help", given=sound.contents)
    os.mkfifo(tool.path("pipe"))
    for name in (tool.path("pipe"), tool.folder, "/dev/null"):
        status, out, err = tool.run("log", name, path, env=environment(0))
        tool.expect("a log of %s" % name, (status, out.count(b"\n"), b"it is not a regular file; name a file" in err), (2, 1, True))
    with open(path, "ab") as out:
        tool.fails("the log that is read", ("log", sound.path, path), b"is the file to read and the file to write by standard output", stdout=out)
    tool.expect("the file that is read", open(path, "rb").read(), sound.contents)
    for value in ("", "x", "-1", "+1", "1.5", " 1", "1 ", "0x10", "253402300800", str(2 ** 64)):
        tool.fails("a date of %r" % value, ("log", path), b"SOURCE_DATE_EPOCH", env=environment(value))


def dates(tool, case):
    """The ends of years and of Februaries, random moments, and the system's clock."""
    rng = random.Random(SEED)
    moments = [0, 1, 59, 60, 3599, 3600, 86399, 86400, 2 ** 31 - 1, 2 ** 31, 2 ** 32, 253402300799]
    for year in (1970, 1971, 1972, 1999, 2000, 2001, 2026, 2027, 2028, 2096, 2099, 2100, 2101, 2104, 2199, 2200, 2399, 2400, 2401, 9999):
        for month, day in ((1, 1), (2, 28), (3, 1), (12, 31)):
            midnight = calendar.timegm((year, month, day, 0, 0, 0))
            moments += [midnight - 1, midnight, midnight + 86399]
    moments += [rng.randrange(253402300800) for _ in range(60)]
    for seconds in sorted(set(moments) - {-1}):
        tool.expect("the date of %d" % seconds, tool.run("log", case.path, env=environment(seconds)), (0, log_line(case, date_of(seconds)), b""))
    before = int(time.time())
    status, out, _ = tool.run("log", case.path, env=environment(None))
    written = calendar.timegm(time.strptime(out[:20].decode(), "%Y-%m-%dT%H:%M:%SZ"))
    tool.expect("the system's date", (status, before <= written <= time.time()), (0, True))


def together(tool, found):
    """A line is one write, which a socket that keeps them apart shows; and four logs appended at once to one file have whole lines."""
    ours, theirs = socket.socketpair(socket.AF_UNIX, socket.SOCK_SEQPACKET)
    part = found[:20]
    with ours, theirs:
        tool.run("log", *[case.path for case in part], stdout=theirs, env=environment(7))
        theirs.close()
        writes = list(iter(lambda: ours.recv(65536), b""))
    tool.expect("a write for each line", writes, [log_line(case, date_of(7)) for case in part])
    words = [tool.program, "log", *[case.path for case in found]]
    with open(tool.path("LOG"), "ab") as out:
        runs = [subprocess.Popen(words, stdout=out, env=environment(7)) for _ in range(4)]
        tool.expect("four logs at once", [run.wait() for run in runs], [1] * 4)
    want = sorted(log_line(case, date_of(7)) for case in found) * 4
    tool.expect("their lines", sorted(open(tool.path("LOG"), "rb").read().splitlines(True)), sorted(want))


def test(tool):
    found = cases(tool)
    lines(tool, found)
    memory(tool)
    objects(tool, found)
    folders(tool, found)
    wrong_folders(tool, found)
    log(tool, found)


if __name__ == "__main__":
    tested(test)
