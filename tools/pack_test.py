#!/usr/bin/env python3
"""The test of texts of factor files: runs `recorder pack` and `recorder records` and compares what they write with files packed here.

    pack_test.py PROGRAM

Texts of all five groups and both primes with odd spacing, comments, commas and both ends of lines, header items in any order, names of groups in
every spelling, indices from -N to N - 1 and values from -(p - 1) to p - 1, lists given and chosen: each against file_bytes of brute_force.py.
Files printed by `records` in every form and packed again, byte for byte. Every refusal that a text can give, in its header and its records, of
numbers that fit their bytes and of numbers that do not, alone and together: its number and place against open_file of brute_force.py, its words by
the line where this test wrote what is at fault. Texts that are none, each with its line. A text of 100,000 records in a bounded time and memory, and
endless ones. The seed is fixed. Prints how many comparisons agreed; the exit status is 1 where one did not.
"""
import itertools
import os
import random
import re
import resource
import subprocess

from brute_force import PRIMES, all_points, factor_lists, file_bytes, images, needed, open_file, orbit_of, product, records_in, signed, volume_length
from printer_test import files
from tool import Tool, tested

SEED = 1998
SAMPLES_FOLDER = os.path.join(os.path.dirname(os.path.abspath(__file__)), "../samples")
GROUPS = ["P1", "P2_1", "Pm", "Pa", "P2_1 2_1 2_1"]
SPELLINGS = [["P1", "P 1"], ["P2_1", "P21", "P2\u2081", "P 21"], ["Pm", "P m"], ["Pa", "P,a"],
             ["P2_1 2_1 2_1", "P212121", "P21 21 21", "P2_12_12_1", "P2\u20812\u20812\u2081", "P2\u2081 2\u2081 2\u2081", "P 21\t21, 21"]]
LENGTHS = [n for n in range(2, 2881, 2) if 2880 % n == 0]
GRIDS = [(2, 2, 2), (4, 2, 6), (6, 8, 6), (2, 10, 4), (12, 4, 2), (4, 6, 10)]
REFUSALS = {3, 4, 5, 7, 8, 9, 10, 12, 24, 26}
# The item of the header that a refusal is of.
ITEM = {8: "group", 26: "modulus", 3: "lengths", 9: "lengths"}
BIG = 10 ** 30
MOST_LINE = 4096


class Packer(Tool):
    """The tool, with the refusals that were seen."""

    def __init__(self, program, folder):
        super().__init__(program, folder)
        self.seen = set()

    def pack(self, what, text, want):
        """A text that is packed to some bytes."""
        made = self.file("made", b"nothing")
        self.expect(what, self.run("pack", self.file("text", text), "-o", made), (0, made_line(made, want), b""))
        with open(made, "rb") as file:
            self.expect(what + ", its bytes", file.read(), want)

    def refused(self, what, text, refusal, place, found):
        """A text that is refused, with what is found in it; the file that was there stays."""
        self.seen.add(refusal)
        path, kept = self.file("text", text), self.file("kept", b"as it was")
        status, out, err = self.run("pack", path, "-o", kept)
        lines = err.decode().split("\n")
        self.expect(what, (status, out, lines[0], len(lines)), (1, b"", "recorder: %s: refused %d at %d" % (path, refusal, place), 5))
        self.expect(what + ", its words", lines[1:], [*explained(refusal, lines[1:]), ""])
        self.expect(what + ", what is found", [line for line in lines if line.startswith("found: ")], ["found: " + found])
        with open(kept, "rb") as file:
            self.expect(what + ", the old file", file.read(), b"as it was")

    def no_text(self, what, text, line, part):
        """A text that is none: status 2, with file, line and words; the file that was there stays."""
        path, kept = self.file("text", text), self.file("kept", b"as it was")
        status, out, err = self.run("pack", path, "-o", kept)
        start = "recorder: %s, line %d: " % (path, line)
        self.expect(what, (status, out, err.decode()[:len(start)], part in err.decode(), err.count(b"\n")), (2, b"", start, True, 1))
        with open(kept, "rb") as file:
            self.expect(what + ", the old file", file.read(), b"as it was")


def made_line(path, file):
    """What is said of the file that was made."""
    two = file[4] == 2
    at, lists = 13 if two else 12, []
    for _ in range(3):
        lists.append(",".join(map(str, file[at + 1:at + 1 + file[at]])) or "-")
        at += 1 + file[at]
    n = [int.from_bytes(file[c:c + 2], "big") for c in ((7, 9, 11) if two else (6, 8, 10))]
    said = (path, GROUPS[file[5]], *n, int.from_bytes(file[at:at + 4], "big"), file[6] if two else 1, " ".join(lists))
    return ("%s: factor file, %s, %d %d %d, %d records, modulus %d, lists %s\n" % said).encode()


def explained(refusal, lines):
    """The lines that explain a refusal, if they are those of `why`, `found` and `what to do`, and say why."""
    why = {3: "a length", 4: "a factor", 5: "the product", 7: "a number", 8: "the group", 9: "the volume", 10: "an index", 12: "an image",
           24: "an earlier record", 26: "the modulus"}[refusal]
    starts = ("why: " + why, "found: line ", "what to do: ")
    return [line if line.startswith(start) else start for line, start in zip(lines, starts)]


# ---- texts

def between(rng):
    return "".join(rng.choice(" \t,;") for _ in range(rng.choice((1, 1, 1, 2, 5))))


def word(rng, number):
    """A number as a word, sometimes with zeros before it, and any word sometimes in quotes."""
    shown = number
    if not isinstance(number, str):
        shown = ("-" if number < 0 else "") + rng.choice(("", "", "", "", "0", "000")) + str(abs(number))
    return '"%s"' % shown if rng.random() < 0.1 else shown


def written(rng, items, records):
    """A text of header items, as lists of words, and records, in odd forms: its bytes, the line of each item, the lines of the records."""
    lines, item_lines, record_lines = [], {}, []

    def add(words):
        line = (between(rng) if rng.random() < 0.1 else "") + between(rng).join(word(rng, part) for part in words)
        line += rng.choice(("", "", "", " ", "\t,", " # some, words", "# 1 2 3 4 5", "#group P1", ","))
        lines.append(line.encode())

    def idle():
        while rng.random() < 0.25:
            lines.append(rng.choice((b"", b" \t", b",,,", b"# a comment", b"#", b"  # \xff\xfe # h k l", "# P2\u2081".encode())))
        if rng.random() < 0.1:
            add(rng.choice((["h", "k", "l", "a", "b"], ["H", "K", "L", "A", "B"], ["h", "K", "l", "A", "b"])))

    for name in rng.sample(sorted(items), len(items)):
        idle()
        add(items[name])
        item_lines[name] = len(lines)
    for record in records:
        idle()
        add(record)
        record_lines.append(len(lines))
    idle()
    ends = rng.choice(((b"\n",), (b"\r\n",), (b"\n", b"\r\n")))
    text = b"".join(line + rng.choice(ends) for line in lines)
    if rng.random() < 0.3 and lines[-1]:
        text = text.rstrip(b"\r\n")
    return rng.choice((b"", b"", b"\xef\xbb\xbf")) + text, item_lines, record_lines


def items_of(rng, g, n, lists, modulus):
    """The items of a header, each with its words; of a list that is None there is none, nor always of modulus 1."""
    named = rng.choice(SPELLINGS[g] + ["%d %s" % (g, name) for name in SPELLINGS[g]] + ["0"] * (g == 0))
    items = {"group": ["group", *re.split("[ ,\t]+", named)], "lengths": ["lengths", *n]}
    if modulus != 1 or rng.random() < 0.5:
        items["modulus"] = ["modulus", modulus]
    for axis, fs in zip("hkl", lists):
        if fs is not None:
            items["list " + axis] = ["list", axis, *fs]
    return items


def said(words):
    return " ".join(map(str, words))


def index_held(i, n):
    """What stands in a file for an index of a text."""
    return next((j for j in range(n) if i in (j, j - n)), i if 0 <= i < 65536 else 65535)


def value_held(x, p):
    return x + p if -p < x < 0 else x if 0 <= x < 2 ** 32 else 2 ** 32 - 1


def held(record, n, p):
    return tuple(index_held(i, m) for i, m in zip(record, n)) + tuple(value_held(x, p) for x in record[3:])


def fitting(number, most):
    return number if 0 <= number <= most else most


def chosen(n):
    """The list that the tool chooses: of those with the fewest factors the one with 4 as soon as can be, then 5, then 3, then 2."""
    return min(factor_lists(n // 2), key=lambda fs: (len(fs), [(4, 5, 3, 2).index(f) for f in fs]))


def sound_records(rng, g, n, p, count):
    """Records of different orbits that are their own images, some of them zeros."""
    found, taken = [], set()
    for j in rng.sample(all_points(n), min(4 * count, len(all_points(n)))):
        a, b = rng.choice((0, 1, p // 2, p // 2 + 1, p - 1, rng.randrange(p))), rng.randrange(p)
        for v in rng.sample([(a, b), (a, 0), (0, a)], 3) + [(0, 0)]:
            orbit = images(g, n, j, v, p)
            if j not in taken and len(found) < count and all(i != j or w == v for i, w in orbit):
                found.append((*j, *v))
                taken.update(i for i, _ in orbit)
                break
    return found


def below(rng, record, n, p):
    """The same record, some of its numbers counted from their end."""
    indices = tuple(rng.choice((i, i - m)) for i, m in zip(record, n))
    return indices + tuple(rng.choice((x, x - p)) if x else x for x in record[3:])


# ---- what is accepted

def random_texts(tool):
    rng = random.Random(SEED)
    for turn, (g, m, n) in enumerate(itertools.product(range(5), (1, 2), GRIDS)):
        p = PRIMES[m]
        for given in (True, False, None):
            lists = [rng.choice(list(factor_lists(c // 2))) if given or given is None and rng.random() < 0.5 else None for c in n]
            records = sound_records(rng, g, n, p, rng.choice((0, 1, 7, 30)))
            text, _, _ = written(rng, items_of(rng, g, n, lists, m), [below(rng, record, n, p) for record in records])
            want = file_bytes(g, n, [chosen(c) if fs is None else fs for fs, c in zip(lists, n)], records, m)
            assert open_file(want, needed(want))[0] == 0
            tool.pack("group %d, modulus %d, %s, turn %d" % (g, m, n, turn), text, want)


def full_cells(tool):
    """A record for every orbit, zeros where no other value can stand: as many as any file of its header has."""
    rng = random.Random(SEED)
    for g, m, n in itertools.product(range(5), (1, 2), GRIDS):
        records = sound_records(rng, g, n, PRIMES[m], len(all_points(n)))
        assert {i for record in records for i in orbit_of(g, n, record[:3])} == set(all_points(n))
        text, _, _ = written(rng, items_of(rng, g, n, [None] * 3, m), [below(rng, record, n, PRIMES[m]) for record in records])
        tool.pack("every orbit of group %d, %s" % (g, n), text, file_bytes(g, n, [chosen(c) for c in n], records, m))


def names(tool):
    for g, spellings in enumerate(SPELLINGS):
        for name in spellings + ["%d %s" % (g, name) for name in spellings] + ["0", "000"] * (g == 0):
            tool.pack("group " + name, ("group %s\nlengths 2 4 2\n" % name).encode(), file_bytes(g, (2, 4, 2), [[], [2], []], []))
    for g, ours, others in ((1, "P2_1", "P1"), (2, "Pm", "P-1"), (3, "Pa", "P2"), (4, "P2_1 2_1 2_1", "P2_1")):
        for number in (str(g), "00%d" % g):
            part = "group %s is %s in a factor file and %s in the International Tables; give the group's name" % (number, ours, others)
            tool.no_text("a bare number", ("\ngroup %s\nlengths 2 4 2\n" % number).encode(), 2, part)
        other = "group %d %s\nlengths 2 2 2\n" % (g, GROUPS[g - 1])
        tool.no_text("a number and another name", other.encode(), 1, "no group; a group is P1")


def packed_both(tool, text):
    """The answer, and what stands in the two files."""
    names = [tool.file("both" + ending, b"as it was") for ending in (".factors", ".second.factors")]
    answer = tool.run("pack", tool.file("text", text), "--both", "-o", tool.path("both"))
    return answer, names, [open(name, "rb").read() for name in names]


def both_primes(tool):
    """Whole numbers beyond a prime: a file for each, of the residues that Python has."""
    rng, most = random.Random(SEED), 13063485600
    for g, n in itertools.product(range(5), GRIDS):
        found, taken = [], set()
        for j in rng.sample(all_points(n), min(40, len(all_points(n)))):
            a, b = (rng.choice((most, -most, 86399, -302399, 0, rng.randint(-most, most), rng.randint(-9, 9))) for _ in range(2))
            for v in rng.sample([(a, b), (a, 0), (0, a)], 3) + [(0, 0)]:
                alike = [all(i != j or w == (v[0] % p, v[1] % p) for i, w in images(g, n, j, (v[0] % p, v[1] % p), p)) for p in PRIMES.values()]
                if j not in taken and all(alike):
                    found.append((*j, *v))
                    taken.update(i for i, _ in images(g, n, j, (0, 0)))
        items = {name: words for name, words in items_of(rng, g, n, [None] * 3, 1).items() if name != "modulus"}
        text = written(rng, items, found)[0]
        lists = [chosen(c) for c in n]
        want = [file_bytes(g, n, lists, [(*r[:3], r[3] % p, r[4] % p) for r in found], m) for m, p in PRIMES.items()]
        answer, names, files = packed_both(tool, text)
        tool.expect("both primes, group %d, %s" % (g, n), (answer, files), ((0, b"".join(map(made_line, names, want)), b""), want))
        again = tool.run("pack", tool.file("text", text), "--both", "--all", "-o", tool.path("both"))
        tool.expect("the same with --all", again, answer)
        tool.expect("they combine", tool.run("combine", *names, "-o", tool.path("combined"))[0], 0)
    head = b"group P1\nlengths 4 4 4\n"
    for text, status, part in ((b"0 0 0 5 86399\n", 1, b"refused 12 at 0\n"), (b"0 0 0 5 86399\n", 1, b"found: line 3: h 0, k 0, l 0, a 5, b 86399\n"),
                               (b"0 0 1 1 1\n0 0 3 86400 302400\n", 1, b"line 4: h 0, k 0, l 3, a 86400, b 302400; of one orbit with line 3: h 0, k 0, l 1, a 1, b 1\n"),
                               (b"0 0 0 %d 0\n" % (most + 1), 2, b"line 3: %d is beyond %d" % (most + 1, most)),
                               (b"0 0 0 %d 0\n" % -BIG, 2, b"is beyond"), (b"modulus 1\n0 0 0 1 0\n", 2, b"a modulus is given, in line 3"),
                               (b"4 0 0 1 0\n", 1, b"refused 10 at 0")):
        answer, _, files = packed_both(tool, head + text)
        tool.expect("refused for both: %r" % text, (answer[0], answer[1], part in answer[2], files), (status, b"", True, [b"as it was"] * 2))
    for what in ("--all", "--both"):
        words = ["pack", tool.file("text", head + b"0 0 0 5 86399\n"), "--both", "-o", tool.path("both")] + (["--all"] if what == "--all" else [])
        tool.expect("refused by the second prime", tool.run(*words)[:2], (1, b""))
    tool.fails("both to standard output", ["pack", "-", "--both", "-o", "-"], b"--both writes several files", given=head)
    own = tool.file("own.second.factors", head)
    tool.fails("over its own text", ["pack", own, "--both", "-o", tool.path("own")], b"is the file to read and the file to write")


def other_files(tool):
    """Files that are no texts are named."""
    for contents, part in ((b"\x1f\x8b\x08\0rest", b"is a file that is compressed, by gzip"), (b"PK\x03\x04rest", b"a spreadsheet; take the file out"),
                           ("group P1\n".encode("utf-16"), b"is a text in UTF-16; save it in UTF-8"), (b"\xfe\xff\0g\0r", b"UTF-16"),
                           ("group P1\n".encode("utf-16-le"), b"is a text in UTF-16; save it in UTF-8"), ("\r\ngroup".encode("utf-16-be"), b"UTF-16"),
                           (file_bytes(1, (2, 2, 2), [[]] * 3, [(0, 0, 0, 1, 0)]), b"is a factor file, and not a text of records; recorder records"), (b"RMAP\1\0\0\2", b"is a map file, "),
                           (b"RCMB\1\0\0\2", b"is a combined map file, "), (b"BZh91", b"by bzip2"), (b"\xfd7zXZ\0", b"by xz"), (b"\x28\xb5\x2f\xfd", b"by zstd"),
                           (b"\xd0\xcf\x11\xe0\xa1", b"a spreadsheet or another document of an office program"), (bytes([9, 0, 0, 0]) + bytes(204) + b"MAP ", b"a map for viewers")):
        tool.fails("no text: %r" % contents[:8], ["pack", tool.file("text", contents), "-o", tool.path("none")], part)
        tool.fails("no text, from standard input", ["pack", "-", "-o", tool.path("none")], part, given=contents)


def chosen_lists(tool):
    """Of every admitted length on every axis: the product, as few factors as any list has, 4 before all others."""
    for axis, n in itertools.product(range(3), LENGTHS):
        lengths = [2, 2, 2]
        lengths[axis] = n
        status, made, err = tool.run("pack", "-", "-o", "-", given=b"lengths %d %d %d\ngroup P1" % tuple(lengths))
        book = open_file(made, needed(made))[2]
        tool.expect("a text with no list for %d" % n, (status, err, book is None), (0, b"", False))
        if book:
            fs = book.lists[axis]
            tool.expect("the list for %d" % n, (product(fs), len(fs), 4 in fs[fs.count(4):]), (n // 2, min(map(len, factor_lists(n // 2))), False))
            tool.expect("the list for %d as the rule has it" % n, fs, chosen(n))


def ends(tool):
    """Every index from -N to N - 1 on every axis, and the values at both ends."""
    n, lists = (6, 8, 4), [[3], [4], [2]]
    for axis, m in enumerate(n):
        for i in range(-m, m):
            record = [0, 0, 0, 0, 0]
            record[axis] = i
            text = "group P1\nlengths 6 8 4\n%s\n" % said(record)
            tool.pack("index %d on axis %d" % (i, axis), text.encode(), file_bytes(0, n, lists, [tuple(c % k for c, k in zip(record, n)) + (0, 0)]))
    for m, p in PRIMES.items():
        for a, b in itertools.product((1 - p, 2 - p, -1, 0, 1, p // 2, p // 2 + 1, p - 1), repeat=2):
            text = "group P1\nmodulus %d\nlengths 6 8 4\n1 1 1 %d %d\n" % (m, a, b)
            tool.pack("value %d %d" % (a, b), text.encode(), file_bytes(0, n, lists, [(1, 1, 1, a % p, b % p)], m))
    tool.pack("a zero with a minus sign", b"group 0\nlengths 6 8 4\n-0 -0 -00 -0 0\n", file_bytes(0, n, lists, [(0, 0, 0, 0, 0)]))
    line = b"0 0 0 7 0 #".ljust(MOST_LINE - 1, b"x") + b"\n"
    tool.pack("the longest line", b"group 0\nlengths 6 8 4\n" + line, file_bytes(0, n, lists, [(0, 0, 0, 7, 0)]))


# ---- records as text, and back

def printed(file, book, table, signs, header):
    """What `records` prints of a file."""
    between_words = "," if table else " "
    lines = []
    if header:
        lines.append(["group", GROUPS[book.g]])
        lines.append(["lengths", *book.n])
        lines.append(["modulus", book.modulus])
        lines += [["list", axis, *fs] for axis, fs in zip("hkl", book.lists)]
    if table:
        lines.append("hklab")
    for h, k, l, a, b in records_in(file):
        lines.append([h, k, l, signed(a, book.p) if signs else a, signed(b, book.p) if signs else b])
    return "".join(between_words.join(map(str, line)) + "\n" for line in lines).encode()


def round_trip(tool, file):
    book = open_file(file, needed(file))[2]
    path, what = tool.file("some.factors", file), "group %d, modulus %d, %s" % (book.g, book.modulus, book.n)
    as_packed = file_bytes(book.g, book.n, book.lists, records_in(file), book.modulus)
    for table, signs, header in itertools.product((False, True), repeat=3):
        words = ["--csv"] * table + ["--signed"] * signs + ["--header"] * header
        text = printed(file, book, table, signs, header)
        tool.expect("%s: records %s" % (what, said(words)), tool.run("records", path, *words), (0, text, b""))
        if header:
            tool.expect("%s: there and back %s" % (what, said(words)), tool.run("pack", "-", "-o", "-", given=text), (0, as_packed, b""))
    return as_packed == file


def round_trips(tool):
    rng = random.Random(SEED)
    kept = 0
    accepted = [file for file in files() if needed(file) <= 4096 and open_file(file, needed(file))[0] == 0]
    tool.expect("files of version 2 with modulus 1", sum(file[4:7:2] == b"\2\1" for file in accepted) > 0, True)
    for file in accepted:
        kept += round_trip(tool, file)
    tool.expect("files that are the same after both ways", kept, sum(file[4:7:2] != b"\2\1" for file in accepted))
    for g, m in itertools.product(range(5), (1, 2)):
        n = rng.choice(GRIDS)
        lists = [rng.choice(list(factor_lists(c // 2))) for c in n]
        tool.expect("the same file", round_trip(tool, file_bytes(g, n, lists, sound_records(rng, g, n, PRIMES[m], 40), m)), True)
    text = tool.run("records", os.path.join(SAMPLES_FOLDER, "p212121.factors"), "--header", "--csv", "--signed")[1]
    made = tool.run("pack", "-", "-o", "-", given=text)[1]
    tool.expect("p212121 there and back", made, open(os.path.join(SAMPLES_FOLDER, "p212121.factors"), "rb").read())


def sample(tool):
    """The sample text stands for the sample's file, byte for byte, and its records are those of the file."""
    path = os.path.join(SAMPLES_FOLDER, "p21.factors")
    with open(path, "rb") as file:
        want = file.read()
    tool.expect("the sample text", tool.run("pack", path + ".txt", "-o", "-"), (0, want, b""))
    with open(path + ".txt", "rb") as file:
        tool.pack("the sample text with other ends of lines", file.read().replace(b"\n", b"\r\n"), want)


# ---- what is refused

def header_file(g, modulus, n, lists, records=()):
    """The file of a header whose numbers may not fit it, each as the greatest that fits."""
    n = tuple(fitting(c, 65535) for c in n)
    lists = [(chosen(c) if c in LENGTHS else []) if fs is None else [fitting(f, 255) for f in fs] for fs, c in zip(lists, n)]
    return file_bytes(fitting(g, 255), n, lists, records, fitting(modulus, 255), 1 if modulus == 1 else 2)


def at_fault(refusal, n, lists):
    """The item of the header that is refused."""
    if refusal not in (4, 5):
        return ITEM[refusal]
    wrong = [fs is not None and (not all(2 <= f <= 5 for f in fs) if refusal == 4 else product(fs) != c // 2) for fs, c in zip(lists, n)]
    return "list " + "hkl"[wrong.index(True)]


def nearest_lengths(c):
    """The admitted lengths next to one that is not."""
    next_to = [max([m for m in LENGTHS if m < c], default=None), min([m for m in LENGTHS if m > c], default=None)]
    return " (nearest admitted: %s)" % ", ".join(str(m) for m in next_to if m is not None)


def refused_header(tool, rng, what, g, modulus, n, lists, records=((0, 0, 0, 1, 0),)):
    refusal = open_file(header_file(g, modulus, n, lists), 0)[0]
    if refusal == 6:
        return False
    items = items_of(rng, 0, n, lists, modulus)
    items["group"] = ["group", *SPELLINGS[g][0].split()] if g in range(5) else ["group", g]
    text, lines, _ = written(rng, items, rng.choice(((), records)))
    name = at_fault(refusal, n, lists)
    # The words as they stand there, which may have zeros before them.
    stand = re.split(rb"[ \t,;]+", re.sub(rb"#.*|\r|\"", b"", text.removeprefix(b"\xef\xbb\xbf").split(b"\n")[lines[name] - 1]).strip(b" \t,;"))
    assert [int(c) for c in stand if c.lstrip(b"-").isdigit()] == [c for c in items[name] if isinstance(c, int)]
    found = "line %d: %s" % (lines[name], b" ".join(stand).decode())
    if refusal == 3:
        found += "; " + ", ".join("N%d%s" % (axis, nearest_lengths(c)) for axis, c in enumerate(n, 1) if c not in LENGTHS)
    tool.refused(what, text, refusal, 0, found + (": %d numbers" % volume_length(g, n) if refusal == 9 else ""))
    return True


def refused_headers(tool):
    rng = random.Random(SEED)
    groups = [5, 9, 255, 256, 257, 65536, BIG, -1, -5, -256, -BIG]
    moduli = [0, 3, 7, 255, 256, 257, 258, BIG, -1, -255, -BIG]
    lengths = [0, 1, 3, 7, 14, 2881, 2882, 5760, 65534, 65535, 65536, 65538, 65542, BIG, -1, -2, -6, -65534, -BIG]
    factors = [0, 1, 6, 7, 255, 256, 258, 259, 65538, BIG, -1, -2, -254, -BIG]
    sound, none = (6, 8, 4), [None] * 3
    for g in groups:
        tool.expect("refused", refused_header(tool, rng, "group %d" % g, g, 1, sound, none), True)
    for m in moduli:
        tool.expect("refused", refused_header(tool, rng, "modulus %d" % m, 1, m, sound, none), True)
    for axis, c in itertools.product(range(3), lengths):
        n = tuple(c if at == axis else 6 for at in range(3))
        tool.expect("refused", refused_header(tool, rng, "lengths %s" % (n,), 2, 2, n, none), True)
    for axis, f in itertools.product(range(3), factors):
        for fs in ([f], [2, f], [f] * 3, [2] * 200 + [f]):
            lists = [fs if at == axis else None for at in range(3)]
            tool.expect("refused", refused_header(tool, rng, "lists %s" % (lists,), 3, 1, (4, 4, 4), lists), True)
    for axis, fs in itertools.product(range(3), ([], [3], [2, 2, 2], [4, 2], [5], [2] * 255, [5] * 255)):
        lists = [fs if at == axis else rng.choice((None, [2, 2], [4])) for at in range(3)]
        tool.expect("refused", refused_header(tool, rng, "lists %s" % (lists,), 4, 1, (8, 8, 8), lists), True)
    tool.expect("refused", refused_header(tool, rng, "a list for 2", 4, 1, (2, 2, 2), [None, [2], None]), True)
    for g, n in ((0, (288,) * 3), (1, (360,) * 3), (4, (2880, 2880, 6)), (2, (2880,) * 3)):
        tool.expect("refused", refused_header(tool, rng, "a volume of %s" % (n,), g, 1, n, none), True)
    count = 0
    for turn in range(400):
        n = tuple(rng.choice(lengths + [4] * 60) for _ in range(3))
        lists = [rng.choice((None, None, [2], [3], [2, 2], [rng.choice(factors)], [rng.choice(factors), 2])) for _ in n]
        count += refused_header(tool, rng, "header %d" % turn, rng.choice(groups + [0, 1, 2, 3, 4] * 8), rng.choice(moduli + [1, 2] * 20), n, lists)
    tool.expect("refused headers", count > 300, True)


def found_in(records, lines, n, p, place, other=None):
    """What is found of a refused record: the numbers of the file, or the words of the text where one does not fit."""
    one = held(records[place], n, p)
    fits = [c in (i, i - m) for c, i, m in zip(records[place], one, n)] + [c in (x, x - p) for c, x in zip(records[place][3:], one[3:])]
    numbers = one if all(fits) else records[place]
    text = "line %d: h %d, k %d, l %d, a %d, b %d" % (lines[place], *numbers)
    return text if other is None else text + "; of one orbit with " + found_in(records, lines, n, p, other)


def refused_text(tool, rng, what, g, m, n, records):
    """A text with a sound header; whether it is refused."""
    p = PRIMES[m]
    in_file = [held(record, n, p) for record in records]
    file = file_bytes(g, n, [chosen(c) for c in n], in_file, m)
    refusal, place, book = open_file(file, needed(file))
    text, _, lines = written(rng, items_of(rng, g, n, [None] * 3, m), records)
    if book:
        tool.pack(what, text, file)
        return False
    other = None
    if refusal == 24:
        orbit = orbit_of(g, n, in_file[place][:3])
        other = next(at for at, record in enumerate(in_file) if record[:3] in orbit)
    found = found_in(records, lines, n, p, place, other)
    if refusal == 10:
        # An index that fits is shown as it stands in the file, where none does as it stands in the text.
        shown = [int(c) for c in re.findall(r"[hkl] (-?\d+)", found)]
        found += "; " + "; ".join("%s is %d, but N%d is %d" % ("hkl"[axis], c, axis + 1, m) for axis, (c, m) in enumerate(zip(shown, n)) if not -m <= c < m)
    tool.refused(what, plain_zeros(text, lines), refusal, place, found)
    return True


def plain_zeros(text, lines):
    """The same text, the numbers of its records without zeros before them: where one does not fit, the refusal has it as it stands."""
    parts = text.split(b"\n")
    for line in lines:
        said_part, mark, comment = parts[line - 1].partition(b"#")
        parts[line - 1] = re.sub(rb"(?<![0-9])0+(?=[0-9])", b"", said_part) + mark + comment
    return b"\n".join(parts)


def refused_records(tool):
    rng = random.Random(SEED)
    n = (6, 8, 4)
    for m, p in PRIMES.items():
        for g in range(5):
            zeros = [(1, 0, 0, 0, 0), (0, 1, 0, 0, 0)]
            for axis, c in enumerate(n):
                for i in (c, c + 1, 65535, 65536, 65537, 65536 + c, 2 ** 32, 2 ** 64 + 1, BIG, -c - 1, -c - 2, -65535, -65536, -2 ** 64, -BIG):
                    record = tuple(i if at == axis else 1 for at in range(3)) + (0, 0)
                    tool.expect("refused", refused_text(tool, rng, "index %d on axis %d" % (i, axis), g, m, n, zeros + [record] + zeros), True)
            for x in (p, p + 1, 2 ** 31, 2 ** 32 - 1, 2 ** 32, 2 ** 32 + 1, 2 ** 64 + 1, BIG, -p, -p - 1, -2 ** 31, 1 - 2 ** 32, -2 ** 64, -BIG):
                for v in ((x, 0), (0, x), (x, BIG)):
                    tool.expect("refused", refused_text(tool, rng, "value %s" % (v,), g, m, n, zeros[:1] + [(1, 1, 1, *v)]), True)
            tool.expect("refused", refused_text(tool, rng, "a number of each kind", g, m, n, [(6, 0, 0, p, 0), (BIG, 0, 0, BIG, 0)]), True)
    tool.expect("refused", refused_text(tool, rng, "12 in P2_1", 1, 1, n, [(0, 0, 0, 1, 0), (0, 0, -3, 5, 7)]), True)
    tool.expect("refused", refused_text(tool, rng, "12 in Pa", 3, 2, n, [(0, 0, 0, 1, 0), (-5, 0, 0, 5, 0)]), True)
    for g in range(5):
        tool.expect("refused", refused_text(tool, rng, "12 at the origin", g, 2, n, [(0, 0, 0, 1, -1)]), True)


def two_of_an_orbit(tool):
    """Every image of a record behind it, zeros among them."""
    rng = random.Random(SEED)
    n = (6, 8, 4)
    for g, m in itertools.product(range(5), (1, 2)):
        p = PRIMES[m]
        for _ in range(3):
            records = sound_records(rng, g, n, p, 9)
            for i, w in images(g, n, records[4][:3], records[4][3:], p):
                more = records + [(*i, *rng.choice((w, (0, 0))))]
                tool.expect("refused", refused_text(tool, rng, "two of an orbit", g, m, n, [below(rng, record, n, p) for record in more]), True)


def random_faults(tool):
    rng = random.Random(SEED)
    count = 0
    for turn in range(400):
        g, m, n = rng.randrange(5), rng.choice((1, 2)), rng.choice(GRIDS)
        p = PRIMES[m]
        records = [below(rng, record, n, p) for record in sound_records(rng, g, n, p, 12)]
        for _ in range(rng.randrange(3)):
            record = list(rng.choice(records))
            at = rng.randrange(5)
            record[at] = rng.choice((0, 1, -1, 2 - p, p - 1, p, -p, n[0], -n[0], -n[1], -n[2], -n[2] - 1, 65536, 2 ** 32, 2 ** 32 + 1, BIG, -BIG))
            records.insert(rng.randrange(len(records) + 1), tuple(record))
        count += refused_text(tool, rng, "records %d" % turn, g, m, n, records)
    tool.expect("refused records", 150 < count < 390, True)


# ---- what is no text

HEAD = b"group P1\nlengths 6 8 4\n"
# Texts without a header: the text, the line that is named and a part of the words.
NO_HEADER = [(b"", 1, "no line group"), (b"\n\n# nothing\n", 3, "no line group"), (b"group P1\n", 1, "no line lengths"),
             (b"lengths 2 2 2", 1, "no line group"), (b"modulus 2\nlist h\n", 2, "no line group"),
             (b"group P1\n\n0 0 0 1 0\nlengths 2 2 2\n", 3, "no line lengths"), (b"lengths 2 2 2\nh k l a b\n0 0 0 1 0\n", 3, "no line group")]
# Records that are none.
COUNTS = [b"0", b"0 0 0 1", b"0,0,0,,1", b"0 0 0 1 #0", b"0 0 0 1 0 0", b"0 0 0 1 0 h", b"0 0 0 1 0 group P1", b"0 0 0 1 0;0", b"0;0;0;1"]
NO_NUMBERS = ["x", "1.5", "1e3", "+1", "-", "--1", "1-", "0x1", "1_0", "1'0", "\"1", "1\"", "\"1,000\"", "\"\"", "P1", "group",
              "\u0661", "\u22121", "1\u00a0", "\ufeff1", "1\f", "1\v1"]
COLUMNS = [b"h k l a", b"h k l a b c", b"h l k a b", b"k l a b", b"h"]
# Header items that are none: the line and a part of the words.
GROUP_LINES = [b"group", b"group P3", b"group p1", b"group 1 2", b"group P-1", b"group P_1", b"group P2", b"group P2_1 2_1", b"group 1.0",
               b"group P1 P1", b"group P 1 21 1", b"group P222", b"group \xff"]
ITEM_LINES = [(b"grup P1", '"grup"'), (b"Group P1", '"Group"'), (b"cell 2 2 2", '"cell"'), (b"lists h 2", '"lists"'),
              (b"lengths", "three numbers"), (b"lengths 2 2", "three numbers"), (b"lengths 2 2 2 2", "three numbers"), (b"lengths 2 2 x", '"x"'),
              (b"lengths 2.0 2 2", '"2.0"'), (b"modulus", "one number"), (b"modulus 1 2", "one number"), (b"modulus 86,399", "one number"),
              (b"modulus one", '"one"'), (b"list", "h, k or l"), (b"list x 2", "h, k or l"), (b"list 2 2", "h, k or l"), (b"list H 2", "h, k or l"),
              (b"list h 2 a", '"a"'), (b"list h -", '"-"'), (b"list h 2*3", '"2*3"'), (b"list l " + b"2 " * 256, "at most 255")]
ITEMS = [b"group Pa", b"lengths 2 2 2", b"modulus 1", b"list h", b"list k 2", b"list l 2"]


def wrong_texts(tool):
    for text, line, part in NO_HEADER:
        tool.no_text("%r" % text, text, line, part)
    for record in COUNTS:
        tool.no_text("%r" % record, HEAD + record + b"\n", 3, "five numbers")
        tool.no_text("%r behind records" % record, HEAD + b"0 0 0 1 0\r\n\n# some\n0 0 1 1 0\n" + record, 7, "five numbers")
    for at, number in itertools.product(range(5), NO_NUMBERS):
        words = ["0"] * 5
        words[at] = number
        if words[0] != "group":
            tool.no_text("%s" % words, HEAD + said(words).encode() + b"\n", 3, "is not a whole number")
    for words in COLUMNS:
        tool.no_text("columns %r" % words, HEAD + words + b"\n0 0 0 1 0\n", 3, '"%s" is not a whole number' % words.decode()[0])
    tool.no_text("a carriage return in a line", HEAD + b"0 0 0 1\r0\n", 3, '"1\\r0"')
    tool.no_text("a byte 0", HEAD + b"0 0 0 1 0\0\n", 3, '"0\\0"')
    tool.no_text("a byte of no letter", HEAD + b"0 0 0 1 \xff\n", 3, "is not a whole number")
    tool.no_text("a long word", HEAD + b"0 0 0 1 " + b"9" * 4000 + b"x\n", 3, '"%s" is not' % ("9" * 64))
    for line in GROUP_LINES:
        tool.no_text("%r" % line, b"\n" + line + b"\n", 2, "no group; a group is P1, P2_1")
    for line, part in ITEM_LINES:
        tool.no_text("%.60r" % line, b"group P1\n" + line + b"\n", 2, part)
    for item in ITEMS:
        name = " ".join(item.decode().split()[:2 if item.startswith(b"list") else 1])
        tool.no_text(name + " twice", b"#\n" + item + b"\n\n" + item + b"\n", 4, name + " is given twice, first in line 2")
        text = HEAD + b"\n0 0 0 1 0\n0 0 1 1 0\n" + item
        tool.no_text(name + " behind a record", text, 6, name.split()[0] + " stands behind the first record, in line 4")
    tool.no_text("a group twice, in two spellings", b"group P1\ngroup 0\n", 2, "twice, first in line 1")
    for line in (b"0 0 0 1 0".ljust(MOST_LINE) + b"\n", b"#" * 5000 + b"\n", b"1" * 5000, b"#" + b"x" * MOST_LINE):
        tool.no_text("a line too long", HEAD + line, 3, "more than 4096 bytes")


def which_first(tool):
    """A header is judged where the records begin; a text is read to its end before its records are judged."""
    tool.refused("a refused header before a wrong line", b"group 9\nlengths 2 2 2\n0 0 0 1 0\nsome words\n", 8, 0, "line 1: group 9")
    tool.no_text("a wrong line before the records of a refused header", b"group 9\nlengths 2 2 2\nsome words\n0 0 0 1 0\n", 3, '"some"')
    tool.no_text("a wrong line behind a refused record", HEAD + b"6 0 0 1 0\nsome words\n", 4, '"some"')


# ---- long texts, files and streams

def large_text(rng, n, count):
    """Records of P1 at indices of which no two are of one orbit: h is above 0 and below N1/2."""
    some = rng.sample(range((n[0] // 2 - 1) * n[1] * n[2]), count)
    places = [(1 + at // (n[1] * n[2]), at // n[2] % n[1], at % n[2]) for at in some]
    return [(*j, rng.randrange(PRIMES[1]), rng.randrange(PRIMES[1])) for j in places]


def seconds():
    spent = resource.getrusage(resource.RUSAGE_CHILDREN)
    return spent.ru_utime + spent.ru_stime


def large_texts(tool):
    rng = random.Random(SEED)
    n, lists = (96, 96, 96), [[4, 4, 3]] * 3
    records = large_text(rng, n, 100000)
    head = b"group P1\nlengths 96 96 96\n"
    numbers = b"".join(b"%d %d %d %d %d\n" % record for record in records)
    # The volume, the file with room for as many bytes again, and 24 megabytes beside them.
    room = 4 * volume_length(0, n) + 2 * 14 * len(records) + 24 * 2 ** 20
    limit = {"preexec_fn": lambda: resource.setrlimit(resource.RLIMIT_AS, (room, room))}
    path, made = tool.file("large.txt", head + numbers), tool.file("large.factors", b"nothing")
    before = seconds()
    line = made_line(made, file_bytes(0, n, lists, [])).replace(b", 0 records", b", 100000 records")
    tool.expect("100,000 records", tool.run("pack", path, "-o", made, **limit), (0, line, b""))
    tool.expect("the file of 100,000 records", open(made, "rb").read() == file_bytes(0, n, lists, records), True)
    tool.expect("the text of 100,000 records", tool.run("records", made, "--header") ==
                (0, b"group P1\nlengths 96 96 96\nmodulus 1\n" + b"".join(b"list %c 4 4 3\n" % axis for axis in b"hkl") + numbers, b""), True)
    tool.expect("seconds of work for 100,000 records, there and back", seconds() - before < 2, True)
    apart = head + numbers.replace(b"\n", b"\n\n")
    again = b"%d %d %d 5 5\n" % tuple(-c for c in records[77777][:3])
    line = "line %d: h %d, k %d, l %d, a %d, b %d"
    image = tuple(-c % m for c, m in zip(records[77777], n))
    found = line % (200003, *image, 5, 5) + "; of one orbit with " + line % (3 + 2 * 77777, *records[77777])
    tool.refused("two of an orbit far apart", apart + again, 24, 100000, found)
    found = line % (100003, *image, 5, 5) + "; of one orbit with " + line % (3 + 77777, *records[77777])
    tool.refused("two of an orbit in lines that follow one another", head + numbers + again, 24, 100000, found)
    small = {"preexec_fn": lambda: resource.setrlimit(resource.RLIMIT_AS, (2 ** 23,) * 2)}
    tool.fails("no memory", ("pack", path, "-o", tool.path("none")), b"no memory", **small)


def endless(tool):
    none, head = tool.path("none"), HEAD
    long_line, refused = b"line 3: it has more than", b"refused %d at %d\n"
    for part, first, status, words in (
            (b"0 0 0 1 0\n", head, 1, refused % (24, 1)), (b"9 0 0 1 0\n", head, 1, refused % (10, 0)),
            (b"0 0 0 1 0\n", b"group 7\nlengths 2 2 2\n", 1, refused % (8, 0)), (b"0 0 0\n", head, 2, b"line 3: 3 words"),
            (b"1", head, 2, long_line), (b"#", head, 2, long_line), (b" ", head, 2, long_line), (b"\0", head, 2, long_line),
            (b"modulus 1\n", head, 2, b"line 4: modulus is given twice")):
        got, out, err = tool.run_endless(part, "pack", "-", "-o", none, first=first)
        tool.expect("an endless text of %r" % part, (got, out, words in err, os.path.exists(none)), (status, b"", True, False))


def files_and_streams(tool):
    text, want = HEAD + b"1 2 3 4 5\n", file_bytes(0, (6, 8, 4), [[3], [4], [2]], [(1, 2, 3, 4, 5)])
    path = tool.file("some.txt", text)
    tool.expect("standard input and output", tool.run("pack", "-", "-o", "-", given=text), (0, want, b""))
    status, _, err = tool.run("pack", "-", "-o", "-", given=text + b"1 2 3 4 5\n")
    tool.expect("a refusal of standard input", (status, err.split(b"\n")[0]), (1, b"recorder: standard input: refused 24 at 1"))
    tool.fails("a wrong line of standard input", ("pack", "-", "-o", "-"), b"recorder: standard input, line 1: ", given=b"some")
    tool.fails("the text as the file", ("pack", path, "-o", path), b"is the file to read and the file to write")
    os.symlink(path, tool.path("link"))
    tool.fails("the text as the file by another name", ("pack", tool.path("link"), "-o", path), b"is the file to read and the file to write")
    tool.expect("the text after both", open(path, "rb").read(), text)
    tool.fails("a missing text", ("pack", tool.path("missing"), "-o", tool.path("none")), b"check its name and folder")
    tool.fails("a folder", ("pack", tool.folder, "-o", tool.path("none")), b"name a file in it")
    tool.fails("a full disk", ("pack", path, "-o", "/dev/full"), b"make room")
    for words in (("pack",), ("pack", path), ("pack", "-o", "x"), ("pack", path, path, "-o", "x"), ("pack", path, "-o"),
                  ("pack", path, "-o", "x", "--csv"), ("records",), ("records", path, "--csv", "--csv"), ("records", path, "--table"),
                  ("records", path, "--csv=1"), ("records", path, path)):
        tool.fails("usage %s" % (words,), words, b"--help")
    tool.expect("files that were not written", (os.path.exists(tool.path("none")), os.path.exists("x")), (False, False))


def help_texts(tool):
    """The example of the help does what the help says."""
    for name in ("pack", "records"):
        status, out, err = tool.run(name, "--help")
        tool.expect("help of " + name, (status, out.startswith(b"recorder " + name.encode() + b" "), err), (0, True, b""))
    example = re.search(r"Example:\n  (printf .*) \|\n +recorder pack - -o some.factors", tool.run("pack", "--help")[1].decode()).group(1)
    text = subprocess.run(["sh", "-c", example], stdout=subprocess.PIPE, check=True).stdout
    tool.pack("the help's example", text, file_bytes(0, (4, 4, 4), [[2], [2], [2]], [(0, 0, 0, 84, 0), (1, 0, 3, 5, PRIMES[1] - 7)]))


def test(tool):
    sample(tool)
    names(tool)
    both_primes(tool)
    other_files(tool)
    random_texts(tool)
    full_cells(tool)
    chosen_lists(tool)
    ends(tool)
    round_trips(tool)
    refused_headers(tool)
    refused_records(tool)
    two_of_an_orbit(tool)
    random_faults(tool)
    wrong_texts(tool)
    which_first(tool)
    large_texts(tool)
    endless(tool)
    files_and_streams(tool)
    help_texts(tool)
    tool.expect("the refusals seen", tool.seen, REFUSALS)


if __name__ == "__main__":
    tested(test, Packer)
