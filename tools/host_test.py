#!/usr/bin/env python3
"""The test of the command line tool: runs it on files of all five groups and both primes and compares all that it prints and writes with brute force.

    host_test.py PROGRAM

Small grids: the printer test's files, files of no records among them, their maps as text and as map files, the factor files written from those,
the files shuffled and rewritten, their records, readings of points and factors, all against the book of brute_force.py. The power of map and
factors against sums over the whole cell. Maps combined from a file for each prime, and combined map files, against the number that all candidates
are searched for; their planes as pages against section_cases.py, and as pictures, pixel by pixel; written for viewers, against mrc_cases.py;
overlays of two of them and the best shift, against direct sums. The records at fault of small files, against all lists of their records
(faults_cases.py). Every refusal that a file, a map file, a combined map file, a unit cell, an overlay or a line can give. Runs of scores, their
windows against window_cases.py. Files that are damaged, empty, missing, endless or not to be written, or are the input itself; pipes that are
closed; no memory; signals at random moments of writing. P1 and P2_1 2_1 2_1 at 240^3 and P2_1 at 288^3 there and back, byte for byte, with some
densities summed directly; P2_1 2_1 2_1 combined with a file for the second prime; P1 at 120^3 overlaid and for viewers. The seed is fixed. Prints
how many comparisons agreed; the exit status is 1 where one did not.
"""
import filecmp
import os
import pty
import random
import re
import resource
import signal
import stat
import struct
import subprocess
import time

from brute_force import (LIMIT, P, PRIMES, ROOTS, Book, all_points, analysed, e, file_bytes, first_record, images, lengths_in, needed, number,
                         open_file, pack_map, planes, point_images, read_cell, records_in, signed, volume_length)
from expected_files import combined_bytes, map_bytes, map_head, map_text, records_text, shuffled, text_of, written
from faults_cases import fewest, judged
from faults_cases import files as faulty_files
from mrc_cases import bits, mrc_file
from pictures import picture, plane
from printer_test import files
from samples import combined, combined_text, second_file, section_text
from section_cases import page
from tool import Tool, tested
from window_cases import SCORES, windows

SEED = 1973
# Every refusal that the tool's input can give, readings outside the cell among them.
REFUSALS = {"factor file": {3, 4, 5, 7, 8, 9, 10, 12, 15, 16, 24, 26}, "map file": {3, 4, 5, 7, 8, 9, 10, 14, 15, 16, 26},
            "combined map file": {3, 8, 9, 10, 14, 15, 16, 28}, "two files": {7, 12, 14, 15, 26, 27}, "for viewers": {8, 14, 15, 28, 29, 30},
            "overlay": {3, 15, 16, 28}, "best": {9, 15, 28}, "line": {1, 2, 3, 4, 5, 6, 7, 26}, "scores": {34}}
COMMANDS = ["map", "factors", "rewrite", "records", "check", "faults", "info", "point", "factor", "power", "section", "picture", "stats",
            "combine", "mrc", "overlay", "best", "line", "drift", "compare", "log"]
# Those that work on one file: on a factor file or a map file, on a combined map file too, on one of its planes.
ON_FILES = COMMANDS[:13]
ON_COMBINED = ["map", "check", "info", "point", "section", "picture", "stats"]
ON_PLANES = ["section", "picture"]
# The greatest magnitude of a combined map's number.
GREATEST = (PRIMES[1] * PRIMES[2] - 1) // 2
# The greatest magnitude of a density for viewers.
EXACT = 2 ** 24 - 1
LARGE = [(0, 240, [4, 5, 3, 2]), (1, 288, [4, 4, 3, 3]), (4, 240, [2, 3, 4, 5])]
GROUPS = ["P1", "P2_1", "Pm", "Pa", "P2_1 2_1 2_1"]
SAMPLES = [("p21", 6), ("p21.second", 6), ("p212121", 37), ("empty", 0)]
SAMPLES_FOLDER = os.path.join(os.path.dirname(os.path.abspath(__file__)), "../samples")
RECORDS = 7000
SIGNALS = 50
FAULTY = 100


class Recorder(Tool):
    """The tool, with the refusals and the letters of pictures that were seen."""

    def __init__(self, program, folder):
        super().__init__(program, folder)
        self.seen = {kind: set() for kind in REFUSALS}
        self.glyphs = {}

    def refused(self, what, words, refusal, place=0, given=b"", of=None):
        """A command that must be refused: with its file, number and words on standard error, and nothing else. Of two files the first line names that
        which is at fault, or both."""
        status, out, err = self.run(*words, given=given)
        self.seen[kind_of(words)].add(refusal)
        self.expect(what, (status, out), (1, b"refused %d at %d\n" % (refusal, place) if words[0] == "map" and "-o" not in words else b""))
        self.expect(what + ", its words", re.sub(rb"(?m)^found: .*\n", b"", err).count(b"\n"), 3)
        of = of or (words[1] if words[0] in ON_FILES + ["mrc", "best"] else "")
        self.expect(what + ", its number", err.split(b"\n")[0], b"recorder: %srefused %d at %d" % ((of and of + ": ").encode(), refusal, place))


def kind_of(words):
    """What a command works on."""
    if words[0] not in ON_FILES:
        return {"combine": "two files", "mrc": "for viewers", "overlay": "overlay", "best": "best", "line": "line", "drift": "scores"}[words[0]]
    with open(words[1], "rb") as file:
        return {b"RMAP": "map file", b"RCMB": "combined map file"}.get(file.read(4), "factor file")


# ---- small grids

def samples(tool):
    """The repository's samples: the map of each is brute force's, and the text beside it."""
    for name, count in SAMPLES:
        path = os.path.join(SAMPLES_FOLDER, name + ".factors")
        contents = open(path, "rb").read()
        book = open_file(contents, needed(contents))[2]
        text = os.path.join(SAMPLES_FOLDER, name + ".map.txt")
        if os.path.exists(text):
            tool.expect(name + ": the sample's text", open(text, "rb").read(), map_text(book.g, book.n, book.densities()))
        tool.expect(name + ": the sample's form", contents, written(book))
        accepted_file(tool, random.Random(SEED), path, book, count)


def combined_sample(tool):
    """The repository's combined sample: its two files are brute force's, and so is the text of what they are combined to."""
    first, second, text = (os.path.join(SAMPLES_FOLDER, "p21." + name) for name in ("factors", "second.factors", "combined.txt"))
    contents, others, shown = (open(name, "rb").read() for name in (first, second, text))
    tool.expect("the second sample", others, second_file(contents))
    tool.expect("the combined sample's text", shown, combined_text(contents, others))
    made = tool.path("sample.combined")
    tool.expect("combine of the samples", tool.run("combine", first, second, "-o", made), (0, b"", b""))
    tool.expect("the combined map of the samples", tool.run("map", made), (0, shown, b""))
    section = open(os.path.join(SAMPLES_FOLDER, "p21.section.txt"), "rb").read()
    tool.expect("the sample's section", section, section_text(shown, 1))
    tool.expect("section of the samples", tool.run("section", made, 1), (0, section, b""))


def accepted_file(tool, rng, path, book, count):
    g, n, m, p = book.g, book.n, book.modulus, book.p
    what = "group %d, modulus %d, %s" % (g, m, n)
    F, M = dict(book.F), book.densities()
    tool.expect(what + ": map", tool.run("map", path), (0, map_text(g, n, M, p), b""))
    tool.expect(what + ": check", tool.run("check", path), (0, b"accepted\n", b""))
    shape = "group %d %s\nmodulus %d, the prime %d\nlengths %d %d %d\nlists %s\nplanes %d\nvolume %d numbers, %d bytes\n" % (
        g, GROUPS[g], m, p, *n, " ".join(",".join(map(str, fs)) or "-" for fs in book.lists),
        planes(g, n), volume_length(g, n), 4 * volume_length(g, n))
    version = open(path, "rb").read()[4]
    tool.expect(what + ": info", tool.run("info", path), (0, ("factor file, version %d\n" % version + shape + "records %d\n" % count).encode(), b""))
    made, back = tool.path("made.map"), tool.path("back")
    tool.expect(what + ": map -o", tool.run("map", path, "-o", made), (0, b"", b""))
    tool.expect(what + ": the map file", open(made, "rb").read(), map_bytes(g, n, book.lists, M, m))
    tool.expect(what + ": map of a map", tool.run("map", made), (0, map_text(g, n, M, p), b""))
    points = planes(g, n) * n[0] * n[1]
    tool.expect(what + ": info of a map", tool.run("info", made), (0, ("map file, version %d\n" % m + shape + "densities %d\n" % points).encode(), b""))
    tool.expect(what + ": factors", tool.run("factors", made, "-o", back), (0, b"", b""))
    tool.expect(what + ": the factor file", open(back, "rb").read(), written(book))
    tool.expect(what + ": factors of factors", tool.run("factors", path, "-o", "-"), (0, written(book), b""))
    rewritten(tool, rng, what, path, book)
    for source in (path, made):
        tool.expect(what + ": power", tool.run("power", source), (0, power_text(n, F, M, m, p), b""))
    for command in ("rewrite", "records", "faults"):
        tool.fails(what + ": %s of a map" % command, (command, made, *(["-o", tool.path("none")] if command == "rewrite" else [])), b"has no records")
    for source in (path, made):
        j = tuple(rng.randrange(m) for m in n)
        tool.expect(what + ": point", tool.run("point", source, *j), (0, b"%d\n" % signed(M[j], p), b""))
        tool.expect(what + ": factor", tool.run("factor", source, *j), (0, b"%d %d\n" % F[j], b""))
        tool.refused(what + ": a point outside", ("point", source, j[0], n[1], j[2]), 10)
        tool.refused(what + ": a factor outside", ("factor", source, n[0], j[1], 2 ** 40), 10)


def power_text(n, F, M, modulus, p):
    """The two sums over the whole cell, modulo the prime, and the second times the points, which is the first."""
    of_map, of_factors = sum(x * x for x in M.values()) % p, sum(a * a + b * b for a, b in F.values()) % p
    points = n[0] * n[1] * n[2]
    assert len(M) == len(F) == points and (of_map - points * of_factors) % p == 0
    return b"modulus %d, the prime %d\nmap %d\nfactors %d\n%d times factors %d\nthey agree\n" % (modulus, p, of_map, of_factors, points, of_map)


def rewritten(tool, rng, what, path, book):
    """A file and the same one shuffled are rewritten to the writer's file, which rewriting leaves as it is; records prints what each has."""
    with open(path, "rb") as file:
        found = records_in(file.read())
    other = shuffled(rng, book.g, book.n, found, book.p)
    back, form = tool.path("back"), written(book)
    for source, records in ((path, found), (tool.file("shuffled", file_bytes(book.g, book.n, book.lists, other, book.modulus)), other)):
        tool.expect(what + ": records", tool.run("records", source), (0, records_text(records), b""))
        tool.expect(what + ": rewrite", tool.run("rewrite", source, "-o", back), (0, b"", b""))
        tool.expect(what + ": the file rewritten", open(back, "rb").read(), form)
    tool.expect(what + ": rewritten twice", tool.run("rewrite", back, "-o", "-"), (0, form, b""))
    tool.expect(what + ": its records", tool.run("records", back), (0, records_text(sorted(records_in(form))), b""))


def small_grids(tool):
    rng = random.Random(SEED)
    for file in files():
        if 40000 < needed(file) <= LIMIT:
            continue  # brute force would take too long: large_grids has such ones
        refused, place, book = open_file(file, needed(file))
        path = tool.file("small", file)
        if book:
            accepted_file(tool, rng, path, book, len(records_in(file)))
            continue
        what = "file %s" % file[:40].hex()
        tool.refused(what, ("map", path), refused, place)
        tool.refused(what, ("map", path, "-o", tool.path("none")), refused, place)
        status, out, err = tool.run("check", path)
        tool.expect(what + ": check", (status, out.split(b"\n")[0], err), (1, b"refused %d at %d" % (refused, place), b""))


def empty_cells(tool):
    """Map files of zeros: factor files of no records, and back."""
    for g in range(5):
        for n in [(2, 2, 2), (4, 2, 6), (6, 4, 4)]:
            lists = [[m // 2] if m > 2 else [] for m in n]
            what = "a cell of zeros of group %d, %s" % (g, n)
            zeros = map_bytes(g, n, lists, {q: 0 for q in all_points(n)})
            path = tool.file("zeros.map", zeros)
            tool.expect(what + ": factors", tool.run("factors", path, "-o", tool.path("zeros")), (0, b"", b""))
            tool.expect(what + ": the factor file", open(tool.path("zeros"), "rb").read(), file_bytes(g, n, lists, []))
            tool.expect(what + ": its records", tool.run("records", tool.path("zeros")), (0, b"", b""))
            tool.expect(what + ": its map", tool.run("map", tool.path("zeros"), "-o", "-"), (0, zeros, b""))
            second = file_bytes(g, n, lists, [], 2)
            tool.expect(what + ": modulo the second prime", tool.run("factors", tool.file("zeros", second), "-o", "-"), (0, second, b""))


def zero_records(tool):
    """Files of zeros: written back without them; 100,000 at 240^3, and one more of an orbit that is among them."""
    for g in range(5):
        n, lists = (4, 2, 6), [[2], [], [3]]
        file = file_bytes(g, n, lists, [(1, 0, 0, 0, 0), (0, 0, 3, 0, 0), (0, 0, 0, 7, 0), (3, 1, 2, 0, 0)])
        what = "zeros of group %d" % g
        path = tool.file("zeros", file)
        tool.expect(what + ": check", tool.run("check", path), (0, b"accepted\n", b""))
        tool.expect(what + ": rewrite", tool.run("rewrite", path, "-o", "-"), (0, file_bytes(g, n, lists, [(0, 0, 0, 7, 0)]), b""))
        tool.expect(what + ": records", tool.run("records", path), (0, b"1 0 0 0 0\n0 0 3 0 0\n0 0 0 7 0\n3 1 2 0 0\n", b""))
    n, lists = (240, 240, 240), [[4, 5, 3, 2]] * 3
    zeros = [(1 + place // 1000, 1 + place // 10 % 100, 1 + place % 10, 0, 0) for place in range(100000)]
    what = "100,000 zeros at 240^3"
    path = tool.file("many", file_bytes(0, n, lists, zeros))
    tool.expect(what, tool.run("rewrite", path, "-o", "-"), (0, file_bytes(0, n, lists, []), b""))
    first = zeros[77777]
    again = (240 - first[0], 240 - first[1], 240 - first[2], 0, 0)
    path = tool.file("many", file_bytes(0, n, lists, zeros + [again]))
    status, out, err = tool.run("check", path)
    found = found_text(31, zeros + [again], [77777, 100000], n)
    tool.expect(what + ", and one twice", (status, out.decode().split("\n")[0::2][:2], err), (1, ["refused 24 at 100000", found], b""))
    tool.expect(what + ", the faults", tool.run("faults", path, preexec_fn=bounded(0)), (1, faults_text(zeros + [again], [77777, 100000]), b""))


def full_cells(tool):
    """Map files of random densities modulo both primes: as many records as a grid has orbits, back and forth. In version 2 the first prime is taken
    too, and written as version 1."""
    rng = random.Random(SEED)
    for g in range(5):
        for n in [(2, 2, 2), (2, 2, 4), (4, 2, 6), (4, 4, 4), (4, 6, 4)]:
            for modulus, version in ((1, 1), (1, 2), (2, 2)):
                M = some_numbers(rng, g, n, lambda: rng.randrange(PRIMES[modulus]))
                book = Book(g, n, some_lists(n), modulus)
                book.F = read_cell(g, n, analysed(g, n, pack_map(g, n, M), book.p), book.p)
                what = "a full cell of group %d, modulus %d, %s" % (g, modulus, n)
                path = tool.file("full.map", map_bytes(g, n, book.lists, M, modulus, version))
                tool.expect(what + ": check", tool.run("check", path), (0, b"accepted\n", b""))
                tool.expect(what + ": its version", tool.run("info", path)[1].split(b"\n")[0], b"map file, version %d" % version)
                tool.expect(what + ": factors", tool.run("factors", path, "-o", tool.path("full")), (0, b"", b""))
                tool.expect(what + ": the factor file", open(tool.path("full"), "rb").read(), written(book))
                for source in (path, tool.path("full")):
                    tool.expect(what + ": power", tool.run("power", source), (0, power_text(n, book.F, M, modulus, book.p), b""))
                    tool.expect(what + ": its map", tool.run("map", source, "-o", "-"), (0, map_bytes(g, n, book.lists, M, modulus), b""))


# ---- maps combined

def some_lists(n):
    return [[m // 2] if m > 2 else [] for m in n]


def some_numbers(rng, g, n, drawn):
    """A number for every point of a cell, the same at all images of a point."""
    by_orbit = {q: drawn() for q in all_points(n)}
    return {q: by_orbit[min(point_images(g, n, q))] for q in by_orbit}


def residues(numbers, modulus):
    return {q: x % PRIMES[modulus] for q, x in numbers.items()}


def some_count(rng):
    """A whole number that a combined map can have: near an end, near a bound of either prime's signed numbers, or any."""
    near = rng.choice([-GREATEST, GREATEST, 0, 43199, -43200, 151199, -151200, 86399, 302399])
    drawn = rng.choice([near + rng.randrange(-3, 4), rng.randrange(-GREATEST, GREATEST + 1), rng.randrange(-10 ** 6, 10 ** 6)])
    return max(-GREATEST, min(GREATEST, drawn))


def combined_file(tool, rng, what, path, g, n, numbers):
    """What the commands print and write of a combined map file."""
    whole = combined_bytes(g, n, numbers)
    tool.expect(what + ": the combined map", open(path, "rb").read(), whole)
    tool.expect(what + ": its text", tool.run("map", path), (0, text_of(g, n, numbers), b""))
    tool.expect(what + ": it written again", tool.run("map", path, "-o", "-"), (0, whole, b""))
    tool.expect(what + ": check", tool.run("check", path), (0, b"accepted\n", b""))
    shape = "combined map file, version 1\ngroup %d %s\nlengths %d %d %d\nplanes %d\nvolume %d numbers, %d bytes\nnumbers %d\n" % (
        g, GROUPS[g], *n, planes(g, n), volume_length(g, n), 8 * volume_length(g, n), planes(g, n) * n[0] * n[1])
    tool.expect(what + ": info", tool.run("info", path), (0, shape.encode(), b""))
    for q in [rng.choice(all_points(n)), (n[0] - 1, n[1] - 1, n[2] - 1)]:
        tool.expect(what + ": point %s" % (q,), tool.run("point", path, *q), (0, b"%d\n" % numbers[q], b""))
    for axis in range(3):
        outside = [m if axis == a else m - 1 for a, m in enumerate(n)]
        tool.refused(what + ": a point outside", ("point", path, *outside), 10)
    for z in range(n[2]):
        plane(tool, what, path, z, [[numbers[(x, y, z)] for y in range(n[1])] for x in range(n[0])])
    for z in (n[2], 2 ** 40):
        tool.refused(what + ": a plane outside", ("section", path, z), 10)
        tool.refused(what + ": a picture of one", ("picture", path, z, "-o", tool.path("none")), 10)


def combined_maps(tool):
    """Whole numbers of all five groups, the ends of their range among them: combined from map files, from factor files and from one of each, under
    any factor lists."""
    rng = random.Random(SEED)
    for g in range(5):
        for n, lists in [((2, 2, 2), [[], [], []]), ((4, 2, 6), [[2], [], [3]]), ((2, 8, 4), [[], [2, 2], [2]]), ((6, 4, 8), [[3], [2], [4]])]:
            numbers = some_numbers(rng, g, n, lambda: some_count(rng))
            for end, q in ((GREATEST, (0, 0, 0)), (-GREATEST, (1, 1, 0))):
                numbers.update({i: end for i in point_images(g, n, q)})
            what = "group %d, %s combined" % (g, n)
            paths = {}
            for m in PRIMES:
                M = residues(numbers, m)
                paths[m, "map"] = tool.file("combine%d.map" % m, map_bytes(g, n, lists if m == 1 else some_lists(n), M, m))
                book = Book(g, n, lists, m)
                book.F = read_cell(g, n, analysed(g, n, pack_map(g, n, M), book.p), book.p)
                paths[m, "factors"] = tool.file("combine%d" % m, written(book))
            tool.expect(what + ": by brute force", {q: combined(x % PRIMES[1], x % PRIMES[2]) for q, x in list(numbers.items())[:8]},
                        dict(list(numbers.items())[:8]))
            made = tool.path("combined")
            for kinds in (("map", "map"), ("factors", "factors"), ("map", "factors"), ("factors", "map")):
                words = ("combine", paths[1, kinds[0]], paths[2, kinds[1]], "-o", made)
                tool.expect("%s: combine of %s" % (what, kinds), tool.run(*words), (0, b"", b""))
                tool.expect("%s: of %s" % (what, kinds), open(made, "rb").read(), combined_bytes(g, n, numbers))
            combined_file(tool, rng, what, made, g, n, numbers)
            with open(paths[2, "map"], "rb") as given:
                words = ("combine", paths[1, "map"], "-", "-o", "-")
                tool.expect(what + ": by streams", tool.run(*words, stdin=given), (0, combined_bytes(g, n, numbers), b""))
    small = some_numbers(rng, 4, (4, 4, 4), lambda: rng.randrange(-43199, 43200))
    texts = [tool.run("map", tool.file("small%d" % m, map_bytes(4, (4, 4, 4), some_lists((4, 4, 4)), residues(small, m), m)))[1] for m in PRIMES]
    tool.run("combine", tool.path("small1"), tool.path("small2"), "-o", tool.path("small3"))
    tool.expect("small numbers are the same in all three maps", texts + [tool.run("map", tool.path("small3"))[1]], [text_of(4, (4, 4, 4), small)] * 3)


def refused_pairs(tool):
    """Two files that are not to be combined, and combined map files that are none."""
    n = (4, 4, 4)
    heads = {name: (g, lengths, m) for name, g, lengths, m in (("first", 1, n, 1), ("second", 1, n, 2), ("group", 4, n, 2), ("n1", 1, (2, 4, 4), 2),
                                                              ("n2", 1, (4, 6, 4), 2), ("n3", 1, (4, 4, 8), 2), ("large", 0, (8, 8, 8), 1))}
    path = {name: tool.file(name, file_bytes(g, lengths, some_lists(lengths), [(0, 0, 0, 1, 0)], m)) for name, (g, lengths, m) in heads.items()}
    none = tool.path("none")
    for names in (("first", "group"), ("first", "n1"), ("first", "n2"), ("first", "n3"), ("large", "second"), ("second", "first"), ("first", "first"),
                  ("second", "second"), ("group", "n1")):
        first, second = (path[name] for name in names)
        tool.refused("combine of %s and %s" % names, ("combine", first, second, "-o", none), 27, of="%s and %s" % (first, second))
    status, _, err = tool.run("combine", path["second"], path["first"], "-o", none)
    head = "group 1 (P2_1), lengths 4 4 4, modulus %d, lists 2 2 2"
    tool.expect("what 27 says", (status, err.decode().split("\n")[2]), (1, "found: " + head % 2 + "; and " + head % 1))
    M = {q: 5 for q in all_points(n)}
    faults = [("records", file_bytes(1, n, some_lists(n), [(0, 0, 1, 5, 7)], 2), 12), ("cut", file_bytes(1, n, some_lists(n), [], 2)[:-1], 15),
              ("modulus", file_bytes(1, n, some_lists(n), [], 3, 2), 26), ("numbers", map_bytes(1, n, some_lists(n), {**M, (3, 3, 1): PRIMES[2]}, 2), 7),
              ("images", map_bytes(3, n, some_lists(n), {**M, (1, 0, 0): 6}, 2), 14)]
    for name, contents, refusal in faults:
        bad = tool.file(name, contents)
        tool.refused("combine of a file and %s" % name, ("combine", path["first"], bad, "-o", none), refusal, of=bad)
        tool.refused("combine of %s and a file" % name, ("combine", bad, path["second"], "-o", none), refusal, of=bad)
    whole = combined_bytes(1, n, {q: -x for q, x in M.items()})
    made = tool.file("combined", whole)
    for words in (("factors", made, "-o", none), ("factor", made, 0, 0, 0), ("power", made), ("rewrite", made, "-o", none), ("records", made),
                  ("faults", made), ("combine", made, path["second"], "-o", none), ("combine", path["first"], made, "-o", none)):
        tool.fails("%s of a combined map" % words[0], words, b"%s is a combined map file, which has no records and no factors" % made.encode())
    for length in range(4, len(whole), 7):
        tool.refused("a combined map cut at %d" % length, ("map", tool.file("cut", whole[:length])), 15)
    tool.refused("a longer combined map", ("point", tool.file("cut", whole + b"x"), 0, 0, 0), 15)
    for version in (0, 2):
        tool.refused("a combined map of version %d" % version, ("info", tool.file("cut", whole[:4] + bytes([version]) + whole[5:])), 16)
    for g, lengths, refusal in ((5, n, 8), (0, (4, 7, 4), 3), (0, (0, 4, 4), 3), (1, (4, 4, 14), 3), (0, (288, 288, 288), 9), (2, (2880, 2880, 2880), 9)):
        head = tool.file("cut", b"RCMB" + bytes([1, g]) + b"".join(m.to_bytes(2, "big") for m in lengths) + bytes(64))
        for words in (("info", head), ("map", head), ("map", head, "-o", none), ("point", head, 0, 0, 0)):
            tool.refused("a combined map of group %d, %s" % (g, lengths), words, refusal)
    for x in (GREATEST + 1, -GREATEST - 1, 2 ** 63 - 1, -2 ** 63):
        beyond = tool.file("cut", combined_bytes(1, n, {**M, (1, 2, 1): x, (3, 3, 1): x}))
        tool.refused("a number of %d" % x, ("map", beyond), 28)
        status, out, _ = tool.run("check", beyond)
        tool.expect("its place", (status, b"found: number %d at x 1, y 2, z 1\n" % x in out), (1, True))
        tool.refused("a longer one too", ("map", tool.file("cut", open(beyond, "rb").read() + b"x")), 15)
    for g, change in ((3, 1), (3, PRIMES[2]), (4, 1), (4, -PRIMES[2]), (2, 0)):
        numbers = {q: 7 for q in all_points(n)}
        numbers[(1, 1, 0)] += change
        apart = tool.file("cut", combined_bytes(g, n, numbers))
        if change:
            tool.refused("images that differ by %d" % change, ("point", apart, 0, 0, 0), 14)
        else:
            tool.expect("images that do not differ", tool.run("point", apart, 1, 1, 0), (0, b"7\n", b""))
    tool.expect("refused commands write no file", os.path.exists(none), False)


# ---- planes

def planes_of_all_kinds(tool):
    """Planes of one number, long and wide ones, and those of files that are refused; every letter of the pictures was seen, each of its own shape."""
    rng = random.Random(SEED)
    for g, n in ((0, (2, 2, 2)), (1, (2880, 2, 2)), (4, (2, 2880, 2)), (0, (96, 120, 2)), (2, (2, 10, 12)), (3, (20, 18, 2))):
        for drawn in (lambda: 7, lambda: -GREATEST, lambda: rng.randrange(-9, 10), lambda: some_count(rng)):
            numbers = some_numbers(rng, g, n, drawn)
            path = tool.file("planes", combined_bytes(g, n, numbers))
            for z in (0, n[2] - 1):
                plane(tool, "group %d, %s" % (g, n), path, z, [[numbers[(x, y, z)] for y in range(n[1])] for x in range(n[0])])
    tool.expect("the letters", (sorted(tool.glyphs), len({tuple(shape) for shape in tool.glyphs.values()})), (sorted("0123456789-xyz"), 14))
    n, none = (4, 4, 4), tool.path("none")
    M = {q: 7 for q in all_points(n)}
    for command, more in (("section", []), ("section", ["-o", none]), ("picture", ["-o", none])):
        whole = combined_bytes(3, n, M)
        for contents, refusal in ((whole[:-1], 15), (whole + b"x", 15), (whole[:4] + b"\2" + whole[5:], 16), (whole[:5] + b"\5" + whole[6:], 8),
                                  (combined_bytes(3, n, {**M, (3, 3, 2): GREATEST + 1}), 28), (combined_bytes(3, n, {**M, (3, 3, 2): 8}), 14),
                                  (combined_bytes(3, n, {**M, (3, 3, 0): 8}), 14)):
            tool.refused("%s of a file that is refused" % command, (command, tool.file("planes", contents), 0, *more), refusal)
    tool.expect("refused planes write no file", os.path.exists(none), False)
    made = tool.file("planes", whole)
    tool.file("1", b"old")
    tool.expect("a file with the name of a plane", tool.run("section", made, 1, "-o", "1", cwd=tool.folder), (0, b"", b""))
    tool.expect("its page", open(tool.path("1"), "rb").read(), page([[7] * 4] * 4))
    tool.expect("a picture by streams", tool.run("picture", "-", 1, "-o", "-", given=whole)[1][1:4], b"PNG")


# ---- combined maps for viewers

def cell_words(g, edges, angles):
    """The unit cell as the command line takes it, and as mrc_cases.py does."""
    given = [*edges, *angles] if g == 0 else [*edges, angles[2]]
    return ",".join(map(str, given)), 0 if g == 0 else 1, [bits(x) for x in (*edges, *angles)]


def for_viewers(tool):
    """Maps of all five groups, the ends of their range among them, byte for byte; edges and angles at the ends of what is taken."""
    rng = random.Random(SEED)
    edges = [(10.5, 23.25, 41.125), (0.1, 78.9, 1e30), (1e-45, 3.4028234e38, 123.456)]
    angles = [(81.5, 95.25, 112.125), (1e-45, 179.99998, 60), (90, 90, 119.7)]
    for g in range(5):
        for n in [(2, 2, 2), (4, 2, 6), (2, 8, 4), (6, 4, 8), (10, 6, 4)]:
            numbers = some_numbers(rng, g, n, lambda: max(-EXACT, min(EXACT, some_count(rng) % (2 * EXACT + 3) - EXACT - 1)))
            for end, q in ((EXACT, (0, 0, 0)), (-EXACT, (1, 1, 0))):
                numbers.update({i: end for i in point_images(g, n, q)})
            path, made = tool.file("viewed", combined_bytes(g, n, numbers)), tool.path("viewed.mrc")
            for three, others in zip(edges, angles):
                words, kind, parameters = cell_words(g, three, (90, 90, 90) if g == 4 else others)
                what = "group %d, %s for viewers, cell %s" % (g, n, words)
                tool.expect(what, tool.run("mrc", path, "--cell", words, "-o", made), (0, b"", b""))
                whole = mrc_file(g, n, pack_map(g, n, numbers), kind, parameters)
                tool.expect(what + ": the file", open(made, "rb").read(), whole)
                tool.expect(what + ": every number", struct.unpack_from("<%df" % len(numbers), whole, 1024),
                            tuple(float(numbers[x, y, z]) for z in range(n[2]) for y in range(n[1]) for x in range(n[0])))
            with open(path, "rb") as given:
                tool.expect(what + ": by streams", tool.run("mrc", "-", "--cell", words, "-o", "-", stdin=given), (0, whole, b""))
    not_for_viewers(tool)


def not_for_viewers(tool):
    """Unit cells of no edges, no angles or the other kind, numbers that no float is sure to hold, and files that are no combined maps."""
    n, none = (4, 4, 4), tool.path("none")
    path = {g: tool.file("viewed%d" % g, combined_bytes(g, n, {q: 7 for q in all_points(n)})) for g in range(5)}
    sound = {g: cell_words(g, (1, 2, 3), (90, 90, 90))[0] for g in range(5)}
    for g in range(5):
        cells = [sound[1 if g == 0 else 0]]
        cells += [",".join(sound[g].split(",")[:at] + [bad] + sound[g].split(",")[at + 1:])
                  for at in range(3) for bad in ("0", "-0", "-1", "nan", "inf", "-inf", "1e39", "1e-60")]
        cells += [",".join(sound[g].split(",")[:at] + [bad] + sound[g].split(",")[at + 1:])
                  for at in range(3, len(sound[g].split(","))) for bad in ("0", "180", "-90", "nan", "inf", "360", "1e-60", "179.9999999")]
        cells += [sound[4].replace("90", bad) for bad in ("89.99999", "90.00001", "60")] if g == 4 else []
        for cell in cells:
            tool.refused("cell %s of group %d" % (cell, g), ("mrc", path[g], "--cell", cell, "-o", none), 29)
        for x in (EXACT + 1, -EXACT - 1, GREATEST, -GREATEST):
            numbers = {q: 7 for q in all_points(n)}
            numbers.update({i: x for i in point_images(g, n, (3, 2, 1))})
            beyond = tool.file("beyond", combined_bytes(g, n, numbers))
            tool.refused("a number of %d for viewers" % x, ("mrc", beyond, "--cell", sound[g], "-o", none), 30)
            tool.refused("and no cell", ("mrc", beyond, "--cell", sound[g].replace("2", "0"), "-o", none), 29)
            place = min((z, x, y) for x, y, z in point_images(g, n, (3, 2, 1)))
            found = b"found: number %d at x %d, y %d, z %d\n" % (x, place[1], place[2], place[0])
            tool.expect("its place", found in tool.run("mrc", beyond, "--cell", sound[g], "-o", none)[2], True)
    status, _, err = tool.run("mrc", path[1], "--cell", "1,2.5,3,90,90,100", "-o", none)
    found = b"found: edges 1, 2.5, 3, angles 90, 90, 100; group 1 (P2_1), lengths 4 4 4"
    tool.expect("what 29 says", (status, err.split(b"\n")[2]), (1, found))
    whole = open(path[3], "rb").read()
    for contents, refusal in ((whole[:-1], 15), (whole[:9], 15), (whole[:5] + b"\5" + whole[6:], 8),
                              (combined_bytes(3, n, {**{q: 7 for q in all_points(n)}, (1, 1, 0): 8}), 14),
                              (combined_bytes(3, n, {q: GREATEST + 1 for q in all_points(n)}), 28)):
        tool.refused("a damaged file for viewers", ("mrc", tool.file("cut", contents), "--cell", "nan,1,1,90", "-o", none), refusal)
    factors = tool.file("cut", file_bytes(0, n, some_lists(n), []))
    densities = tool.file("cut.map", map_bytes(0, n, some_lists(n), {q: 7 for q in all_points(n)}))
    for other in (factors, densities):
        for words in (("best", other), ("overlay", other, path[0], "-o", none), ("overlay", path[0], other, "-o", none)):
            tool.fails("%s of no combined map" % words[0], words, b"%s is not a combined map file" % other.encode())
    for words in ("", "1,2,3", "1,2,3,90,90", "1,2,3,90,90,90,90", "1,2,3,x", "1,2,,90", "1;2;3;90", " 1,2,3,90"):
        tool.fails("a cell of %r" % words, ("mrc", path[1], "--cell", words, "-o", none), b"--cell takes a,b,c")
    tool.expect("refused commands write no file", os.path.exists(none), False)


# ---- overlays

def overlaid(n, a, b):
    """At each shift the sum of the products over all points, going round the cell. Points of zero are left out."""
    first, second = ([(q, x) for q, x in numbers.items() if x] for numbers in (a, b))
    values = {s: 0 for s in all_points(n)}
    for u, x in first:
        for v, y in second:
            values[tuple((q - p) % m for p, q, m in zip(u, v, n))] += x * y
    return values


def best_text(values):
    """The greatest value and the first of its shifts, the value at no shift, and the difference."""
    greatest = max(values.values())
    shift = min(s for s, x in values.items() if x == greatest)
    unshifted = values[0, 0, 0]
    return b"greatest %d at shift %d %d %d\nat shift 0 0 0 %d\ndifference %d\n" % (greatest, *shift, unshifted, greatest - unshifted)


def overlays(tool):
    """Two maps of P1 at every shift, a map with itself and shifted, single points at the limit; the best shift, among equals the first; and the scores
    as a run of drift."""
    rng = random.Random(SEED)
    made, scores = tool.path("overlay"), []

    def one(what, n, a, b):
        paths = [tool.file("overlay%d" % k, combined_bytes(0, n, m)) for k, m in enumerate((a, b))]
        values = overlaid(n, a, b)
        tool.expect(what, tool.run("overlay", *paths, "-o", made), (0, b"", b""))
        tool.expect(what + ": its values", open(made, "rb").read(), combined_bytes(0, n, values))
        tool.expect(what + ": best", tool.run("best", made), (0, best_text(values), b""))
        tool.expect(what + ": its score", tool.run("best", "--score", made), (0, b"%d\n" % max(values.values()), b""))
        for k in range(2):
            with open(paths[k], "rb") as given:
                words = ("overlay", *("-" if k == j else path for j, path in enumerate(paths)), "-o", "-")
                got = tool.run(*words, stdin=given)
            tool.expect(what + ": by streams", got, (0, combined_bytes(0, n, values), b""))
        tool.expect(what + ": best by a stream", tool.run("best", "-", given=got[1]), (0, best_text(values), b""))
        scores.append(max(values.values()))
        return values

    for n in [(2, 2, 2), (4, 2, 6), (2, 8, 4), (6, 4, 8), (10, 2, 12), (16, 6, 2)]:
        most = int((GREATEST / (n[0] * n[1] * n[2])) ** 0.5)
        drawn = lambda least, greatest: {q: rng.randrange(least, greatest + 1) for q in all_points(n)}
        a = drawn(-most, most)
        values = one("an overlay at %s" % (n,), n, a, drawn(-most, most))
        combined_file(tool, rng, "an overlay at %s" % (n,), made, 0, n, values)
        one("an overlay with itself at %s" % (n,), n, a, a)
        shift = tuple(rng.randrange(m) for m in n)
        one("a map and it shifted at %s" % (n,), n, a, {tuple((p + s) % m for p, s, m in zip(q, shift, n)): x for q, x in a.items()})
        one("counts below zero at %s" % (n,), n, drawn(0, 3), drawn(-3, -1))
        one("many equals at %s" % (n,), n, drawn(0, 1), {q: 1 for q in all_points(n)})
        one("nothing at %s" % (n,), n, drawn(0, 0), a)
        point = {q: GREATEST * (q == shift) for q in all_points(n)}
        one("the limit at %s" % (n,), n, point, drawn(-1, 1))
        one("the limit below zero at %s" % (n,), n, {q: -x for q, x in point.items()}, {q: int(q == (1, 1, 1)) for q in all_points(n)})
    waves = [{q: sign * (3 - 6 * q[0]) for q in all_points((2, 2, 2))} for sign in (1, -1)]
    one("the documented overlay", (2, 2, 2), *waves)
    tool.expect("its documented text", tool.run("best", made)[1], b"greatest 72 at shift 1 0 0\nat shift 0 0 0 -72\ndifference 144\n")
    log = "".join("%d\n" % x for x in scores).encode()
    tool.expect("the drift of best scores", tool.run("drift", 5, given=log), (0, drift_text(scores, 5), b""))
    refused_overlays(tool)


def refused_overlays(tool):
    """Maps whose overlay might be beyond the range, of other groups and lengths, and damaged files."""
    n, none = (4, 2, 6), tool.path("none")
    zero = {q: 0 for q in all_points(n)}
    ones = {q: 1 for q in all_points(n)}
    path = lambda name, numbers, g=0, lengths=n: tool.file(name, combined_bytes(g, lengths, numbers))
    sound = path("sound.overlay", ones)
    for a, b in (({**zero, (1, 0, 0): GREATEST, (2, 1, 3): -1}, ones), ({**zero, (3, 1, 5): 2}, {**zero, (0, 1, 0): -GREATEST}),
                 (ones, {**zero, (0, 0, 0): GREATEST}), ({q: -GREATEST for q in ones}, {q: GREATEST for q in ones})):
        first, second = path("beyond1", a), path("beyond2", b)
        words = ("overlay", first, second, "-o", none)
        tool.refused("an overlay beyond the range", words, 28, of="%s and %s" % (first, second))
        magnitudes = [[abs(x) for x in numbers.values()] for numbers in (a, b)]
        found = "found: the magnitudes of the first map sum up to %d, the largest of the second is %d: their product %d is above %d; divide the numbers of " % (
            sum(magnitudes[0]), max(magnitudes[1]), sum(magnitudes[0]) * max(magnitudes[1]), GREATEST)
        tool.expect("what 28 says", tool.run(*words)[2].decode().split("\n")[2][:len(found)], found)
    for g in range(1, 5):
        other = path("other.overlay", {q: 1 for q in all_points((4, 4, 4))}, g, (4, 4, 4))
        for words in (("overlay", sound, other, "-o", none), ("overlay", other, sound, "-o", none), ("overlay", other, other, "-o", none), ("best", other)):
            said = "%s has group %d (%s), lengths 4 4 4; overlays are of maps in P1" % (other, g, GROUPS[g])
            tool.fails("%s of group %d" % (words[0], g), words, said.encode())
    for lengths in ((2, 2, 6), (4, 4, 6), (4, 2, 4), (2, 4, 6)):
        other = path("other.overlay", {q: 1 for q in all_points(lengths)}, 0, lengths)
        for files in ((sound, other), (other, sound)):
            tool.fails("an overlay of two cells", ("overlay", *files, "-o", none), b"%s and %s have group 0 (P1), lengths" % tuple(map(str.encode, files)))
    whole = open(sound, "rb").read()
    beyond = combined_bytes(0, n, {**zero, (1, 1, 1): GREATEST + 1})
    for contents, refusal in ((whole[:-1], 15), (whole[:4] + b"\2" + whole[5:], 16), (whole[:7] + b"\7" + whole[8:], 3), (beyond, 28)):
        bad = tool.file("bad.overlay", contents)
        for files in ((sound, bad), (bad, sound)):
            tool.refused("an overlay of a damaged file", ("overlay", *files, "-o", none), refusal, of=bad)
    for contents, refusal in ((whole + b"x", 15), (whole[:6] + b"\1\x20" * 3 + whole[12:], 9), (beyond, 28)):
        tool.refused("best of a damaged file", ("best", tool.file("bad.overlay", contents)), refusal)
    tool.expect("refused commands write no file", os.path.exists(none), False)


# ---- refusals

def found_text(start, records, places, n):
    """What check says of the records at fault, of which the last is the refused one; the first begins at a byte. Then the indices that are not in the
    cell."""
    said = ["record %d, from byte %d on: h %d, k %d, l %d, a %d, b %d" % (place, start + 14 * place, *records[place]) for place in reversed(places)]
    index = records[places[-1]]
    outside = ["; %s is %d, but N%d is %d" % ("hkl"[axis], index[axis], axis + 1, n[axis]) for axis in range(3) if index[axis] >= n[axis]]
    return "found: " + "; of one orbit with ".join(said) + "".join(outside)


def faults_text(records, places):
    """What faults prints."""
    return "".join("%d: %d %d %d %d %d\n" % (place, *records[place]) for place in places).encode()


def records_at_fault(tool):
    """Small files: faults prints the records that brute force finds and check names them, for a file with none faults prints nothing."""
    for file in faulty_files(FAULTY):
        refusal, place = judged(file)
        path, what = tool.file("faulty", file), "faults of %s" % file.hex()
        for places in fewest(file):
            records = records_in(file)
            tool.expect(what, tool.run("faults", path), (1, faults_text(records, places), b""))
            status, out, err = tool.run("check", path)
            found = found_text(first_record(file), records, places, lengths_in(file))
            tool.expect(what + ": check", (status, out.decode().split("\n")[0::2][:2], err), (1, ["refused %d at %d" % (refusal, place), found], b""))
            break
        else:
            if refusal:
                tool.refused(what, ("faults", path), refusal)
            else:
                tool.expect(what, tool.run("faults", path), (0, b"", b""))
    with open(tool.file("faulty", file_bytes(0, (2, 2, 2), [[], [], []], [(0, 0, 2, 3, 4)])), "rb") as given:
        tool.expect("faults of standard input", tool.run("faults", "-", stdin=given), (1, b"0: 0 0 2 3 4\n", b""))


def refused_records(tool):
    """What check says of a record: its place, its contents, and of 24 the record that was there before."""
    n, lists = (4, 4, 4), [[2], [2], [2]]
    first = (1, 1, 3, 4, 5)
    for g, record, refusal in [(0, (1, 1, 4, 3, 0), 10), (1, (1, 65535, 1, 3, 0), 10), (2, (1, 1, 1, P, 0), 7), (3, (1, 1, 1, 3, 2 ** 32 - 1), 7),
                               (0, (0, 2, 0, 1, 1), 12), (1, (0, 0, 1, 5, 7), 12), (3, (1, 0, 0, 5, 7), 12),
                               (4, (1, 0, 0, 0, 7), 12), (4, (0, 3, 0, 5, 0), 12), (4, (0, 0, 1, 5, 7), 12), (4, (1, 2, 0, 5, 7), 12),
                               (2, (1, 1, 1, 4, 5), 24), (0, (3, 3, 1, 9, 9), 24), (4, (3, 1, 1, 9, 9), 24), (2, (1, 1, 1, 0, 0), 24)]:
        path = tool.file("records", file_bytes(g, n, lists, [(0, 0, 0, 1, 0), first, record, (3, 3, 3, 3, 3)]))
        status, out, err = tool.run("check", path)
        head, _, found, _, end = out.decode().split("\n")
        contents = found_text(22, [(0, 0, 0, 1, 0), first, record], [1, 2] if refusal == 24 else [2], n)
        what = "group %d, record %s" % (g, record)
        tool.expect(what, (status, head, found, end, err), (1, "refused %d at 2" % refusal, contents, "", b""))
        tool.refused(what, ("point", path, 0, 0, 0), refusal, 2)
        tool.refused(what, ("records", path), refusal, 2)
        for command in ("factors", "rewrite"):
            tool.refused(what, (command, path, "-o", tool.path("none")), refusal, 2)


def refused_headers(tool):
    """Headers in a factor file, also in one of no records, and in a map file: every refusal of an opening."""
    for g, n, lists, refusal in [(5, (2, 2, 2), [[], [], []], 8), (255, (2, 2, 2), [[], [], []], 8), (0, (2, 0, 2), [[], [], []], 3),
                                 (1, (2, 2, 14), [[], [], [7]], 3), (2, (5760, 2, 2), [[], [], []], 3), (3, (8, 8, 8), [[4], [6], [4]], 4),
                                 (0, (8, 8, 8), [[4], [4], [1, 4]], 4), (0, (8, 8, 8), [[4], [2], [4]], 5), (0, (2, 2, 4), [[], [], []], 5),
                                 (0, (2, 2, 2), [[], [2] * 255, []], 5), (0, (288, 288, 288), [[4, 4, 3, 3]] * 3, 9),
                                 (2, (2880, 2880, 2880), [[5, 4, 4, 3, 3, 2]] * 3, 9), (4, (360, 360, 288), [[5, 4, 3, 3]] * 2 + [[4, 4, 3, 3]], 9)]:
        for modulus in PRIMES:
            refused_header(tool, g, n, lists, modulus, modulus, refusal)
    for modulus in (0, 3, 255):
        refused_header(tool, 0, (2, 2, 2), [[], [], []], modulus, 2, 26)
        refused_header(tool, 4, (2, 0, 2), [[], [7], []], modulus, 2, 26)
        refused_header(tool, 5, (2, 2, 2), [[], [], []], modulus, 2, 8)
    for version in (0, 3, 255):
        refused_header(tool, 5, (2, 2, 2), [[], [], []], 3, version, 16)


def refused_header(tool, g, n, lists, modulus, version, refusal):
    what = "header %d %s %s, modulus %d" % (g, n, lists, modulus)
    factors = tool.file("factors", file_bytes(g, n, lists, [(0, 0, 0, 1, 0)], modulus, version))
    empty = tool.file("no_records", file_bytes(g, n, lists, [], modulus, version))
    densities = tool.file("densities", map_head(g, n, lists, modulus, version) + bytes(64))
    for path in (factors, empty, densities):
        for words in (("map", path), ("info", path), ("factors", path, "-o", tool.path("none")), ("factor", path, 0, 0, 0)):
            tool.refused(what, words, refusal)


def refused_maps(tool):
    """Map files that are cut, lengthened, of another version, or hold no map."""
    n, lists = (2, 4, 2), [[], [2], []]
    M = {(x, y, z): 7 + 10 * x * (z == 0) + y for x in range(2) for y in range(4) for z in range(2)}
    whole = map_bytes(0, n, lists, M)
    path = tool.file("maps", whole)
    tool.expect("a map", tool.run("check", path), (0, b"accepted\n", b""))
    for length in range(4, len(whole)):
        tool.refused("a map cut at %d" % length, ("map", tool.file("maps", whole[:length])), 15)
    tool.refused("a longer map", ("map", tool.file("maps", whole + b"x")), 15)
    tool.refused("version 3", ("map", tool.file("maps", map_head(0, n, lists, 1, 3) + whole[16:])), 16)
    for modulus, p in PRIMES.items():
        part = map_bytes(0, n, lists, M, modulus)[:-4]
        tool.refused("a map of %d" % p, ("factors", tool.file("maps", part + p.to_bytes(4, "big")), "-o", tool.path("none")), 7)
        status, out, _ = tool.run("check", path)
        tool.expect("its place", (status, b"found: density %d at x 1, y 3, z 1\n" % p in out), (1, True))
        tool.expect("a map of one less", tool.run("point", tool.file("maps", part + (p - 1).to_bytes(4, "big")), 1, 3, 1), (0, b"-1\n", b""))
    second = map_bytes(0, n, lists, M, 2)
    for length in range(4, len(second)):
        tool.refused("a map of version 2 cut at %d" % length, ("map", tool.file("maps", second[:length])), 15)
    for g in (3, 4):
        tool.refused("a map that is not one of %s" % GROUPS[g], ("map", tool.file("maps", map_bytes(g, n, lists, M))), 14)
    tool.expect("refused commands write no file", os.path.exists(tool.path("none")), False)


# ---- lines

def unpacked(kind, n, line, p):
    """A line's n values from its packed half before the transform."""
    pair = list(zip(line[0::2], line[1::2]))
    half = n // 2
    if kind == 0:
        return pair
    if kind in (1, 2, 3):
        ends = [(line[0], 0), (line[1], 0)] if kind == 1 else [(0, line[0]), (0, line[1])]
        if kind == 3:
            ends = [(line[0], 0), (0, line[1]) if half % 2 else (line[1], 0)]
        X = [ends[0]] + pair[1:] + [ends[1]]
    else:
        X = pair if kind == 4 else [(0, 0)] + pair + [(0, 0)]
    for t in range(half + 1, n):
        a, b = X[n - t]
        sign = [1, 1, -1, (-1) ** t, 1, -1][kind]
        X.append((sign * a % p, sign * (b if kind > 3 else -b) % p))
    return X


def packed_sums(kind, n, X, p):
    """The packed result: direct sums over the whole line."""
    sums = []
    for s in range(n):
        terms = [(x, e(t * s, n, p)) for t, x in enumerate(X)]
        sums.append((sum(x[0] * w[0] - x[1] * w[1] for x, w in terms) % p, sum(x[0] * w[1] + x[1] * w[0] for x, w in terms) % p))
    if kind in (1, 2):
        return [x[kind - 1] for x in sums]
    part = {0: sums, 3: sums[:n // 2], 4: sums[:n // 2 + 1], 5: sums[1:n // 2]}[kind]
    return [c for x in part for c in x]


def lines(tool):
    rng = random.Random(SEED)
    for kind in range(6):
        for n, fs in [(2, "-"), (4, "2"), (6, "3"), (12, "2,3"), (16, "2,4"), (20, "5,2"), (24, "3,4"), (30, "5,3")]:
            for more, p in (((), P), (("--modulus", 1), P), (("--modulus", 2), PRIMES[2])):
                line = [rng.randrange(p) for _ in range([2 * n, n, n, n, n + 2, n - 2][kind])]
                after = packed_sums(kind, n, unpacked(kind, n, line, p), p)
                said = [(" ".join(map(str, numbers)) + "\n").encode() for numbers in (line, after)]
                what = "line of kind %d, %d values, modulo %d" % (kind, n, p)
                tool.expect(what, tool.run("line", kind, 0, n, fs, *more, given=said[0]), (0, said[1], b""))
                between = rng.choice([b"\n\t", b";", b", ", b"\r\n", b"  # a comment\n"])
                tool.expect(what + ", inverse", tool.run("line", kind, 1, n, fs, *more, given=said[1].replace(b" ", between)), (0, said[0], b""))
    for words, given, refusal in [((6, 2, 3, 9), b"1", 1), ((2 ** 32 + 1, 0, 4, 2), b"1 2 3 4", 1), ((1, 2, 14, 9), b"1", 2), ((1, 0, 14, 7), b"1", 3),
                                  ((1, 0, 0, "-"), b"", 3), ((1, 0, 5760, 2), b"", 3), ((1, 0, 8, 6), b"1", 4), ((1, 0, 8, "258,2"), b"1", 4),
                                  ((1, 0, 8, 2), b"1", 5), ((1, 0, 4, 2), b"1 2 86399", 6), ((1, 0, 4, 2), b"1 2 3 4 5", 6),
                                  ((1, 0, 4, 2), b"1 2 3 86399", 7), ((1, 0, 4, 2), b"1 2 3 99999999999", 7),
                                  ((1, 0, 4, 2, "--modulus", 2), b"1 2 3 302399", 7), ((6, 2, 3, 9, "--modulus", 0), b"1", 26),
                                  ((1, 0, 4, 2, "--modulus", 3), b"1 2 3 4", 26), (("--modulus", 2 ** 32 + 1, 1, 0, 4, 2), b"1 2 3 4", 26)]:
        tool.refused("line %s" % (words,), ("line", *words), refusal, given=given)
    for part, status in ((b"1 2 3 4 ", 1), (b"1\n2;", 1), (b"\n", 2), (b"1", 2), (b"#", 2), (b"# 1\n", 2)):
        got = tool.run_endless(part, "line", 1, 0, 4, 2)
        tool.expect("an endless line of %r" % part, (got[0], got[1], got[2].startswith(b"recorder: refused 6 at 0\n")), (status, b"", status == 1))
    tool.fails("a line of words", ("line", 1, 0, 4, 2), b"whole number", given=b"1 2 x 4")
    tool.fails("a line below zero", ("line", 1, 0, 4, 2), b"whole number", given=b"1 2 -3 4")


# ---- files, streams and the command line

def drift_text(run, w, between=" "):
    """A line for each window: the place of its last entry, the least and its first place, the greatest and its first place."""
    lines = ["entry,least,least_at,greatest,greatest_at"] if between == "," else []
    for j, (least, greatest, least_at, greatest_at) in enumerate(windows(run, w)):
        lines.append(between.join(map(str, (j + w - 1, least, least_at, greatest, greatest_at))))
    return "".join(line + "\n" for line in lines).encode()


def column(rng, run):
    """Scores as a spreadsheet writes them: one or several to a line, quoted or not, with a name, a byte order mark and Windows line ends."""
    end, quote, between = rng.choice(("\n", "\r\n")), rng.choice(("", "", '"')), rng.choice((";", ",", "\t", ", "))
    lines = [rng.choice(("score", "Score", "SCORES", '"Score"', "scores;", " score "))] if rng.randrange(2) else []
    some = [quote + str(x) + quote for x in run]
    while some:
        count = rng.choice((1, 1, 1, 4))
        lines.append(between.join(some[:count]) + rng.choice(("", "", ";", ";;", " # a comment, 7")))
        some = some[count:]
        lines += [rng.choice(("", ";;", "# 5"))] * rng.choice((0, 0, 1))
    return rng.choice((b"", b"\xef\xbb\xbf")) + (end.join(lines) + rng.choice(("", end))).encode()


def drift(tool):
    """Runs of scores: of every length about a window's and about a part of the work, with ties and the ends of 64 bits, written in many ways."""
    rng = random.Random(SEED)
    for w in range(1, 65):
        for n in (w - 1, w, w + 1, rng.randrange(4 * w)):
            run = [rng.choice(SCORES[:rng.randrange(1, 9)] + [rng.randrange(-2 ** 63, 2 ** 63)]) for _ in range(n)]
            given = "".join(str(x) + rng.choice([" ", "\n", "\t", "  \r\n", "\n\n"]) for x in run).encode()
            what = "drift %d of %d scores" % (w, n)
            tool.expect(what, tool.run("drift", w, given=given), (0, drift_text(run, w), b""))
            tool.expect(what + " as a table", tool.run("drift", w, "-", "--csv", given=given.rstrip()), (0, drift_text(run, w, ","), b""))
    for w, n in ((1, 4095), (1, 4096), (1, 4097), (2, 8193), (17, 10000), (63, 4096 + 62), (64, 4096 + 62), (64, 4096 + 63), (64, 3 * 4096 + 64)):
        run = [rng.randrange(-9, 10) * 10 ** 17 for _ in range(n)]
        path = tool.file("scores", "\n".join(map(str, run)).encode())
        tool.expect("drift %d of %d scores of a file" % (w, n), tool.run("drift", w, path), (0, drift_text(run, w), b""))
    for w in (0, 65, 2 ** 32 + 2):
        tool.refused("drift %d" % w, ("drift", w), 34, given=b"1 2 3")
        tool.refused("drift %d of no number" % w, ("drift", w), 34, given=b"none")
    for given, line, word in ((b"1 2\n3 x", 2, b"x"), (b"1\n\n-\n", 3, b"-"), (b"--1", 1, b"--1"), (b"+1", 1, b"+1"), (b"1.5 2", 1, b"1.5"),
                              (b"9223372036854775808", 1, b"9223372036854775808"), (b"1\r\n-9223372036854775809 ", 2, b"-9223372036854775809"),
                              (b"1\n" + b"7" * 65, 2, b"7" * 64), (b"score;1\n", 1, b"score"), (b"1\nscore\n", 2, b"score"),
                              (b'"1;2"\n', 1, b"1;2"), (b"Score\nSCORE\n", 2, b"SCORE")):
        for words in (("drift", 2), ("drift", 2, tool.file("scores", given), "--csv")):
            tool.fails("drift of %.20r" % given, words, b'line %d: "%s" is not a whole number' % (line, word), given=given)
    tool.expect("a long zero", tool.run("drift", 1, given=b"-" + b"0" * 63), (0, b"0 0 0 0 0\n", b""))
    tool.fails("drift of a missing file", ("drift", 2, tool.path("missing")), b"check its name and folder")
    tool.fails("drift of a folder", ("drift", 2, tool.folder), b"name a file in it")
    with open("/dev/full", "wb") as full:
        tool.fails("a full output of drift", ("drift", 1), b"make room", given=b"1", stdout=full)
    status, out, err = tool.run_endless(b"x", "drift", 3)
    tool.expect("drift of an endless word", (status, out, b"line 1: it has more than 67108864 bytes" in err), (2, b"", True))
    for turn in range(60):
        run = [rng.randrange(-99, 100) for _ in range(rng.randrange(1, 30))]
        tool.expect("drift of a spreadsheet's column", tool.run("drift", 3, given=column(rng, run)), (0, drift_text(run, 3), b""))
    for contents, kind in ((b"\x1f\x8b\x08\0", b"compressed, by gzip"), ("1\n".encode("utf-16"), b"UTF-16"), (b"PK\x03\x04", b"a spreadsheet"),
                           (b"\xd0\xcf\x11\xe0", b"a spreadsheet"), (b"RMAP\1\0", b"is a map file, and not a file of scores; "), (b"BZh9", b"by bzip2")):
        tool.fails("drift of %.9r" % contents, ("drift", 2, tool.file("scores", contents)), kind)
        tool.fails("drift of %.9r from standard input" % contents, ("drift", 2), kind, given=contents)
    tool.fails("drift with no memory", ("drift", 3), b"no memory", given=b"7 " * 8000000, preexec_fn=bounded(0))
    with subprocess.Popen([tool.program, "drift", "1"], stdin=subprocess.PIPE, stdout=subprocess.PIPE, stderr=subprocess.PIPE) as run:
        run.stdin.write(b"5\n" * 200000)
        run.stdin.close()
        run.stdout.read(5)
        run.stdout.close()
        tool.expect("a pipe of drift closed early", (run.stderr.read(), run.wait()), (b"", 0))


def command_line(tool):
    status, out, err = tool.run("--help")
    tool.expect("help", (status, err, [name for name in COMMANDS if b"\n  " + name.encode() + b" " not in out]), (0, b"", []))
    for name in COMMANDS:
        for words in ((name, "--help"), (name, "some", "-h")):
            status, out, err = tool.run(*words)
            tool.expect("help of " + name, (status, out.startswith(b"recorder " + name.encode() + b" "), err), (0, True, b""))
    path = tool.file("sound", file_bytes(0, (2, 2, 2), [[], [], []], [(1, 0, 0, 3, 0)]))
    for words in ((), ("paint",), ("map",), ("map", path, path), ("map", path, "-o"), ("map", path, "--fast"), ("factors", path), ("rewrite", path),
                  ("check", path, "-o", "x"), ("records", path, "-o", "x"), ("faults", path, "-o", "x"),
                  ("rewrite", path, "-o", tool.path("none"), "--times"), ("map", path, "-o", tool.path("none"), "-o", tool.path("none")),
                  ("info", path, "--times"), ("point", path, 1, 2), ("point", path, 1, 2, "z"), ("factor", path, 1, 2, "-"), ("line", 1, 0, 4, "2;3"),
                  ("combine", path, path), ("combine", path, "-o", "x"), ("combine", path, path, path, "-o", "x"), ("combine", "-", "-", "-o", "x"),
                  ("combine", path, path, "-o", tool.path("none"), "--times"), ("map", path, "--modulus", 2), ("line", 1, 0, 4, 2, "--modulus"),
                  ("power",), ("power", path, "-o", "x"), ("power", path, "--json"), ("section", path), ("section", path, "z"), ("section", path, "--1"),
                  ("section", path, 0, 0), ("section", path, 0, "--times"), ("picture", path, 0), ("picture", path, "-o", "x"),
                  ("picture", path, "y", "-o", "x"), ("line", 1, 0, 4, 2, "--modulus", "x"), ("line", 1, 0, 4, 2, "--modulus", 1, "--modulus", 1),
                  ("mrc", path), ("mrc", path, "-o", tool.path("none")), ("mrc", path, "--cell", "1,2,3,90"), ("mrc", path, "-o", "x", "--cell"),
                  ("mrc", path, "--cell", "1,2,3,90", "--cell", "1,2,3,90", "-o", tool.path("none")), ("map", path, "--cell", "1,2,3,90"),
                  ("overlay", path, path), ("overlay", path, "-o", "x"), ("overlay", "-", "-", "-o", "x"), ("overlay", path, path, "-o", "x", "--score"),
                  ("best",), ("best", path, path), ("best", path, "-o", "x"), ("best", path, "--csv"),
                  ("drift",), ("drift", "x"), ("drift", "-2"), ("drift", 2, "a", "b"), ("drift", 2, "-o", "x"), ("drift", 2, "--times"), ("map", path, "--csv")):
        tool.fails("usage %s" % (words,), words, b"--help")
    status, out, err = tool.run("map", path, "--times")
    tool.expect("times", (status, bool(re.fullmatch(rb"times: reading [0-9.]+ s synthesis [0-9.]+ s writing [0-9.]+ s\n", err))), (0, True))
    tool.expect("standard input", tool.run("map", "-", given=open(path, "rb").read()), tool.run("map", path))


def files_and_streams(tool):
    path = tool.path("sound")
    tool.refused("an empty file", ("map", tool.file("empty", b"")), 15)
    tool.refused("an endless file", ("map", "/dev/zero"), 15)
    for name in ON_FILES:
        more = [0, 0, 0] if name in ("point", "factor") else [0] if name in ON_PLANES else []
        more += ["-o", tool.path("none")] if name in ("factors", "rewrite", "picture") else []
        tool.fails(name + " of a missing file", (name, tool.path("missing"), *more), b"check its name and folder")
        tool.fails(name + " of a folder", (name, tool.folder, *more), b"name a file in it")
        if name in ON_COMBINED:
            made = tool.file("sound.combined", combined_bytes(0, (2, 2, 2), {q: -1 for q in all_points((2, 2, 2))}))
            want = tool.run(name, made, *more)
            tool.expect(name + " of a combined map by a stream", (want[0], tool.run(name, "-", *more, given=open(made, "rb").read())), (0, want))
    for files in ((path, tool.path("missing")), (tool.path("missing"), path)):
        for command in ("combine", "overlay"):
            files = [tool.path("sound.combined") if file == path and command == "overlay" else file for file in files]
            tool.fails(command + " of a missing file", (command, *files, "-o", tool.path("none")), b"check its name and folder")
    for name, more in (("mrc", ("--cell", "1,2,3,4,5,6", "-o", tool.path("none"))), ("best", ())):
        tool.fails(name + " of a missing file", (name, tool.path("missing"), *more), b"check its name and folder")
        tool.fails(name + " of a folder", (name, tool.folder, *more), b"name a file in it")
    tool.fails("a folder that is not there", ("map", path, "-o", tool.path("no/where")), b"make its folder first")
    tool.fails("a folder as output", ("map", path, "-o", tool.folder), b"name a file in it")
    tool.fails("a full disk", ("map", path, "-o", "/dev/full"), b"make room")
    with open("/dev/full", "wb") as full:
        for words in (("map", path), ("map", path, "-o", "-"), ("rewrite", path, "-o", "-"), ("records", path), ("check", path), ("info", path),
                      ("power", path), ("point", path, 0, 0, 0), ("best", made), ("mrc", made, "--cell", "1,2,3,90,90,90", "-o", "-"), ("overlay", made, made, "-o", "-"),
                      ("map", "--help")):
            tool.fails("a full output of %s" % words[0], words, b"make room", stdout=full)
        tool.expect("a full standard error", tool.run("check", tool.path("missing"), stderr=full)[0], 2)
        tool.expect("a full standard error", tool.run("map", tool.path("empty"), stderr=full)[0], 1)


def too_long(tool):
    """Files that go on beyond what any factor file has: of a count that allows it, and of one that does not."""
    most = 4 + 9 + 3 * 256 + 4 + 14 * LIMIT
    for length in (2 ** 32 - 5, most - 3):
        path = tool.file("long", length.to_bytes(4, "big"))
        os.truncate(path, 4 + length)
        tool.fails("a file of %d bytes" % (4 + length), ("check", path), b"cannot read %s: it has more bytes than any factor file" % path.encode(),
                   preexec_fn=bounded(0))
    path = tool.file("long", (most - 4).to_bytes(4, "big"))
    os.truncate(path, most)
    tool.refused("a file of %d bytes" % most, ("map", path), 16)
    status, out, err = tool.run_endless(bytes(16), "check", "-", first=b"\xff" * 4)
    tool.expect("an endless file", (status, out, b"cannot read standard input: it has more bytes" in err), (2, b"", True))
    os.truncate(tool.file("long", (100).to_bytes(4, "big")), 2 ** 32)
    tool.refused("a file of 4 GB with a count of 100", ("map", tool.path("long")), 15)
    os.remove(tool.path("long"))


def one_file(tool):
    """The file that is read is not written, under any name."""
    folder = tool.path("one")
    os.mkdir(folder)
    path = tool.file("one/file", open(tool.path("sound"), "rb").read())
    os.symlink("file", os.path.join(folder, "link"))
    os.link(path, os.path.join(folder, "other"))
    for name in ("file", "link", "other", "../one/./file"):
        for command in ("map", "factors", "rewrite"):
            tool.fails("%s to its own file as %s" % (command, name), (command, path, "-o", os.path.join(folder, name)), b"%s is the file to read and" % path.encode())
        for command in ON_PLANES:
            words = (command, path, 0, "-o", os.path.join(folder, name))
            tool.fails("%s to its own file as %s" % (command, name), words, b"%s is the file to read and" % path.encode())
        for files in ((path, tool.path("sound")), (tool.path("sound"), path)):
            for command in ("combine", "overlay"):
                words = (command, *files, "-o", os.path.join(folder, name))
                tool.fails("%s to its own file as %s" % (command, name), words, b"%s is the file to read and" % path.encode())
        words = ("mrc", path, "--cell", "1,2,3,90", "-o", os.path.join(folder, name))
        tool.fails("mrc to its own file as %s" % name, words, b"%s is the file to read and" % path.encode())
    with open(path, "rb") as given:
        tool.fails("standard input's own file", ("map", "-", "-o", path), b"standard input is the file to read and", stdin=given)
    with open(path, "ab") as out:
        tool.fails("the file as standard output", ("map", path), b"is the file to read and", stdout=out)
    tool.expect("the file", open(path, "rb").read(), open(tool.path("sound"), "rb").read())


def replaced(tool):
    """A written file replaces another: with its permissions, and through links, which stay."""
    folder, path = tool.path("replaced"), tool.path("sound")
    os.mkdir(folder)
    whole = tool.run("map", path, "-o", "-")[1]
    old, link, new = (os.path.join(folder, name) for name in ("old", "link", "new"))
    tool.file("replaced/old", b"old")
    os.chmod(old, 0o640)
    os.symlink("old", link)
    os.symlink("link", os.path.join(folder, "link2"))
    os.symlink("new", os.path.join(folder, "dangling"))
    for name, file in (("old", old), ("link2", old), ("dangling", new), ("new", new)):
        tool.expect("map to " + name, tool.run("map", path, "-o", os.path.join(folder, name)), (0, b"", b""))
        tool.expect("the file of " + name, open(file, "rb").read(), whole)
        tool.file("replaced/old", b"old")
    tool.expect("its permissions", os.stat(old).st_mode & 0o777, 0o640)
    tool.expect("links stay", [os.readlink(os.path.join(folder, name)) for name in ("link", "link2", "dangling")], ["old", "link", "new"])
    limit = lambda: resource.setrlimit(resource.RLIMIT_FSIZE, (20, 20))
    tool.fails("no room", ("map", path, "-o", old), b"cannot write %s: " % old.encode(), preexec_fn=limit, restore_signals=False)
    tool.expect("the old file", open(old, "rb").read(), b"old")
    tool.expect("the folder", sorted(os.listdir(folder)), ["dangling", "link", "link2", "new", "old"])


def closed_pipe(tool):
    """A reader that closes its pipe after some bytes, or at once: no panic, no words, and a refusal stays one."""
    for words in (("map", tool.path("large0")), ("map", tool.path("large0"), "-o", "-"), ("records", tool.path("large0"))):
        with subprocess.Popen([tool.program, *words], stdout=subprocess.PIPE, stderr=subprocess.PIPE) as run:
            run.stdout.read(5)
            run.stdout.close()
            tool.expect("a pipe closed early", (run.stderr.read(), run.wait()), (b"", 0))
    for words, status in ((("check", tool.path("sound")), 0), (("check", tool.path("empty")), 1), (("faults", tool.path("faulty")), 1),
                          (("map", tool.path("empty")), 1), (("--help",), 0)):
        reading, writing = os.pipe()
        os.close(reading)
        got = tool.run(*words, stdout=writing)
        os.close(writing)
        tool.expect("a closed pipe", (got[0], b"panic" in got[2]), (status, False))


# ---- large grids

def large_file(rng, g, n, lists, modulus=1):
    """A file as the writer writes it: the lowest index of each orbit, rising."""
    p = PRIMES[modulus]
    found = {}
    while len(found) < RECORDS:
        j = tuple(rng.randrange(m) for m in n)
        v = (rng.randrange(1, p), rng.randrange(p))
        orbit = images(g, n, j, v, p)
        if all(i != j or w == v for i, w in orbit):
            lowest, value = min(orbit)
            found[lowest] = value
    return found, file_bytes(g, n, lists, [(*j, *found[j]) for j in sorted(found)], modulus)


def direct_density(g, n, found, q, p=P):
    """The triple sum at a point over every factor that the records imply."""
    total = 0
    for j, v in found.items():
        for i, w in set(images(g, n, j, v, p)):
            root = ROOTS[p][sum(2880 // m * a * b for a, b, m in zip(i, q, n)) % 2880]
            total += w[0] * root[0] - w[1] * root[1]
    return total % p


def large_power(g, n, found, modulus=1):
    """What power prints: the sum over every factor that the records imply, and as the map's sum, whose points are too many to add here, that times the
    points."""
    p, points = PRIMES[modulus], n[0] * n[1] * n[2]
    of_factors = sum(w[0] ** 2 + w[1] ** 2 for j, v in found.items() for _, w in set(images(g, n, j, v, p))) % p
    of_map = points * of_factors % p
    return b"modulus %d, the prime %d\nmap %d\nfactors %d\n%d times factors %d\nthey agree\n" % (modulus, p, of_map, of_factors, points, of_map)


def bounded(volume, each=4):
    """Room for the volume, of so many bytes each number, and 24 megabytes beside it: program, file, scratch and buffers."""
    return lambda: resource.setrlimit(resource.RLIMIT_AS, (each * volume + 24 * 2 ** 20,) * 2)


def large_grids(tool):
    rng = random.Random(SEED)
    for g, length, fs in LARGE:
        n, what = (length,) * 3, "group %d at %d^3" % (g, length)
        found, contents = large_file(rng, g, n, [fs] * 3)
        path, made, back = tool.file("large%d" % g, contents), tool.path("large.map"), tool.path("large.back")
        limit = bounded(volume_length(g, n))
        tool.expect(what + ": map", tool.run("map", path, "-o", made, preexec_fn=limit), (0, b"", b""))
        tool.expect(what + ": factors", tool.run("factors", made, "-o", back, preexec_fn=limit), (0, b"", b""))
        tool.expect(what + ": the same file", os.path.exists(back) and filecmp.cmp(path, back, shallow=False), True)
        other = tool.file("large.other", file_bytes(g, n, [fs] * 3, shuffled(rng, g, n, records_in(contents))))
        tool.expect(what + ": rewrite", tool.run("rewrite", other, "-o", back, preexec_fn=limit), (0, b"", b""))
        tool.expect(what + ": the file rewritten", filecmp.cmp(path, back, shallow=False), True)
        for source in (path, made):
            tool.expect(what + ": power", tool.run("power", source, preexec_fn=limit), (0, large_power(g, n, found), b""))
        with open(made, "rb") as densities:
            for _ in range(6):
                q = tuple(rng.randrange(m) for m in (*n[:2], planes(g, n)))
                densities.seek(len(map_head(g, n, [fs] * 3)) + 4 * ((q[2] * length + q[0]) * length + q[1]))
                tool.expect(what + ": the density at %s" % (q,), number(densities.read(4)), direct_density(g, n, found, q))
    large_combined(tool, rng, g, n, [fs] * 3, found)
    large_overlay(tool, rng)
    tool.fails("no memory", ("map", tool.path("large0")), b"no memory", preexec_fn=bounded(0))


def large_combined(tool, rng, g, n, lists, found):
    """The last large file and one for the second prime: there and back, combined, and read at some points."""
    others, contents = large_file(rng, g, n, lists, 2)
    path, made, back, what = tool.file("large.second", contents), tool.path("large.combined"), tool.path("large.back"), "group %d combined" % g
    volume = volume_length(g, n)
    tool.expect(what + ": there", tool.run("map", path, "-o", tool.path("large.second.map"), preexec_fn=bounded(volume)), (0, b"", b""))
    tool.expect(what + ": and back", tool.run("factors", tool.path("large.second.map"), "-o", back, preexec_fn=bounded(volume)), (0, b"", b""))
    tool.expect(what + ": the same file", filecmp.cmp(path, back, shallow=False), True)
    tool.expect(what + ": power", tool.run("power", path, preexec_fn=bounded(volume)), (0, large_power(g, n, others, 2), b""))
    words = ("combine", tool.path("large%d" % g), tool.path("large.second.map"), "-o", made)
    tool.expect(what, tool.run(*words, preexec_fn=bounded(volume, 16)), (0, b"", b""))
    tool.expect(what + ": written again", tool.run("map", made, "-o", back, preexec_fn=bounded(volume, 8)), (0, b"", b""))
    tool.expect(what + ": the same", filecmp.cmp(made, back, shallow=False), True)
    for _ in range(4):
        q = tuple(rng.randrange(m) for m in n)
        number = combined(direct_density(g, n, found, q), direct_density(g, n, others, q, PRIMES[2]))
        tool.expect(what + ": at %s" % (q,), tool.run("point", made, *q, preexec_fn=bounded(volume, 8)), (0, b"%d\n" % number, b""))
        status, out, err = tool.run("section", made, q[2], preexec_fn=bounded(volume, 16))
        rows = [[int(line[at:at + 13]) for line in lines for at in range(4, 69, 13) if line[at:at + 13].strip()] for lines in by_rows(n, out)]
        tool.expect(what + ": plane %d" % q[2], (status, out, err, rows[q[0]][q[1]]), (0, page(rows), b"", number))
        drawn = tool.run("picture", made, q[2], "-o", "-", preexec_fn=bounded(volume, 16))[1]
        picture(tool, what, drawn, q[2], rows)


def by_rows(n, text):
    """The lines of each row of a page."""
    lines, each = text.split(b"\n"), -(-n[1] // 5)
    return [lines[x * each:(x + 1) * each] for x in range(n[0])]


def sparse(n, found):
    """A combined map file of P1 with few numbers that are not zero."""
    contents = bytearray(12 + 8 * n[0] * n[1] * n[2])
    contents[:12] = b"RCMB\1\0" + b"".join(m.to_bytes(2, "big") for m in n)
    for (x, y, z), number in found.items():
        at = 12 + 8 * ((z * n[0] + x) * n[1] + y)
        contents[at:at + 8] = number.to_bytes(8, "big", signed=True)
    return bytes(contents)


def large_overlay(tool, rng):
    """P1 at 120^3 with a few points: the whole overlay, the best shift and the file for viewers, in no more memory than is documented."""
    n = (120, 120, 120)
    volume = volume_length(0, n)
    a, b = ({tuple(rng.randrange(m) for m in n): rng.randrange(-9000, 9001) for _ in range(40)} for _ in range(2))
    values = {}
    for u, x in a.items():
        for v, y in b.items():
            s = tuple((q - p) % m for p, q, m in zip(u, v, n))
            values[s] = values.get(s, 0) + x * y
    paths, made = [tool.file("large.a", sparse(n, a)), tool.file("large.b", sparse(n, b))], tool.path("large.overlay")
    tool.expect("a large overlay", tool.run("overlay", *paths, "-o", made, preexec_fn=bounded(volume, 36)), (0, b"", b""))
    tool.expect("its values", open(made, "rb").read() == sparse(n, values), True)
    tool.expect("its best shift", tool.run("best", made, preexec_fn=bounded(volume, 8)), (0, best_text({(0, 0, 0): 0, **values}), b""))
    tool.expect("no memory", tool.run("overlay", *paths, "-o", made, preexec_fn=bounded(volume, 12))[0], 2)
    words = ("mrc", paths[0], "--cell", "10,20,30,90,95,100", "-o", tool.path("large.mrc"))
    tool.expect("a large map for viewers", tool.run(*words, preexec_fn=bounded(volume, 16)), (0, b"", b""))
    with open(tool.path("large.mrc"), "rb") as file:
        whole = file.read()
    tool.expect("its length", len(whole), 1024 + 4 * 120 ** 3)
    for (x, y, z), number in a.items():
        tool.expect("its number at %s" % ((x, y, z),), struct.unpack_from("<f", whole, 1024 + 4 * (x + 120 * (y + 120 * z)))[0], number)
    tool.expect("and no others", sum(x != 0 for x in struct.unpack_from("<%df" % 120 ** 3, whole, 1024)), sum(x != 0 for x in a.values()))


def named_pipe(tool):
    """A named pipe stays one and gets the bytes; a reader that leaves it is a failure."""
    pipe = tool.path("pipe")
    os.mkfifo(pipe)
    for source, read in ((tool.path("sound"), -1), (tool.path("large.map"), 5)):
        with subprocess.Popen([tool.program, "map", source, "-o", pipe], stderr=subprocess.PIPE) as run:
            with open(pipe, "rb") as reader:
                got = reader.read(read)
            err = run.stderr.read()
            failed = read > 0
            tool.expect("a named pipe", (run.wait(), b"cannot write %s: " % pipe.encode() in err, len(err) > 0), (2 * failed, failed, failed))
        tool.expect("what it had", got, tool.run("map", source, "-o", "-")[1][:read if failed else None])
    tool.expect("the pipe", stat.S_ISFIFO(os.stat(pipe).st_mode), True)


def ended_by_signals(tool):
    """Signals at random moments of a run that writes a file, every other one once there is an unfinished file: the old file stays or the new one is
    whole, and there is no third. A map file is written again as it is, so that much of the time is writing."""
    rng = random.Random(SEED)
    folder, source = tool.path("ended"), tool.path("large.map")
    os.mkdir(folder)
    out = os.path.join(folder, "out")
    began = time.monotonic()
    tool.expect("a map of a map", (tool.run("map", source, "-o", out), filecmp.cmp(source, out, shallow=False)), ((0, b"", b""), True))
    took = time.monotonic() - began
    kept = 0
    for turn, number in enumerate([signal.SIGTERM] * SIGNALS + [signal.SIGINT, signal.SIGHUP] * 4):
        tool.file("ended/out", b"old")
        with subprocess.Popen([tool.program, "map", source, "-o", out]) as run:
            while turn % 2 and run.poll() is None and len(os.listdir(folder)) < 2:
                pass
            time.sleep(rng.uniform(0, took / 4 if turn % 2 else took))
            run.send_signal(number)
            status = run.wait()
        old = os.path.getsize(out) == 3
        kept += old
        tool.expect("signal %d" % number, (os.listdir(folder), old or filecmp.cmp(source, out, shallow=False)), (["out"], True))
        tool.expect("signal %d, its status" % number, status in ((-number,) if old else (0, -number)), True)
    tool.expect("a signal that came before the end", kept > 0, True)
    with subprocess.Popen([tool.program, "map", source, "-o", out], preexec_fn=lambda: signal.signal(signal.SIGHUP, signal.SIG_IGN)) as run:
        while run.poll() is None:
            run.send_signal(signal.SIGHUP)
            time.sleep(took / 100)
        tool.expect("an ignored signal", (run.wait(), filecmp.cmp(source, out, shallow=False), os.listdir(folder)), (0, True, ["out"]))


def progress(tool):
    """On a terminal long work is told, and nothing of it stays; elsewhere nothing is said (large_grids). What is told beside the synthesis depends
    on how fast the machine reads and writes."""
    told = rb"(?:(?:\r(?:reading|synthesis|writing): (?:\d+ % in )?\d+\.\d s *)+\r +\r)+"
    ours, theirs = pty.openpty()
    with subprocess.Popen([tool.program, "map", tool.path("large0"), "-o", tool.path("large.map")], stderr=theirs) as run:
        os.close(theirs)
        said = b""
        try:
            while part := os.read(ours, 4096):
                said += part
        except OSError:
            pass  # a terminal whose other end is closed
        tool.expect("progress", (run.wait(), b"\rsynthesis: " in said, said if not re.fullmatch(told, said) else True), (0, True, True))
    os.close(ours)


def all_parts(tool):
    for part in (samples, combined_sample, small_grids, empty_cells, zero_records, full_cells, combined_maps, planes_of_all_kinds, refused_pairs,
                 for_viewers, overlays, records_at_fault, refused_records, refused_headers, refused_maps, lines, drift, command_line,
                 files_and_streams, too_long, one_file, replaced, large_grids, closed_pipe, named_pipe, ended_by_signals, progress):
        part(tool)
    tool.expect("the refusals", tool.seen, REFUSALS)


if __name__ == "__main__":
    tested(all_parts, Recorder)
