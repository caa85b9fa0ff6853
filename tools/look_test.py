#!/usr/bin/env python3
"""The test of what looks at maps and compares files: planes of any file, whole cells, numbers of a cell, two files side by side.

    look_test.py PROGRAM

Factor files, map files and combined map files of all five groups, both primes and several lengths: every plane as text, as a page and as a picture,
the whole cell as text, for viewers and as a file in P1, which is read back, analysed and overlaid, against the book of brute_force.py, mrc_cases.py
and direct sums. The numbers of a cell by direct sums over all its points. Two files that are the same in another order, of another version, of
another kind; that differ in an orbit, in many, in a point, in their lists, in their header; combined maps; files that are refused or missing. Wrong
command lines. P2_1 at 240^3 and 288^3 in no more memory and time than is documented. The seed is fixed. Prints how many comparisons agreed; the exit
status is 1 where one did not.
"""
import array
import filecmp
import operator
import os
import random
import re
import resource
import subprocess
import sys
from fractions import Fraction

from brute_force import (PRIMES, Book, all_points, analysed, file_bytes, images, needed, open_file, pack_map, point_images, read_cell, signed,
                         volume_length)
from expected_files import combined_bytes, map_bytes, shuffled, written
from host_test import (GREATEST, GROUPS, SAMPLES_FOLDER, best_text, bounded, cell_words, large_file, overlaid, residues, some_count, some_lists,
                       some_numbers)
from mrc_cases import mrc_file
from pictures import plane
from section_cases import page
from tool import Tool, tested

SEED = 1911
SIZES = [(2, 2, 2), (4, 6, 4), (2, 10, 6), (6, 4, 8)]
# As many orbits that differ are named where not all are asked for.
NAMED = 20


class Look(Tool):
    """The tool, with the letters of pictures that were seen."""

    def __init__(self, program, folder):
        super().__init__(program, folder)
        self.glyphs = {}

    def refused(self, what, words, refusal, of, place=0):
        """A command that must be refused: its file and number on standard error, and on standard output nothing but the line of a map's text."""
        status, out, err = self.run(*words)
        said = b"refused %d at %d" % (refusal, place)
        self.expect(what, (status, out), (1, said + b"\n" if words[0] == "map" and "-o" not in words else b""))
        self.expect(what + ", its words", (err.split(b"\n")[0], err.count(b"\n") in (3, 4)), (b"recorder: %s: %s" % (of.encode(), said), True))


# ---- maps of all kinds

class Entry:
    """A map of a group: its whole numbers at every point of the cell, and the files that have it."""

    def __init__(self, g, n, numbers, lists=None, modulus=None):
        self.g, self.n, self.numbers, self.modulus = g, n, numbers, modulus
        self.lists = lists or some_lists(n)
        if modulus:
            self.p = PRIMES[modulus]
            self.book = Book(g, n, self.lists, modulus)
            self.M = residues(numbers, modulus)
            self.book.F = read_cell(g, n, analysed(g, n, pack_map(g, n, self.M), self.p), self.p)

    def files(self, tool):
        if not self.modulus:
            return [tool.file("look.combined", combined_bytes(self.g, self.n, self.numbers))]
        return [tool.file("look.map", map_bytes(self.g, self.n, self.lists, self.M, self.modulus)), tool.file("look.factors", written(self.book))]

    def rows(self, z):
        return [[self.numbers[x, y, z] for y in range(self.n[1])] for x in range(self.n[0])]

    def text(self, some):
        """The text of some planes."""
        lines = ["map %d %d %d %d" % (self.g, *self.n)]
        lines += [" ".join(map(str, [z, x] + row)) for z in some for x, row in enumerate(self.rows(z))]
        return ("\n".join(lines) + "\n").encode()

    def in_p1(self):
        """The file in P1 with all planes."""
        if not self.modulus:
            return combined_bytes(0, self.n, self.numbers)
        return map_bytes(0, self.n, self.lists, self.M, self.modulus)

    def what(self):
        return "group %d, %s, %s" % (self.g, self.n, "modulus %d" % self.modulus if self.modulus else "combined")


def entries(rng):
    """Random maps of every group, prime and length, and combined ones with the ends of their range."""
    for g in range(5):
        for n in SIZES:
            for modulus, p in PRIMES.items():
                yield Entry(g, n, some_numbers(rng, g, n, lambda: signed(rng.randrange(p), p)), modulus=modulus)
            numbers = some_numbers(rng, g, n, lambda: some_count(rng))
            for end, q in ((GREATEST, (0, 0, 0)), (-GREATEST, (1, 1, 0))):
                numbers.update({i: end for i in point_images(g, n, q)})
            yield Entry(g, n, numbers)


def maps_of_all_kinds(tool):
    for entry in entries(random.Random(SEED)):
        for path in entry.files(tool):
            what = "%s, %s" % (entry.what(), os.path.basename(path))
            every_plane(tool, what, path, entry)
            whole_cell(tool, what, path, entry)
            tool.expect(what + ": stats", tool.run("stats", path), (0, stats_text(entry.numbers), b""))
            for_viewers(tool, what, path, entry)
    tool.expect("the letters", sorted(tool.glyphs), sorted("0123456789-xyz"))


def every_plane(tool, what, path, entry):
    """Every plane as text, as a page and as a picture; no plane beyond the last."""
    last = entry.n[2]
    for z in range(last):
        tool.expect("%s: text of plane %d" % (what, z), tool.run("map", path, "--plane", z), (0, entry.text([z]), b""))
        plane(tool, what, path, z, entry.rows(z))
    for z in (-1, -last):
        tool.expect("%s: text of plane %d" % (what, z), tool.run("map", path, "--plane", z), (0, entry.text([last + z]), b""))
    for z in (last, 2 ** 40, -last - 1):
        found = b"found: z is %d, but N3 is %d; group %d (%s), lengths %d %d %d\n" % (z, last, entry.g, GROUPS[entry.g].encode(), *entry.n)
        for words in (("map", path, "--plane", z), ("section", path, z), ("picture", path, z, "-o", tool.path("none"))):
            tool.refused(what + ": plane %d" % z, words, 10, path)
            tool.expect(what + ": what is found of it", found in tool.run(*words)[2], True)
    with open(path, "rb") as given:
        got = tool.run("map", "-", "--plane=%d" % (last - 1), stdin=given)
        tool.expect(what + ": a plane of standard input", got, (0, entry.text([last - 1]), b""))


def whole_cell(tool, what, path, entry):
    """All planes as text and as a file in P1, which has the same map, and the same factors in P1."""
    made, n = tool.path("whole"), entry.n
    text = entry.text(range(n[2]))
    tool.expect(what + ": whole cell", tool.run("map", path, "--whole-cell"), (0, text, b""))
    tool.expect(what + ": whole cell to a file", tool.run("map", path, "--whole-cell", "-o", made), (0, b"", b""))
    tool.expect(what + ": that file", open(made, "rb").read(), entry.in_p1())
    tool.expect(what + ": by a stream", tool.run("map", "-", "--whole-cell", "-o", "-", given=open(path, "rb").read()), (0, entry.in_p1(), b""))
    tool.expect(what + ": its text", tool.run("map", made), (0, b"map 0 " + text[6:], b""))
    tool.expect(what + ": its whole cell", tool.run("map", made, "--whole-cell", "-o", "-"), (0, entry.in_p1(), b""))
    if entry.modulus:
        book = Book(0, n, entry.lists, entry.modulus)
        book.F = entry.book.F
        tool.expect(what + ": its factors", tool.run("factors", made, "-o", "-"), (0, written(book), b""))


def for_viewers(tool, what, path, entry):
    """The whole cell for viewers, where a float holds every number."""
    words, kind, parameters = cell_words(entry.g, (10.5, 20.25, 30), (90, 90, 90))
    whole = mrc_file(entry.g, entry.n, pack_map(entry.g, entry.n, entry.numbers), kind, parameters)
    if whole is None:
        tool.refused(what + ": for viewers", ("mrc", path, "--cell", words, "-o", tool.path("none")), 30, path)
    else:
        tool.expect(what + ": for viewers", tool.run("mrc", path, "--cell", words, "-o", "-"), (0, whole, b""))
        wrong, _, _ = cell_words(1 if entry.g == 0 else 0, (10.5, 20.25, 30), (90, 90, 90))
        tool.refused(what + ": another cell", ("mrc", path, "--cell", wrong, "-o", tool.path("none")), 29, path)


def overlays(tool):
    """Maps of every group in P1, overlaid: at every shift the sum over the whole cell."""
    rng = random.Random(SEED)
    for g in range(5):
        for n in SIZES:
            most = int((GREATEST / (n[0] * n[1] * n[2])) ** 0.5)
            both = [Entry(g, n, some_numbers(rng, g, n, lambda: rng.randrange(-most, most + 1))) for _ in range(2)]
            paths = []
            for k, entry in enumerate(both):
                paths.append(tool.path("overlay%d" % k))
                tool.run("map", *entry.files(tool), "--whole-cell", "-o", paths[k])
            values = overlaid(n, both[0].numbers, both[1].numbers)
            what = "overlay of whole cells of group %d, %s" % (g, n)
            tool.expect(what, tool.run("overlay", *paths, "-o", tool.path("values")), (0, b"", b""))
            tool.expect(what + ": its values", open(tool.path("values"), "rb").read(), combined_bytes(0, n, values))
            tool.expect(what + ": its best", tool.run("best", tool.path("values")), (0, best_text(values), b""))


# ---- the numbers of a cell

def stats_text(numbers):
    """Sums over all points, and the first point of the least and of the greatest number by x, y, z."""
    points, total = len(numbers), sum(numbers.values())
    least, greatest = min(numbers.values()), max(numbers.values())
    first = lambda number: "%d at %d %d %d" % (number, *min(q for q, x in numbers.items() if x == number))
    mean = Fraction(total, points)
    floor = mean.numerator // mean.denominator
    return ("points %d\nleast %s\ngreatest %s\ntotal %d\nmean %d, remainder %d of %d points; %s\nzeros %d\n" % (
        points, first(least), first(greatest), total, floor, total - floor * points, points, decimal(mean),
        sum(x == 0 for x in numbers.values()))).encode()


def decimal(mean):
    """Three places; of two that are as near the one further from zero."""
    near = min((abs(Fraction(k, 1000) - abs(mean)), -k) for k in range(int(abs(mean) * 1000), int(abs(mean) * 1000) + 2))
    text = "%d.%03d" % divmod(-near[1], 1000)
    return "-" + text if mean < 0 and near[1] else text


def stats(tool):
    """Cells of few different numbers, so that many points have the least and the greatest; of one number; of none; totals of every remainder."""
    rng = random.Random(SEED)
    for g in range(5):
        for n in [(2, 2, 2), (4, 2, 6), (4, 8, 10)]:
            draws = [lambda: 0, lambda: -7, lambda: rng.randrange(2), lambda: rng.randrange(-1, 1), lambda: rng.choice((-43199, 43199))]
            for drawn in draws:
                numbers = some_numbers(rng, g, n, drawn)
                for modulus in (1, 2, None):
                    entry = Entry(g, n, numbers, modulus=modulus)
                    for path in entry.files(tool):
                        tool.expect("%s: stats" % entry.what(), tool.run("stats", path), (0, stats_text(numbers), b""))
            for drawn in (lambda: GREATEST, lambda: -GREATEST, lambda: rng.choice((-GREATEST, GREATEST, 0))):
                entry = Entry(g, n, some_numbers(rng, g, n, drawn))
                tool.expect("%s: stats" % entry.what(), tool.run("stats", *entry.files(tool)), (0, stats_text(entry.numbers), b""))
    n = (2, 4, 2)
    for total in range(-16, 17):
        left = dict.fromkeys(all_points(n), 0)
        left[1, 2, 1] = total
        entry = Entry(0, n, left)
        tool.expect("a total of %d: stats" % total, tool.run("stats", "-", given=open(*entry.files(tool), "rb").read()), (0, stats_text(left), b""))
    path = tool.file("none.factors", file_bytes(4, n, some_lists(n), []))
    tool.expect("no records: stats", tool.run("stats", path), (0, stats_text(dict.fromkeys(all_points(n), 0)), b""))


# ---- two files


def compare_lines(one, other, every=False):
    """What compare prints of two entries of one kind but the last line, and whether they are the same."""
    apart = [("group", "%d %s" % (one.g, GROUPS[one.g]), "%d %s" % (other.g, GROUPS[other.g])), ("modulus", one.modulus, other.modulus),
             ("lengths", "%d %d %d" % one.n, "%d %d %d" % other.n)]
    lines = ["%s %s and %s" % part for part in apart if part[1] != part[2]]
    if lines:
        return lines, False
    if one.modulus and one.lists != other.lists:
        said = [" ".join(",".join(map(str, fs)) or "-" for fs in entry.lists) for entry in (one, other)]
        lines.append("lists %s and %s, which change no map" % tuple(said))
    if one.modulus:
        lines += orbit_lines(one, other, every)
    apart = [(q, one.numbers[q], other.numbers[q]) for q in all_points(one.n) if one.numbers[q] != other.numbers[q]]
    line = "points %d of %d differ" % (len(apart), len(one.numbers))
    if apart:
        q, x, y = min(apart, key=lambda part: (-abs(part[2] - part[1]), part[0]))
        line += "; largest difference %d at %d %d %d: %d and %d" % (y - x, *q, x, y)
    return lines + [line], not apart


def compared(found, alike):
    """What compare does: its status and text, where the two files have these lines and are or are not the same bytes."""
    lines, same = found
    end = "not the same" if not same else "the same, byte for byte" if alike else "the same, but not byte for byte"
    return int(not same), "".join(line + "\n" for line in lines + [end]).encode(), b""


def orbit_lines(one, other, every):
    """The orbits that differ: every index of the cell is asked, and the lowest of its orbit speaks for it."""
    g, n, p = one.g, one.n, one.p
    lowest = [j for j in all_points(n) if j == min(i for i, _ in images(g, n, j, (0, 0), p))]
    values = [{j: tuple(signed(c, p) for c in entry.book.F[j]) for j in lowest} for entry in (one, other)]
    apart = [j for j in lowest if values[0][j] != values[1][j]]
    lines = ["orbits %d and %d, %d differ" % (*(sum(v != (0, 0) for v in part.values()) for part in values), len(apart))]
    shown = apart if every else apart[:NAMED]
    lines += ["%d %d %d: %d %d and %d %d" % (*j, *values[0][j], *values[1][j]) for j in shown]
    if len(apart) > len(shown):
        lines.append("and %d more; --all names them" % (len(apart) - len(shown)))
    if apart:
        j, part = min(((j, part) for j in apart for part in (0, 1)), key=lambda at: (-abs(values[1][at[0]][at[1]] - values[0][at[0]][at[1]]), at))
        x, y = values[0][j][part], values[1][j][part]
        lines.append("largest difference %d at %d %d %d, of %s: %d and %d" % (y - x, *j, "ab"[part], x, y))
    return lines


def sparse_entry(rng, g, n, modulus, count, lists=None):
    """An entry of some orbits, of which a later one may fall on an earlier one."""
    p = PRIMES[modulus]
    entry = Entry(g, n, dict.fromkeys(all_points(n), 0), lists, modulus)
    while count:
        parts = rng.choice(((1, 1), (1, 0), (0, 1)))
        count -= with_orbit(entry, tuple(rng.randrange(m) for m in n), tuple(part * rng.randrange(1, p) for part in parts))
    return summed(entry)


def with_orbit(entry, j, v):
    """Changes an orbit, if its images allow the value, and says whether they do."""
    orbit = images(entry.g, entry.n, j, v, entry.p)
    allowed = all(w == v for i, w in orbit if i == j)
    if allowed:
        entry.book.F.update(dict(orbit))
    return allowed


def summed(entry):
    """The map of the factors."""
    entry.book.map = None
    entry.M = entry.book.densities()
    entry.numbers = {q: signed(x, entry.p) for q, x in entry.M.items()}
    return entry


def changed(entry, *orbits):
    """The same with other values at some orbits."""
    other = Entry(entry.g, entry.n, dict.fromkeys(all_points(entry.n), 0), entry.lists, entry.modulus)
    other.book.F = dict(entry.book.F)
    for j, v in orbits:
        with_orbit(other, j, v)
    return summed(other)


def records_of(entry):
    """The records of the writer's file."""
    lowest = [j for j in sorted(entry.book.F) if entry.book.F[j] != (0, 0) and j == min(i for i, _ in images(entry.g, entry.n, j, (0, 0), entry.p))]
    return [(*j, *entry.book.F[j]) for j in lowest]


def forms(tool, rng, name, entry):
    """The files of an entry: as the writer writes it, in another order with a record of zero, as a map, and of modulus 1 as version 2."""
    g, n, m = entry.g, entry.n, entry.modulus
    other = shuffled(rng, g, n, records_of(entry), entry.p)
    free = [j for j in all_points(n) if entry.book.F[j] == (0, 0)]
    other += [(*rng.choice(free), 0, 0)] if free else []
    made = {"written": written(entry.book), "shuffled": file_bytes(g, n, entry.lists, other, m), "map": map_bytes(g, n, entry.lists, entry.M, m)}
    if m == 1:
        made["version 2"] = file_bytes(g, n, entry.lists, records_of(entry), 1, 2)
        made["map of version 2"] = map_bytes(g, n, entry.lists, entry.M, 1, 2)
    return {form: tool.file("%s.%s" % (name, form), contents) for form, contents in made.items()}


def both_ways(tool, rng, what, one, other):
    """Two entries in all mixtures of their files."""
    here, there = forms(tool, rng, "one", one), forms(tool, rng, "other", other)
    found = compare_lines(one, other)
    for form, path in here.items():
        for kind, beside in there.items():
            name = "%s: compare of %s and %s" % (what, form, kind)
            tool.expect(name, tool.run("compare", path, beside), compared(found, filecmp.cmp(path, beside, shallow=False)))
    path, beside = rng.choice(list(here.values())), rng.choice(list(there.values()))
    alike = filecmp.cmp(path, beside, shallow=False)
    tool.expect(what + ": compare --all", tool.run("compare", "--all", path, beside), compared(compare_lines(one, other, True), alike))
    for words in (("-", beside), (path, "-")):
        with open(path if words[0] == "-" else beside, "rb") as given:
            tool.expect(what + ": compare by a stream", tool.run("compare", *words, stdin=given), compared(found, alike))


def two_files(tool):
    rng = random.Random(SEED)
    for g in range(5):
        for modulus, p in PRIMES.items():
            for n, lists in (((4, 2, 6), None), ((4, 6, 8), [[2], [3], [2, 2]])):
                one = sparse_entry(rng, g, n, modulus, 6, lists)
                what = "group %d, %s, modulus %d" % (g, n, modulus)
                both_ways(tool, rng, what + ", the same", one, one)
                j, v = rng.choice([(j, v) for j, v in one.book.F.items() if v != (0, 0)])
                minus = (-v[0] % p, -v[1] % p)
                free = rng.choice([j for j in all_points(n) if one.book.F[j] == (0, 0)])
                both_ways(tool, rng, what + ", one orbit of another sign", one, changed(one, (j, minus)))
                both_ways(tool, rng, what + ", one orbit less", one, changed(one, (j, (0, 0))))
                both_ways(tool, rng, what + ", one orbit more", one, changed(one, (free, (1, 0)), (free, (0, 1)), (free, (p // 2, p // 2 + 1))))
                both_ways(tool, rng, what + ", many orbits", one, sparse_entry(rng, g, n, modulus, 300, lists))
                none, many = (sparse_entry(rng, g, n, modulus, count, lists) for count in (0, 40))
                both_ways(tool, rng, what + ", none and many", none, many)
    n = (2, 8, 8)
    for modulus in PRIMES:
        one = sparse_entry(rng, 1, n, modulus, 5, [[], [4], [2, 2]])
        for lists in ([[], [2, 2], [2, 2]], [[], [4], [4]]):
            other = changed(one)
            other.lists = other.book.lists = lists
            both_ways(tool, rng, "other lists", one, other)
            both_ways(tool, rng, "other lists and an orbit", changed(one, ((0, 0, 0), (5, 0))), other)
        for other in (sparse_entry(rng, 4, n, modulus, 5), sparse_entry(rng, 1, (2, 8, 6), modulus, 5), sparse_entry(rng, 2, (2, 4, 8), modulus, 5),
                      sparse_entry(rng, 1, n, 3 - modulus, 5), sparse_entry(rng, 3, (4, 8, 8), 3 - modulus, 5)):
            both_ways(tool, rng, "another header", one, other)


def points_that_differ(tool):
    """Maps that differ in a point and its images, or in two by as much with either sign; combined ones too, the ends of the range among them."""
    rng = random.Random(SEED)
    for g in range(5):
        for n in SIZES:
            for modulus, ends in ((1, 43199), (2, 151199), (None, GREATEST)):
                numbers = some_numbers(rng, g, n, lambda: rng.randrange(-9, 10))
                others = [{}, {rng.choice(all_points(n)): 1}, {(0, 0, 0): 77, (n[0] - 1, 1, n[2] - 1): 77}, {(1, 1, 1): -88, (0, 0, 0): 88}]
                for k, changes in enumerate(others):
                    other = dict(numbers)
                    for q, d in changes.items():
                        other.update({i: numbers[i] + d for i in point_images(g, n, q)})
                    two_maps(tool, rng, "points %d" % k, Entry(g, n, numbers, modulus=modulus), Entry(g, n, other, modulus=modulus))
                least, greatest = ({**numbers, **{i: end for i in point_images(g, n, (0, 1, 0))}} for end in (-ends, ends))
                two_maps(tool, rng, "ends", Entry(g, n, least, modulus=modulus), Entry(g, n, greatest, modulus=modulus))
                two_maps(tool, rng, "ends", Entry(g, n, greatest, modulus=modulus), Entry(g, n, least, modulus=modulus))
    one = Entry(1, (4, 4, 4), dict.fromkeys(all_points((4, 4, 4)), 3))
    for other in (Entry(2, (4, 4, 4), one.numbers), Entry(1, (4, 4, 2), dict.fromkeys(all_points((4, 4, 2)), 3)),
                  Entry(0, (2, 4, 4), dict.fromkeys(all_points((2, 4, 4)), 3))):
        two_maps(tool, rng, "combined maps of two headers", one, other)


def two_maps(tool, rng, what, one, other):
    """Two maps of one kind, one of them as a factor file at times."""
    path = tool.file("one", open(rng.choice(one.files(tool)), "rb").read())
    beside = tool.file("other", open(rng.choice(other.files(tool)), "rb").read())
    found = compared(compare_lines(one, other), filecmp.cmp(path, beside, shallow=False))
    tool.expect("%s, %s: compare" % (one.what(), what), tool.run("compare", path, beside), found)


def samples(tool):
    """The repository's samples: their numbers, and each beside itself, its map and the others."""
    paths = [os.path.join(SAMPLES_FOLDER, name + ".factors") for name in ("p21", "p21.second", "p212121", "empty")]
    found = []
    for path in paths:
        with open(path, "rb") as file:
            contents = file.read()
        book = open_file(contents, needed(contents))[2]
        entry = Entry(book.g, book.n, dict.fromkeys(all_points(book.n), 0), book.lists, book.modulus)
        entry.book = book
        found.append(summed(entry))
        tool.expect("%s: stats" % path, tool.run("stats", path), (0, stats_text(entry.numbers), b""))
        tool.run("map", path, "-o", tool.path("sample.map"))
        got = tool.run("compare", tool.path("sample.map"), path)
        tool.expect("%s: compare with its map" % path, got, compared(compare_lines(entry, entry), False))
    for path, one in zip(paths, found):
        for beside, other in zip(paths, found):
            want = compared(compare_lines(one, other), path == beside)
            tool.expect("%s and %s: compare" % (path, beside), tool.run("compare", path, beside), want)


# ---- what cannot be done

def not_compared(tool):
    """Files of two kinds, refused ones, missing ones."""
    n = (4, 4, 4)
    seven = dict.fromkeys(all_points(n), 7)
    paths = {"factors": tool.file("sound", file_bytes(3, n, some_lists(n), [])), "map": tool.file("sound.map", map_bytes(3, n, some_lists(n), seven)),
             "combined": tool.file("sound.combined", combined_bytes(3, n, seven))}
    for kind in ("factors", "map"):
        for files in ((paths[kind], paths["combined"]), (paths["combined"], paths[kind])):
            said = "%s is a combined map file and %s is not" % (paths["combined"], paths[kind])
            tool.fails("compare of %s and combined" % kind, ("compare", *files), said.encode())
    lists = some_lists(n)
    bad = [("factors", file_bytes(3, n, lists, [(0, 0, 0, 1, 0), (1, 0, 0, 5, 7)]), 12, 1), ("factors", b"", 15, 0),
           ("factors", b"\0\0\0\5\1\0", 15, 0),
           ("map", map_bytes(3, n, lists, {**seven, (1, 1, 0): 8}), 14, 0), ("map", map_bytes(3, n, lists, seven)[:-1], 15, 0),
           ("map", map_bytes(3, n, lists, {**seven, (1, 1, 0): PRIMES[1]}), 7, 0),
           ("combined", combined_bytes(3, n, {**seven, (1, 1, 0): 8}), 14, 0), ("combined", combined_bytes(3, n, seven) + b"x", 15, 0),
           ("combined", combined_bytes(3, n, {**seven, (1, 1, 1): GREATEST + 1}), 28, 0)]
    for kind, contents, refusal, place in bad:
        path = tool.file("bad", contents)
        for files in ((path, paths[kind]), (paths[kind], path), (path, path)):
            tool.refused("compare of a refused file", ("compare", *files), refusal, path, place)
        for words in (("stats", path), ("section", path, 0), ("mrc", path, "--cell", "1,2,3,90", "-o", tool.path("none")),
                      ("map", path, "--plane", 9), ("map", path, "--whole-cell"), ("map", path, "--whole-cell", "-o", tool.path("none"))):
            tool.refused("%s of a refused file" % words[0], words, refusal, path, place)
    for missing, part in ((tool.path("missing"), b"check its name and folder"), (tool.folder, b"name a file in it")):
        for words in (("compare", paths["map"], missing), ("compare", missing, paths["map"]), ("stats", missing), ("map", missing, "--whole-cell"),
                      ("map", missing, "--plane", 0), ("section", missing, 0)):
            tool.fails("%s of no file" % words[0], words, part)
    tool.expect("refused commands write no file", os.path.exists(tool.path("none")), False)


def command_line(tool):
    path, none = tool.path("sound"), tool.path("none")
    for words in (("map", path, "--plane"), ("map", path, "--plane", "x"), ("map", path, "--plane", "--1"), ("map", path, "--plane", 0, "-o", none),
                  ("map", path, "--plane", 0, "-o", "-"), ("map", path, "--plane", 0, "--whole-cell"), ("map", path, "--whole-cell=1"),
                  ("map", path, "--plane", 0, "--plane", 1), ("map", path, "--whole-cell", "--whole-cell"), ("map", "--whole-cell"),
                  ("map", path, "--plane", 0, "--whole-cell", "-o", none), ("factors", path, "--whole-cell", "-o", none), ("section", path),
                  ("stats",), ("stats", path, path), ("stats", path, "-o", none), ("stats", path, "--csv"), ("compare",), ("compare", path),
                  ("compare", path, path, path), ("compare", "-", "-"), ("compare", path, path, "-o", none), ("compare", path, path, "--all=1"),
                  ("map", path, "--whole-cell", "-o", path)):
        tool.fails("usage %s" % (words,), words, b"--help")
    for name in ("stats", "compare"):
        status, out, err = tool.run(name, "--help")
        tool.expect("help of " + name, (status, out.startswith(b"recorder %s FILE" % name.encode()), err), (0, True, b""))
    for more in (("--whole-cell",), ("--plane", 3), ("--whole-cell", "-o", tool.path("whole"))):
        status, _, err = tool.run("map", path, "--times", *more)
        tool.expect("times", (status, bool(re.fullmatch(rb"times: reading [0-9.]+ s synthesis [0-9.]+ s writing [0-9.]+ s\n", err))), (0, True))
    with open("/dev/full", "wb") as full:
        for words in (("stats", path), ("compare", path, path), ("map", path, "--plane", 0), ("map", path, "--whole-cell")):
            tool.fails("a full output of %s" % words[0], words, b"make room", stdout=full)
    differs = tool.file("differs", file_bytes(3, (4, 4, 4), some_lists((4, 4, 4)), [(0, 0, 0, 1, 0)]))
    other = tool.file("other", file_bytes(3, (4, 4, 2), some_lists((4, 4, 2)), []))
    for words, status in ((("compare", path, path), 0), (("compare", path, differs), 1), (("compare", path, other), 1), (("stats", path), 0)):
        reading, writing = os.pipe()
        os.close(reading)
        got = tool.run(*words, stdout=writing)
        os.close(writing)
        tool.expect("a closed pipe of %s" % words[0], (got[0], got[2]), (status, b""))


# ---- large grids

def taken(tool, *words, limit):
    """Runs a command in so much memory; its result and the seconds of processor time that it took."""
    before = resource.getrusage(resource.RUSAGE_CHILDREN)
    got = tool.run(*words, preexec_fn=limit)
    after = resource.getrusage(resource.RUSAGE_CHILDREN)
    return got, after.ru_utime + after.ru_stime - before.ru_utime - before.ru_stime


def residues_in(path, count):
    """The residues of a map file."""
    with open(path, "rb") as file:
        file.seek(-4 * count, os.SEEK_END)
        found = array.array("I", file.read())
    if sys.byteorder == "little":
        found.byteswap()
    return found


def point_at(n, place):
    """The point of a residue of a map in P1."""
    return place // n[1] % n[0], place % n[1], place // (n[0] * n[1])


def first_with(n, values, number):
    """The first point by x, y, z of those with a number."""
    places, at = [], -1
    for _ in range(values.count(number)):
        at = values.index(number, at + 1)
        places.append(point_at(n, at))
    return min(places)


def large(tool):
    """P2_1 at 240^3: the whole cell against the images of stored points, stats and compare against Python's sums, in a few times the synthesis and in
    no more memory than is documented."""
    rng = random.Random(SEED)
    g, n, lists, p = 1, (240, 240, 240), [[4, 5, 3, 2]] * 3, PRIMES[1]
    volume, points = volume_length(g, n), 240 ** 3
    found, contents = large_file(rng, g, n, lists)
    found[min(found)] = (found[min(found)][0] + 1) % p, found[min(found)][1]
    other = file_bytes(g, n, lists, [(*j, *found[j]) for j in sorted(found)])
    paths = [tool.file("large", contents), tool.file("large.other", other)]
    made, wholes = [tool.path("large.map"), tool.path("other.map")], [tool.path("whole.map"), tool.path("other.whole")]
    for path, stored, whole in zip(paths, made, wholes):
        got, synthesis = taken(tool, "map", path, "-o", stored, limit=bounded(volume))
        tool.expect("large: map", got, (0, b"", b""))
        got, took = taken(tool, "map", stored, "--whole-cell", "-o", whole, limit=bounded(volume))
        tool.expect("large: whole cell", got, (0, b"", b""))
        tool.expect("large: its time, %.2f s, and that of the synthesis, %.2f s" % (took, synthesis), took < 4 * synthesis, True)
    values, others = (residues_in(whole, points) for whole in wholes)
    tool.expect("large: the stored planes", values[:points // 2] == residues_in(made[0], points // 2), True)
    for _ in range(1000):
        q = tuple(rng.randrange(m) for m in n)
        place, image = ((z * 240 + x) * 240 + y for x, y, z in point_images(g, n, q))
        tool.expect("large: the image of %s" % (q,), values[place], values[image])
    table = [signed(x, p) for x in range(p)]
    numbers, changes = (array.array("i", map(table.__getitem__, part)) for part in (values, others))
    least, greatest, total = min(numbers), max(numbers), sum(numbers)
    want = b"points %d\nleast %d at %d %d %d\ngreatest %d at %d %d %d\ntotal %d\nmean %d, remainder %d of %d points; %s\nzeros %d\n" % (
        points, least, *first_with(n, numbers, least), greatest, *first_with(n, numbers, greatest), total, total // points, total % points, points,
        decimal(Fraction(total, points)).encode(), numbers.count(0))
    got, took = taken(tool, "stats", made[0], limit=bounded(volume))
    tool.expect("large: stats", got, (0, want, b""))
    tool.expect("large: the time of stats, %.2f s" % took, took < 3 * synthesis, True)
    differences = array.array("i", map(operator.sub, changes, numbers))
    most = max(-min(differences), max(differences))
    q = min(first_with(n, differences, end) for end in (-most, most) if end in differences)
    place = (q[2] * 240 + q[0]) * 240 + q[1]
    line = b"points %d of %d differ; largest difference %d at %d %d %d: %d and %d" % (
        points - differences.count(0), points, differences[place], *q, numbers[place], changes[place])
    for files in (paths, made, (paths[0], made[1])):
        got, took = taken(tool, "compare", *files, limit=bounded(volume, 8))
        lines = got[1].split(b"\n")
        tool.expect("large: compare", (got[0], lines[0], got[2]), (1, b"orbits 7000 and 7000, 1 differ", b""))
        tool.expect("large: compare, its end", lines[-3:], [line, b"not the same", b""])
        tool.expect("large: the time of compare, %.2f s" % took, took < 12 * synthesis, True)
    got, took = taken(tool, "compare", paths[0], made[0], limit=bounded(volume, 8))
    want = b"orbits 7000 and 7000, 0 differ\npoints 0 of %d differ\nthe same, but not byte for byte\n" % points
    tool.expect("large: the same", got, (0, want, b""))
    for path in (paths[0], made[0]):
        z = rng.randrange(120, 240)
        rows = [[numbers[(z * 240 + x) * 240 + y] for y in range(240)] for x in range(240)]
        text = "map 1 240 240 240\n" + "".join(" ".join(map(str, [z, x] + row)) + "\n" for x, row in enumerate(rows))
        tool.expect("large: plane %d" % z, taken(tool, "map", path, "--plane", z, limit=bounded(volume))[0], (0, text.encode(), b""))
        tool.expect("large: page %d" % z, taken(tool, "section", path, z, limit=bounded(volume, 12))[0], (0, page(rows), b""))
        words = ("mrc", path, "--cell", "1,2,3,90", "-o", tool.path("large.mrc"))
        tool.expect("large: for viewers", taken(tool, *words, limit=bounded(volume, 16))[0], (0, b"", b""))
    with open(tool.path("large.mrc"), "rb") as file:
        file.seek(1024)
        floats = array.array("f", file.read())
    tool.expect("large: its numbers", [floats[x + 240 * (y + 240 * z)] for x, y, z in ((7, 8, 150), (239, 0, 239), (0, 239, 120))],
                [numbers[(z * 240 + x) * 240 + y] for x, y, z in ((7, 8, 150), (239, 0, 239), (0, 239, 120))])
    tool.fails("large: no memory", ("compare", *made), b"no memory", preexec_fn=bounded(volume, 1))


def too_large_in_p1(tool):
    """P2_1 at 288^3, whose volume in P1 would be too large: refused as a file, and nothing is written; printed nevertheless."""
    n = (288, 288, 288)
    path, none = tool.file("large", file_bytes(1, n, [[4, 4, 3, 3]] * 3, [(0, 0, 0, 5, 0)])), tool.path("none")
    tool.refused("a whole cell of 288^3", ("map", path, "--whole-cell", "-o", none), 9, path)
    found = tool.run("map", path, "--whole-cell", "-o", none)[2].decode().split("\n")[2:3]
    tool.expect("what is found", found, ["found: group 0 (P1), lengths 288 288 288, modulus 1, lists 4,4,3,3 4,4,3,3 4,4,3,3: 24053760 numbers"])
    whole = b"RCMB\1\1" + b"\1\x20" * 3 + (5).to_bytes(8, "big") * (144 * 288 * 288)
    combined = tool.file("large", whole)
    tool.refused("a combined whole cell of 288^3", ("map", combined, "--whole-cell", "-o", none), 9, combined)
    tool.expect("nothing is written", os.path.exists(none), False)
    with subprocess.Popen([tool.program, "map", combined, "--whole-cell"], stdout=subprocess.PIPE, stderr=subprocess.PIPE) as run:
        lines = [run.stdout.readline() for _ in range(3)]
        run.stdout.close()
        want = [b"map 1 288 288 288\n"] + [b"0 %d" % x + b" 5" * 288 + b"\n" for x in (0, 1)]
        tool.expect("its text", (lines, run.stderr.read(), run.wait()), (want, b"", 0))
    want = b"points 23887872\nleast 5 at 0 0 0\ngreatest 5 at 0 0 0\ntotal 119439360\nmean 5, remainder 0 of 23887872 points; 5.000\nzeros 0\n"
    tool.expect("its stats", tool.run("stats", combined, preexec_fn=bounded(volume_length(1, n), 8)), (0, want, b""))
    tool.expect("its plane", tool.run("map", combined, "--plane", 287)[1][:39], b"map 1 288 288 288\n287 0" + b" 5" * 8)


def all_parts(tool):
    for part in (maps_of_all_kinds, overlays, stats, two_files, points_that_differ, samples, not_compared, command_line, large, too_large_in_p1):
        part(tool)


if __name__ == "__main__":
    tested(all_parts, Look)
