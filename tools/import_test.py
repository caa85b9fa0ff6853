#!/usr/bin/env python3
"""The test of `recorder import`: counts that come in as text, as a table or in a file of other programs.

    import_test.py PROGRAM

Maps that obey their group are drawn point by point by brute_force.py's images, for all five groups, and written here as the text that `map` prints
and as that of the whole cell, as tables in any order as spreadsheets write them (semicolons, quotes, names in any case, a byte order mark, Windows
line ends, indices from the end), and as MRC files in modes 0, 1, 2 and 6, in both byte orders, with axes in every order, from any index on and with an
extended header, of the whole cell or the stored planes. What `import` writes is compared byte for byte with expected_files.py's map files and combined
map files; `map` and `mrc` undo it and are undone by it. A number is changed: the refusal must name two points that are images of each other and
their numbers. What is wrong in every other way is told, and nothing is written. Then the files of mrc_writers.py, by mrcfile and gemmi, where
/usr/bin/python3 has them. The seed is fixed. Prints how many comparisons agreed; the exit status is 1 where one did not.
"""
import itertools
import json
import os
import random
import re
import struct
import subprocess

from brute_force import PRIMES, all_points, file_bytes, pack_map, planes, point_images
from expected_files import combined_bytes, map_bytes, text_of
from mrc_cases import bits, mrc_file
from pack_test import chosen
from tool import tested

SEED = 41
NAMES = ["P1", "P2_1", "Pm", "Pa", "P2_1 2_1 2_1"]
SPELT = [["P1", "P 1"], ["P21", "P2₁", "P2_1"], ["Pm"], ["Pa", "P a"], ["P212121", "P2_12_12_1", "P 21 21 21", "P2₁2₁2₁"]]
SHAPES = [(2, 2, 2), (6, 8, 4), (4, 6, 10), (12, 2, 8), (8, 10, 6)]
GREATEST = 13063485600
EXACT = 16777215
MODES = {0: ("b", 127), 1: ("h", 32767), 2: ("f", 43199), 6: ("H", 43199)}
MOST = {1: 43199, 2: 151199}
CELL = [("30,40,50,80,90,100", (0, (30, 40, 50, 80, 90, 100))), ("30,40,50,100", (1, (30, 40, 50, 90, 90, 100)))]


def obeying(rng, g, n, least, greatest):
    """Numbers of a cell that obey its group, the ends of the range among them."""
    drawn = {x: rng.choice((least, greatest, 0, rng.randint(least, greatest))) for x in all_points(n)}
    return {x: drawn[min(point_images(g, n, x))] for x in drawn}


def map_file(g, n, M, modulus=1, lists=None):
    return map_bytes(g, n, lists or [chosen(c) for c in n], {x: M[x] % PRIMES[modulus] for x in M}, modulus)


def made(out, kind, g, n, count, modulus=None):
    """The line that says what was made."""
    of = ", modulus %d, lists %s" % (modulus, " ".join(",".join(map(str, chosen(c))) or "-" for c in n)) if modulus else ""
    return ("%s: %s, %s, %d %d %d, %d %s%s\n" % (out, kind, NAMES[g], *n, count, "densities" if modulus else "numbers", of)).encode()


def whole_text(g, n, M):
    lines = ["map %d %d %d %d" % (g, *n)]
    lines += [" ".join(str(c) for c in [z, x] + [M[x, y, z] for y in range(n[1])]) for z in range(n[2]) for x in range(n[0])]
    return ("\n".join(lines) + "\n").encode()


def table(rng, n, points, M):
    """A table as a spreadsheet writes it, in any order."""
    between, end, quote = rng.choice([",", ";", "\t", " ", " ; ", ", "]), rng.choice(["\n", "\r\n"]), rng.choice(["", "", '"'])
    rows = [[c if rng.random() < 0.8 else c - m for c, m in zip(x, n)] + [M[x]] for x in rng.sample(points, len(points))]
    lines = [rng.choice([["x", "y", "z", "count"], ["X", "Y", "Z", "Count"], ["x", "Y", "z", "density"]])] if rng.random() < 0.7 else []
    text = "".join(between.join(quote + str(c) + quote for c in row) + end for row in lines + rows)
    return rng.choice([b"", b"\xef\xbb\xbf"]) + (text if rng.random() < 0.8 else text.rstrip() + "  # the last" + end + end).encode()


def mrc(n, M, mode=2, order="<", axes=(0, 1, 2), starts=(0, 0, 0), extended=b"", stored=None, stamp=None, header=()):
    """A file of other programs. Starts are those of x, y and z; of stored planes alone there are as many."""
    counts = [n[0], n[1], stored or n[2]]
    words = [0] * 256
    words[0:3], words[3] = [counts[a] for a in axes], mode
    words[4:7], words[7:10] = [starts[a] for a in axes], n
    words[16:19], words[22], words[23] = [a + 1 for a in axes], 1, len(extended)
    for number, word in header:
        words[number - 1] = word
    head = bytearray(struct.pack(order + "256i", *words))
    head[208:212], head[212:216] = b"MAP ", (stamp or {"<": b"\x44\x44\0\0", ">": b"\x11\x11\0\0"}[order])
    data = []
    for s, r, c in itertools.product(range(counts[axes[2]]), range(counts[axes[1]]), range(counts[axes[0]])):
        at = [0, 0, 0]
        for a, i in zip(axes, (c, r, s)):
            at[a] = (i + starts[a]) % n[a]
        data.append(M[tuple(at)])
    return bytes(head) + extended + struct.pack(order + "%d%s" % (len(data), MODES[mode][0]), *data)


def imported(tool, what, given, words, want):
    """Standard input to standard output."""
    tool.expect(what, tool.run("import", "-", "-o", "-", *words, given=given), (0, want, b""))


def to_file(tool, what, given, words, want, line):
    out = tool.path("out")
    status, said, err = tool.run("import", "-", "-o", out, *words, given=given)
    got = open(out, "rb").read() if os.path.exists(out) else None
    tool.expect(what, (status, said, err, got), (0, line(out), b"", want))
    if got is not None:
        os.unlink(out)


def texts(tool, rng):
    for g, n in itertools.product(range(5), SHAPES):
        stored, lists = planes(g, n) * n[0] * n[1], [chosen(c) for c in n]
        for modulus in (1, 2):
            M = obeying(rng, g, n, -MOST[modulus], MOST[modulus])
            text, want = text_of(g, n, M), map_file(g, n, M, modulus)
            words = ["--modulus", modulus] if modulus == 2 or rng.random() < 0.5 else []
            to_file(tool, "a text", text, words, want, lambda out: made(out, "map file", g, n, stored, modulus))
            imported(tool, "a text of the whole cell", whole_text(g, n, M), words + ["--group", rng.choice(SPELT[g])], want)
            tool.expect("map undoes import", tool.run("map", "-", given=want), (0, text, b""))
            tool.expect("import undoes map --whole-cell", tool.run("map", "-", "--whole-cell", given=want), (0, whole_text(g, n, M), b""))
            odd = [fs[::-1] for fs in lists]
            said = " ".join(",".join(map(str, fs)) or "-" for fs in odd)
            imported(tool, "with lists", text, words + ["--lists", said], map_file(g, n, M, modulus, odd))
        M = obeying(rng, g, n, -GREATEST, GREATEST)
        text, want = text_of(g, n, M), combined_bytes(g, n, M)
        to_file(tool, "a combined text", text, ["--combined"], want, lambda out: made(out, "combined map file", g, n, stored))
        imported(tool, "a combined text of the whole cell", whole_text(g, n, M), ["--combined"], want)
        tool.expect("map undoes it", tool.run("map", "-", given=want), (0, text, b""))
        both(tool, g, n, M, text)


def both(tool, g, n, M, text):
    out, stored = tool.path("pair"), planes(g, n) * n[0] * n[1]
    status, said, err = tool.run("import", "-", "--both", "-o", out, given=text)
    names = [out + ending for ending in (".map", ".second.map", ".combined")]
    lines = [made(name, "map file", g, n, stored, m) for name, m in zip(names, (1, 2))] + [made(names[2], "combined map file", g, n, stored)]
    tool.expect("both", (status, said, err), (0, b"".join(lines), b""))
    want = [map_file(g, n, M, 1), map_file(g, n, M, 2), combined_bytes(g, n, M)]
    tool.expect("the files of both", [open(name, "rb").read() for name in names], want)
    tool.expect("combine gives the third", tool.run("combine", *names[:2], "-o", "-"), (0, want[2], b""))
    for name in names:
        os.unlink(name)


def tables(tool, rng):
    for g, n in itertools.product(range(5), SHAPES[:4]):
        M = obeying(rng, g, n, -43199, 43199)
        words = ["--group", rng.choice(SPELT[g]), "--lengths", "%d,%d,%d" % n]
        stored = [x for x in all_points(n) if x[2] < planes(g, n)]
        for turn in range(4):
            points = stored if turn % 2 else all_points(n)
            imported(tool, "a table", table(rng, n, points, M), words, map_file(g, n, M))
        if len(stored) > 1:
            left = rng.choice(stored)
            text = table(rng, n, [x for x in all_points(n) if x != left], M)
            part = "there is no count for x %d, y %d, z %d; the whole cell" % left
            if any(x[2] >= planes(g, n) for x in all_points(n)):
                told(tool, "a point is missing", text, words, part)
            told(tool, "a stored point is missing", table(rng, n, [x for x in stored if x != left], M), words, "there is no count for x %d, y %d, z %d; the" % left)
        x = rng.choice(stored)
        told(tool, "a point twice", b"%d,%d,%d,5\n\n%d,%d,%d,5\n" % (*x, *x), words, "line 3: x %d, y %d, z %d was given in line 1 already" % x)
        for axis, name in enumerate("xyz"):
            for index in (n[axis], -n[axis] - 1, 10 ** 17):
                at = [0, 0, 0]
                at[axis] = index
                status, out, err = tool.run("import", "-", "-o", "-", *words, given=b"0 0 0 1\n%d,%d,%d,5\n" % tuple(at) if index != 0 else b"")
                found = b"found: %s is %d, but N%d is %d\n" % (name.encode(), index, axis + 1, n[axis])
                tool.expect("an index outside", (status, out, b"line 2: refused 10 at 0\n" in err, found in err), (1, b"", True, True))


def viewers(tool, rng):
    orders = list(itertools.permutations((0, 1, 2)))
    for turn, (g, n, mode) in enumerate(itertools.product(range(5), SHAPES, MODES)):
        kind, greatest = MODES[mode]
        M = obeying(rng, g, n, 0 if kind.isupper() else -greatest, greatest)
        words, want = ["--group", rng.choice(SPELT[g])], map_file(g, n, M)
        for order in "<>":
            starts = [rng.choice((0, 1, -1, 5, -n[a], 2 * n[a] + 1)) for a in range(3)]
            extended = bytes(rng.randrange(256) for _ in range(rng.choice((0, 0, 80, 1024))))
            imported(tool, "a viewer's file", mrc(n, M, mode, order, orders[turn % 6], starts, extended), words, want)
            starts[2] = rng.choice((0, n[2], -3 * n[2]))
            imported(tool, "its stored planes", mrc(n, M, mode, order, rng.choice(orders), starts, extended, planes(g, n)), words, want)
            imported(tool, "an odd stamp", mrc(n, M, mode, order, orders[turn % 6], starts, extended, stamp=bytes(4)), words, want)
        if mode == 2:
            M = obeying(rng, g, n, -EXACT, EXACT)
            said, (kind, p) = CELL[g > 0] if g < 4 else ("30,40,50,90", (1, (30, 40, 50, 90, 90, 90)))
            file = mrc_file(g, n, pack_map(g, n, M), kind, [bits(x) for x in p])
            want = combined_bytes(g, n, M)
            imported(tool, "import of mrc's file", file, words + ["--combined"], want)
            tool.expect("mrc undoes import", tool.run("mrc", "-", "--cell", said, "-o", "-", given=want), (0, file, b""))


POINT = rb"x (\d+), y (\d+), z (\d+)"
IMAGES = re.compile(rb"found: count (-?\d+) at " + POINT + rb", but (-?\d+) at its image " + POINT + rb"\n")


def broken(tool, rng):
    """One number is changed: two points that are images of each other are named, the changed one among them."""
    named = 0
    for g, n in itertools.product(range(5), SHAPES):
        for turn in range(12):
            most = rng.choice((43199, GREATEST))
            M = obeying(rng, g, n, -most, most)
            x = rng.choice(all_points(n))
            old, M[x] = M[x], rng.choice([c for c in (0, 1, -most, most, M[x] // 2) if c != M[x]])
            orbit = {y for y in point_images(g, n, x) if y != x}
            whole, stored = rng.random() < 0.6, lambda y: y[2] < planes(g, n)
            seen = [y for y in orbit if whole or stored(y)] if whole or stored(x) else []
            words = ["--combined"] if most == GREATEST else []
            given = whole_text(g, n, M) if whole else text_of(g, n, M)
            status, out, err = tool.run("import", "-", "-o", "-", *words, given=given)
            if not seen:
                if not stored(x) and not whole:
                    M[x] = old
                tool.expect("a number of its own", (status, out), (0, combined_bytes(g, n, M) if words else map_file(g, n, M)))
                continue
            found = IMAGES.search(err)
            tool.expect("a number that breaks the group", (status, out, b"refused 14 at 0" in err, bool(found)), (1, b"", True, True))
            if found:
                a, *at, b, x1, y1, z1 = map(int, found.groups())
                here, there = tuple(at), (x1, y1, z1)
                tool.expect("its images", (there in point_images(g, n, here), x in (here, there), M[here], M[there]), (True, True, a, b))
                named += 1
    tool.expect("many were named", named > 150, True)


def told(tool, what, given, words, part):
    """Status 2 and words, and nothing is written."""
    out = tool.path("none")
    status, said, err = tool.run("import", "-", "-o", out, *words, given=given)
    tool.expect(what, (status, said, part in err.decode(), os.path.exists(out)), (2, b"", True, False))


def beyond(tool, rng):
    for g, n in itertools.product(range(5), SHAPES[1:3]):
        for modulus, more in ((1, "--modulus 2 (to 151199), --combined"), (2, "give --combined or --both")):
            M = obeying(rng, g, n, -9, 9)
            x = min(point_images(g, n, rng.choice(all_points(n))), key=lambda y: (y[2], y[0], y[1]))
            M.update((y, rng.choice((-1, 1)) * (MOST[modulus] + 1)) for y in [x])
            M.update((y, M[x]) for y in point_images(g, n, x))
            part = "%d at x %d, y %d, z %d is beyond %d" % (M[x], *x, MOST[modulus])
            told(tool, "beyond modulus %d" % modulus, text_of(g, n, M), ["--modulus", modulus], part)
            told(tool, "and what to do", whole_text(g, n, M), ["--modulus", modulus], more)
            for number in (-10 ** 30, -2 ** 63, 2 ** 63, 2 ** 64 + 1):
                given = text_of(g, n, {**M, **{y: number for y in point_images(g, n, x)}})
                told(tool, "far beyond modulus %d" % modulus, given, ["--modulus", modulus], "at x %d, y %d, z %d is beyond %d" % (*x, MOST[modulus]))
        for number in (GREATEST + 1, -GREATEST - 1, 10 ** 30):
            M.update((y, number) for y in point_images(g, n, x))
            for word in ("--combined", "--both"):
                status, out, err = tool.run("import", "-", word, "-o", tool.path("none"), given=text_of(g, n, M))
                shown = min(max(number, -2 ** 63), 2 ** 63 - 1)
                found = b"found: count %d at x %d, y %d, z %d\n" % (shown, *x)
                tool.expect("beyond both", (status, out, b"refused 28 at 0" in err, found in err), (1, b"", True, True))
    tool.expect("nothing is written", sorted(name for name in os.listdir(tool.folder) if name.startswith("none")), [])


def wrong(tool, rng):
    n = (6, 8, 4)
    M = obeying(rng, 1, n, -100, 100)
    text, file = text_of(1, n, M), mrc(n, M)
    lines = text.split(b"\n")
    for what, given, part in [
        ("nothing", b"", "line 1: there are no counts"), ("blanks", b"\n \n# x\n", "line 3: there are no counts"),
        ("a row is missing", b"\n".join(lines[:5] + lines[6:]), "line 6: x is 5, and should be 4"),
        ("the last row is missing", b"\n".join(lines[:-2]), "ends with 11 rows; 2 stored planes have 12, all 4 planes 24"),
        ("a plane", tool.run("map", "-", "--plane", 1, given=map_file(1, n, M))[1], "line 2: z is 1, and should be 0"),
        ("a row too many", whole_text(1, n, M) + b"4 0 1 2 3 4 5 6 7 8\n", "line 26: a row behind the last: the whole cell has 24"),
        ("a number too few", text.replace(lines[3], lines[3].rsplit(b" ", 1)[0]), "line 4: 7 counts; a row has 8"),
        ("a number too many", text.replace(lines[3], lines[3] + b" 1"), "line 4: 9 counts; a row has 8"),
        ("no number", text.replace(lines[3], lines[3] + b".5"), "is not a whole number"),
        ("three lengths", b"map 1 6 8\n", "line 1: map takes four numbers"), ("a long line", b"map 1 6 8 4\n" + b" " * 70000, "more than 65536 bytes"),
        ("a map file", map_file(1, n, M), "is a map file"), ("a combined map file", combined_bytes(1, n, M), "is a combined map file"),
        ("a factor file", file_bytes(1, n, [[3], [4], [2]], [(0, 0, 0, 1, 0)]), "is a factor file"), ("gzip", b"\x1f\x8b\x08\0rest", "by gzip"),
        ("a spreadsheet", b"PK\x03\x04rest", "a spreadsheet"), ("UTF-16", "map 1".encode("utf-16"), "UTF-16"), ("bytes", b"\0\1\2\3", "names no group"),
        ("a picture", b"\x89PNG\r\n", "a picture"),
    ]:
        told(tool, what, given, [], part)
    told(tool, "another group", text, ["--group", "Pm"], "not those of the command line")
    told(tool, "other lengths", text, ["--lengths", "6,8,6"], "not those of the command line")
    told(tool, "no group", file, [], "names no group; give --group")
    told(tool, "no lengths", b"0 0 0 1\n", ["--group", "P1"], "names no lengths; give --lengths")
    told(tool, "a table with no group", b"0 0 0 1\n", ["--lengths", "2,2,2"], "names no group")
    of_table = ["--group", "P1", "--lengths", "2,2,2"]
    for given, part in [(b"0 0 0\n", "3 words"), (b"0 0 0 1 2\n", "more than four words"), (b"0 0 0 1.5\n", '"1.5" is not a whole number'),
                        (b"0 0 0 \"1,000\"\n", '"1,000" is not a whole number'), (b"0 0 a 1\n", '"a" is not an index'), (b"0 0 0 1\nx y z count\n", "line 2")]:
        told(tool, "a table: %r" % given, given, of_table, part)
    of_group = ["--group", "P21"]
    for what, given, part in [
        ("cut", file[:-1], "ends before its last number"), ("cut in its extended header", mrc(n, M, header=[(24, 4096)]), "within its extended header"),
        ("lengthened", file + b"\0", "bytes after its last number"), ("an axis twice", mrc(n, M, header=[(18, 1)]), "not 1, 2 and 3 in some order"),
        ("no axis", mrc(n, M, header=[(17, 0)]), "not 1, 2 and 3 in some order"), ("no cell", mrc(n, M, header=[(8, 0)]), "no cell has such lengths"),
        ("a large cell", mrc(n, M, header=[(10, 65536)]), "no cell has such lengths"), ("no columns", mrc(n, M, header=[(1, 0)]), "no cell has such lengths"),
        ("a part along x", mrc(n, M, header=[(8, 12)]), "6 points from 0 on along x, where the cell has 12: a part of the cell"),
        ("a part along z", mrc(n, M, stored=3), "3 points from 0 on along z, where the cell has 4: a part of the cell; the whole cell, or its 2 stored planes"),
        ("other planes", mrc(n, M, stored=2, starts=(0, 0, 1)), "2 points from 1 on along z"), ("more than a cell", mrc(n, M, header=[(9, 4)]), "more than the cell"),
        ("an extended header below zero", mrc(n, M, header=[(24, -1)]), "an extended header of -1 bytes"),
    ]:
        told(tool, what, given, of_group, part)
    for mode in (3, 4, 5, 7, 12, 101, -1):
        told(tool, "mode %d" % mode, mrc(n, M, header=[(4, mode)]), of_group, "mode %d: whole numbers stand in" % mode)
    for float_ in (1e30, -1e30, -2.0 ** 63, 2.0 ** 63):
        x = rng.choice(all_points(n))
        of_p1 = mrc(n, {**M, x: float_}), ["--group", "P1"]
        told(tool, "%r" % float_, *of_p1, "at x %d, y %d, z %d is beyond 43199" % x)
    for float_ in (0.5, -1e-30, 43198.998, float("nan"), float("inf"), -float("inf")):
        x = rng.choice(all_points(n))
        told(tool, "%r" % float_, mrc(n, {**M, x: float_}), of_group, "at x %d, y %d, z %d is no whole number" % x)
    for number, ours, tables_ in ((1, "P2_1", "P1"), (2, "Pm", "P-1"), (3, "Pa", "P2"), (4, "P2_1 2_1 2_1", "P2_1")):
        part = "%d is %s in a factor file and %s in the International Tables; give the group's name" % (number, ours, tables_)
        told(tool, "a bare number", file, ["--group", number], part)
    for words, part in ((["--group", "P3"], '"P3" is no group'), (["--group", "19"], '"19" is no group'), (["--group", "1 P1"], "is no group"),
                        (["--lengths", "2,2"], "is not three lengths"), (["--lengths", "2,x,2"], "not a whole number"), (["--lists", "3 4"], "is not three factor lists"),
                        (["--both", "--combined"], "do not go together"), (["--both", "--modulus", "1"], "do not go together")):
        told(tool, " ".join(words), file, words, part)
    tool.expect("number and name", tool.run("import", "-", "--group", "1 P2_1", "-o", "-", given=file)[:2], (0, map_file(1, n, M)))
    tool.expect("0 is P1 alone", tool.run("import", "-", "--group", "0", "-o", "-", given=file)[:2], (0, map_file(0, n, M)))
    for words, number in ((["--modulus", "3"], 26), (["--modulus", "0"], 26), (["--lists", "3 4 3"], 5), (["--lists", "3 4 7"], 4)):
        status, out, err = tool.run("import", "-", *words, "-o", tool.path("none"), given=text)
        tool.expect(" ".join(words), (status, out, b"refused %d at 0" % number in err), (1, b"", True))
    for given, number in ((b"map 5 2 2 2\n", 8), (b"map 0 2 7 2\n", 3), (b"map 0 2 99999999999999999999 2\n", 3), (b"map 0 2880 2880 2880\n", 9)):
        status, out, err = tool.run("import", "-", "-o", tool.path("none"), given=given)
        tool.expect("%r" % given, (status, out, b"refused %d at 0" % number in err, os.path.exists(tool.path("none"))), (1, b"", True, False))
    tool.fails("no -o", ["import", "-"], b"import needs -o", given=text)
    tool.fails("both to standard output", ["import", "-", "--both", "-o", "-"], b"--both writes several files", given=text)
    for ending, words in ((b"", []), (b".map", ["--both"]), (b".second.map", ["--both"]), (b".combined", ["--both"])):
        own = tool.file("own" + ending.decode(), text)
        tool.fails("over its own file", ["import", own, *words, "-o", tool.path("own")], b"is the file to read and the file to write")
        tool.expect("it is as it was", open(own, "rb").read(), text)
        os.unlink(own)


def writers(tool):
    """The files of mrcfile and gemmi."""
    folder = tool.path("writers")
    os.mkdir(folder)
    script = os.path.join(os.path.dirname(os.path.abspath(__file__)), "mrc_writers.py")
    done = subprocess.run(["/usr/bin/python3", "-B", script, folder], capture_output=True, text=True, check=False)
    print(done.stdout.strip() if done.returncode in (0, 3) else done.stderr)
    if done.returncode == 3:
        print("the files of other programs are not tried")
        return
    tool.expect("mrc_writers.py", done.returncode, 0)
    for entry in json.load(open(os.path.join(folder, "list.json"))) if done.returncode == 0 else []:
        g, n, numbers = entry["group"], tuple(entry["lengths"]), entry["numbers"]
        got = tool.run("import", os.path.join(folder, entry["name"]), "--group", NAMES[g], "-o", "-")
        if numbers is None:
            tool.expect(entry["name"], (got[0], got[1], b"a part of the cell" in got[2]), (2, b"", True))
            continue
        M = dict(zip(all_points(n), numbers))
        tool.expect(entry["name"], got, (0, map_file(g, n, M), b""))
        said, (kind, p) = CELL[g > 0] if g < 4 else ("30,40,50,90", (1, (30, 40, 50, 90, 90, 90)))
        file = mrc_file(g, n, pack_map(g, n, M), kind, [bits(x) for x in p])
        tool.expect("mrc of it", tool.run("mrc", "-", "--cell", said, "-o", "-", given=got[1]), (0, file, b""))


def test(tool):
    rng = random.Random(SEED)
    for part in (texts, tables, viewers, broken, beyond, wrong):
        part(tool, rng)
    writers(tool)


if __name__ == "__main__":
    tested(test)
