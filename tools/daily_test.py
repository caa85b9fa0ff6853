#!/usr/bin/env python3
"""The test of what the command line tool is used for from day to day: readings of points and factors, one or many, what a refusal names, and help.

    daily_test.py PROGRAM

Small cells of all five groups and both primes, against the book of brute_force.py: every index from one before the first to one beyond the last,
counted from either end; streams of points and factors, written in many ways, as spreadsheets do too, whole and spoilt at any line. Refusals: the axis of an index, of a
length and of a factor list; the two points of a map that are images of each other and differ, found so by point_images; files of another kind.
Help: the version, the manual page, which has the words of every command's help and no warning of groff, completion in bash, zsh and fish, misspelt
commands and options. What is not installed of groff, man, zsh and fish is not tried, which is said. The seed is fixed. Prints how many comparisons
agreed; the exit status is 1 where one did not.
"""
import gzip
import itertools
import os
import random
import re
import select
import shutil
import subprocess

from brute_force import PRIMES, Book, admitted, all_points, file_bytes, header_fault, pack_map, planes, point_images, product, signed
from brute_force import consistent_map
from expected_files import combined_bytes, map_bytes, map_head, stored_points, written
from tool import Tool, tested

SEED = 1974
GROUPS = ["P1", "P2_1", "Pm", "Pa", "P2_1 2_1 2_1"]
CELLS = [(2, 2, 2), (4, 2, 6), (2, 6, 4)]
SPOILT = [b"1 2", b"1", b"0 0 0 0", b"a 0 0", b"0 0 0x", b"0,,0", b"0,0,,", b",0 0", b"1.5 0 0", b"+1 0 0", b"--1 0 0", b"- 0 0", b"0 0 -",
          b"\xff 0 0", b"0 0 \x00", b"1" * 19 + b" 0 0", b'"0,0" 0 0', b'"0 0 0"', b'"" 0 0', b"a b c", b"x y z k"]
COLUMNS_OF = {"point": (b"x y z", b"X;Y;Z", b'"x","Y","z"'), "factor": (b"h k l", b"H\tk\tL", b'"H";"K";"L"')}
COLUMNS = {"point": "xyz", "factor": "hkl"}
HERE = os.path.dirname(os.path.abspath(__file__))


def some_lists(n):
    return [[m // 2] if m > 2 else [] for m in n]


def some_book(rng, g, n, modulus):
    """A cell with as many records as were taken of some that were drawn, and those."""
    book = Book(g, n, some_lists(n), modulus)
    drawn = [(*(rng.randrange(m) for m in n), rng.randrange(book.p), rng.choice([0, rng.randrange(book.p)])) for _ in range(30)]
    return book, [record for record in drawn if book.record(*record)[0] == 0]


def counted(index, length):
    """The index from 0 on, or none where there is none: by trying all."""
    return next((place for place in range(length) if index in (place, place - length)), None)


def outside_text(letters, at, n):
    """What is found of an index outside the cell."""
    said = ["%s is %d, but N%d is %d" % (letters[axis], at[axis], axis + 1, n[axis]) for axis in range(3) if counted(at[axis], n[axis]) is None]
    return "; ".join(said).encode()


class Daily(Tool):
    def refused(self, what, words, refusal, found, of, given=b"", out=b"", place=0):
        """A command that is refused, with what it has printed before, the input's name and what was found."""
        status, printed, err = self.run(*words, given=given)
        lines = err.split(b"\n") + [b""] * 2
        head = b"recorder: %srefused %d at %d" % (of and of + b": ", refusal, place)
        self.expect(what, (status, printed, lines[0], lines[2], len(lines)), (1, out, head, b"found: " + found, 7))


# ---- one reading

def answers(book, numbers=None):
    """What point and factor print of every index of the cell."""
    points = numbers or {q: signed(x, book.p) for q, x in book.densities().items()}
    return {"point": {q: b"%d" % x for q, x in points.items()}, "factor": {q: b"%d %d" % x for q, x in book.F.items()}}


def one_reading(tool, what, path, command, n, values, at):
    """A reading at an index as it is given, inside the cell or outside."""
    words = (command, path, *at)
    place = tuple(map(counted, at, n))
    if None in place:
        tool.refused("%s: %s %s" % (what, command, at), words, 10, outside_text(COLUMNS[command], at, n), path.encode())
    else:
        tool.expect("%s: %s %s" % (what, command, at), tool.run(*words), (0, values[place] + b"\n", b""))


def readings(tool):
    rng = random.Random(SEED)
    for g, modulus, n in itertools.product(range(5), PRIMES, CELLS):
        book, records = some_book(rng, g, n, modulus)
        what = "group %d, modulus %d, %s" % (g, modulus, n)
        values = answers(book)
        paths = [tool.file("daily", file_bytes(g, n, book.lists, records, modulus)),
                 tool.file("daily.map", map_bytes(g, n, book.lists, book.densities(), modulus))]
        for axis in range(3):
            for index in range(-n[axis] - 1, n[axis] + 2):
                at = [rng.randrange(-m, m) for m in n]
                at[axis] = index
                command = rng.choice(["point", "factor"])
                one_reading(tool, what, rng.choice(paths), command, n, values[command], tuple(at))
        streams(tool, rng, what, paths, n, values)
        if n == CELLS[0]:
            for at in itertools.product(*(range(-m - 1, m + 2) for m in n)):
                command = ["point", "factor"][sum(at) % 2]
                one_reading(tool, what, paths[0], command, n, values[command], at)


def combined_readings(tool):
    """Points and planes of combined maps, counted from either end."""
    rng = random.Random(SEED)
    for g, n in itertools.product(range(5), CELLS):
        drawn = {q: rng.randrange(-13063485600, 13063485601) for q in all_points(n)}
        numbers = {q: drawn[min(point_images(g, n, q))] for q in drawn}
        path, what = tool.file("daily.combined", combined_bytes(g, n, numbers)), "group %d, %s combined" % (g, n)
        values = {q: b"%d" % x for q, x in numbers.items()}
        streams(tool, rng, what, [path], n, {"point": values})
        for axis in range(3):
            for index in range(-n[axis] - 1, n[axis] + 2):
                at = [rng.randrange(-m, m) for m in n]
                at[axis] = index
                one_reading(tool, what, path, "point", n, values, tuple(at))
        for z in range(-n[2] - 1, n[2] + 2):
            picture = tool.file("daily.png", b"")
            for words in (("section", path, z), ("picture", path, z, "-o", picture)):
                plane = counted(z, n[2])
                if plane is None:
                    found = "z is %d, but N3 is %d; group %d (%s), lengths %d %d %d" % (z, n[2], g, GROUPS[g], *n)
                    tool.refused("%s: %s %d" % (what, words[0], z), words, 10, found.encode(), path.encode())
                else:
                    same = tool.run(words[0], path, plane, *words[3:4], *(["-"] if words[3:] else []))
                    got = tool.run(*words)
                    got = (got[0], open(picture, "rb").read() if words[3:] else got[1], got[2])
                    tool.expect("%s: %s %d" % (what, words[0], z), (same[0], got), (0, same))
                    if words[0] == "section":
                        rows = [[int(part) for part in re.findall(rb"-?\d+", line)[1:]] for line in got[1].split(b"\n")[:-4]]
                        row = [x for line in rows[:-(-n[1] // 5)] for x in line]
                        tool.expect("%s: the first row of plane %d" % (what, z), row, [numbers[0, y, plane] for y in range(n[1])])


# ---- many readings

def some_line(rng, at):
    """An index as a line, in one of many ways to write it."""
    between = [rng.choice([b" ", b"\t", b",", b" , ", b"  ", b",\t", b";", b"; ", b",,"]) for _ in range(2)]
    quote = rng.choice([b"", b"", b"", b'"'])
    numbers = [quote + b"%s%s%d" % (b"-" if i < 0 else b"", rng.choice([b"", b"", b"00"]), abs(i)) + quote for i in at]
    line = numbers[0] + between[0] + numbers[1] + between[1] + numbers[2]
    return rng.choice([b"", b" ", b"\t"]) + line + rng.choice([b"", b" ", b" # a comment 1 2", b"#", b"\r", b";", b",,\r"])


def some_stream(rng, n, values):
    """The lines of all indices inside the cell in some order, with empty ones between them, and what is to be printed after each of them."""
    indices = list(itertools.product(*(range(-m, m) for m in n)))
    rng.shuffle(indices)
    lines, printed, said = [], [], b""
    for at in indices:
        while rng.randrange(9) == 0:
            lines.append(rng.choice([b"", b"  ", b"# x y z", b"\t#", b"\r", b" # 1 2 3"]))
            printed.append(said)
        lines.append(some_line(rng, at))
        said += b"%d %d %d %s\n" % (*at, values[tuple(map(counted, at, n))])
        printed.append(said)
    return lines, printed


def streams(tool, rng, what, paths, n, values):
    for command, of_command in values.items():
        lines, printed = some_stream(rng, n, of_command)
        for path in paths:
            head = rng.choice([b"", b"\xef\xbb\xbf"]) + rng.choice([b"", rng.choice(COLUMNS_OF[command]) + b"\n"])
            given = head + b"\n".join(lines) + rng.choice([b"", b"\n", b"\n\n"])
            tool.expect("%s: many of %s" % (what, command), tool.run(command, path, given=given), (0, printed[-1], b""))
        at, spoilt = rng.randrange(len(lines)), rng.choice(SPOILT)
        before = printed[at - 1] if at else b""
        words = (command, path)
        status, out, err = tool.run(*words, given=b"\n".join(lines[:at] + [spoilt] + lines[at:]))
        start = b"recorder: standard input, line %d: " % (at + 1)
        asked = b"; give %s on each line, each a whole number" % " ".join(COLUMNS[command]).encode()
        tool.expect("%s: %s of %r" % (what, command, spoilt), (status, out, err.startswith(start), asked in err), (2, before, True, True))
        outside = list(rng.choice(list(of_command)))
        for axis in rng.sample(range(3), rng.randrange(1, 4)):
            outside[axis] = rng.choice([n[axis], -n[axis] - 1, 2 ** 32, -2 ** 40, 10 ** 18 - 1, 2 ** 31])
        given = b"\n".join(lines[:at] + [b"%d %d %d" % tuple(outside)] + lines[at:])
        found, of = outside_text(COLUMNS[command], outside, n), b"standard input, line %d" % (at + 1)
        tool.refused("%s: %s of %s" % (what, command, outside), words, 10, found, of, given, before)


def spoilt_lines(tool):
    """Every way to spoil a line, as the first and as a later one."""
    path = tool.file("daily", file_bytes(0, (2, 2, 2), [[], [], []], [(0, 0, 0, 5, 0)]))
    for command, spoilt, before in itertools.product(COLUMNS, SPOILT, (0, 3)):
        status, out, err = tool.run(command, path, given=b"0 0 1\n" * before + spoilt + b"\n0 0 0\n")
        want = (b"0 0 1 5\n" if command == "point" else b"0 0 1 0 0\n") * before
        tool.expect("%s of %r" % (command, spoilt), (status, out, b"standard input, line %d: " % (before + 1) in err), (2, want, True))
    tool.expect("no line", tool.run("point", path), (0, b"", b""))
    tool.expect("empty lines", tool.run("factor", path, given=b"\n \n#\n\t\n"), (0, b"", b""))
    for command in COLUMNS:
        tool.fails("%s of standard input with its lines" % command, (command, "-"), b"standard input cannot be the file and have the indices too")
        for some in ([0], [0, 0], [0, 0, 0, 0]):
            tool.fails("%s of %s" % (command, some), (command, path, *some), b"usage: recorder %s FILE [" % command.encode())
        got = tool.run_endless(b"1", command, path)
        tool.expect("an endless line", (got[0], got[1], b"line 1: it has more than 4096 bytes" in got[2]), (2, b"", True))
        tool.fails("a long line", (command, path), b"line 1: it has more than 4096 bytes; a line has three indices", given=b"0 0 0" + b" " * 4096)
        for contents, kind in ((gzip.compress(b"1"), b"by gzip"), ("0 0 0\n".encode("utf-16"), b"a text in UTF-16"), (b"PK\x03\x04", b"a spreadsheet")):
            tool.fails("%s of %.9r" % (command, contents), (command, path), kind, given=contents)
        for other in set(COLUMNS) - {command}:
            tool.fails("the columns of " + other, (command, path), b"line 1: ", given=COLUMNS_OF[other][0] + b"\n")
        status, out, err = tool.run(command, path, given=b"0 0 1\n" + COLUMNS_OF[command][0] + b"\n")
        tool.expect("columns that are not first", (status, len(out.splitlines()), b"line 2: " in err), (2, 1, True))
    for at in ("1e0", "0x1", "", " 1", "1 ", "1,0", "+1", "--1", "1" * 19, "z"):
        for words in (("point", path, 0, "--", at, 0), ("factor", path, "--", at, 0, 0)):
            tool.fails("%s" % (words,), words, b"is not an index")
    tool.refused("an index of 18 digits", ("point", path, 0, "9" * 18, 0), 10, b"y is %s, but N2 is 2" % (b"9" * 18), path.encode())
    tool.fails("a missing file of many points", ("point", tool.path("missing")), b"check its name and folder", given=b"0 0 0\n")


def large_streams(tool):
    """A million lines; the records of a file read back as they are; a reader that leaves; a question and its answer at a time."""
    rng = random.Random(SEED)
    n = (4, 2, 6)
    book, _ = some_book(rng, 2, n, 2)
    path = tool.file("daily", written(book))
    values = answers(book)
    for command in COLUMNS:
        lines, printed = some_stream(rng, n, values[command])
        lines = lines[:200]
        times = 5000
        got = tool.run(command, path, given=(b"\n".join(lines) + b"\n") * times)
        tool.expect("a million of %s" % command, (got[0], got[1] == printed[199] * times, got[2]), (0, True, b""))
    records = tool.run("records", path)[1]
    tool.expect("the records are there", len(records.split(b"\n")) > 10, True)
    asked = b"".join(b" ".join(line.split()[:3]) + b"\n" for line in records.splitlines())
    tool.expect("the factors of its records are the records", tool.run("factor", path, given=asked), (0, records, b""))
    with subprocess.Popen([tool.program, "point", path], stdin=subprocess.PIPE, stdout=subprocess.PIPE, stderr=subprocess.PIPE) as run:
        for at, value in list(values["point"].items())[:5]:
            run.stdin.write(b"%d %d %d\n" % at)
            run.stdin.flush()
            ready = select.select([run.stdout], [], [], 20)[0]
            tool.expect("an answer at a time", ready and os.read(run.stdout.fileno(), 100), b"%d %d %d %s\n" % (*at, value))
        run.stdin.close()
        tool.expect("its end", (run.wait(), run.stdout.read(), run.stderr.read()), (0, b"", b""))
    with subprocess.Popen([tool.program, "point", path], stdin=subprocess.PIPE, stdout=subprocess.PIPE, stderr=subprocess.PIPE) as run:
        run.stdout.close()
        try:
            for _ in range(100):
                run.stdin.write(b"0 0 0\n" * 10000)
            run.stdin.close()
        except BrokenPipeError:
            pass
        tool.expect("a reader that leaves", (run.wait(), run.stderr.read()), (0, b""))


# ---- what a refusal names

def images_that_differ(tool):
    """Every stored number of a small cell spoilt: refused exactly if brute force finds no map of the group, and then two points are named that are
    images of each other and have the two numbers that are said."""
    rng = random.Random(SEED)
    pattern = re.compile(rb"found: (density|number) (-?\d+) at x (\d+), y (\d+), z (\d+), but (-?\d+) at its image x (\d+), y (\d+), z (\d+)")
    seen = set()
    for g, n, kind in itertools.product(range(5), CELLS, (1, 2, "combined")):
        bound = 13063485600 if kind == "combined" else PRIMES[kind] - 1
        drawn = {q: rng.randrange(bound) for q in all_points(n)}
        whole = {q: drawn[min(point_images(g, n, q))] for q in drawn}
        for q in stored_points(g, n):
            spoilt = dict(whole)
            step = rng.choice([1, 302399, 302400]) if kind == "combined" else rng.randrange(1, bound)
            spoilt[q] = (spoilt[q] + step) % bound
            file = combined_bytes(g, n, spoilt) if kind == "combined" else map_bytes(g, n, some_lists(n), spoilt, kind)
            what = "group %d, %s, %s spoilt at %s" % (g, n, kind, q)
            status, out, err = tool.run("check", tool.file("daily", file))
            if consistent_map(g, n, pack_map(g, n, spoilt)):
                tool.expect(what, (status, out, err), (0, b"accepted\n", b""))
                continue
            lines = out.split(b"\n") + [b""] * 2
            found = pattern.fullmatch(lines[2])
            tool.expect(what, (status, lines[0], err, bool(found)), (1, b"refused 14 at 0", b"", True))
            if found:
                numbers = [int(x) for x in found.groups()[1:]]
                point, image = tuple(numbers[1:4]), tuple(numbers[5:8])
                tool.expect(what + ": images", image in point_images(g, n, point) and image != point, True)
                tool.expect(what + ": on stored planes", max(point[2], image[2]) < planes(g, n), True)
                name = b"number" if kind == "combined" else b"density"
                tool.expect(what + ": its numbers", (found[1], numbers[0], numbers[4]), (name, spoilt[point], spoilt[image]))
                tool.expect(what + ": they differ", spoilt[point] != spoilt[image], True)
                seen.add((g, kind))
    tool.expect("groups with images on stored planes", seen, set(itertools.product((3, 4), (1, 2, "combined"))))


def nearest_text(m):
    """The admitted lengths next to one that is not: by trying all."""
    lengths = [length for length in range(2 ** 16) if length % 2 == 0 and length and 2880 % length == 0]
    next_to = [max((length for length in lengths if length < m), default=None), min((length for length in lengths if length > m), default=None)]
    return " (nearest admitted: %s)" % ", ".join(str(length) for length in next_to if length is not None)


def axis_text(refusal, n, lists):
    """What is found on the axes of a header: by the rules of one axis."""
    said = []
    for axis, (m, fs) in enumerate(zip(n, lists), 1):
        if refusal == 3 and not admitted(m):
            said.append("N%d is %d%s" % (axis, m, nearest_text(m)))
        wrong = sorted({f for f in fs if f not in (2, 3, 4, 5)})
        if refusal == 4 and wrong:
            said.append("factor%s %s in the list of N%d" % ("s" * (len(wrong) > 1), ", ".join(map(str, wrong)), axis))
        if refusal == 5 and product(fs) != m // 2:
            shown = product(fs) if product(fs) < 2 ** 64 else "above %d" % (2 ** 64 - 1)
            said.append("the product of the list of N%d is %s, not %d" % (axis, shown, m // 2))
    return ", ".join(said)


def headers(tool):
    rng = random.Random(SEED)
    seen = set()
    for turn in range(150):
        g, modulus = rng.randrange(5), rng.choice([1, 2])
        n = [rng.choice([2, 4, 6, 8, 12]) for _ in range(3)]
        lists = [{2: [], 4: [2], 6: [3], 8: [4], 12: [3, 2]}[m] for m in n]
        for axis in rng.sample(range(3), rng.randrange(1, 4)):
            fault = rng.choice([3, 4, 5]) if turn % 2 else 3 + turn // 2 % 3
            if fault == 3:
                n[axis] = rng.choice([0, 1, 7, 14, 5760, 65535])
            if fault == 4:
                lists[axis] = lists[axis] + rng.choices([0, 1, 6, 7, 255], k=rng.randrange(1, 4))
            if fault == 5:
                lists[axis] = rng.choice([lists[axis] + [2], [3, 5], [2] * 255, [5] * 255])
        refusal = header_fault(g, n, lists)
        if refusal not in (3, 4, 5):
            continue
        seen.add(refusal)
        shown = " ".join(",".join(map(str, fs)) or "-" for fs in lists)
        head = "%s; group %d (%s), lengths %d %d %d, modulus %d, lists %s" % (axis_text(refusal, n, lists), g, GROUPS[g], *n, modulus, shown)
        factors = [file_bytes(g, n, lists, records, modulus) for records in ([(0, 0, 0, 1, 0)], [])]
        for file in factors + [map_head(g, n, lists, modulus) + bytes(64)]:
            path = tool.file("daily", file)
            tool.refused("header %d %s %s" % (g, n, lists), ("info", path), refusal, head.encode(), path.encode())
        if refusal == 3:
            path = tool.file("daily", b"RCMB" + bytes([1, g]) + b"".join(m.to_bytes(2, "big") for m in n) + bytes(64))
            found = "%s; group %d (%s), lengths %d %d %d" % (axis_text(3, n, lists), g, GROUPS[g], *n)
            tool.refused("combined header %s" % n, ("info", path), 3, found.encode(), path.encode())
    tool.expect("the refusals of axes", seen, {3, 4, 5})
    for words, refusal, found in ((("1", 0, 14, 7), 3, "N is 14 (nearest admitted: 12, 16)"), ((1, 0, 0, "-"), 3, "N is 0 (nearest admitted: 2)"),
                                  ((1, 0, 2 ** 40, "-"), 3, "N is %d (nearest admitted: 2880)" % 2 ** 40),
                                  ((1, 0, 8, "6"), 4, "factor 6 in the list of N"), ((1, 0, 8, "2,258,7"), 4, "factors 7, 258 in the list of N"),
                                  ((1, 0, 8, "2"), 5, "the product of the list of N is 2, not 4"),
                                  ((1, 0, 8, "-"), 5, "the product of the list of N is 1, not 4"), ((6, 0, 8, 4), 1, "kind 6"),
                                  ((1, 3, 8, 4), 2, "direction 3"), ((1, 0, 8, 4, "--modulus", 3), 26, "modulus 3"),
                                  ((1, 0, 8, 4), 6, "3 numbers, of kind 1 and N 8"), ((1, 0, 4, 2), 7, "number 3 is 86399")):
        tool.refused("line %s" % (words,), ("line", *words), refusal, found.encode(), b"", b"1 2 86399" + b" 1" * (refusal == 7))


def records_outside(tool):
    """The axes of a record whose index is not in the cell."""
    rng = random.Random(SEED)
    for g, modulus, n in itertools.product(range(5), PRIMES, CELLS):
        for outside in (axes for count in (1, 2, 3) for axes in itertools.combinations(range(3), count)):
            at = [rng.choice([m, m + 1, 65535]) if axis in outside else rng.randrange(m) for axis, m in enumerate(n)]
            file = file_bytes(g, n, some_lists(n), [(0, 0, 0, 1, 0), (*at, 3, 4)], modulus)
            start = len(file) - 14
            found = "record 1, from byte %d on: h %d, k %d, l %d, a 3, b 4; " % (start, *at) + outside_text("hkl", at, n).decode()
            path = tool.file("daily", file)
            tool.refused("record %s of %s" % (at, n), ("factor", path, 0, 0, 0), 10, found.encode(), path.encode(), place=1)


def other_kinds(tool):
    """Files that are no factor file: what they look like is said, and a text is to be packed."""
    begins = b'a text, which begins with "%s"'
    for contents, found, remedy in ((b"h,k,l,a,b\n0,0,0,1,0\n", begins % b"h,k,l,a,b", b"recorder pack"),
                                    (b"\n\n 1 2 3 4 5\n" * 99, begins % b" 1 2 3 4 5", b"recorder pack"),
                                    ("\u00e9".encode() * 200, begins % ("\u00e9".encode() * 40), b"recorder pack"),
                                    (gzip.compress(b"1"), b"compressed", b"gunzip"),
                                    (b"\x89PNG\r\n\x1a\n" + bytes(40), b"a picture", b"no command reads"),
                                    (bytes([9, 0, 0, 0]) + bytes(204) + b"MAP ", b"for viewers", b"recorder import"),
                                    (b"", b"an empty file", b"fetch or write"), (b"\0\0\0", b"3 bytes, fewer than 5", b"fetch or write"),
                                    (b"\0\0\0\x09ab", b"2 bytes after the count, which asks for 9", b"fetch or write"),
                                    (b"\0\0\0\x01abc", b"more bytes after the count than the 1 ", b"fetch or write"),
                                    (b"\xfftext", b"after the count", b"fetch or write")):
        path = tool.file("daily", contents)
        status, out, _ = tool.run("check", path)
        lines = out.split(b"\n") + [b""] * 3
        tool.expect("check of %.20r" % contents, (status, lines[0], found in lines[2], remedy in lines[3]), (1, b"refused 15 at 0", True, True))
    for contents, kind in ((b"text", begins % b"text"), (b"", b"an empty file"), (map_head(0, (2, 2, 2), [[], [], []]), b"a map file"),
                           (file_bytes(0, (2, 2, 2), [[], [], []], []), b"a factor file")):
        path = tool.file("daily", contents)
        said = b"%s is not a combined map file but %s; recorder combine" % (path.encode(), kind)
        tool.fails("best of %.20r" % contents, ("best", path), said)


# ---- help

def table(tool):
    """The commands with their options and the words of their help, as help prints them."""
    found = {}
    for line in tool.run("--help")[1].decode().split("\n"):
        if match := re.match(r"  ([a-z]+) ", line):
            text = tool.run(match[1], "--help")[1].decode()
            body, _, options = text.partition("\nOptions\n")
            found[match[1]] = (body, re.findall(r"(?m)^  (-\S+) +(.*)$", options))
    return found


def help_texts(tool):
    commands = table(tool)
    tool.expect("commands", {"check", "map", "point", "factor", "help", "drift"} <= set(commands) and len(commands) > 18, True)
    tool.expect("help", tool.run("help"), tool.run("--help"))
    tool.expect("-h", tool.run("-h"), tool.run("--help"))
    tool.expect("-V", tool.run("-V"), tool.run("--version"))
    for words in ([], *([name] for name in commands)):
        lines = tool.run("help", *words)[1].decode().split("\n")
        tool.expect("the width of help %s" % words, [line for line in lines if len(line) > 80], [])
    for name in commands:
        tool.expect("help " + name, tool.run("help", name), tool.run(name, "--help"))
    status, out, err = tool.run()
    listed = err.decode().split("commands: ")[-1].split("\n")[0].split()
    tool.expect("no command", (status, out, listed, b"--help" in err), (2, b"", list(commands), True))
    cargo = open(os.path.join(HERE, "../host/Cargo.toml"), encoding="utf-8").read()
    toolchain = "the toolchain that proved the library could not be asked for its name"
    if shutil.which("rt"):
        said = subprocess.run(["rt", "version"], stdout=subprocess.PIPE, check=True).stdout.decode()
        toolchain = "the library was proved with " + said.split("\n")[0]
    version = re.search(r'(?m)^version = "(.*)"$', cargo)[1]
    tool.expect("version", tool.run("--version"), (0, ("recorder %s\n%s\n" % (version, toolchain)).encode(), b""))
    for words in (("help", "map", "--man"), ("help", "--man", "--completion", "bash"), ("help", "--completion", "tcsh"), ("help", "--completion"),
                  ("help", "mop")):
        tool.fails("%s" % (words,), words, b"--help")
    return commands


def distance(a, b):
    """Letters put in, left out, changed or swapped with their neighbour, to make b of a: by recursion over beginnings."""
    known = {}

    def least(i, j):
        if (i, j) not in known:
            found = [0] if i == j == 0 else []
            if i:
                found.append(least(i - 1, j) + 1)
            if j:
                found.append(least(i, j - 1) + 1)
            if i and j:
                found.append(least(i - 1, j - 1) + (a[i - 1] != b[j - 1]))
            if i > 1 and j > 1 and a[i - 2:i] == b[j - 2:j][::-1]:
                found.append(least(i - 2, j - 2) + 1)
            known[i, j] = min(found)
        return known[i, j]

    return least(len(a), len(b))


def misspellings(tool, commands):
    rng = random.Random(SEED)
    for name in commands:
        at = rng.randrange(len(name) - 1)
        swapped = name[:at] + name[at + 1] + name[at] + name[at + 2:]
        for wrong in (name[:at] + name[at + 1:], name[:at] + "q" + name[at:], swapped, name.upper(), "xx" + name + "qqqq"):
            if wrong in commands:
                continue
            status, out, err = tool.run(wrong, "FILE")
            meant = re.search(r'there is no command "%s"; did you mean ([a-z]+)\?' % re.escape(wrong), err.decode())
            nearest = min(distance(wrong.lower(), other) for other in commands)
            near = distance(wrong.lower(), meant[1]) if meant else None
            tool.expect("misspelt %s" % wrong, (status, out, near), (2, b"", nearest if len(wrong) < len(name) + 2 else None))
    tool.expect("chek", tool.run("chek")[2].split(b"\n")[0], b'recorder: there is no command "chek"; did you mean check?')
    tool.expect("recod", tool.run("recod")[2].split(b"\n")[0], b'recorder: there is no command "recod"; did you mean records?')
    tool.expect("nothing near", tool.run("xyzzy")[2].split(b"\n")[0], b'recorder: there is no command "xyzzy"')
    for name, (text, options) in commands.items():
        usage = "usage: " + " ".join(text.split("\n\n")[0].split())
        for words in ((name, "--nonsense"), (name, *([] if "FILE.." in usage else ["word"] * 9))):
            status, out, err = tool.run(*words)
            lines = err.decode().split("\n") + [""] * 2
            more = "recorder %s --help says more." % name
            tool.expect("%s" % (words[:2],), (status, out, lines[1], lines[2]), (2, b"", usage, more))
        taken = tool.run(name, "--nonsense")[2].decode().split("; it takes ")[-1].split("\n")[0]
        tool.expect("the options of " + name, re.findall(r"(?:^| )(-[-a-z]+)", taken), [option for option, _ in options] or ["--help"])


def plain_words(text):
    return re.sub(r"\s+", " ", text).strip()


def manual_page(tool, commands):
    status, page, err = tool.run("help", "--man")
    tool.expect("the page", (status, err), (0, b""))
    path = tool.file("recorder.1", page)
    entries = {}
    command = r"\.TP\n\\fBrecorder ([a-z]+)\\fR.*\n((?:(?!\.TP\n\\fBrecorder |\.SS |\.SH ).*\n)*)"
    for name, body in re.findall(command, page.decode()):
        entries[name] = re.findall(r"\.TP\n\\fB(\S+)\\fR", body)
    want = {name: [option.replace("-", "\\-") for option, _ in options] for name, (_, options) in commands.items()}
    tool.expect("the commands and options of the page", entries, want)
    sections = re.findall(r"(?m)^\.SH (.*)$", page.decode())
    tool.expect("its sections", sections, ["NAME", "SYNOPSIS", "DESCRIPTION", "COMMANDS", "OPTIONS", "FILES", "EXIT STATUS", "SEE ALSO"])
    if not shutil.which("groff"):
        print("groff is not installed: the page is not set")
        return
    done = subprocess.run(["groff", "-ww", "-man", "-z", path], stdout=subprocess.PIPE, stderr=subprocess.STDOUT, check=False)
    tool.expect("warnings of groff", (done.returncode, done.stdout), (0, b""))
    done = subprocess.run(["groff", "-man", "-Tascii", "-P-cbou", "-rHY=0", "-rLL=100n", path], stdout=subprocess.PIPE, check=True)
    shown = plain_words(done.stdout.decode())
    for name, (text, options) in commands.items():
        usage, _, body = text.partition("\n")
        for part in [usage, body] + [brief for _, brief in options]:
            tool.expect("the page's words of %s" % name, plain_words(part) in shown, True)
    if shutil.which("man"):
        done = subprocess.run(["man", "--warnings", "-l", path], stdout=subprocess.DEVNULL, stderr=subprocess.PIPE, check=False)
        tool.expect("warnings of man", (done.returncode, done.stderr), (0, b""))


BASH_TRIAL = """
source "$1"; shift
COMP_WORDS=("$@") COMP_CWORD=$(($# - 1))
_recorder
printf '%s\\n' "${COMPREPLY[@]}"
"""


def completion(tool, commands):
    folder = tool.path("completion")
    os.mkdir(folder)
    for name in ("one.factors", "two words.map"):
        tool.file("completion/" + name, b"")
    scripts = {}
    for shell in ("bash", "zsh", "fish"):
        status, text, err = tool.run("help", "--completion", shell)
        tool.expect("completion for " + shell, (status, err), (0, b""))
        scripts[shell] = tool.file("completion." + shell, text)
        if shutil.which(shell):
            done = subprocess.run([shell, "-n", scripts[shell]], stdout=subprocess.PIPE, stderr=subprocess.STDOUT, check=False)
            tool.expect("%s -n" % shell, (done.returncode, done.stdout), (0, b""))
        else:
            print("%s is not installed: its script is not tried" % shell)
        plain = text.replace(b"\\'", b"'").replace(b"'''", b"'").replace(b"\\:", b":").decode()
        for name, (_, options) in commands.items():
            briefs = [brief for _, brief in options] if shell != "bash" else []
            tool.expect("%s in %s" % (name, shell), [part for part in [name] + briefs if part not in plain], [])

    def bash(*words):
        done = subprocess.run(["bash", "-c", BASH_TRIAL, "bash", scripts["bash"], *words], cwd=folder, stdout=subprocess.PIPE, stderr=subprocess.PIPE,
                              check=False)
        tool.expect("bash on %s" % (words,), (done.returncode, done.stderr), (0, b""))
        return sorted(done.stdout.decode().split("\n")[:-1])

    def fish(*words):
        line = " ".join(words)
        trial = ["fish", "--no-config", "-c", "source $argv[1]; complete -C $argv[2]", scripts["fish"], line]
        done = subprocess.run(trial, cwd=folder, stdout=subprocess.PIPE, check=False, env={**os.environ, "HOME": tool.path("home")})
        return sorted(part.split("\t")[0] for part in done.stdout.decode().split("\n")[:-1])

    everything = sorted(commands)
    files = ["one.factors", "two words.map"]
    for complete in [bash] + [fish] * bool(shutil.which("fish")):
        what = complete.__name__
        tool.expect(what + ": ch", complete("recorder", "ch"), ["check"])
        tool.expect(what + ": all commands", [word for word in complete("recorder", "") if not word.startswith("-")], everything)
        tool.expect(what + ": help", [word for word in complete("recorder", "help", "") if not word.startswith("-")], everything)
        tool.expect(what + ": shells", complete("recorder", "help", "--completion", ""), ["bash", "fish", "zsh"])
        tool.expect(what + ": a value", complete("recorder", "line", "1", "--modulus", ""), [""] if what == "bash" else [])
        tool.expect(what + ": a group", sorted(complete("recorder", "import", "x", "--group", "P2")), ["P212121", "P2_1"])
        tool.expect(what + ": a file to write", [word.replace("\\", "") for word in complete("recorder", "map", "x", "-o", "")], files)
        for name, (text, options) in commands.items():
            taken = sorted([option for option, _ in options] + ["--help"])
            tool.expect("%s: the options of %s" % (what, name), complete("recorder", name, "-"), taken)
            if re.search("FILE|COMBINED", text.split("\n")[0]):
                found = [word.replace("\\", "") for word in complete("recorder", name, "") if not word.startswith("-")]
                tool.expect("%s: the files of %s" % (what, name), found, files)


def help_and_completion(tool):
    commands = help_texts(tool)
    misspellings(tool, commands)
    manual_page(tool, commands)
    completion(tool, commands)


def all_parts(tool):
    for part in (readings, combined_readings, spoilt_lines, large_streams, images_that_differ, headers, records_outside, other_kinds,
                 help_and_completion):
        part(tool)


if __name__ == "__main__":
    tested(all_parts, Daily)
