#!/usr/bin/env python3
"""The test of recorder match, best -n and stats --peaks, against direct sums over the whole cell.

    match_test.py PROGRAM

Deposits and returned crystals of all five groups, with small numbers and with large ones, the same crystal shifted, with a few points changed, and
another one; each as a combined map file, a map file, a factor file, or as a pair of these for the two primes, in every mixture; and as counts: a text
that map prints, a table, a file of MRC in any mode, byte order and order of axes, of the whole cell or of the stored planes, and the files that
mrc_writers.py has mrcfile and gemmi write, where /usr/bin/python3 has them. The value at every shift is summed up point by point; the best shift, its
score, the share, what is left after shifting, the text, the JSON object, the overlay's file and the run of scores are compared with it. Refusal 28 by
its figures: a map that is divided as the words say is taken. Peaks against all points sorted, each once for all its images. P1 at 120^3 with a shift
that was put in, from combined map files and from files of MRC, in the memory that the help states; bench/match.sh has its time. The seed is fixed.
Prints how many comparisons agreed; the exit status is 1 where one did not.
"""
import array
import itertools
import json
import os
import random
import resource
import subprocess

from brute_force import PRIMES, all_points, analysed, file_bytes, images, pack_map, planes, point_images, read_cell, volume_length
from expected_files import combined_bytes, map_bytes, text_of
from import_test import MODES, SPELT, mrc, table, whole_text
from tool import Tool, tested

SEED = 1905
GROUPS = ["P1", "P2_1", "Pm", "Pa", "P2_1 2_1 2_1"]
LIMIT = 13063485600
CELLS = [(2, 2, 2), (4, 2, 6), (2, 4, 4), (4, 4, 4), (6, 4, 4)]
HERE = os.path.dirname(os.path.abspath(__file__))


def lists_of(n):
    return [{2: [], 4: [2], 6: [3], 8: [4]}[m] for m in n]


def drawn(rng, g, n, draw):
    """A number for every point of a cell, the same at all images of a point."""
    by_orbit = {q: draw() for q in all_points(n)}
    return {q: by_orbit[min(point_images(g, n, q))] for q in by_orbit}


def factor_file(g, n, numbers, modulus):
    """The factor file of a map."""
    p = PRIMES[modulus]
    F = read_cell(g, n, analysed(g, n, pack_map(g, n, {q: x % p for q, x in numbers.items()}), p), p)
    found = [(*j, *F[j]) for j in sorted(F) if F[j] != (0, 0) and j == min(i for i, _ in images(g, n, j, F[j], p))]
    return file_bytes(g, n, lists_of(n), found, modulus)


def files_of(tool, rng, name, g, n, numbers, kind):
    """The files of a crystal: one, or one for each prime."""
    def one(modulus):
        if rng.randrange(2):
            return factor_file(g, n, numbers, modulus)
        return map_bytes(g, n, lists_of(n), {q: x % PRIMES[modulus] for q, x in numbers.items()}, modulus)
    if kind == "combined":
        return [tool.file(name, combined_bytes(g, n, numbers))]
    if kind == "pair":
        return [tool.file(name + "1", one(1)), tool.file(name + "2", one(2))]
    return [tool.file(name, one(kind))]


def moved(q, s, n):
    return tuple((i + j) % m for i, j, m in zip(q, s, n))


def correlated(n, a, b):
    return {s: sum(x * b[moved(q, s, n)] for q, x in a.items()) for s in all_points(n)}


def thousandths(total, own):
    """The quotient to the nearest thousandth, of two the one further from zero."""
    nearest = (2000 * abs(total) + own) // (2 * own)
    return "%s%d.%03d" % ("-" if total < 0 and nearest else "", nearest // 1000, nearest % 1000)


def refusal_28(a, b):
    """What is found where an overlay is refused, or nothing."""
    A, B = ([abs(x) for x in numbers.values()] for numbers in (a, b))
    product = sum(A) * max(B)
    if product <= LIMIT:
        return None
    which = "first" if max(A) >= max(B) else "second"
    found = ("the magnitudes of the first map sum up to %d, the largest of the second is %d: their product %d is above %d; divide the numbers of the %s "
             "by %d, rounded towards zero" % (sum(A), max(B), product, LIMIT, which, -(-product // LIMIT)))
    if sum(B) * max(A) <= LIMIT:
        found += "; the two the other way round are taken, and their shifts have the opposite sign"
    return found


class Expected:
    """What match is to say of two crystals."""

    def __init__(self, n, groups, a, b):
        self.n, self.groups, self.a, self.b = n, groups, a, b
        self.values = correlated(n, a, b)
        self.shift = max(sorted(self.values), key=lambda s: self.values[s])
        self.score, self.own = self.values[self.shift], sum(x * x for x in a.values())
        self.pairs = [(q, a[q], b[moved(q, self.shift, n)]) for q in sorted(a)]
        self.differing = [(q, x, y) for q, x, y in self.pairs if x != y]
        self.sum = sum(abs(y - x) for _, x, y in self.differing)
        self.largest = max(self.differing, key=lambda pair: abs(pair[2] - pair[1]), default=None)
        self.from_zero = tuple(i - m if 2 * i > m else i for i, m in zip(self.shift, n))

    def text(self):
        lines = []
        for what, g, numbers in (("deposit", self.groups[0], self.a), ("returned", self.groups[1], self.b)):
            magnitudes = [abs(x) for x in numbers.values()]
            lines.append("%s %s, %d %d %d, magnitudes sum up to %d, largest %d" % (what, GROUPS[g], *self.n, sum(magnitudes), max(magnitudes)))
        lines.append("shift %d %d %d, from zero %d %d %d" % (*self.shift, *self.from_zero))
        lines += ["score %d" % self.score, "own score %d" % self.own, "share " + (thousandths(self.score, self.own) if self.own else "-"),
                  "at shift 0 0 0 %d" % self.values[0, 0, 0]]
        left = "left %d of %d points, magnitudes sum up to %d" % (len(self.differing), len(self.a), self.sum)
        if self.largest:
            q, x, y = self.largest
            left += "; largest difference %d at %d %d %d: %d and %d" % (y - x, *q, x, y)
        return ("\n".join(lines + [left]) + "\n").encode()

    def object(self, files):
        crystal = lambda names, g, numbers: {
            "files": names, "group": g, "group_name": GROUPS[g], "sum_of_magnitudes": sum(map(abs, numbers.values())),
            "largest_magnitude": max(map(abs, numbers.values()))}
        left = {"points": len(self.differing), "sum": self.sum}
        if self.largest:
            q, x, y = self.largest
            left.update({"largest": y - x, "at": list(q), "deposit": x, "returned": y})
        return {"deposit": crystal(files[0], self.groups[0], self.a), "returned": crystal(files[1], self.groups[1], self.b), "lengths": list(self.n),
                "shift": list(self.shift), "shift_from_zero": list(self.from_zero), "score": self.score, "own_score": self.own,
                "share": float(thousandths(self.score, self.own)) if self.own else None, "unshifted": self.values[0, 0, 0], "left": left}


class Matcher(Tool):
    def matched(self, what, words, deposit, returned, expected):
        """Accepted, as text and as an object, or refused 28, with the overlay and the score that are kept."""
        found = refusal_28(expected.a, expected.b)
        made, kept = self.file("made", b"as it was"), self.file("kept", b"7 -3\n")
        asked, words = words, ("match", *deposit, *returned, "-o", made, "--append", kept, *words)
        status, out, err = self.run(*words)
        contents, scores = open(made, "rb").read(), open(kept, "rb").read()
        if found:
            said = err.decode().split("\n")
            names = "%s and %s" % (" with ".join(deposit), " with ".join(returned))
            self.expect(what, (status, out, said[0], said[2]), (1, b"", "recorder: %s: refused 28 at 0" % names, "found: " + found))
            self.expect(what + ": nothing is kept", (contents, scores), (b"as it was", b"7 -3\n"))
            return False
        self.expect(what, (status, out, err), (0, expected.text(), b""))
        self.expect(what + ": the overlay", contents, combined_bytes(0, expected.n, expected.values))
        self.expect(what + ": the scores", scores, b"7 -3\n%d\n" % expected.score)
        status, out, err = self.run("match", *deposit, *returned, "--json", *asked)
        read = json.loads(out)
        self.expect(what + ": the object", (status, read, out.count(b"\n"), err), (0, expected.object((deposit, returned)), 1, b""))
        self.expect(what + ": its fields", list(read), list(expected.object((deposit, returned))))
        self.best_of(what, made, expected.values)
        return True

    def best_of(self, what, path, values):
        """The greatest values of an overlay, in their order."""
        order = sorted(values, key=lambda s: (-values[s], s))
        for count in (1, 3, len(order), len(order) + 5):
            want = "".join("%d at shift %d %d %d\n" % (values[s], *s) for s in order[:count]).encode()
            self.expect(what + ": best -n %d" % count, self.run("best", path, "-n", count), (0, want, b""))


# ---- two crystals

def crystals(tool):
    """Every mixture of groups and kinds."""
    rng = random.Random(SEED)
    kinds = ["combined", 1, 2, "pair"]
    seen, turned = set(), 0
    for turn, (g, h) in enumerate(itertools.product(range(5), repeat=2)):
        for kind, other in rng.sample(list(itertools.product(kinds, repeat=2)), 4):
            if (kind == "pair") != (other == "pair"):
                other = kind
            n = rng.choice(CELLS)
            bound = rng.choice([3, 50, 9000])
            if rng.random() < 0.15 and "pair" in (kind, other) or kind == other == "combined":
                bound = rng.choice([bound, 10 ** 5, LIMIT])
            draw = lambda: rng.randrange(-bound, bound + 1) if turn % 2 else rng.randrange(bound + 1)
            a = drawn(rng, g, n, draw)
            if turn % 3 == 0:
                h = 0
                s = tuple(rng.randrange(m) for m in n)
                b = {moved(q, s, n): x for q, x in a.items()}
                for q in rng.sample(sorted(b), rng.randrange(3)):
                    b[q] = draw()
            else:
                b = drawn(rng, h, n, draw)
            deposit, returned = files_of(tool, rng, "deposit", g, n, a, kind), files_of(tool, rng, "returned", h, n, b, other)
            done = tool.matched("groups %d %d, %s %s, %s" % (g, h, kind, other, n), (), deposit, returned, Expected(n, (g, h), a, b))
            seen.add((str(kind), str(other), done))
            turned += not done and "other way round" in refusal_28(a, b)
    tool.expect("accepted and refused", {done for _, _, done in seen}, {True, False})
    tool.expect("kinds that were matched", {kind for kind, _, done in seen if done}, {str(kind) for kind in kinds})
    zero = {q: 0 for q in all_points((2, 2, 2))}
    one = {**zero, (1, 0, 1): -5}
    for a, b in ((zero, one), (one, zero), (zero, zero), (one, one)):
        paths = [tool.file(name, combined_bytes(0, (2, 2, 2), numbers)) for name, numbers in (("deposit", a), ("returned", b))]
        tool.matched("zeros", (), paths[:1], paths[1:], Expected((2, 2, 2), (0, 0), a, b))
    with open(paths[0], "rb") as given:
        tool.expect("by standard input", tool.run("match", "-", paths[1], stdin=given), (0, Expected((2, 2, 2), (0, 0), one, one).text(), b""))


# ---- counts

def counts_of(rng, g, n, numbers, of_cell):
    """A file of counts, its bytes; whether it names its group; and whether it is a table. Of a cell that breaks the group, or of none, all planes."""
    some = rng.randrange(3)
    if some == 0:
        stored = rng.randrange(2) and not of_cell
        return (text_of if stored else whole_text)(g, n, numbers), True, False
    points = all_points(n)
    if not of_cell and rng.randrange(2):
        points = [q for q in points if q[2] < planes(g, n)]
    if some == 1:
        return table(rng, n, points, numbers), False, True
    fits = [mode for mode, (kind, most) in MODES.items() if max(numbers.values()) <= most and min(numbers.values()) >= (0 if kind.isupper() else -most)]
    mode = rng.choice(fits) if fits else None
    if mode is None:
        return table(rng, n, points, numbers), False, True
    stored = planes(g, n) if len(points) < len(numbers) else None
    starts = [rng.choice((0, 1, -1, 2 * m + 1)) for m in n[:2]] + [0 if stored else rng.choice((0, 3, -n[2]))]
    extended = bytes(rng.randrange(256) for _ in range(rng.choice((0, 80))))
    return mrc(n, numbers, mode, rng.choice("<>"), rng.choice(list(itertools.permutations((0, 1, 2)))), starts, extended, stored), False, False


def counted(tool):
    """Counts of every kind against counts, and against a combined map file; with a group of both, of each, or of none."""
    rng = random.Random(SEED + 1)
    seen = set()
    for turn in range(240):
        g, h = rng.randrange(5), rng.randrange(5)
        n = rng.choice(CELLS[1:])
        bounds = [rng.choice((3, 50, 900, 43199, 151199, 10 ** 6, LIMIT)) for _ in range(2)]
        if bounds[0] > 900:
            bounds[1] = rng.choice((1, 3, bounds[1]))
        sparse = [bound > 900 and 0.9 for bound in bounds]
        a, b = (drawn(rng, k, n, lambda: 0 if rng.random() < none else rng.randint(-bound, bound)) for k, bound, none in zip((g, h), bounds, sparse))
        if turn % 3 == 0:
            h, s = 0, tuple(rng.randrange(m) for m in n)
            b = {moved(q, s, n): x for q, x in a.items()}
        given = ["both", "each", "none"][rng.randrange(3)]
        groups = {"both": (g, g), "each": (g, h), "none": (0, 0)}[given]
        if given == "both" and g != h:
            h, b = g, drawn(rng, g, n, lambda: 0 if rng.random() < sparse[1] else rng.randint(-bounds[1], bounds[1]))
        files, named, tables = [], [], []
        for name, k, group, numbers in (("deposit", g, groups[0], a), ("returned", h, groups[1], b)):
            if given == "none" and rng.random() < 0.2 or name == "returned" and rng.random() < 0.1:
                contents, own, is_table = combined_bytes(k, n, numbers), True, False
            else:
                contents, own, is_table = counts_of(rng, k, n, numbers, given == "none")
            files.append(tool.file(name, contents))
            named.append(k if own else group)
            tables.append(is_table)
        spelt = [rng.choice(SPELT[k]) for k in groups]
        words = {"both": ("--group", spelt[0]), "each": ("--group", ",".join(spelt)), "none": ()}[given]
        words += ("--lengths", "%d,%d,%d" % n) if any(tables) or rng.random() < 0.1 and given != "none" else ()
        expected = Expected(n, tuple(named), a, b)
        done = tool.matched("counts %d, %s" % (turn, given), words, files[:1], files[1:], expected)
        seen.add((given, any(tables), done, max(max(map(abs, numbers.values())) for numbers in (a, b)) > 151199))
    tool.expect("kinds of counts that were matched", {(given, beyond) for given, _, done, beyond in seen if done},
                set(itertools.product(("both", "each", "none"), (False, True))))
    uncounted(tool, rng)
    by_writers(tool)


def uncounted(tool, rng):
    """What is wrong with counts, and with what is said of them."""
    n = (4, 4, 6)
    a = drawn(rng, 1, n, lambda: rng.randrange(9))
    text, file, own = tool.file("text", text_of(1, n, a)), tool.file("file", mrc(n, a, 1)), tool.file("own", combined_bytes(1, n, a))
    want = (0, Expected(n, (0, 1), a, a).text(), b"")
    tool.expect("standard input", tool.run("match", "-", own, given=mrc(n, a, 0)), want)
    stored = tool.file("stored", mrc(n, a, 1, stored=3))
    tool.fails("stored planes of no group", ("match", stored, own), b"3 points from 0 on along z, where the cell has 6: a part of the cell")
    tool.expect("stored planes", tool.run("match", stored, own, "--group", "P21"), (0, Expected(n, (1, 1), a, a).text(), b""))
    broken = tool.file("broken", mrc(n, {**a, (1, 2, 3): 77}, 1))
    status, out, err = tool.run("match", own, broken, "--group", "P2_1")
    tool.expect("counts that break the group", (status, out, err.startswith(b"recorder: %s: refused 14 at 0\n" % broken.encode()), b"count 77 at" in err or b"but 77 at" in err),
                (1, b"", True, True))
    for words, part in (((own, own, "--group", "P1"), b"are of files of counts, and there is none"), ((own, own, "--lengths", "4,4,6"), b"there is none"),
                        ((file, own, "--group", "P1,P1,P1"), b"--group takes a group"), ((file, own, "--group", "P3"), b'"P3" is no group'),
                        ((file, own, "--group", "4"), b"in the International Tables"), ((text, own, "--group", "Pm"), b"not those of the command line"),
                        ((file, own, "--lengths", "4,4,4"), b"leave --lengths out"), ((file, file, own, own), b"a map for viewers, in the format MRC")):
        status, out, err = tool.run("match", *words)
        tool.expect("%s" % (words[2:],), (status, out, part in err), (1 if b"viewers" in part else 2, b"", True))
    tool.fails("a table without lengths", ("match", tool.file("table", b"0 0 0 1\n"), own), b"names no lengths; give --lengths")
    tool.fails("a text of records", ("match", tool.file("records", b"group P1\nlengths 4 4 6\n0 0 0 1 0\n"), own), b"make a factor file of it with recorder pack")
    tool.fails("a float that is not whole", ("match", tool.file("float", mrc(n, {**a, (0, 1, 2): 0.5})), own), b"0.5 at x 0, y 1, z 2 is no whole number")
    tool.fails("a cut file", ("match", tool.file("cut", mrc(n, a)[:-1]), own), b"ends before its last number")
    status, out, err = tool.run("match", tool.file("beyond", text_of(1, n, {**a, (0, 0, 0): LIMIT + 1, (0, 0, 3): LIMIT + 1})), own)
    tool.expect("a count beyond both primes", (status, out, b"refused 28 at 0" in err), (1, b"", True))


def by_writers(tool):
    """The files of mrcfile and gemmi, each with the next of the same lengths."""
    folder = tool.path("writers")
    os.mkdir(folder)
    done = subprocess.run(["/usr/bin/python3", "-B", os.path.join(HERE, "mrc_writers.py"), folder], capture_output=True, text=True, check=False)
    print(done.stdout.strip() if done.returncode in (0, 3) else done.stderr)
    if done.returncode == 3:
        print("the files of other programs are not tried")
        return
    tool.expect("mrc_writers.py", done.returncode, 0)
    entries = [entry for entry in json.load(open(os.path.join(folder, "list.json"))) if entry["numbers"] and entry["lengths"] != [12, 2, 8]]
    for at, first in enumerate(entries):
        second = next((entry for entry in entries[at + 1:] if entry["lengths"] == first["lengths"]), None)
        if second is None:
            continue
        n = tuple(first["lengths"])
        a, b = (dict(zip(all_points(n), entry["numbers"])) for entry in (first, second))
        paths = [[os.path.join(folder, entry["name"])] for entry in (first, second)]
        groups = first["group"], second["group"]
        words = ("--group", "%s,%s" % tuple(GROUPS[k] for k in groups)) if at % 2 else ()
        tool.matched("%s and %s" % (first["name"], second["name"]), words, *paths, Expected(n, groups if at % 2 else (0, 0), a, b))


def scaled(tool):
    """A map that is divided as refusal 28 says is taken; and so is the limit itself."""
    rng = random.Random(SEED)
    for turn in range(30):
        n, bounds = rng.choice(CELLS), [rng.choice([10, 10 ** 5, LIMIT]), rng.choice([10 ** 4, LIMIT])]
        a, b = ({q: rng.randrange(-bound, bound + 1) for q in all_points(n)} for bound in bounds)
        paths = [tool.file(name, combined_bytes(0, n, numbers)) for name, numbers in (("deposit", a), ("returned", b))]
        if not tool.matched("scaled %d" % turn, (), paths[:1], paths[1:], Expected(n, (0, 0), a, b)):
            for command in (("match",), ("overlay", "-o", tool.path("none"))):
                found = tool.run(command[0], *paths, *command[1:])[2].decode().split("divide the numbers of the ")[1]
                which, divisor = found.split(",")[0].split(" by ")
                numbers = a if which == "first" else b
                smaller = {q: abs(x) // int(divisor) * (1 if x > 0 else -1) for q, x in numbers.items()}
                new = (smaller, b) if which == "first" else (a, smaller)
                files = [tool.file(name, combined_bytes(0, n, part)) for name, part in (("scaled1", new[0]), ("scaled2", new[1]))]
                tool.expect("scaled %d by the words" % turn, tool.run("match", *files), (0, Expected(n, (0, 0), *new).text(), b""))
    n, zero = (2, 2, 2), {q: 0 for q in all_points((2, 2, 2))}
    for sum_of, largest in ((1, LIMIT), (LIMIT, 1), (2, LIMIT // 2), (2, LIMIT // 2 + 1)):
        a, b = {**zero, (0, 0, 0): sum_of}, {**zero, (1, 1, 0): -largest}
        paths = [tool.file(name, combined_bytes(0, n, numbers)) for name, numbers in (("deposit", a), ("returned", b))]
        done = tool.matched("the limit", (), paths[:1], paths[1:], Expected(n, (0, 0), a, b))
        tool.expect("the limit", done, sum_of * largest <= LIMIT)


def wrong(tool):
    """What cannot be matched, and what cannot be kept."""
    n = (4, 2, 6)
    a = {q: 1 + q[0] for q in all_points(n)}
    path = tool.file("deposit", combined_bytes(0, n, a))
    first, second = (tool.file("first", factor_file(0, n, a, 1)), tool.file("second", factor_file(0, n, a, 2)))
    for words in (("match", path), ("match", path, path, path), ("match", *[path] * 5), ("match", "-", "-"), ("match", path, path, "-o", "-"),
                  ("match", path, path, "-o", tool.path("x"), "--append", tool.path("x")), ("match", path, path, "-n", 3),
                  ("best", path, "-n", 0), ("best", path, "-n", "x"), ("best", path, "-n", 100001), ("best", path, "-n", 3, "--score"),
                  ("stats", path, "--peaks", 0), ("stats", path, "--peaks"), ("stats", path, "--peaks", "-1")):
        tool.fails("%s" % (words[:1] + words[2:],), words, b"--help says more")
    tool.expect("nothing is made", os.path.exists(tool.path("x")), False)
    for lengths in ((2, 2, 6), (4, 4, 6)):
        other = tool.file("other", combined_bytes(0, lengths, {q: 1 for q in all_points(lengths)}))
        tool.fails("other lengths", ("match", path, other), b"%s and %s have group 0 (P1), lengths 4 2 6; and" % (path.encode(), other.encode()))
    for words in ((second, first, first, second), (first, second, second, first), (first, first, first, second)):
        status, out, err = tool.run("match", *words)
        tool.expect("pairs that are none", (status, out, b": refused 27 at 0" in err), (1, b"", True))
    tool.fails("a pair of combined maps", ("match", path, path, first, second), b"is a combined map file, which has no records")
    tool.fails("a missing file", ("match", path, tool.path("nowhere")), b"cannot read")
    bad = tool.file("bad", b"RCMB\1\0\0\4")
    status, out, err = tool.run("match", path, bad)
    tool.expect("a damaged file", (status, out, err.startswith(b"recorder: %s: refused 15 at 0" % bad.encode())), (1, b"", True))
    for contents in (b"", b"5", b"5\n", b" 5 -7 ", None):
        kept = tool.file("kept", contents or b"")
        if contents is None:
            os.remove(kept)
        score = Expected(n, (0, 0), a, a).score
        tool.expect("a score behind %r" % contents, tool.run("match", path, path, "--append", kept)[0], 0)
        want = (contents or b"") + (b"\n" if contents == b"5" else b"") + b"%d\n" % score
        tool.expect("the run after %r" % contents, open(kept, "rb").read(), want)
        tool.expect("a run that drift reads", tool.run("drift", 1, kept)[0], 0)
    for contents, part in ((b"no score\n", b"line 1"), (b"1 2 x", b"line 1"), (open(path, "rb").read(), b"is a combined map file, and not a file of scores")):
        kept = tool.file("kept", contents)
        tool.fails("no run of scores", ("match", path, path, "--append", kept), part)
        tool.expect("it is as it was", open(kept, "rb").read(), contents)
    tool.fails("a folder for scores", ("match", path, path, "--append", tool.folder), b"is not a regular file")
    for name in (path, first):
        for option in ("--append", "-o"):
            tool.fails("%s of a file that is read" % option, ("match", first, path, option, name), b"is the file to read and the file to write")
    tool.expect("the files", (open(path, "rb").read(), open(first, "rb").read()), (combined_bytes(0, n, a), factor_file(0, n, a, 1)))
    kept = tool.file("kept", b"12\n")
    os.symlink("kept", tool.path("kept.link"))
    with open(kept, "ab") as out:
        tool.fails("the run as standard output", ("match", path, path, "--append", kept), b"is the file to read and the file to write by standard", stdout=out)
    for words in (("--append", kept, "-o", tool.path("kept.link")), ("--append", tool.path("kept.link"), "-o", kept)):
        tool.fails("the run as the overlay", ("match", path, path, *words), b"is the file to read and the file to write")
    tool.expect("the run is as it was", open(kept, "rb").read(), b"12\n")
    limit = lambda: resource.setrlimit(resource.RLIMIT_FSIZE, (4, 4))
    kept = tool.file("kept", b"12\n")
    status, out, err = tool.run("match", path, path, "--append", kept, preexec_fn=limit)
    tool.expect("no room for a score", (status, out, b"cannot write" in err, open(kept, "rb").read()), (2, b"", True, b"12\n"))


# ---- peaks

def peaks(tool):
    """The highest points of maps with many equal numbers, each once for all its images."""
    rng = random.Random(SEED)
    for turn, (g, n) in enumerate(itertools.product(range(5), CELLS)):
        for kind in (1, 2, "combined"):
            bound = rng.choice([2, 40, 40000])
            numbers = drawn(rng, g, n, lambda: rng.randrange(-bound, bound + 1))
            path = files_of(tool, rng, "peaks", g, n, numbers, kind)[0]
            lowest = {min(point_images(g, n, q)): len(set(point_images(g, n, q))) for q in numbers}
            order = sorted(lowest, key=lambda q: (-numbers[q], q))
            plain = tool.run("stats", path)[1]
            for count in (1, 5, 1000):
                lines = ["peak %d at %d %d %d, %d point%s\n" % (numbers[q], *q, lowest[q], "s" * (lowest[q] > 1)) for q in order[:count]]
                tool.expect("peaks %d of group %d, %s, %s" % (count, g, n, kind), tool.run("stats", path, "--peaks", count),
                            (0, plain + "".join(lines).encode(), b""))
            tool.expect("the first peak is the greatest", b"greatest %d at" % numbers[order[0]] in plain, True)


# ---- large cells

LARGE, LARGE_SHIFT = 120, (7, 113, 60)


def large_counts():
    """The counts of P1 at 120^3, by rising z, then x, then y, and the same shifted with one of them changed."""
    m, shift = LARGE, LARGE_SHIFT
    counts = bytes(byte & 7 for byte in random.Random(SEED).randbytes(m ** 3))
    rows = [[counts[(z * m + x) * m:(z * m + x) * m + m] for x in range(m)] for z in range(m)]
    turned = [[rows[(z - shift[2]) % m][(x - shift[0]) % m] for x in range(m)] for z in range(m)]
    returned = bytearray(b"".join(row[-shift[1]:] + row[:-shift[1]] for plane in turned for row in plane))
    returned[5] += 3
    return counts, bytes(returned)


def large_viewer_file(counts, mode):
    """The same as a file of MRC, whose columns are along y and its rows along x: bytes, or floats."""
    n = (LARGE,) * 3
    head = mrc((2, 2, 2), {q: 0 for q in all_points((2, 2, 2))}, mode, header=[*zip((1, 2, 3), n), *zip((8, 9, 10), n), (17, 2), (18, 1)])[:1024]
    return head + (counts if mode == 0 else array.array("f", list(counts)).tobytes())


def large(tool):
    """P1 at 120^3, returned with a shift that was put in; and a cell that is too large for P1."""
    m, shift = LARGE, LARGE_SHIFT
    counts, returned = large_counts()
    head = combined_bytes(0, (2, 2, 2), {q: 0 for q in all_points((2, 2, 2))})[:6] + m.to_bytes(2, "big") * 3
    paths = []
    for name, numbers in (("deposit", counts), ("returned", returned)):
        spread = bytearray(8 * m ** 3)
        spread[7::8] = numbers
        paths.append(tool.file("large." + name, head + spread))
    viewers = [tool.file("large.mrc", large_viewer_file(counts, 0)), tool.file("large.ccp4", large_viewer_file(returned, 2))]
    made = tool.path("large.overlay")
    limit = lambda: resource.setrlimit(resource.RLIMIT_AS, (36 * volume_length(0, (m, m, m)) + 24 * 2 ** 20,) * 2)
    score = sum(x * x for x in counts)
    at = tuple((i - j) % m for i, j in zip((0, 5, 0), shift))
    old = counts[(at[2] * m + at[0]) * m + at[1]]
    want = ["shift 7 113 60, from zero 7 -7 60", "score %d" % (score + 3 * old), "own score %d" % score,
            "share %s" % thousandths(score + 3 * old, score)]
    left = "left 1 of 1728000 points, magnitudes sum up to 3; largest difference 3 at %d %d %d: %d and %d" % (*at, old, old + 3)
    for files in (paths, viewers):
        status, out, err = tool.run("match", *files, preexec_fn=limit)
        lines = out.decode().split("\n")
        tool.expect("a large match", (status, lines[2:6], lines[7:8], err), (0, want, [left], b""))
    tool.expect("overlay", tool.run("overlay", *paths, "-o", made), (0, b"", b""))
    tool.expect("the same as its parts", tool.run("best", made)[1].decode().split("\n")[0], "greatest %d at shift 7 113 60" % (score + 3 * old))
    n = (288, 288, 288)
    beyond = tool.file("beyond", file_bytes(1, n, [[4, 4, 3, 3]] * 3, [(0, 0, 0, 1, 0)]))
    status, out, err = tool.run("match", beyond, beyond)
    tool.expect("too large for P1", (status, out, err.startswith(b"recorder: %s: refused 9 at 0" % beyond.encode())), (1, b"", True))


def documented(tool):
    """What docs/FORMATS.md shows, of the samples."""
    page = open(os.path.join(HERE, "../docs/FORMATS.md"), encoding="utf-8").read()
    sample = lambda name: os.path.join(HERE, "../samples", name)
    status, out, err = tool.run("match", sample("p212121.factors"), sample("p212121.factors"))
    shown = "".join("    %s\n" % line for line in out.decode().split("\n")[:-1])
    tool.expect("the documented match", (status, shown in page, err), (0, True, b""))
    err = tool.run("match", sample("p21.factors"), sample("p21.factors"))[2].decode()
    tool.expect("the documented refusal", "    %s\n" % err.split("\n")[2] in page, True)


def all_parts(tool):
    for part in (crystals, counted, scaled, wrong, peaks, large, documented):
        part(tool)


if __name__ == "__main__":
    tested(all_parts, Matcher)
