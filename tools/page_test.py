#!/usr/bin/env python3
"""The test of pages for a browser: what stands in them, and what a browser shows of them.

    page_test.py PROGRAM

Factor files, map files and combined map files of all five groups, both primes and several lengths: every plane that a page has, as JSON, its header,
result, powers, least and greatest number with their links, against the book of brute_force.py. Two files side by side, of other lengths, refused
ones; file names that are HTML themselves; planes that are chosen and cells that are too large for a page; runs of scores, their windows against
window_cases.py and the plot point by point; overlays; wrong command lines. A page's form: elements that close, one of each id, a language, a title,
nothing that is fetched.

Then the pages in Chromium without a window, where it is installed (nothing is installed here; where it is not, that is said): the numbers, and the
number under the pointer, on planes that the address, the slider's keys, a link and the pointer choose, against what recorder map prints; colours by
their pixels; contours; light, dark and print; no error of the script and no request. A cell of 64 x 64 x 64 and a plane of 2^20 numbers in bounded
time. The seed is fixed. Prints how many comparisons agreed; the exit status is 1 where one did not.
"""
import html.parser
import json
import os
import pathlib
import random
import re
import tempfile
import time

from brute_force import PRIMES, all_points, file_bytes, signed
from browser import Browser, installed
from expected_files import combined_bytes
from host_test import GREATEST, GROUPS, best_text, overlaid, power_text, some_count, some_lists, some_numbers
from look_test import Entry
from tool import Tool, tested
from window_cases import SCORES, windows

SEED = 1953
SIZES = [(2, 2, 2), (4, 6, 4), (6, 4, 8)]
MOST_NUMBERS = 2 ** 20
MOST_SCORES = 4096
# Within these a large page is open, on a busy machine too; on an idle one it takes less than one.
MOST_SECONDS = 60
WINDOW = 8
VOID = {"meta", "link", "br", "input", "path", "polyline"}
SKIPPED = "no browser is installed (chromium): what pages show was skipped, what stands in them was tested"


class Pages(Tool):
    """The tool, and a browser where there is one."""

    browser = None

    def page(self, what, *words, status=0, given=b"", err=b""):
        """Makes a page, and reads it."""
        made = self.path("page.html")
        self.expect(what, self.run("page", *words, "-o", made, given=given), (status, b"", err))
        return Parsed(self, what, open(made, encoding="utf-8").read())

    def open(self, what, fragment=""):
        """The page that was made last, in the browser: it has no errors, and asks for nothing."""
        self.browser.open(pathlib.Path(self.path("page.html")).as_uri() + fragment)
        self.expect(what + ": errors and requests", self.browser.troubles(), [])

    def follow(self, fragment):
        """Another plane and point of the page that is open."""
        self.browser.value("new Promise(done => { addEventListener('hashchange', () => done(), { once: true }); location.hash = %s; })" % json.dumps(fragment))

    def text(self, selector, which=0):
        return self.browser.value("document.querySelectorAll(%s)[%d].textContent" % (json.dumps(selector), which))


class Parsed(html.parser.HTMLParser):
    """A page: its elements close in their order, no id is there twice, and no attribute names anything to be fetched."""

    def __init__(self, tool, what, text):
        super().__init__()
        self.source, self.opened, self.ids, self.wrong = text, [], [], []
        self.texts, self.planes, self.links, self.lang, self.places = {}, {}, [], None, []
        self.feed(text)
        self.close()
        tool.expect(what + ": its form", (self.opened, self.wrong, len(self.ids) - len(set(self.ids)), self.lang), ([], [], 0, "en"))

    def handle_starttag(self, tag, attributes):
        found = dict(attributes)
        self.ids += [found["id"]] if "id" in found else []
        self.lang = found.get("lang") if tag == "html" else self.lang
        if tag == "a":
            self.links.append(found["href"])
        for name in ("src", "href", "srcset", "data", "action", "xlink:href"):
            if not found.get(name, "#").startswith("#") and found[name] != "data:,":
                self.wrong.append((tag, name, found[name]))
        if tag in ("canvas", "svg") and found.get("role") != "img":
            self.wrong.append((tag, "no role"))
        if tag not in VOID:
            self.opened.append((tag, found))

    def handle_endtag(self, tag):
        if tag in VOID:
            return
        if not self.opened or self.opened.pop()[0] != tag:
            self.wrong.append(("closes", tag))

    def handle_data(self, data):
        if not self.opened:
            return
        tag, attributes = self.opened[-1]
        if "data-z" in attributes:
            self.planes[attributes["data-map"], int(attributes["data-z"])] = json.loads(data)
        for key in (tag, attributes.get("class"), attributes.get("id")):
            if key:
                self.texts[key] = self.texts.get(key, "") + data
        inside = [key for key, _ in self.opened]
        if "dt" in inside:
            self.places.append([data, ""])
        elif "dd" in inside:
            self.places[-1][1] += data

    def terms(self):
        return [tuple(place) for place in self.places]


# ---- what stands in a page

def entries(rng):
    """Maps of every group, prime and length, and combined ones with the ends of their range."""
    for g in range(5):
        for n in SIZES:
            for modulus, p in PRIMES.items():
                yield Entry(g, n, some_numbers(rng, g, n, lambda: signed(rng.randrange(p), p)), modulus=modulus)
            yield Entry(g, n, some_numbers(rng, g, n, lambda: rng.choice([some_count(rng), 0, GREATEST, -GREATEST])))


def extreme(numbers, number):
    return "%d at x %d, y %d, z %d" % (number, *min(q for q, x in numbers.items() if x == number))


def expected_terms(tool, entry, path):
    """Header, result, powers, least and greatest number."""
    n, g = entry.n, entry.g
    kind = "combined map file" if not entry.modulus else "map file" if path.endswith(".map") else "factor file"
    count = tool.run("info", path)[1].decode().strip().split("\n")[-1].split()
    version = 1 if entry.modulus in (None, 1) else 2
    terms = [("Kind", "%s, version %d" % (kind, version)), ("Group", "%d (%s)" % (g, GROUPS[g])), ("Lengths", "%d %d %d" % n)]
    if entry.modulus:
        terms += [("Modulus", "%d, the prime %d" % (entry.modulus, entry.p)), ("Lists", " ".join(",".join(map(str, some)) or "-" for some in entry.lists))]
    terms += [(count[0].capitalize(), count[1]), ("Result", "accepted")]
    if entry.modulus:
        sums = power_text(n, entry.book.F, entry.M, entry.modulus, entry.p).decode().split("\n")
        terms.append(("Powers", "%s, %s; %s: %s" % tuple(sums[1:5])))
    else:
        terms.append(("Powers", "none: a combined map has no modulus"))
    values = entry.numbers.values()
    return terms + [("Least", extreme(entry.numbers, min(values))), ("Greatest", extreme(entry.numbers, max(values)))]


def maps_of_all_kinds(tool):
    """Every plane of every kind of file; in the browser every point of one plane, and each plane's numbers."""
    rng = random.Random(SEED)
    for entry in entries(rng):
        for path in entry.files(tool):
            what = "%s, %s" % (entry.what(), os.path.basename(path))
            page = tool.page(what, path)
            tool.expect(what + ": what is told", page.terms(), expected_terms(tool, entry, path))
            tool.expect(what + ": its planes", page.planes, {("0", z): entry.rows(z) for z in range(entry.n[2])})
            firsts = [min(q for q, x in entry.numbers.items() if x == end) for end in (min(entry.numbers.values()), max(entry.numbers.values()))]
            tool.expect(what + ": its links", page.links, ["#z=%d&x=%d&y=%d" % (z, x, y) for x, y, z in firsts])
            tool.expect(what + ": by streams", tool.run("page", "-", "-o", "-", given=open(path, "rb").read())[1].decode().count("application/json"),
                        entry.n[2])
            if tool.browser:
                shown(tool, rng, what, path, entry)


def shown(tool, rng, what, path, entry):
    """What the browser shows of each plane is what map prints."""
    whole = tool.run("map", path, "--whole-cell")[1].decode().split("\n", 1)[1]
    lines = whole.splitlines(keepends=True)
    for z in range(entry.n[2]):
        x, y = rng.randrange(entry.n[0]), rng.randrange(entry.n[1])
        fragment = "#z=%d&x=%d&y=%d" % (z, x, y)
        if z == 0:
            tool.open(what, fragment)
        else:
            tool.follow(fragment)
        want = "".join(lines[z * entry.n[0]:(z + 1) * entry.n[0]])
        tool.expect("%s: the numbers of plane %d" % (what, z), tool.text(".numbers"), want)
        tool.expect("%s: the number at a point" % what, tool.text(".point"), "x %d, y %d, z %d: %d" % (x, y, z, entry.numbers[x, y, z]))
        of_plane = [number for row in entry.rows(z) for number in row]
        tool.expect("%s: the plane's ends" % what, tool.text(".plane"), "z = %d: from %d to %d" % (z, min(of_plane), max(of_plane)))


def names(tool):
    """File names that are HTML, that turn the direction of writing, that have line ends or are no UTF-8 stand in the page as text."""
    contents = file_bytes(0, (2, 2, 2), [[], [], []], [(0, 0, 0, 7, 0)])
    for name in ("<b>&amp;\"x\"='y'", "--></script><script>document.title=1<!--", "</title>&lt;", "a\nb\tc", "\u202egnp.html", "' onload='x", "é ß 猫"):
        folder = tempfile.mkdtemp(dir=tool.folder)
        os.makedirs(os.path.dirname(os.path.join(folder, name)), exist_ok=True)
        path = os.path.join(folder, name)
        with open(path, "wb") as out:
            out.write(contents)
        said = path.replace("\n", "\\n").replace("\t", "\\t")
        page = tool.page("a name", path)
        tool.expect("%r: the title" % name, page.texts["title"], said + " - map recorder")
        tool.expect("%r: the heading" % name, said in page.texts["bdi"], True)
        if tool.browser:
            tool.open("a name")
            tool.expect("%r: as shown" % name, (tool.text("h1"), tool.browser.value("document.title")), (said, said + " - map recorder"))
    path = os.path.join(tool.folder.encode(), b"\xff\xfe.factors")
    with open(path, "wb") as out:
        out.write(contents)
    page = tool.page("bytes that are no UTF-8", os.fsdecode(path))
    tool.expect("bytes that are no UTF-8: the title", page.texts["title"], tool.folder + "/\\xff\\xfe.factors - map recorder")


def two_files(tool):
    """Two files of one or of other lengths under one slider, and one that is refused."""
    rng = random.Random(SEED)
    one = Entry(1, (4, 6, 4), some_numbers(rng, 1, (4, 6, 4), lambda: rng.randrange(-99, 100)), modulus=1)
    other = Entry(0, (2, 4, 6), some_numbers(rng, 0, (2, 4, 6), lambda: rng.randrange(-9999, 10000)))
    first, second = one.files(tool)[0], other.files(tool)[0]
    page = tool.page("two files", first, second)
    tool.expect("two files: what is told", page.terms(), expected_terms(tool, one, first) + expected_terms(tool, other, second))
    both = {**{("0", z): one.rows(z) for z in range(4)}, **{("1", z): other.rows(z) for z in range(6)}}
    tool.expect("two files: their planes", page.planes, both)
    if tool.browser:
        tool.open("two files", "#z=3&x=1&y=2")
        got = [tool.text(".point", k) for k in (0, 1)]
        tool.expect("two files: one point", got, ["x 1, y 2, z 3: %d" % entry.numbers[1, 2, 3] for entry in (one, other)])
        tool.open("two files", "#z=5&x=3&y=1")
        got = [(tool.text(".plane", k), tool.text(".point", k), tool.text(".numbers", k) == "") for k in (0, 1)]
        ends = [number for row in other.rows(5) for number in row]
        tool.expect("two files: a plane of one", got, [("has no plane z = 5 in this page", "", True), ("z = 5: from %d to %d" % (min(ends), max(ends)), "", False)])
    cut = tool.file("cut.factors", b"\0\0\0\x66\1\1")
    words = tool.run("check", cut)[1]
    for files in ((cut, first), (first, cut), (cut,)):
        page = tool.page("a refused file", *files, status=1, err=b"recorder: %s: %s" % (cut.encode(), words))
        told = [said for term, said in page.terms() if term == "Result"]
        tool.expect("a refused file: its result", told, ["accepted" if file == first else words.decode().strip().replace("\n", "") for file in files])
        tool.expect("a refused file: the planes", len(page.planes), 4 * (len(files) - 1))
        if tool.browser:
            tool.open("a refused file", "#z=2&x=3&y=5")
            got = tool.browser.value("[...document.querySelectorAll('.point')].map(point => point.textContent)")
            tool.expect("a refused file: what is shown", got, ["x 3, y 5, z 2: %d" % one.numbers[3, 5, 2]] * (len(files) - 1))


# ---- planes

def chosen_planes(tool):
    """Planes that are named, from either end; cells that have more numbers than a page takes; planes that there are not."""
    rng = random.Random(SEED)
    entry = Entry(4, (4, 2, 10), some_numbers(rng, 4, (4, 2, 10), lambda: rng.randrange(-99, 100)), modulus=2)
    path = entry.files(tool)[1]
    for words, planes in (("0", [0]), ("3,1,3", [1, 3]), ("2..5", [2, 3, 4, 5]), ("-1,0", [0, 9]), ("-3..-1", [7, 8, 9]), ("0..-1", list(range(10)))):
        page = tool.page("planes " + words, path, "--planes", words)
        tool.expect("planes %s" % words, page.planes, {("0", z): entry.rows(z) for z in planes})
        said = "this page has %d plane%s of 10" % (len(planes), "s" * (len(planes) > 1))
        tool.expect("planes %s: how many" % words, said in page.texts.get("note", ""), len(planes) < 10)
        away = [min(q for q, x in entry.numbers.items() if x == end) for end in (min(entry.numbers.values()), max(entry.numbers.values()))]
        tool.expect("planes %s: links" % words, page.links, ["#z=%d&x=%d&y=%d" % (z, x, y) for x, y, z in away if z in planes])
    none = tool.path("none.html")
    for words in ("10", "-11", "0,99", "0..10"):
        status, out, err = tool.run("page", path, "--planes", words, "-o", none)
        tool.expect("planes " + words, (status, out, err.split(b"\n")[0]), (1, b"", b"recorder: %s: refused 10 at 0" % path.encode()))
    for words in ("", "a", "1,", "1..", "5..2", "1-3", "1.5"):
        tool.fails("planes %r" % words, ("page", path, "--planes", words, "-o", none), b"--planes")
    tool.expect("no page", os.path.exists(none), False)


def large(tool):
    """64^3 whole; cells beyond the limit; a plane of as many numbers as a page takes, and of more."""
    rng = random.Random(SEED)
    records = [(1, 2, 3, 777, 5555), (0, 1, 0, 81000, 12), (5, 0, 2, 1, 86000)]
    path = tool.file("large", file_bytes(0, (64, 64, 64), [[4, 4, 2]] * 3, records))
    page = tool.page("64^3", path)
    lines = tool.run("map", path, "--whole-cell")[1].decode().split("\n", 1)[1].splitlines(keepends=True)
    rows = [[int(word) for word in line.split()[2:]] for line in lines]
    tool.expect("64^3: all planes", page.planes == {("0", z): rows[64 * z:64 * z + 64] for z in range(64)}, True)
    if tool.browser:
        for z in (0, 41, 63):
            began = time.monotonic()
            tool.open("64^3", "#z=%d&x=63&y=7" % z)
            took = time.monotonic() - began
            tool.expect("64^3: plane %d" % z, tool.text(".numbers"), "".join(lines[64 * z:64 * z + 64]))
            tool.expect("64^3: its point", tool.text(".point"), "x 63, y 7, z %d: %d" % (z, rows[64 * z + 63][7]))
            tool.expect("64^3: opened in %.1f s" % took, took < MOST_SECONDS, True)
    path = tool.file("large", file_bytes(1, (120, 120, 120), [[4, 5, 3]] * 3, records[:1]))
    page = tool.page("120^3", path)
    shown_planes = sorted(z for _, z in page.planes)
    tool.expect("120^3: as many as there is room for", MOST_NUMBERS // 14400 - 2 <= len(shown_planes) <= MOST_NUMBERS // 14400, True)
    tool.expect("120^3: spread", max(b - a for a, b in zip(shown_planes, shown_planes[1:] + [120])) <= 2, True)
    tool.expect("120^3: links", [int(link.split("&")[0][3:]) in shown_planes for link in page.links], [True, True])
    tool.expect("120^3: in words", "this page has %d planes of 120; a page takes at most 1048576 numbers" % len(shown_planes) in page.texts["note"], True)
    z = rng.choice(shown_planes)
    text = tool.run("map", path, "--plane", z)[1].decode().split("\n", 1)[1]
    tool.expect("120^3: a plane", page.planes["0", z], [[int(word) for word in line.split()[2:]] for line in text.splitlines()])
    tool.fails("120^3: too many planes", ("page", path, "--planes", "0..-1", "-o", tool.path("none")), b"72 such planes")
    path = tool.file("large", file_bytes(0, (960, 960, 2), [[4, 4, 5, 3, 2]] * 2 + [[]], [(0, 0, 0, 9, 0)]))
    tool.expect("a plane of 921,600", sorted(tool.page("a large plane", path, "--planes", "1").planes), [("0", 1)])
    if tool.browser:
        began = time.monotonic()
        tool.open("a large plane")
        tool.expect("a large plane", (tool.text(".point"), tool.text(".numbers")), ("x 0, y 0, z 1: 9", ""))
        tool.browser.value("document.querySelector('details').open = true; new Promise(done => setTimeout(done, 200))")
        tool.expect("a large plane: its numbers", tool.text(".numbers").split("\n")[959], "1 959" + " 9" * 960)
        took = time.monotonic() - began
        tool.expect("a large plane: opened in %.1f s" % took, took < MOST_SECONDS, True)
    path = tool.file("large", file_bytes(0, (1440, 960, 2), [[4, 4, 5, 3, 3], [4, 4, 5, 3, 2], []], [(0, 0, 0, 9, 0)]))
    page = tool.page("a plane beyond a page", path)
    tool.expect("a plane beyond a page", (page.planes, "this page has 0 planes of 2" in page.texts["note"]), ({}, True))
    if tool.browser:
        tool.open("a plane beyond a page")


# ---- scores and overlays

def scores(tool):
    """Runs of scores: the windows' numbers, and the plot's points where they should be."""
    rng = random.Random(SEED)
    path = tool.file("one.factors", file_bytes(0, (2, 2, 2), [[], [], []], []))
    runs = [[5], [3, 3, 3], [rng.randrange(-50, 50) for _ in range(40)], [rng.choice(SCORES) for _ in range(30)], [rng.gauss(0, 9) for _ in range(5000)]]
    for run in [list(map(int, run)) for run in runs]:
        for w in (None, 1, 3, 64):
            what = "%d scores, w %s" % (len(run), w)
            given = tool.file("run", " ".join(map(str, run)).encode())
            page = tool.page(what, path, "--scores", given, *(("--window", w) if w else ()))
            found = windows(run, w or WINDOW)
            first = max(0, len(run) - MOST_SCORES)
            lines = ["%d %d %d %d %d\n" % (k + (w or WINDOW) - 1, low, at, high, where) for k, (low, high, at, where) in enumerate(found)]
            lines = [line for line in lines if int(line.split()[0]) >= first]
            tool.expect(what + ": windows", page.texts.get("windows", ""), "".join(lines))
            tool.expect(what + ": scores", page.texts["run"], "".join("%d %d\n" % (k, x) for k, x in enumerate(run) if k >= first))
            plotted(tool, what, page.source, run[first:])
    empty = tool.page("no scores", path, "--scores", tool.file("run", b""))
    tool.expect("no scores", "The run has no scores." in empty.source, True)
    status, out, err = tool.run("page", path, "--scores", "-", "--window", 65, "-o", tool.path("none"))
    tool.expect("a window of 65", (status, out, err.split(b"\n")[0]), (1, b"", b"recorder: --window: refused 34 at 0"))
    tool.fails("no scores there", ("page", path, "--scores", tool.file("run", b"1 x"), "-o", tool.path("none")), b"is not a whole number")
    tool.fails("a window alone", ("page", path, "--window", 3, "-o", tool.path("none")), b"--scores")


def plotted(tool, what, source, run):
    """The line has a point for each score: from the left to the right at equal distances, the higher the greater the score."""
    words = re.search('<polyline class="score" points="([^"]*)"', source)[1].split()
    points = list(zip(map(float, words[::2]), map(float, words[1::2])))
    across, down = [x for x, _ in points], [y for _, y in points]
    low, high = min(run), max(run)
    top, bottom = min(down), max(down)
    near = lambda got, share, start, end: abs(got - (start + share * (end - start))) < 0.11
    fits = all(near(x, k / max(1, len(run) - 1), across[0], across[-1]) for k, x in enumerate(across))
    fits = fits and all(near(y, (score - low) / max(1, high - low), bottom, top) for y, score in zip(down, run))
    tool.expect(what + ": the plot", (len(points), fits, top == bottom), (len(run), True, low == high))
    dots = re.findall("<title>entry ([0-9]+): (-?[0-9]+)</title>", source)
    tool.expect(what + ": its dots", dots, [(str(k), str(x)) for k, x in enumerate(run)] if len(run) <= 400 else [])


def overlays(tool):
    """The plane of the best shift of an overlay, marked; an overlay of other lengths."""
    rng = random.Random(SEED)
    for n in SIZES:
        maps = [some_numbers(rng, 0, n, lambda: rng.randrange(-9, 10)) for _ in range(2)]
        files = [tool.file("map%d" % k, combined_bytes(0, n, numbers)) for k, numbers in enumerate(maps)]
        made, values = tool.path("overlay"), overlaid(n, *maps)
        tool.expect("overlay", tool.run("overlay", *files, "-o", made), (0, b"", b""))
        page = tool.page("overlay", *files, "--overlay", made)
        greatest, x, y, z = map(int, re.match(rb"greatest (-?\d+) at shift (\d+) (\d+) (\d+)", best_text(values)).groups())
        rows = [[values[a, b, z] for b in range(n[1])] for a in range(n[0])]
        tool.expect("overlay: its plane", {key: plane for key, plane in page.planes.items() if key[0] == "overlay"}, {("overlay", z): rows})
        said = "Greatest value %d at shift %d %d %d; at shift 0 0 0 it is %d." % (greatest, x, y, z, values[0, 0, 0])
        tool.expect("overlay: in words", said in page.texts["p"], True)
        if tool.browser:
            tool.open("overlay")
            got = tool.text("#overlay .point"), tool.text("#overlay .numbers")
            lines = "".join("%d %d %s\n" % (z, a, " ".join(map(str, row))) for a, row in enumerate(rows))
            tool.expect("overlay: as shown", got, ("x %d, y %d, z %d: %d" % (x, y, z, greatest), lines))
    other = tool.file("other", combined_bytes(0, (2, 2, 4), dict.fromkeys(all_points((2, 2, 4)), 1)))
    tool.fails("an overlay of other lengths", ("page", *files, "--overlay", other, "-o", tool.path("none")), b"lengths")
    tool.fails("no overlay", ("page", *files, "--overlay", tool.file("one", b"\0\0\0\0"), "-o", tool.path("none")), b"not a combined map file")


def command_line(tool):
    """No file to write, a file to read and to write, standard input twice, files that are missing."""
    path, none = tool.file("one.factors", file_bytes(0, (2, 2, 2), [[], [], []], [])), tool.path("none")
    run = tool.file("run", b"1 2 3")
    for words, part in (((path,), b"-o"), ((path, path, path, "-o", none), b"3 words"), (("-o", none), b"nothing"), ((path, "-o", path), b"to write"),
                        ((path, run, "-o", run), b"to write"), ((path, "--scores", run, "-o", run), b"to write"), (("-", "-", "-o", none), b"standard input"),
                        (("-", "--scores", "-", "-o", none), b"standard input"), ((tool.path("missing"), "-o", none), b"missing"),
                        ((path, tool.path("missing"), "-o", none), b"missing"), ((path, "--scores", tool.path("missing"), "-o", none), b"missing")):
        tool.fails("page %s" % (words,), ("page", *words), part)
    tool.expect("nothing is written", (os.path.exists(none), open(run, "rb").read()), (False, b"1 2 3"))


# ---- what a browser does

def hands(tool):
    """The slider's keys, the arrow keys on a section, the pointer and the links; the address follows."""
    rng = random.Random(SEED)
    entry = Entry(3, (6, 8, 6), some_numbers(rng, 3, (6, 8, 6), lambda: rng.randrange(-43199, 43200)), modulus=1)
    tool.page("hands", entry.files(tool)[1])
    browser = tool.browser
    browser.call("Emulation.setDeviceMetricsOverride", width=1200, height=1600, deviceScaleFactor=1, mobile=False)
    tool.open("hands")

    def at(what, x, y, z):
        said = "x %d, y %d, z %d: %d" % (x, y, z, entry.numbers[x, y, z])
        tool.expect("hands: " + what, (tool.text(".point"), browser.value("document.getElementById('z').value")), (said, str(z)))

    at("as it opens", 0, 0, 0)
    browser.value("document.getElementById('z').focus()")
    for key, z in (("ArrowRight", 1), ("ArrowRight", 2), ("ArrowLeft", 1), ("End", 5), ("ArrowRight", 5), ("Home", 0), ("ArrowUp", 1)):
        browser.press(key)
        at(key + " on the slider", 0, 0, z)
    tool.expect("hands: the address", browser.value("location.hash"), "#z=1&x=0&y=0")
    browser.value("document.querySelector('.field').focus()")
    for key, x, y in (("ArrowDown", 1, 0), ("ArrowRight", 1, 1), ("ArrowRight", 1, 2), ("ArrowUp", 0, 2), ("ArrowUp", 0, 2), ("ArrowLeft", 0, 1)):
        browser.press(key)
        at(key + " on the section", x, y, 1)
    box = browser.value("(() => { const b = document.querySelector('canvas').getBoundingClientRect(); return [b.left, b.top, b.width, b.height]; })()")
    for x, y in ((0, 0), (5, 7), (3, 4), (2, 6)):
        browser.point(box[0] + (y + 0.4) / 8 * box[2], box[1] + (x + 0.6) / 6 * box[3], press=(x, y) == (2, 6))
        at("the pointer", x, y, 1)
    tool.expect("hands: the address", browser.value("location.hash"), "#z=1&x=2&y=6")
    for which, end in enumerate((min, max)):
        number = end(entry.numbers.values())
        browser.value("new Promise(done => { addEventListener('hashchange', () => done(), { once: true }); document.querySelectorAll('dd a')[%d].click(); })" % which)
        at("a link", *min(q for q, x in entry.numbers.items() if x == number))
    tool.follow("#z=99&x=1&y=1")
    tool.expect("hands: a plane that there is not", "z 99" in tool.text(".point"), False)
    tool.expect("hands: errors", browser.troubles(), [])


def colours(tool):
    """Zero is white, numbers below it are blue and above it orange, darker by magnitude; the legend's ends; contours where they should be."""
    n, browser = (2, 16, 2), tool.browser
    values = [-80, -60, -40, -20, -1, 0, 1, 20, 40, 60, 80, 60, 40, 20, 0, -40]
    numbers = {(x, y, z): values[y] // (1 + z) for x, y, z in all_points(n)}
    tool.page("colours", tool.file("map", combined_bytes(0, n, numbers)))
    tool.open("colours")
    pixel = "(([x, y]) => { const c = document.querySelector('canvas'); return [...c.getContext('2d').getImageData(c.width * (y + .5) / 16, c.height * (x + .3) / 2, 1, 1).data]; })"
    tool.expect("colours: the legend", [tool.text(".ends span", k) for k in range(3)], ["-80", "0", "80"])
    tool.expect("colours: contours in words", "Contours at multiples of 20: whole lines above zero, dashed below." in tool.text(".levels"), True)
    dark = "[...Array(%d).keys()].filter(i => { const c = document.querySelector('canvas'); return c.getContext('2d').getImageData(i, c.height / 2 - 1, 1, 1).data[1] < 60; }).length"
    lines = browser.value(dark % 1200)
    tool.expect("colours: contours", lines > 10, True)
    browser.value("document.getElementById('contours').click()")
    tool.expect("colours: no contours", (browser.value(dark % 1200), "ontours" in tool.text(".levels")), (0, False))
    seen = [browser.value(pixel + "([0, %d])" % y) for y in range(16)]
    tool.expect("colours: zero", seen[5], [255, 255, 255, 255])
    tool.expect("colours: the ends", (seen[0], seen[10]), ([33, 102, 172, 255], [179, 88, 6, 255]))
    tool.expect("colours: blue below", all(r < b for r, _, b, _ in seen[:5]), True)
    tool.expect("colours: orange above", all(r > b for r, _, b, _ in seen[6:14]), True)
    light = lambda rgba: 0.2126 * rgba[0] + 0.7152 * rgba[1] + 0.0722 * rgba[2]
    tool.expect("colours: darker by magnitude", sorted(seen[:6], key=light) == seen[:6] and sorted(seen[5:11], key=light, reverse=True) == seen[5:11], True)
    tool.expect("colours: one colour for one number", seen[9] == seen[11] and seen[2] == seen[15], True)
    tool.follow("#z=1")
    halves = browser.value(pixel + "([0, 10])")
    tool.expect("colours: half of the map's", halves, seen[8])
    browser.value("(s => { s.value = 'plane'; s.dispatchEvent(new Event('change')); })(document.getElementById('scale'))")
    tool.expect("colours: of the plane", (browser.value(pixel + "([0, 10])"), tool.text(".ends span", 2)), (seen[10], "40"))


def media(tool):
    """Light, dark and print: ink on paper in each; in print no slider; the page's width is never too small for what it has."""
    browser = tool.browser
    tool.page("media", tool.file("one.factors", file_bytes(2, (4, 4, 4), [[2]] * 3, [(0, 0, 0, 7, 0)])), "--scores", tool.file("run", b"1 5 3 2"))
    tool.open("media")
    asked = "(s => [s.backgroundColor, s.color])(getComputedStyle(document.body))"
    light = lambda rgb: sum(map(int, re.findall(r"\d+", rgb)[:3]))
    for kind, scheme, dark in (("screen", "light", False), ("screen", "dark", True), ("print", "dark", False)):
        browser.call("Emulation.setEmulatedMedia", media=kind, features=[{"name": "prefers-color-scheme", "value": scheme}])
        paper, ink = map(light, browser.value(asked))
        tool.expect("%s, %s" % (kind, scheme), (paper < ink, abs(paper - ink) > 400), (dark, True))
        shown_controls = browser.value("getComputedStyle(document.querySelector('.controls')).display") != "none"
        tool.expect("%s: the slider" % kind, shown_controls, kind == "screen")
    browser.call("Emulation.setEmulatedMedia", media="", features=[])
    for width in (360, 800, 1600):
        browser.call("Emulation.setDeviceMetricsOverride", width=width, height=800, deviceScaleFactor=1, mobile=False)
        tool.expect("%d wide" % width, browser.value("document.documentElement.scrollWidth <= innerWidth"), True)
    browser.call("Emulation.clearDeviceMetricsOverride")
    labelled = browser.value("[...document.querySelectorAll('canvas, svg, [role=img]')].every(e => e.getAttribute('aria-label'))")
    tool.expect("every picture has its words", labelled, True)


def all_parts(tool):
    for part in (maps_of_all_kinds, names, two_files, chosen_planes, large, scores, overlays, command_line):
        part(tool)
    for part in (hands, colours, media) if tool.browser else ():
        part(tool)


def with_browser(tool):
    program = installed()
    if not program:
        all_parts(tool)
        return
    with tempfile.TemporaryDirectory(ignore_cleanup_errors=True) as folder, Browser(program, folder) as browser:
        tool.browser = browser
        all_parts(tool)


if __name__ == "__main__":
    try:
        tested(with_browser, Pages)
    finally:
        if not installed():
            print(SKIPPED)
