#!/usr/bin/env python3
"""The test of check --all and pack --all: every record of a factor file that is refused, in one run.

    all_test.py PROGRAM

What is to be named is found here record by record, by the rules of brute_force.py: a record is refused if the file of those that were taken before it
and of itself is, and is then left out; for 24 the one that it clashes with is the first taken one of its orbit. Small files of all five groups, both
versions and both primes, with zeros, also where no value but zero can stand, each against the files of its first records by open_file; larger ones with
hundreds of faults; the same as texts, with the lines that this test wrote, numbers that do not fit their bytes and lines that are no records.
Several files, JSON by Python's json. Time: 500 records with 200 faults; 100,000 with 50,000; every orbit of P1 at 240^3 with one fault, in at most three
times the time of check. The seed is fixed. Prints how many comparisons agreed; the exit status is 1 where one did not.
"""
import json
import os
import random
import re
import subprocess
import time
from collections import Counter

from brute_force import PRIMES, file_bytes, first_record, images, modulus_in, lengths_in, needed, open_file, orbit_of, records_in
from expected_files import map_head
from faults_cases import OF_RECORDS, files as small_files
from many_test import header_in
from pack_test import made_line
from tool import Tool, tested

SEED = 1848
GROUPS = ["P1", "P2_1", "Pm", "Pa", "P2_1 2_1 2_1"]
CELLS = [(2, 2, 2), (4, 2, 6), (4, 4, 4), (2, 6, 8), (6, 8, 6)]


def refusal_of(g, n, p, record, taken):
    """The refusal of a record after those whose orbits are taken: the first place of each by the lowest index."""
    j, v = record[:3], record[3:]
    if any(i >= m for i, m in zip(j, n)):
        return 10, None
    if max(v) >= p:
        return 7, None
    if any(i == j and w != v for i, w in images(g, n, j, v, p)):
        return 12, None
    first = taken.get(min(orbit_of(g, n, j)))
    return (24, first) if first is not None else (0, None)


def faults_of(g, n, p, records):
    """Number, place and clash of every record that is refused."""
    taken, found = {}, []
    for place, record in enumerate(records):
        number, clash = refusal_of(g, n, p, record, taken)
        if number:
            found.append((number, place, clash))
        else:
            taken[min(orbit_of(g, n, record[:3]))] = place
    return found


def one_by_one(file):
    """The same by the file reader of brute_force.py: of the records that were taken and the next, again and again."""
    start, taken, found = first_record(file), [], []
    for place in range(len(records_in(file))):
        body = file[4:start - 4] + (len(taken) + 1).to_bytes(4, "big") + b"".join(file[start + 14 * q:start + 14 * q + 14] for q in [*taken, place])
        whole = len(body).to_bytes(4, "big") + body
        number = open_file(whole, needed(whole))[0]
        if number:
            found.append((number, place))
        else:
            taken.append(place)
    return found


def outside(record, n, given=None):
    """The indices that are not in the cell, as they are given."""
    shown = given or record
    return "; ".join("%s is %d, but N%d is %d" % ("hkl"[axis], shown[axis], axis + 1, n[axis]) for axis in range(3) if record[axis] >= n[axis])


def some_records(rng, g, n, p, count, faulty):
    """Records of which about a share is at fault, zeros among them, also where the group has no other value."""
    found = []
    for _ in range(count):
        j = tuple(rng.randrange(m) for m in n)
        a, b = rng.randrange(1, p), rng.randrange(1, p)
        sound = [v for v in ((a, b), (a, 0), (0, b)) if all(i != j or w == v for i, w in images(g, n, j, v, p))] + [(0, 0)]
        v = rng.choice([sound[0], sound[0], (0, 0)])
        if rng.random() < faulty:
            turn = rng.randrange(4)
            if turn == 0 and found:
                j = rng.choice(orbit_of(g, n, tuple(i % m for i, m in zip(rng.choice(found), n))))
                v = rng.choice([(0, 0), v])
            elif turn == 1:
                axis = rng.randrange(3)
                j = tuple(rng.choice([n[axis], 65535]) if at == axis else i for at, i in enumerate(j))
            elif turn == 2:
                v = rng.choice([(p, 0), (1, p), (2 ** 32 - 1, 5)])
            else:
                v = (a, b)
        found.append((*j, *v))
    return found


class All(Tool):
    def reasons(self):
        """Why and what to do, of each refusal of a record, as check says it of a file with that fault alone."""
        self.said = {}
        for number, records in ((10, [(2, 0, 0, 1, 0)]), (7, [(0, 0, 0, 86399, 0)]), (12, [(0, 0, 0, 1, 1)]), (24, [(0, 0, 0, 1, 0)] * 2)):
            lines = self.run("check", self.file("one", file_bytes(0, (2, 2, 2), [[], [], []], records)))[1].decode().split("\n")
            self.expect("a file that is refused %d" % number, lines[0].split(" at ")[0], "refused %d" % number)
            self.said[number] = "%d: %s; %s" % (number, lines[1].removeprefix("why: "), lines[3].removeprefix("what to do: "))

    def sum_lines(self, faults, count):
        counts = Counter(number for number, _, _ in faults)
        said = ", ".join("%d with %d" % (counts[number], number) for number in sorted(counts))
        return ["%d of %d records refused: %s; the others are accepted" % (len(faults), count, said)] + [self.said[number] for number in sorted(counts)]


def check_lines(n, records, faults, start, before=""):
    """The line of each refused record of a file whose first record begins at a byte."""
    shown = lambda place: "record %d, from byte %d on: h %d, k %d, l %d, a %d, b %d" % (place, start + 14 * place, *records[place])
    lines = []
    for number, place, clash in faults:
        found = shown(place)
        if clash is not None:
            found += "; of one orbit with " + shown(clash)
        if number == 10:
            found += "; " + outside(records[place], n)
        lines.append("%srefused %d at %d: %s" % (before, number, place, found))
    return lines


def checked(tool, what, file, g, n, p, records):
    """check --all of a file whose header is sound."""
    faults = faults_of(g, n, p, records)
    path = tool.file("all", file)
    if faults:
        lines = check_lines(n, records, faults, first_record(file)) + tool.sum_lines(faults, len(records))
        want = (1, ("\n".join(lines) + "\n").encode(), b"")
    else:
        want = (0, b"accepted\n", b"")
    tool.expect(what, tool.run("check", "--all", path), want)
    tool.expect(what + ", from standard input", tool.run("check", "-", "--all", given=file), want)
    return faults


# ---- files

def small(tool):
    """Every small file; what is refused as a whole is refused as ever."""
    met = Counter()
    for place, file in enumerate(small_files(120)):
        refusal = open_file(file, needed(file))[0]
        if refusal and refusal not in OF_RECORDS:
            path = tool.file("all", file)
            tool.expect("file %d" % place, tool.run("check", "--all", path), tool.run("check", path))
            continue
        g, n, p = file[5], lengths_in(file), PRIMES[modulus_in(file)]
        faults = checked(tool, "file %d" % place, file, g, n, p, records_in(file))
        tool.expect("file %d by its first records" % place, [fault[:2] for fault in faults], one_by_one(file))
        met.update(number for number, _, _ in faults)
    tool.expect("the refusals", set(met), OF_RECORDS)


def larger(tool):
    rng = random.Random(SEED)
    absent = 0
    for turn in range(60):
        g, modulus, n = turn % 5, 1 + turn // 5 % 2, CELLS[turn % len(CELLS) if turn > 20 else 1 + turn % 4]
        p, lists = PRIMES[modulus], [{2: [], 4: [2], 6: [3], 8: [4]}[m] for m in n]
        records = some_records(rng, g, n, p, rng.choice([10, 60, 200]), rng.choice([0, 0.02, 0.5]))
        file = file_bytes(g, n, lists, records, modulus)
        faults = checked(tool, "turn %d" % turn, file, g, n, p, records)
        for number, place, clash in faults:
            free = lambda j: any(all(i != j or w == v for i, w in images(g, n, j, v, p)) for v in ((1, 0), (0, 1)))
            absent += number == 24 and not free(records[place][:3])
    tool.expect("clashes where nothing but zero can stand", absent > 5, True)
    for g, n in ((1, (4, 2, 6)), (4, (4, 4, 4)), (3, (4, 2, 6))):
        lists, j = [{2: [], 4: [2], 6: [3]}[m] for m in n], {1: (0, 0, 1), 4: (1, 0, 0), 3: (1, 1, 0)}[g]
        records = [(*i, 0, 0) for i in orbit_of(g, n, j) * 2] + [(0, 0, 0, 5, 0), (*j, 0, 0), (*j, 1, 0), (0, 0, 0, 0, 0)]
        faults = checked(tool, "zeros alone in group %d" % g, file_bytes(g, n, lists, records), g, n, PRIMES[1], records)
        tool.expect("zeros alone in group %d: faults" % g, len(faults), len(records) - 2)


def documented(tool):
    """What docs/FORMATS.md shows."""
    page = open(os.path.join(os.path.dirname(os.path.abspath(__file__)), "../docs/FORMATS.md"), encoding="utf-8").read()
    records = [(0, 0, 0, 1000, 0), (0, 0, 6, 5, 0), (0, 0, 2, 40, 7), (0, 0, 4, 1, 0)]
    out = tool.run("check", "--all", tool.file("all", file_bytes(1, (6, 8, 6), [[3], [4], [3]], records)))[1].decode()
    tool.expect("the documented faults", "".join("    %s\n" % line for line in out.split("\n")[:-1]) in page, True)


def several(tool):
    """Several files, and JSON."""
    rng = random.Random(SEED)
    n, lists = (4, 2, 6), [[2], [], [3]]
    paths, lines, objects, ends = [], [], [], Counter()
    for turn in range(12):
        g, modulus = turn % 5, 1 + turn % 2
        records = some_records(rng, g, n, PRIMES[modulus], 20, [0, 0.4][turn % 3 > 0])
        file = file_bytes(g, n, lists, records, modulus)
        path = tool.file("several %d" % turn, file)
        faults = faults_of(g, n, PRIMES[modulus], records)
        lines += check_lines(n, records, faults, first_record(file), path + ": ")
        known = "%s: %s, 4 2 6, 20 records, " % (path, GROUPS[g])
        lines.append(known + ("refused %d of 20 records" % len(faults) if faults else "accepted"))
        objects.append((path, check_lines(n, records, faults, first_record(file)), faults))
        ends["refused" if faults else "accepted"] += 1
        paths.append(path)
    whole = tool.file("whole.map", map_head(0, (2, 2, 2), [[], [], []]) + bytes(32))
    paths += [whole, tool.path("missing"), tool.file("text", b"a text")]
    lines += ["%s: P1, 2 2 2, 8 densities, accepted" % whole, "%s: cannot read: No such file or directory (os error 2)" % tool.path("missing"),
              "%s: refused 15 at 0" % tool.path("text")]
    status, out, err = tool.run("check", *paths, "--all")
    got = [re.sub(r", \d+\.\d{3} s$", "", line) for line in out.decode().split("\n")[:-1]]
    last = got.pop()
    tool.expect("several files", (status, got, err), (2, lines, b""))
    tool.expect("their sum", last.rsplit(",", 1)[0], "15 files: %d accepted, %d refused, 1 unread" % (ends["accepted"] + 1, ends["refused"] + 1))
    status, out, err = tool.run("check", "--json", "--all", *paths)
    read = [json.loads(line) for line in out.splitlines()]
    tool.expect("objects", (status, len(read), err), (2, 15, b""))
    for (path, said, faults), got in zip(objects, read):
        tool.expect("result of " + path, (got["file"], got["result"]), (path, "refused" if faults else "accepted"))
        want = [{"number": number, "place": place, **({} if clash is None else {"clash": clash}), "found": line.split(": ", 1)[1]}
                for (number, place, clash), line in zip(faults, said)]
        tool.expect("faults of " + path, got.get("faults", []), want)
        if faults:
            tool.expect("the first of " + path, (list(got)[-1], got["number"], got["place"], got["found"]),
                        ("faults", want[0]["number"], want[0]["place"], want[0]["found"]))
    plain = [json.loads(line) for line in tool.run("check", "--json", *paths)[1].splitlines()]
    for one, other in zip(read, plain):
        one.pop("faults", None)
        tool.expect("the other fields", {**one, "seconds": 0}, {**other, "seconds": 0})


# ---- texts

def texts(tool):
    """The same as texts, with lines between the records, and numbers that do not fit their bytes."""
    rng = random.Random(SEED)
    for turn in range(80):
        g, modulus, n = turn % 5, 1 + turn // 5 % 2, rng.choice(CELLS)
        p = PRIMES[modulus]
        records = some_records(rng, g, n, p, rng.choice([5, 40]), rng.choice([0, 0.5]))
        lines = ["group %s" % GROUPS[g], "lengths %d %d %d" % n, "modulus %d" % modulus]
        shown, judged, wrong, given = [], [], [], []
        for record in records:
            while rng.randrange(4) == 0:
                lines.append(rng.choice(["", "# 1 2 3", "h k l a b", " "]))
            if turn % 4 == 3 and rng.randrange(6) == 0:
                bad, said = rng.choice([("1 2 3", "3 words; a record has five numbers, h k l a b"), ("1 2 3 4 5.5", '"5.5" is not a whole number'),
                                        ("x 1 1 1 1", '"x" is not a whole number'), ("0 0 0 1 0 0", "6 words; a record has five numbers, h k l a b")])
                lines.append(bad)
                wrong.append((len(lines), said))
            words = list(record)
            if rng.randrange(8) == 0:
                at = rng.randrange(5)
                words[at] = rng.choice([10 ** 30, -10 ** 30, 2 ** 32 + 1 if at > 2 else 65536 + 1, -(p if at > 2 else n[at] + 1)])
            lines.append(" ".join(map(str, words)))
            fits = [0 <= x < 65536 for x in words[:3]] + [0 <= x < 2 ** 32 for x in words[3:]]
            shown.append("line %d: h %s, k %s, l %s, a %s, b %s" % (len(lines), *words))
            given.append(words)
            judged.append(tuple(x if fit else 65535 if at < 3 else 2 ** 32 - 1 for at, (x, fit) in enumerate(zip(words, fits))))
        faults = faults_of(g, n, p, judged)
        path, made = tool.file("text", "\n".join(lines).encode()), tool.file("made", b"as it was")
        status, out, err = tool.run("pack", path, "-o", made, "--all")
        want = []
        for number, place, clash in faults:
            found = shown[place] + ("; of one orbit with " + shown[clash] if clash is not None else "")
            found += "; " + outside(judged[place], n, given[place]) if number == 10 else ""
            want.append("recorder: %s: refused %d at %d: %s" % (path, number, place, found))
        want += tool.sum_lines(faults, len(judged)) if faults else []
        got = err.decode().split("\n")[:-1]
        for (line, said), text in zip(wrong, got):
            head = "recorder: %s, line %d: %s" % (path, line, said)
            tool.expect("text %d, line %d" % (turn, line), text[:len(head)], head)
        contents = open(made, "rb").read()
        line = b"" if wrong or faults else made_line(made, contents)
        tool.expect("text %d" % turn, (status, out, got[len(wrong):]), (2 if wrong else 1 if faults else 0, line, want))
        if wrong or faults:
            tool.expect("text %d: the file" % turn, contents, b"as it was")
        else:
            tool.run("pack", path, "-o", tool.path("plain"))
            tool.expect("text %d: the file" % turn, contents, open(tool.path("plain"), "rb").read())
    for text, said in ((b"lengths 2 2 2\n0 0 0 1 0\n", b"there is no line group so far"), (b"group P1\nlengths 2 7 2\n0 0 0 1 0\n", b"refused 3 at 0")):
        path = tool.file("text", text)
        got, plain = tool.run("pack", path, "-o", "-", "--all"), tool.run("pack", path, "-o", "-")
        tool.expect("a header that is wrong", (got, said in got[2]), (plain, True))
    text = b"group P1\nlengths 2 2 2\n" + b"no record\n" * 1500
    status, out, err = tool.run("pack", tool.file("text", text), "-o", "-", "--all")
    tool.expect("lines that are none", (status, out, err.count(b"\n"), b"line 1003: reading ends here" in err), (2, b"", 1001, True))
    many = b"group P1\nlengths 2 2 2\n" + b"".join(b"%d 0 0 1 0\n" % (turn % 2) for turn in range(100))
    err = tool.run("pack", tool.file("text", many), "-o", "-", "--all")[2]
    tool.expect("more records than places", err.split(b"\n")[98], b"98 of 100 records refused: 98 with 24; the others are accepted")


# ---- time

def spent(tool, *words):
    """The seconds on the processor of a command, its status and what it printed."""
    with subprocess.Popen([tool.program, *words], stdout=subprocess.PIPE) as run:
        out = run.stdout.read()
        _, status, used = os.wait4(run.pid, 0)
        run.returncode = os.waitstatus_to_exitcode(status)
    return used.ru_utime + used.ru_stime, run.returncode, out


def in_time(tool):
    rng = random.Random(SEED)
    n, lists = (60, 60, 60), [[5, 3, 2]] * 3
    records = [(h, k, l, 1 + h, 0) for h in range(60) for k in range(60) for l in range(1, 30)]
    for count, faulty, bound in ((500, 200, 0.5), (100000, 50000, 10)):
        part = rng.sample(records, count)
        for at in rng.sample(range(1, count), faulty):
            part[at] = (*part[0][:3], 7, 7)
        path = tool.file("timed", file_bytes(0, n, lists, part))
        took, status, out = spent(tool, "check", "--all", path)
        tool.expect("%d of %d" % (faulty, count), (status, out.count(b"\n"), took < bound or took), (1, faulty + 2, True))
        text = "group P1\nlengths 60 60 60\n" + "".join("%d %d %d %d %d\n" % record for record in part)
        began = time.process_time()
        status, _, err = tool.run("pack", tool.file("text", text.encode()), "-o", "-", "--all")
        tool.expect("%d of %d lines" % (faulty, count), (status, err.count(b"\n"), time.process_time() - began < bound), (1, faulty + 2, True))


def every_orbit(tool):
    """All orbits of P1 at 240^3, some 6.9 million, and one fault among them."""
    n = (240, 240, 240)
    points = n[0] * n[1] * n[2]
    drawn, densities = random.Random(SEED).randbytes(2 * points), bytearray(4 * points)
    densities[2::4], densities[3::4] = drawn[::2], drawn[1::2]
    source, made = tool.file("large.map", map_head(0, n, [[5, 4, 3, 2]] * 3) + densities), tool.path("large.factors")
    tool.expect("factors of a large map", tool.run("factors", source, "-o", made), (0, b"", b""))
    start = len(file_bytes(0, n, [[5, 4, 3, 2]] * 3, []))
    count = (os.path.getsize(made) - start) // 14
    tool.expect("some 6.9 million records", count > 6900000, True)
    tool.expect("none at fault", tool.run("check", "--all", made), (0, b"accepted\n", b""))
    with open(made, "r+b") as file:
        file.seek(start + 14 * 5)
        record = file.read(14)
        file.seek(start + 14 * (count - 9))
        file.write(record)
    plain, all_of_them = spent(tool, "check", made), spent(tool, "check", "--all", made)
    said = all_of_them[2].split(b"\n")
    tool.expect("the one at fault", (plain[1], all_of_them[1], said[0].split(b":")[0], said[1]),
                (1, 1, b"refused 24 at %d" % (count - 9), b"1 of %d records refused: 1 with 24; the others are accepted" % count))
    tool.expect("the same as check says", b"found: " + said[0].split(b": ", 1)[1], plain[2].split(b"\n")[2])
    print("check %.2f s, check --all %.2f s" % (plain[0], all_of_them[0]))
    tool.expect("in three times the time of check", all_of_them[0] <= 3 * plain[0] or (plain[0], all_of_them[0]), True)


def test(tool):
    tool.reasons()
    for part in (small, larger, documented, several, texts, in_time, every_orbit):
        part(tool)


if __name__ == "__main__":
    tested(test, All)
