#!/usr/bin/env python3
"""Plants faults into the brute-force programs and shows that each changes lines of a test's stored output, so that the test would find it in
the crates too: those of brute_force.py in that of the recorder test, those of lanes.py in that of the scheduler test. Prints a line for each
fault; exit status 1 if one changes no line, or cannot be planted.

A fault is a text of the program, which must occur there once, and another in its place: refusals in another order, numbers judged that
a call does not read, or not judged that it reads, one prime in place of the other. Those of lanes stand in lane_faults.py.
"""
import functools
import importlib
import itertools
import sys
import types
from pathlib import Path

import brute_force
import file_cases
import job_cases
import scheduler_cases
import scheduler_records
import test_records
from lane_faults import LANE_FAULTS

TOOLS = Path(__file__).parent


def refusal(condition, number, rest=", 0, 0", indent=8):
    """A refusal as brute_force.py writes it."""
    return "%sif %s:\n%s    return %d%s\n" % (" " * indent, condition, " " * indent, number, rest)


LENGTH = refusal("len(self.lent()) != volume_length(g, n)", 6)
RESIDUES = refusal("not (residue(a, p) and residue(b, p))", 7)
BOOK_RESIDUES = refusal("not (residue(a, self.p) and residue(b, self.p))", 7)
TRANSFORM_LENGTH = refusal("len(v) != volume_length(g, n)", 6)
SCRATCH = refusal("scratch < SCRATCH", 13)
NUMBERS = refusal("not all(residue(x, p) for x in v)", 7)
WHOLE = refusal("not (consistent_map(g, n, v) if wants_map else consistent(g, n, v, p))", 14)
OUTSIDE_RECORD = refusal("any(c >= m for c, m in zip(j, n))", 10)
OUTSIDE_POINT = refusal("any(c >= m for c, m in zip((x, y, z), n))", 10)
OUTSIDE_FACTOR = refusal("any(c >= m for c, m in zip((h, k, l), n))", 10)
OUTSIDE_BOOK = "        if self.outside(j):\n"
STATE = "        if (s == 2) != wants_map:\n"
READ = "        x, places = read_factor(g, n, v, (h, k, l), p)\n"
ORBIT = "        orbit = images(g, n, j, (a, b), p)\n"
POWER_VALID = ('        """The power of the map or of the factors over the whole cell."""\n        g, p, n, _, s = self.parts()\n'
               + refusal("not self.valid()", 25))
POWER_STATE = "        if (s == 2) != of_map:\n            return (22 if of_map else 23), 0, 0\n"
POWER_LENGTH = "        v = self.lent()\n" + TRANSFORM_LENGTH
POWER_WHOLE = refusal("not (consistent_map(g, n, v) if of_map else consistent(g, n, v, p))", 14)
WRITER_STATE = refusal("s == 2", 23, ', b""')
WRITER_NUMBERS = refusal("not all(residue(x, p) for x in v)", 7, ', b""')
WRITER_WHOLE = refusal("not consistent(g, n, v, p)", 14, ', b""')
WRITER_FILE = "        file = file_bytes(g, n, lists, records, self.job[1])\n"
MAP_NUMBERS = refusal("not all(residue(x, PRIMES[m]) for x in v)", 7, indent=12)
MAP_WHOLE = refusal("not consistent_map(g, n, v)", 14, indent=12)
HEADER = "        fault = header_fault(g, n, self.lists)\n"
FAULT = "        if fault:\n            return fault, 0, 0\n"
ADMITTED = "    if not all(admitted(m) for m in n):\n"
PRODUCTS = "    if not all(product(fs) == m // 2 for fs, m in zip(lists, n)):\n"
AXIS = "    for m, fs in zip(n, lists):\n" + "".join(refusal(condition, number, "") for condition, number in (
    ("not admitted(m)", 3), ("not all(2 <= f <= 5 for f in fs)", 4), ("product(fs) != m // 2", 5)))
SIGNED = "    return min((x % p + k * p for k in (-1, 0, 1)), key=abs)\n"
GROUP = "        if g > 4:\n            return 8, 0, 0\n"
MODULUS = refusal("m not in PRIMES", 26)
KIND = refusal("kind > 1", 2)
FILE_REST = "    if at + 14 * count != len(file):\n"
FILE_REST_DONE = "    g, m, n = file[5], modulus_in(file), lengths_in(file)\n"
FILE_GROUP = refusal("g > 4", 8, ", 0, None", 4)
FILE_MODULUS = refusal("m not in PRIMES", 26, ", 0, None", 4)
FILE_OPENED = "    book = Book(g, n, lists, m)\n"
FILE_ADMITS = "    if file[4] not in (1, 2):\n"
FILE_WRITTEN = "    version = modulus if version is None else version\n"
FILE_HEADER = "    fault = header_fault(g, n, lists)\n"
FILE_FAULT = "    if fault:\n        return fault, 0, None\n"

# What is wrong, the text and what stands in its place.
FAULTS = [
    ("7 of a factor reading judged by the whole pair 0 of an alternating line",
     "all(residue(v[q], p) for q in places)", "all(residue(v[q], p) and residue(v[q ^ 1], p) for q in places)"),
    ("7 of a factor reading judged by Pa's zero pairs",
     READ, READ + "        places = places or read_factor(2, n, v, (h, k, l), p)[1]\n"),
    ("24 takes the number p as zero", "any(v[place] for i, _ in orbit", "any(v[place] % p for i, _ in orbit"),
    ("14 without Pa's zero pairs",
     "    return pack_cell(g, n, F, p) == v\n",
     "    read = {q for j in F for q in read_factor(g, n, v, j)[1]}\n"
     "    return all(x == v[q] for q, x in enumerate(pack_cell(g, n, F, p)) if q in read)\n"),
    ("record: 7 before 10", OUTSIDE_RECORD, RESIDUES + OUTSIDE_RECORD),
    ("record of the book: 7 before 10", OUTSIDE_BOOK, BOOK_RESIDUES + OUTSIDE_BOOK),
    ("record: 10 before 21", "        if s != 0:\n", OUTSIDE_RECORD + "        if s != 0:\n"),
    ("record: 6 before 12", ORBIT, LENGTH + ORBIT),
    ("record: zeros written into Pa's zero pairs", "        for i, w in orbit:\n            if i[1] <= n[1] // 2",
     "        for i, w in orbit:\n            if g == 3 and i[0] % 2 and i[1] <= n[1] // 2 and i[2] in (0, n[2] // 2):\n"
     "                for place, part in standing(2, n, i):\n                    v[place] = 0\n            if i[1] <= n[1] // 2"),
    ("point: 6 before 10", OUTSIDE_POINT, LENGTH + OUTSIDE_POINT),
    ("point: 10 before 22", "        if s != 2:\n", OUTSIDE_POINT + "        if s != 2:\n"),
    ("point: the residue without its sign", SIGNED, "    return x % p\n"),
    ("point: 43,200 read as 43,200", SIGNED, "    return x - p if x > p // 2 + (p == P) else x\n"),
    ("point: 43,199 read as -43,200", SIGNED, "    return x - p if x >= p // 2 + (p != P) else x\n"),
    ("point: 151,200 read as 151,200", SIGNED, "    return x - p if x > p // 2 + (p != P) else x\n"),
    ("point: 151,199 read as -151,200", SIGNED, "    return x - p if x >= p // 2 + (p == P) else x\n"),
    ("point: the sign by the first prime", SIGNED, "    return x - p if x > PRIMES[1] // 2 else x\n"),
    ("point: the sign by the second prime", SIGNED, "    return x - p if x > PRIMES[2] // 2 else x\n"),
    ("point: centred by the first prime", SIGNED, "    return min((x % P + k * P for k in (-1, 0, 1)), key=abs)\n"),
    ("7 by the first prime always", "    return x < p\n", "    return x < PRIMES[1]\n"),
    ("7 by the second prime always", "    return x < p\n", "    return x < PRIMES[2]\n"),
    ("7 of a map that is opened by the first prime", MAP_NUMBERS, MAP_NUMBERS.replace("PRIMES[m]", "PRIMES[1]")),
    ("7 of the writer by the first prime", WRITER_NUMBERS, WRITER_NUMBERS.replace("x, p", "x, P")),
    ("7 of a record of a file by the first prime", BOOK_RESIDUES, BOOK_RESIDUES.replace("self.p", "P")),
    ("25 takes the modulus 0, as the first", "PRIMES.get(m)", "{**PRIMES, 0: P}.get(m)"),
    ("25 takes the modulus 3, as the second", "PRIMES.get(m)", "{**PRIMES, 3: PRIMES[2]}.get(m)"),
    ("25 takes the first modulus only", "PRIMES.get(m)", "{1: P}.get(m)"),
    ("an analysis divided by the first prime's share", "    part = pow(n[0] * n[1] * n[2], p - 2, p)\n", "    part = pow(n[0] * n[1] * n[2], P - 2, P)\n"),
    ("opening: 26 before 8", GROUP, MODULUS + GROUP),
    ("opening: 26 after 2", MODULUS + KIND, KIND + MODULUS),
    ("opening: 26 after 3, 4, 5 and 9", MODULUS + KIND + HEADER + FAULT, KIND + HEADER + FAULT + MODULUS),
    ("file: 26 before 8", FILE_GROUP + FILE_MODULUS, FILE_MODULUS + FILE_GROUP),
    ("file: 26 after 3, 4, 5 and 9", FILE_MODULUS + FILE_HEADER + FILE_FAULT, FILE_HEADER + FILE_FAULT + FILE_MODULUS),
    ("file: 26 before 15 for the rest", FILE_REST, refusal("modulus_in(file + bytes(2)) not in PRIMES", 26, ", 0, None", 4) + FILE_REST),
    ("file: 26 answered as 16", FILE_MODULUS, FILE_MODULUS.replace("26", "16")),
    ("file: the lengths of version 2 read at the place of version 1's", '    return 7 if file[4:5] == b"\\2" else 6\n', "    return 6\n"),
    ("file: version 2 means the second prime", "    return file[6] if file[4] == 2 else 1\n", "    return file[4]\n"),
    ("file: the second prime taken as the first", FILE_OPENED, "    book = Book(g, n, lists)\n"),
    ("file: version 1 alone admitted", FILE_ADMITS, "    if file[4] != 1:\n"),
    ("file: version 2 alone admitted", FILE_ADMITS, "    if file[4] != 2:\n"),
    ("file: version 3 admitted", FILE_ADMITS, "    if file[4] not in (1, 2, 3):\n"),
    ("writer: the second prime written as version 1", FILE_WRITTEN, FILE_WRITTEN + "    version = 1\n"),
    ("writer: the first prime written as version 2", FILE_WRITTEN, FILE_WRITTEN + "    version = 2\n"),
    ("faults: the orbit by the lengths of version 1", "    orbit = orbit_of(file[5], lengths_in(file), indices[place])\n",
     "    orbit = orbit_of(file[5], tuple(number(file[q:q + 2]) for q in (6, 8, 10)), indices[place])\n"),
    ("factor: 6 before 10", OUTSIDE_FACTOR, LENGTH + OUTSIDE_FACTOR),
    ("synthesis and analysis: 6 before 23 and 22", STATE, LENGTH + STATE),
    ("synthesis and analysis: 13 before 6", TRANSFORM_LENGTH + SCRATCH, SCRATCH + TRANSFORM_LENGTH),
    ("synthesis and analysis: 7 before 13", SCRATCH + NUMBERS, NUMBERS + SCRATCH),
    ("synthesis and analysis: 14 before 7", NUMBERS + WHOLE, WHOLE + NUMBERS),
    ("powers: 22 and 23 before 25", POWER_VALID, POWER_VALID.replace("        if not", POWER_STATE + "        if not")),
    ("powers: 6 before 22 and 23", POWER_STATE, LENGTH + POWER_STATE),
    ("powers: 7 before 6", POWER_STATE + POWER_LENGTH, POWER_STATE + "        v = self.lent()\n" + NUMBERS + TRANSFORM_LENGTH),
    ("powers: 14 before 7", NUMBERS + POWER_WHOLE, POWER_WHOLE + NUMBERS),
    ("powers: 14 not asked", POWER_WHOLE, ""),
    ("powers: 22 and 23 exchanged", POWER_STATE, POWER_STATE.replace("of_map else", "not of_map else")),
    ("powers: those of the book without 22 and 23", "        if (self.state == 2) != of_map:\n", "        if False:\n"),
    ("powers: squares of factors in place of F times its conjugate", "    return sum(mul(x, conj(x, p), p)[0] for x in values) % p\n",
     "    return sum(mul(x, x, p)[0] for x in values) % p\n"),
    ("powers: the stored planes of a map alone", "power(((d, 0) for d in read_map(g, n, v).values())",
     "power(((d, 0) for x, d in read_map(g, n, v).items() if x[2] < planes(g, n))"),
    ("powers: modulo the first prime", "    return sum(mul(x, conj(x, p), p)[0] for x in values) % p\n",
     "    return sum(mul(x, conj(x, P), P)[0] for x in values) % P\n"),
    ("opening: 2 before 8", GROUP, KIND + GROUP),
    ("opening: 6 before 3, 4, 5 and 9", HEADER, LENGTH + HEADER),
    ("opening: 14 before 7", MAP_NUMBERS + MAP_WHOLE, MAP_WHOLE + MAP_NUMBERS),
    ("header: 3, 4, 5 axis by axis", ADMITTED, AXIS + ADMITTED),
    ("header: 9 before 5", PRODUCTS, refusal("volume_length(g, n) > LIMIT", 9, "", 4) + PRODUCTS),
    ("file: 8 before 15 for the rest", FILE_REST, refusal("file[5] > 4", 8, ", 0, None", 4) + FILE_REST),
    ("file: no records refused", FILE_REST_DONE, refusal("count == 0", 17, ", 0, None", 4) + FILE_REST_DONE),
    ("file: no records taken whatever the header", FILE_HEADER, "    fault = count and header_fault(g, n, lists)\n"),
    ("file: no records taken whatever the volume", "    if lent != volume_length(g, n):\n", "    if count and lent != volume_length(g, n):\n"),
    ("record: the value zero refused", ORBIT, refusal("a == 0 and b == 0", 11) + ORBIT),
    ("file: a second record of an orbit taken where the first is zero", "        if not refused and j in orbits:\n", "        if not refused and j in orbits and book.F[j] != (0, 0):\n"),
    ("file: a second record of an orbit taken at another index", "        orbits.update(orbit_of(g, n, j))\n", "        orbits.add(j)\n"),
    ("file: 24 before 12", "        refused = book.record(*j, *v)[0]\n", "        refused = 24 if j in orbits else book.record(*j, *v)[0]\n"),
    ("faults: the refused record alone for 24", "    if refused != 24:\n", "    if True:\n"),
    ("faults: two places for 12", "    if refused != 24:\n", "    if refused not in (12, 24):\n"),
    ("faults: the record before in place of the first of the orbit", "    return [next(q for q, j in enumerate(indices) if j in orbit), place]\n",
     "    return [place - 1, place]\n"),
    ("faults: the first record of the same index", "    orbit = orbit_of(file[5], lengths_in(file), indices[place])\n", "    orbit = {indices[place]}\n"),
    ("faults: those of a file whose header is refused", "    refused, place, _ = open_file(file, needed(file))\n",
     "    refused, place, _ = open_file(file, needed(file))\n    refused = 10 if refused == 3 else refused\n"),
    ("file: 6 before 3, 4, 5 and 9", FILE_HEADER, refusal("lent != volume_length(g, n)", 6, ", 0, None", 4) + FILE_HEADER),
    ("writer: 6 before 23", WRITER_STATE, refusal("len(self.lent()) != volume_length(g, n)", 6, ', b""') + WRITER_STATE),
    ("writer: 14 before 7", WRITER_NUMBERS + WRITER_WHOLE, WRITER_WHOLE + WRITER_NUMBERS),
    ("writer: 18 before 14", WRITER_WHOLE, refusal("room < 19", 18, ', b""') + WRITER_WHOLE),
    ("writer: no records refused", WRITER_FILE, refusal("not records", 17, ', b""') + WRITER_FILE),
    ("writer: no records refused where the file fits", "        return (18, b\"\") if len(file) > room else (0, file)\n",
     "        return (18, b\"\") if len(file) > room else (0, file) if records else (17, b\"\")\n"),
]

# Sums over the cell and checksums, in which no fault is planted, are computed once for all.
sums = functools.cache(lambda n, terms, sign, p: brute_force.triple(n, dict(terms), sign, p))
checksums = functools.cache(test_records.checksum)
test_records.checksum = lambda v: checksums(tuple(v))


def program(name, source):
    """The brute-force program of a source."""
    module = types.ModuleType(name)
    exec(compile(source, name + ".py", "exec"), module.__dict__)
    return module


def recorder_lines(calls, source):
    """What the recorder test must print by the program of a source."""
    planted = program("brute_force", source)
    planted.triple = lambda n, X, sign, p: sums(tuple(n), tuple(X.items()), sign, p)
    sys.modules["brute_force"] = planted
    printed = []
    for name in ("job_cases", "file_cases"):
        test_program = importlib.reload(sys.modules[name]).TestProgram()
        for op, w in calls[name]:
            printed += test_program.lines(op, w)
    sys.modules["brute_force"] = brute_force
    return printed


def scheduler_lines(records, source):
    """What the scheduler test must print by the program of a source."""
    return scheduler_records.lines(records, program("lanes", source))


def plant(name, test, faults, lines):
    """Plants each fault into a program; how many change no stored line of a test."""
    source = (TOOLS / (name + ".py")).read_text()
    stored = (TOOLS.parent / "crates" / test / "stdout").read_text().splitlines()
    if lines(source) != stored:
        sys.exit("the stored output of %s is not what %s.py gives: the scripts of this folder make it anew" % (test, name))
    unseen = 0
    for what, text, fault in faults:
        if source.count(text) != 1:
            sys.exit("%s: its text stands %d times in %s.py" % (what, source.count(text), name))
        changed = sum(a != b for a, b in itertools.zip_longest(stored, lines(source.replace(text, fault))))
        print("%s: changes %d of the stored lines" % (what, changed))
        unseen += changed == 0
    print("%d of %d faults planted into %s.py each change some of the %d stored lines of %s" % (len(faults) - unseen, len(faults), name, len(stored), test))
    return unseen


def main():
    calls = {"job_cases": job_cases.scripts(), "file_cases": file_cases.cases()}
    unseen = plant("lanes", "scheduler_test", LANE_FAULTS, functools.partial(scheduler_lines, scheduler_cases.records()))
    unseen += plant("brute_force", "recorder_test", FAULTS, functools.partial(recorder_lines, calls))
    if unseen:
        sys.exit("%d of %d planted faults change no line" % (unseen, len(FAULTS) + len(LANE_FAULTS)))
    print("%d planted faults each change some of the stored lines" % (len(FAULTS) + len(LANE_FAULTS)))


main()
