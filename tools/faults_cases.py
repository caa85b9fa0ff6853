#!/usr/bin/env python3
"""The fewest records at fault of a factor file, by trying all lists of its records.

    faults_cases.py

`fewest` takes of a file that is refused at a record every list of its records that ends in the refused one, makes the file of each under the
same header with its own counts, and gives the shortest that is refused with the same number.

Run as a program it compares this with the rule of brute_force.py on small files of all five groups, both versions and both primes: accepted,
damaged, with faulty headers, with one faulty record and with several, with zeros. It demands too that the shortest list is the only one of its length, that each file tried is
refused at its last record or not at all, and that every refusal of a file was met. The seed is fixed. Prints how many files agreed; the exit
status is 1 where one did not.
"""
import itertools
import random
import sys
from collections import Counter

from brute_force import PRIMES, factor_lists, file_bytes, file_faults, first_record, images, needed, open_file, orbit_of

SEED = 1112
# The refusals of a record, and all those that a file gives by itself: 6 is of the volume that it is opened on.
OF_RECORDS = {10, 7, 12, 24}
OF_FILES = {0, 3, 4, 5, 8, 9, 15, 16, 26} | OF_RECORDS
SMALL = [(2, 2, 2), (4, 2, 2), (2, 4, 4), (4, 4, 2), (4, 2, 6), (4, 4, 4)]


def judged(file):
    """The refusal's number or 0 and the record's place, on a volume as long as the file asks for."""
    return open_file(file, needed(file))[:2]


def fewest(file):
    """The shortest lists of places that end in the refused record's and whose records are refused with the same number; none for other files."""
    refusal, refused = judged(file)
    if refusal not in OF_RECORDS:
        return []
    lists = [[*others, refused] for count in range(refused + 1) for others in itertools.combinations(range(refused), count)]
    found = [places for places in lists if refused_so(file, places, refusal)]
    return [places for places in found if len(places) == len(found[0])]


def refused_so(file, places, refusal):
    """Whether the file of some records of another is refused with a number. It may not be refused before its last record, nor with another."""
    start = first_record(file)
    body = file[4:start - 4] + len(places).to_bytes(4, "big") + b"".join(file[start + 14 * q:start + 14 * q + 14] for q in places)
    again, at = judged(len(body).to_bytes(4, "big") + body)
    if again and (again, at) != (refusal, len(places) - 1):
        sys.exit("file %s: its records %s are refused %d at %d" % (file.hex(), places, again, at))
    return again != 0


# ---- small files

def some_value(rng, g, p, n, j):
    """A value at an index: sound, zero, or any, which may be refused 12."""
    a, b = rng.randrange(1, p), rng.randrange(1, p)
    sound = [v for v in ((a, b), (a, 0), (0, b)) if all(i != j or w == v for i, w in images(g, n, j, v, p))] + [(0, 0)]
    return rng.choice([sound[0], sound[0], sound[0], (0, 0), (0, 0), (a, b) if rng.random() < 0.1 else sound[0]])


def some_records(rng, g, p, n):
    """Up to six records; some are of the orbit of an earlier one, some have an index or a number that is too large."""
    found = []
    for _ in range(rng.randrange(7)):
        j = tuple(rng.choice([0, m // 2, rng.randrange(m)]) for m in n)
        if found and rng.random() < 0.15:
            inside = [c % m for c, m in zip(rng.choice(found), n)]
            j = rng.choice(orbit_of(g, n, tuple(inside)))
        record = [*j, *some_value(rng, g, p, n, j)]
        if rng.random() < 0.06:
            axis = rng.randrange(3)
            record[axis] = rng.choice([n[axis], n[axis] + record[axis], 65535])
        if rng.random() < 0.06:
            record[rng.choice([3, 4])] = rng.choice([p, p + 1, PRIMES[2] - 1, 2 ** 32 - 1])
        found.append(tuple(record))
    return found


def some_file(rng, g):
    """A small file, at times with a damaged byte, cut or lengthened, or with a faulty header."""
    n = rng.choice(SMALL)
    lists = [rng.choice(list(factor_lists(m // 2))) for m in n]
    version, m = rng.choice([(1, 1), (2, 1), (2, 2), (2, 2)])
    records = some_records(rng, g, PRIMES[m], n)
    fault = rng.random()
    if version == 2 and fault < 0.004:
        m = rng.choice([0, 3, 255])
    elif fault < 0.02:
        g, n, lists = rng.choice([(g + 5, n, lists), (g, (n[0], 14, n[2]), [lists[0], [7], lists[2]]), (g, (n[0], n[1], 0), lists),
                                  (g, n, [[7], *lists[1:]]), (g, n, [*lists[:2], lists[2] + [2]]), (g, (2880,) * 3, [[5, 4, 4, 3, 3, 2]] * 3)])
    file = file_bytes(g, n, lists, records, m, version)
    if 0.02 <= fault < 0.05:
        at = rng.randrange(len(file))
        file = file[:at] + bytes([rng.randrange(256)]) + file[at + 1:]
    elif 0.05 <= fault < 0.07:
        file = rng.choice([file[:rng.randrange(len(file))], file + bytes(rng.randrange(1, 15))])
    return file


def files(count):
    """Of each group a count of small files."""
    rng = random.Random(SEED)
    for _ in range(count):
        for g in range(5):
            yield some_file(rng, g)


def main():
    met, agreed, wrong = Counter(), 0, 0
    for file in files(1600):
        met[judged(file)[0]] += 1
        shortest, rule = fewest(file), file_faults(file)
        if shortest == ([rule] if rule else []):
            agreed += 1
        else:
            wrong += 1
            print("file %s: the shortest are %s, by the rule %s" % (file.hex(), shortest, rule))
    print("refusals met: %s" % ", ".join("%d %d times" % (refusal, met[refusal]) for refusal in sorted(met)))
    if set(met) != OF_FILES:
        sys.exit("not every refusal of a file was met, or another")
    print("%d files agree, %d do not" % (agreed, wrong))
    sys.exit(1 if wrong else 0)


if __name__ == "__main__":
    main()
