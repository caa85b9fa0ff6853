#!/usr/bin/env python3
"""The printer test: runs the map printer on factor files and compares what it prints with the text that brute force gives.

    printer_test.py PROGRAM

Files of all five groups with random records and with none, of both primes and both versions, the paper's specimen, refused files of every kind,
files cut at every length, a file of more than 8,192 bytes and grids that need more than 2,048 numbers. The maps are those of the book in
brute_force.py (triple sums over the whole cell). The seed is fixed. Prints how many files agreed; the exit status is 1 where one did not.
"""
import random
import subprocess
import sys

from brute_force import PRIMES, factor_lists, file_bytes, images, lengths_in, open_file, planes, signed

SEED = 1975
FILE_LIMIT = 8192
VOLUME_LIMIT = 2048


def lent(file):
    """How many numbers the printer lends: what the header asks for, at most 2,048."""
    part = file + bytes(13)
    group = part[5] if part[5] < 5 else 0
    halves = [length // 2 for length in lengths_in(part)]
    layers = [2 * halves[2], halves[2], halves[2] + 1, halves[2] + 1, halves[2]][group]
    return min(2 * layers * 2 * halves[0] * (halves[1] + 1), VOLUME_LIMIT)


def printed(file):
    if len(file) > FILE_LIMIT:
        return "refused 15 at 0\n"
    refused, place, book = open_file(file, lent(file))
    if refused:
        return "refused %d at %d\n" % (refused, place)
    g, n = book.g, book.n
    book.synthesis(11520)
    M = book.densities()
    lines = ["map %d %d %d %d" % (g, *n)]
    for z in range(planes(g, n)):
        for x in range(n[0]):
            lines.append(" ".join(str(c) for c in [z, x] + [signed(M[(x, y, z)], book.p) for y in range(n[1])]))
    return "\n".join(lines) + "\n"


def files():
    rng = random.Random(SEED)

    def lists(n):
        return [rng.choice(list(factor_lists(m // 2))) for m in n]

    def records(g, n, count, p):
        found, taken = [], set()
        for _ in range(8 * count):
            j = tuple(rng.randrange(length) for length in n)
            for v in ((rng.randrange(1, p), rng.randrange(1, p)), (rng.randrange(1, p), 0), (0, rng.randrange(1, p))):
                orbit = images(g, n, j, v, p)
                if j not in taken and len(found) < count and all(i != j or w == v for i, w in orbit):
                    found.append((*j, *v))
                    taken.update(i for i, _ in orbit)
                    break
        return found

    def damaged(file):
        yield file
        for k in range(len(file)):
            yield file[:k]
            yield file[:k] + bytes([file[k] ^ 1]) + file[k + 1:]

    yield from damaged(bytes.fromhex("0000001D" "01" "00" "0002" "0002" "0002" "00" "00" "00" "00000001" "0001" "0000" "0000" "00000003" "00000000"))
    yield from damaged(file_bytes(0, (2, 2, 2), [[], [], []], [(1, 0, 0, 151200, 0)], 2))
    for version, m in ((2, 0), (2, 1), (2, 2), (2, 3), (3, 1)):
        yield file_bytes(0, (2, 2, 2), [[], [], []], [(1, 0, 0, 86399, 0)], m, version)
        yield file_bytes(0, (2, 2, 2), [[], [], []], [(1, 0, 0, 43200, 0)], m, version)
    for g in range(5):
        for turn, n in enumerate([(2, 2, 2), (4, 2, 2), (2, 4, 6), (4, 4, 4), (6, 4, 2), (4, 6, 6), (2, 8, 10), (8, 4, 4), (6, 6, 6), (4, 10, 12), (16, 6, 8)]):
            m = 1 + (g + turn) % 2
            rs = records(g, n, 5, PRIMES[m])
            yield file_bytes(g, n, lists(n), rs, m)
            yield file_bytes(g, n, lists(n), rs + rs[:1], m)
            yield file_bytes(g, n, lists(n), rs + [(n[0], 0, 0, 1, 0)], m)
            yield file_bytes(g, n, lists(n), [(0, 0, 0, 1, 1)] + rs, m)
            yield file_bytes(g, n, lists(n), [], m)
            yield file_bytes(g + 5, n, lists(n), rs, m)
            yield file_bytes(g, n, [[7]] + lists(n)[1:], rs, m)
        for n in [(24, 24, 24), (288, 288, 288), (360, 360, 360)]:
            yield file_bytes(g, n, lists(n), [])
        for n, factors in [((4, 4, 14), [[2], [2], [7]]), ((4, 4, 4), [[2], [7], [2]]), ((4, 4, 4), [[2, 2], [2], [2]])]:
            yield file_bytes(g, n, factors, [], 1 + g % 2)
        yield file_bytes(g + 5, (4, 4, 4), [[2], [2], [2]], [])
        for n in [(24, 24, 24), (240, 240, 240), (288, 288, 288)]:
            yield file_bytes(g, n, lists(n), [(1, 2, 3, 4, 5)], 1 + g % 2)
        n, m = (4, 4, 4), 1 + g % 2
        yield file_bytes(g, n, lists(n), records(g, n, 2, PRIMES[m]) + [(1, 1, 1, 0, 0)] * 700, m)


def main():
    program = sys.argv[1]
    agreed = wrong = 0
    for file in files():
        want = printed(file)
        got = subprocess.run([program], input=file, stdout=subprocess.PIPE, check=True).stdout.decode()
        if got == want:
            agreed += 1
        else:
            wrong += 1
            print("file %s: printed %r, expected %r" % (file[:40].hex(), got[:60], want[:60]))
    print("%d files agree, %d do not" % (agreed, wrong))
    sys.exit(1 if wrong else 0)


if __name__ == "__main__":
    main()
