#!/usr/bin/env python3
"""The calls of the correlation test, and by brute force what each answers and leaves.

    correlation_cases.py cases|answers

`cases` writes crates/correlation_test/stdin: for each call thirteen big-endian numbers of four bytes (three lengths, the lengths of the three factor
lists, of the two maps, the output, the three work volumes and the scratch), three lists in eight bytes each, and a byte for each number of both maps,
which is its place among COUNTS. `answers` writes crates/correlation_test/stdout. The seed is fixed.

Cells of small lengths with each length alone the longest; maps drawn from small counts of both signs, from one point alone at every place (so that
each shift of each axis is seen by itself), at the limit and one above it, with the ends of 64 bits at the rows' ends, which are not read, and at points;
each refusal alone and beside every later one.
"""
import itertools
import random
import struct
import sys

SEED = 106
LIMIT = 13063485600
COUNTS = [-2**63, -LIMIT - 1, -LIMIT, -114295, -3, -2, -1, 0, 1, 2, 5, 114296, 6531742800, LIMIT, LIMIT + 1, 2**63 - 1]
SMALL = [4, 5, 6, 7, 8, 9, 10]
ZERO, ONE = COUNTS.index(0), COUNTS.index(1)
SCRATCH = 11520
ROOM = 16777216
LISTS = {2: [], 4: [2], 6: [3], 8: [4], 10: [5], 12: [2, 3], 16: [2, 4]}


def size(lengths):
    n1, n2, n3 = lengths
    return n3 * n1 * (n2 + 2)


def points(lengths):
    n1, n2, n3 = lengths
    return itertools.product(range(n1), range(n2), range(n3))


def place(lengths, point):
    (n1, n2, _), (x, y, z) = lengths, point
    return (z * n1 + x) * (n2 + 2) + y


def checksum(numbers):
    h = 7
    for x in numbers:
        h = (h * 31 + x + 1) % 2147483647
    return h


def refusal(lengths, lists, a, b, rooms):
    if any(n < 1 or n % 2 or 2880 % n for n in lengths):
        return 3
    if any(f < 2 or f > 5 for factors in lists for f in factors):
        return 4
    for n, factors in zip(lengths, lists):
        product = 1
        for f in factors:
            product *= f
        if product != n // 2:
            return 5
    if size(lengths) > ROOM:
        return 9
    if any(n != size(lengths) for n in (len(a), len(b), *rooms[:4])):
        return 6
    if rooms[4] < SCRATCH:
        return 13
    magnitudes = [[abs(COUNTS[m[place(lengths, u)]]) for u in points(lengths)] for m in (a, b)]
    if max(magnitudes[0]) > LIMIT or max(magnitudes[1]) > LIMIT or sum(magnitudes[0]) * max(magnitudes[1]) > LIMIT:
        return 28
    return 0


def correlation(lengths, a, b):
    """At each shift the sum over all points, as whole numbers; two zeros end each row."""
    output = [0] * size(lengths)
    first = {u: COUNTS[a[place(lengths, u)]] for u in points(lengths)}
    second = {u: COUNTS[b[place(lengths, u)]] for u in points(lengths)}
    for s in points(lengths):
        output[place(lengths, s)] = sum(v * second[tuple((p + q) % n for p, q, n in zip(u, s, lengths))] for u, v in first.items())
    return output


def answer(call):
    lengths, lists, a, b, rooms = call
    number = refusal(lengths, lists, a, b, rooms)
    output, works, scratch = [9] * rooms[0], [[7] * n for n in rooms[1:4]], [5] * rooms[4]
    count = 0
    if number == 0:
        count = size(lengths)
        output = correlation(lengths, a, b)
        works = [[0] * n for n in rooms[1:4]]
        scratch[:SCRATCH] = [0] * SCRATCH
    return [number, count, *map(checksum, works), checksum(scratch)], output


def ends(lengths):
    n1, n2, n3 = lengths
    return [place(lengths, (x, y, z)) for x in range(n1) for z in range(n3) for y in (n2, n2 + 1)]


def filled(lengths, codes, end=ZERO):
    """A map with these codes at its points, in the points' order, and one code at the rows' ends."""
    m = [ZERO] * size(lengths)
    for u, code in zip(points(lengths), codes):
        m[place(lengths, u)] = code
    for p in ends(lengths):
        m[p] = end
    return m


def whole(lengths, a, b, lists=None, rooms=None):
    return lengths, lists or [LISTS[n] for n in lengths], a, b, rooms or [size(lengths)] * 4 + [SCRATCH]


def cases():
    rng = random.Random(SEED)
    cells = [(2, 2, 2), (4, 2, 2), (2, 4, 2), (2, 2, 4), (4, 4, 4), (6, 2, 4), (2, 6, 4), (4, 2, 6), (2, 10, 2), (10, 2, 2), (2, 2, 10), (8, 2, 2), (2, 12, 2), (4, 6, 4), (2, 2, 16)]

    def drawn(lengths, codes=SMALL, end=ZERO):
        return filled(lengths, [rng.choice(codes) for _ in points(lengths)], end)

    def alone(lengths, u, code):
        return filled(lengths, [code if v == u else ZERO for v in points(lengths)])

    for lengths in cells:
        for _ in range(4):
            yield whole(lengths, drawn(lengths), drawn(lengths))
        # what the rows' ends hold is not read
        yield whole(lengths, drawn(lengths, end=0), drawn(lengths, end=15))
        same = drawn(lengths)
        yield whole(lengths, same, same)
        yield whole(lengths, drawn(lengths), drawn(lengths), rooms=[size(lengths)] * 4 + [SCRATCH + 9])
    # one point alone, at every place, with a map of all kinds and with one point: each axis by itself too
    for lengths in [(2, 2, 2), (4, 2, 2), (2, 4, 2), (2, 2, 4), (4, 6, 2)]:
        b = drawn(lengths)
        for u in points(lengths):
            yield whole(lengths, alone(lengths, u, rng.choice([4, 5, 6, 8, 9, 10])), b)
            yield whole(lengths, alone(lengths, u, ONE), alone(lengths, rng.choice(list(points(lengths))), 10))
    # at the limit, below and above, by a magnitude, by the product, by the sum; with the ends of 64 bits
    for lengths in [(2, 2, 2), (2, 4, 2)]:
        where = list(points(lengths))
        for code in range(len(COUNTS)):
            for other in range(len(COUNTS)):
                yield whole(lengths, alone(lengths, rng.choice(where), code), alone(lengths, rng.choice(where), other))
        for code in range(len(COUNTS)):
            yield whole(lengths, drawn(lengths, [code, ZERO]), drawn(lengths, [ONE, 6, ZERO]))
            yield whole(lengths, drawn(lengths, [12, ZERO]), drawn(lengths, [ZERO, code]))
            yield whole(lengths, drawn(lengths, [ZERO]), drawn(lengths, [code]))
            yield whole(lengths, drawn(lengths, [code]), drawn(lengths, [ZERO]))
    # each refusal alone and beside each later one
    base = (2, 4, 2)
    faults = {
        3: lambda c: ((2, rng.choice([0, 1, 3, 7, 14, 2882]), 2), *c[1:]),
        4: lambda c: (c[0], [c[1][0], rng.choice([[1], [6], [0, 2], [255]]), c[1][2]], *c[2:]),
        5: lambda c: (c[0], [c[1][0] + [2], c[1][1], c[1][2]], *c[2:]),
        9: lambda c: ((2880, 2880, 4), [[5, 3, 3, 2, 4, 4], [4, 4, 2, 3, 3, 5], [2]], *c[2:]),
        6: lambda c: short(c, rng.randrange(6)),
        13: lambda c: (*c[:4], c[4][:4] + [rng.choice([0, SCRATCH - 1])]),
        28: lambda c: (*c[:2], *rng.choice([(drawn(base, [0]), c[3]), (c[2], drawn(base, [14]))]), c[4]),
    }

    def short(c, which):
        n = size(base) + rng.choice([-1, 1])
        a, b, rooms = c[2], c[3], list(c[4])
        if which == 0:
            a = (a + [ZERO])[:n]
        elif which == 1:
            b = (b + [ZERO])[:n]
        else:
            rooms[which - 2] = n
        return c[0], c[1], a, b, rooms

    order = [28, 13, 6, 9, 5, 4, 3]
    for chosen in itertools.product([False, True], repeat=len(order)):
        call = whole(base, drawn(base), drawn(base))
        for fault, on in zip(order, chosen):
            if on:
                call = faults[fault](call)
        yield call
    for which in range(6):
        for _ in range(2):
            yield short(whole(base, drawn(base), drawn(base)), which)
    yield whole((2, 2, 2), [], [], rooms=[0] * 5)


def main():
    out = sys.stdout.buffer
    for call in cases():
        if sys.argv[1] == "cases":
            lengths, lists, a, b, rooms = call
            out.write(struct.pack(">13I", *lengths, *map(len, lists), len(a), len(b), *rooms))
            out.write(b"".join(bytes(factors).ljust(8, b"\0") for factors in lists) + bytes(a) + bytes(b))
        else:
            said, output = answer(call)
            out.write(b"%d %d %d %d %d %d\n" % tuple(said))
            out.write(" ".join(map(str, output)).encode() + b"\n")


if __name__ == "__main__":
    main()
