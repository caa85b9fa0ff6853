#!/usr/bin/env python3
"""The calls of the section test, and by brute force what each answers and leaves.

    section_cases.py cases|answers

`cases` writes crates/section_test/stdin: for each call eight big-endian numbers of four bytes (the group, the three lengths, z, the lengths of map and
output, whether to print the output) and a byte for each number of the map, which is its place among COUNTS. `answers` writes
crates/section_test/stdout. The seed is fixed.

Every plane of small cells of all five groups, with N2 a multiple of five and not; the widest numbers, totals above and below zero; rows of 2,880
values and 2,880 rows; numbers out of range behind the rows and on other planes, which are read by no call, and one in the plane at each of its places;
every refusal alone and beside every later one; outputs exactly as long as the page, longer, one place short, empty.
"""
import random
import struct
import sys

SEED = 108
LIMIT = 13063485600
COUNTS = [0, 1, -1, 9, -9, 10, -10, 99, -100, 12345, -54321, 999999, -1000000, 302398, -86398, 2**32, 1 - 2**32, 9999999999, -10**10,
          LIMIT - 1, 1 - LIMIT, LIMIT, -LIMIT, LIMIT + 1, -LIMIT - 1, 2**63 - 1, 1 - 2**63, -2**63]
WITHIN = [k for k, x in enumerate(COUNTS) if abs(x) <= LIMIT]
BEYOND = [k for k, x in enumerate(COUNTS) if abs(x) > LIMIT]
DOT = 46

# The groups' operations on a point, in halves of the lengths: the sign of each coordinate and whether it is moved by half a length; and how many
# planes of N3 a map stores.
OTHER = [
    None,
    ((-1, 0), (-1, 0), (1, 1)),
    ((1, 0), (1, 0), (-1, 0)),
    ((1, 1), (1, 0), (-1, 0)),
    ((-1, 1), (-1, 0), (1, 1)),
]


def stored(group, n3):
    """How many planes: all, those below a half, or a half and one more."""
    return [n3, n3 // 2, n3 // 2 + 1, n3 // 2 + 1, n3 // 2][group]


def plane(group, n, codes, z):
    """The numbers of plane z, row by row. The map is read as a file would be: plane by plane, row by row, N2 numbers and two more."""
    it = iter(codes)
    cell = {}
    for layer in range(stored(group, n[2])):
        for x in range(n[0]):
            for y in range(n[1] + 2):
                code = next(it)
                if y < n[1]:
                    cell[x, y, layer] = COUNTS[code]
    rows = []
    for x in range(n[0]):
        row = []
        for y in range(n[1]):
            p = (x, y, z)
            if p not in cell:
                p = tuple((sign * c + half * k // 2) % k for (sign, half), c, k in zip(OTHER[group], p, n))
            row.append(cell[p])
        rows.append(row)
    return rows


def page(rows):
    lines = []
    for x, row in enumerate(rows):
        for start in range(0, len(row), 5):
            lines.append("".join(["%4d" % x] + ["%13d" % v for v in row[start:start + 5]]).ljust(69))
    total = sum(map(sum, rows))
    points = sum(map(len, rows))
    # the greatest whole number that the points can have each without passing the total
    low, high = -10**12, 10**12
    while low < high:
        mean = (low + high + 1) // 2
        if mean * points <= total:
            low = mean
        else:
            high = mean - 1
    for letter, number in (("T", total), ("M", low), ("R", total - low * points)):
        lines.append(letter + "%68d" % number)
    assert all(len(line) == 69 for line in lines)
    return "".join(line + "\n" for line in lines).encode()


def admitted(k):
    return k in (d for d in range(2, 2881, 2) if 2880 % d == 0)


def needed(group, n):
    return stored(group, n[2]) * n[0] * (n[1] + 2)


def checksum(numbers):
    h = 7
    for x in numbers:
        h = (h * 31 + x + 1) % 2147483647
    return h


def answer(group, n, z, codes, room):
    """The number, the count written, and what stands in the output."""
    output = bytearray([DOT]) * room
    if group > 4:
        return 8, 0, output
    if not all(map(admitted, n)):
        return 3, 0, output
    if needed(group, n) > 2**24:
        return 9, 0, output
    if len(codes) != needed(group, n):
        return 6, 0, output
    if z >= n[2]:
        return 10, 0, output
    rows = plane(group, n, codes, z)
    if any(abs(v) > LIMIT for row in rows for v in row):
        return 28, 0, output
    text = page(rows)
    if room < len(text):
        return 18, 0, output
    output[:len(text)] = text
    return 0, len(text), output


def page_length(n):
    return 70 * (n[0] * -(-n[1] // 5) + 3)


def filling(rng, group, n, inside, behind):
    """A map with numbers of `inside` at its points and of `behind` at the two places after each row."""
    return [rng.choice(inside if y < n[1] else behind) for _ in range(stored(group, n[2]) * n[0]) for y in range(n[1] + 2)]


def place_of(group, n, x, y, z):
    return (z * n[0] + x) * (n[1] + 2) + y


def cases():
    rng = random.Random(SEED)
    anything = list(range(len(COUNTS)))
    negative = [k for k in WITHIN if COUNTS[k] < 0]
    small = [k for k in WITHIN if abs(COUNTS[k]) < 11]
    # every plane of small cells, by several kinds of numbers
    for group in range(5):
        for n in ((2, 2, 2), (2, 4, 4), (4, 6, 2), (4, 10, 6), (6, 8, 4), (2, 12, 8), (10, 2, 4), (4, 20, 4)):
            for inside in (WITHIN, negative, small, [21, 22]):
                codes = filling(rng, group, n, inside, anything)
                for z in range(n[2]):
                    yield group, n, z, codes, page_length(n) + rng.choice((0, 0, 1, 75)), int(n[0] * n[1] <= 24 and inside is not small)
    # one total of each remainder, above zero and below
    for turn in range(24):
        n = (2, 4, 2)
        codes = [0] * needed(1, n)
        for k in range(turn % 12):
            codes[place_of(1, n, k // 4 % 2, k % 4, 0)] = 1 if turn < 12 else 2
        yield 1, n, rng.randrange(2), codes, page_length(n), 1
    # the widest cells: 2,880 rows, 2,880 values a row; and four places for x
    for group, n in ((1, (2880, 2, 2)), (4, (2, 2880, 2)), (1, (1440, 4, 2)), (4, (96, 120, 2))):
        for inside in (WITHIN, [22], [21]):
            yield group, n, rng.randrange(n[2]), filling(rng, group, n, inside, BEYOND), page_length(n), 0
    # a number beyond the range at a place of the map: in the plane it refuses, on another plane or behind a row it does not
    for group in range(5):
        n = (4, 6, 4)
        for place in range(needed(group, n)):
            codes = filling(rng, group, n, WITHIN, WITHIN)
            codes[place] = rng.choice(BEYOND)
            yield group, n, rng.randrange(n[2]), codes, page_length(n), 0
    # outputs of every length near the page's, and of none
    for group in range(5):
        n = (2, 6, 4)
        codes = filling(rng, group, n, WITHIN, anything)
        for room in (0, 1, 69, 70, *range(page_length(n) - 2, page_length(n) + 3)):
            yield group, n, rng.randrange(n[2]), codes, room, 0
    # each refusal alone, and beside each of the later ones: a call is refused by all that its set names
    for first in (8, 3, 9, 6, 10, 28, 18):
        for second in (8, 3, 9, 6, 10, 28, 18):
            for group in range(5):
                faults = {first, second}
                n = [4, 6, 4]
                if 9 in faults:
                    n = [2880, 2880, 6]
                if 3 in faults:
                    n[rng.randrange(3)] = rng.choice((0, 1, 3, 14, 50, 1000, 2882, 2**16, 2**16 + 2, 2**31, 2**32 - 1))
                length = needed(group, n) if 9 not in faults and max(n) < 100 else 96
                inside = BEYOND if 28 in faults else WITHIN
                codes = [rng.choice(inside) for _ in range(length + (rng.choice((-1, 1, 2)) if 6 in faults else 0))] if length else []
                z = rng.choice((n[2], n[2] + 1, 2**31, 2**32 - 1)) % 2**32 if 10 in faults else rng.randrange(max(min(n[2], 4), 1))
                room = max((page_length(n) if max(n) < 100 else 700) - (rng.choice((1, 2, 70)) if 18 in faults else 0), 0)
                yield rng.choice((5, 6, 255, 2**31, 2**32 - 1)) if 8 in faults else group, tuple(n), z, codes, room, 0


def main():
    out = sys.stdout.buffer
    for group, n, z, codes, room, shown in cases():
        if sys.argv[1] == "cases":
            out.write(struct.pack(">8I", group, *n, z, len(codes), room, shown) + bytes(codes))
        else:
            number, count, output = answer(group, n, z, codes, room)
            out.write(b"%d %d %d\n" % (number, count, checksum(output)))
            if shown:
                out.write(bytes(output) + b"\n")


if __name__ == "__main__":
    main()
