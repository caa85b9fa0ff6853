#!/usr/bin/env python3
"""The calls of the MRC test, and by brute force what each answers and leaves.

    mrc_cases.py cases|answers

`cases` writes crates/mrc_test/stdin: for each call 13 big-endian numbers of four bytes (group, N1, N2, N3, the map's length, the kind of the cell's
parameters, their six floats as bits, the output's length), then a byte for each number of the map, which is its place among NUMBERS. `answers` writes
crates/mrc_test/stdout: the refusal's number or 0, the count written, a checksum of the whole output. The seed is fixed.

All five groups, planes that are not held, any numbers in the two places behind each row, each refusal alone and beside every later one, floats at the
ends of what is taken (NaNs, infinities, -0, subnormal edges, angles just inside), densities at the ends, outputs exactly long, longer, one byte short.

The file is made by Python's struct from the format's own table, point by point over the whole cell; a point on a plane that is not held is found by
the group's operation as 01 and 02 print it. No code is shared with the program.
"""
import random
import struct
import sys

SEED = 109
LIMIT = 16777215
NUMBERS = [0, 1, -1, 2, -3, 7, 1000, -43199, 151199, LIMIT - 1, LIMIT, -LIMIT, LIMIT + 1, -LIMIT - 1, 13063485600, -13063485600, 2**63 - 1, -2**63]
EXACT = [k for k, n in enumerate(NUMBERS) if abs(n) <= LIMIT]
BEYOND = [k for k, n in enumerate(NUMBERS) if abs(n) > LIMIT]
FRESH = 9  # what stands in the output before the call
ROOM = 2048


def bits(x):
    return struct.unpack("<I", struct.pack("<f", x))[0]


def float_of(b):
    return struct.unpack("<f", struct.pack("<I", b))[0]


def admitted(n):
    """An even length from 2 to 2,880 that divides 2,880."""
    return n >= 2 and n % 2 == 0 and n <= 2880 and 2880 % n == 0


def planes(group, n3):
    return {0: n3, 1: n3 // 2, 2: n3 // 2 + 1, 3: n3 // 2 + 1, 4: n3 // 2}[group]


def volume_length(group, n):
    # what the paper's formula gives, of the halves: any lengths
    half = n[2] // 2
    w = {1: half, 2: half + 1, 3: half + 1, 4: half}.get(group, 2 * half)
    return 2 * w * (2 * (n[0] // 2)) * (n[1] // 2 + 1)


def held_point(group, n, x, y, z):
    """The point of a held plane that (x, y, z) is read at."""
    n1, n2, n3 = n
    if z < planes(group, n3):
        return x, y, z
    if group == 1:
        return -x % n1, -y % n2, (z + n3 // 2) % n3
    if group == 2:
        return x, y, -z % n3
    if group == 3:
        return (x + n1 // 2) % n1, y, -z % n3
    return (n1 // 2 - x) % n1, -y % n2, (n3 // 2 + z) % n3


def is_edge(b):
    x = float_of(b)
    return 0 < x < float("inf")


def is_angle(b):
    x = float_of(b)
    return 0 < x < 180


def parameters_ok(group, kind, p):
    if not all(is_edge(b) for b in p[:3]):
        return False
    if kind == 0:
        return group == 0 and all(is_angle(b) for b in p[3:])
    return group != 0 and is_angle(p[5]) and (group != 4 or float_of(p[5]) == 90)


def mrc_file(group, n, volume, kind, p):
    """The file's bytes, or None where a float does not hold a density."""
    n1, n2, n3 = n
    density = {}
    for z in range(n3):
        for y in range(n2):
            for x in range(n1):
                i, j, k = held_point(group, n, x, y, z)
                density[x, y, z] = volume[(k * n1 + i) * (n2 + 2) + j]
    if any(abs(d) > LIMIT for d in density.values()):
        return None
    least, greatest = min(density.values()), max(density.values())
    edges = [float_of(b) for b in p[:3]]
    angles = [float_of(b) for b in p[3:]] if kind == 0 else [90.0, 90.0, float_of(p[5])]
    header = struct.pack("<3i i 3i 3i 3f 3f 3i 3f i i", n1, n2, n3, 2, 0, 0, 0, n1, n2, n3, *edges, *angles, 1, 2, 3, least, greatest, least - 1, 1, 0)
    extra = struct.pack("<2i 4s i 84s", 0, 0, b"\0\0\0\0", 20140, b"")
    header += extra + struct.pack("<3f 4s 4B f i 800s", 0, 0, 0, b"MAP ", 0x44, 0x44, 0, 0, -1, 0, b"")
    assert len(header) == 1024
    data = b"".join(struct.pack("<f", density[x, y, z]) for z in range(n3) for y in range(n2) for x in range(n1))
    return header + data


def checksum(numbers):
    h = 7
    for x in numbers:
        h = (h * 31 + x + 1) % 2147483647
    return h


def answer(group, n, codes, kind, p, room):
    """The number, the count written, and the checksum of what stands in the output."""
    output = [FRESH] * room

    def refuse(number):
        return [number, 0, checksum(output)]

    if group > 4:
        return refuse(8)
    if not all(admitted(k) for k in n):
        return refuse(3)
    if volume_length(group, n) > 16777216:
        return refuse(9)
    if len(codes) != volume_length(group, n):
        return refuse(6)
    if not parameters_ok(group, kind, p):
        return refuse(29)
    written = mrc_file(group, n, [NUMBERS[c] for c in codes], kind, p)
    if written is None:
        return refuse(30)
    if room < len(written):
        return refuse(18)
    output[:len(written)] = written
    return [0, len(written), checksum(output)]


ODD_FLOATS = [0x7F800000, 0xFF800000, 0x7FC00000, 0x7F800001, 0xFFC01234, 0x80000000, 0, bits(-1.0), 0x80000001]
EDGES = [bits(10.0), bits(78.5), bits(1.0), bits(0.1), 1, 0x007FFFFF, 0x00800000, 0x7F7FFFFF, bits(123.456)]
ANGLES = [bits(90.0), bits(60.0), bits(119.99), 1, bits(180.0) - 1, bits(90.5)]
BAD_ANGLES = ODD_FLOATS + [bits(180.0), bits(180.0) + 1, bits(360.0), 0x7F7FFFFF]


def sound(rng, group):
    """Parameters that are accepted; of the other kind's angles any bits, which are not read."""
    edges = [rng.choice(EDGES) for _ in range(3)]
    if group == 0:
        return 0, edges + [rng.choice(ANGLES) for _ in range(3)]
    return 1, edges + [rng.choice(ODD_FLOATS), rng.choice(ODD_FLOATS), bits(90.0) if group == 4 else rng.choice(ANGLES)]


def volume(rng, group, n, choice=None):
    """A map's codes, and any numbers, large ones too, in the two places behind each row."""
    width = n[1] + 2
    return [rng.choice(choice or EXACT) if j % width < n[1] else rng.randrange(len(NUMBERS)) for j in range(volume_length(group, n))]


def size(n):
    return 1024 + 4 * n[0] * n[1] * n[2]


SHAPES = [(2, 2, 2), (4, 2, 2), (2, 6, 2), (2, 2, 4), (4, 6, 2), (2, 4, 6), (6, 4, 4), (4, 4, 8), (8, 2, 6), (10, 2, 4), (2, 10, 4), (6, 6, 6)]


def accepted_cases(rng):
    for group in range(5):
        for n in SHAPES:
            kind, p = sound(rng, group)
            codes = volume(rng, group, n)
            for room in (size(n), size(n) + 1 + rng.randrange(40), size(n) - 1, rng.randrange(size(n))):
                yield group, n, codes, kind, p, room
            # one number everywhere, its ends alone, and one beyond at every kind of place
            for choice in ([rng.choice(EXACT)], [NUMBERS.index(LIMIT), NUMBERS.index(-LIMIT)], [NUMBERS.index(-LIMIT)]):
                yield group, n, volume(rng, group, n, choice), *sound(rng, group), size(n)
            beyond = volume(rng, group, n)
            j = rng.randrange(len(beyond))
            beyond[j] = rng.choice(BEYOND)
            yield group, n, beyond, *sound(rng, group), size(n)
            first, last = volume(rng, group, n), volume(rng, group, n)
            first[0] = rng.choice(BEYOND)
            last[-3] = rng.choice(BEYOND)
            yield group, n, first, *sound(rng, group), size(n)
            yield group, n, last, *sound(rng, group), size(n)


def parameter_cases(rng):
    n = (2, 2, 2)
    for group in range(5):
        codes = volume(rng, group, n)
        kind, p = sound(rng, group)
        yield group, n, codes, 1 - kind, [bits(90.0)] * 6, size(n)
        for place in range(6):
            for b in (EDGES + ODD_FLOATS if place < 3 else ANGLES + BAD_ANGLES):
                q = list(p)
                q[place] = b
                yield group, n, codes, kind, q, size(n)


def refusal_cases(rng):
    """Each refusal alone, and beside every later one."""
    faults = [8, 3, 9, 6, 29, 30, 18]
    for group in range(5):
        for a in range(len(faults)):
            for b in range(a, len(faults)):
                chosen = {faults[a], faults[b]}
                n = (2, 4, 2)
                kind, p = sound(rng, group)
                wanted = group
                if 9 in chosen:
                    n = (2880, 2880, 2880)
                if 3 in chosen:
                    n = tuple(rng.choice([0, 1, 3, 7, 14, 22, 2882, 5760, 2**32 - 1]) if k == a % 3 else v for k, v in enumerate(n))
                if 8 in chosen:
                    wanted = rng.choice([5, 6, 2**31, 2**32 - 1])
                length = min(volume_length(wanted, n), 1000)
                codes = [rng.choice(BEYOND if 30 in chosen else EXACT) for _ in range(length)]
                if 6 in chosen:
                    codes = codes[1:] if rng.randrange(2) else codes + [0]
                if 29 in chosen:
                    p = [rng.choice(ODD_FLOATS)] + p[1:]
                yield wanted, n, codes, kind, p, 1024 if 18 in chosen else size((2, 4, 2))


def cases():
    rng = random.Random(SEED)
    yield from accepted_cases(rng)
    yield from parameter_cases(rng)
    yield from refusal_cases(rng)


def main():
    out = sys.stdout.buffer
    for group, n, codes, kind, p, room in cases():
        assert len(codes) <= 1024 and room <= ROOM
        if sys.argv[1] == "cases":
            out.write(struct.pack(">13I", group, *n, len(codes), kind, *p, room) + bytes(codes))
        else:
            out.write(b"%d %d %d\n" % tuple(answer(group, n, codes, kind, p, room)))


if __name__ == "__main__":
    main()
