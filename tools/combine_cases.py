#!/usr/bin/env python3
"""The calls of the combine test, and by brute force what each answers and leaves.

    combine_cases.py cases|answers

`cases` writes crates/combine_test/stdin: for each call 21 big-endian numbers of four bytes (nine of the first job: group, modulus, N1, list, N2,
list, N3, list, state; nine of the second; the lengths of the first map, of the second and of the output), then the numbers of both maps.
`answers` writes crates/combine_test/stdout: a line for each call, with the refusal's number or 0, how many numbers were written and two checksums
of the whole output, whose places held nines: of the low 32 bits of the magnitudes, and of the rest of them with their signs.

A combined number is the only whole number from -LIMIT to LIMIT with both residues. It is looked up in a list of all multiples of the first prime,
by their residues of the second. The calls are joins of maps of all five groups, whose numbers are drawn from the whole range or stand at its ends
and about multiples of both primes; jobs whose factor lists differ; and every refusal in each of its ways, alone and beside each way of every later
one, at either job, map or the output. The seed is fixed.
"""
import itertools
import random
import struct
import sys

from brute_force import PRIMES, Machine, all_points, consistent_map, factor_lists, octal, pack_map, planes, point_images, residue, volume_length
from order_cases import NO_MODULI
from test_records import checksum

SEED = 105
LIMIT = 13063485600
UNWRITTEN = 9
FIRST, SECOND = PRIMES.values()
# By its residue of the second prime: the multiple of the first prime, from 0 up to their product.
MULTIPLES = {FIRST * k % SECOND: FIRST * k for k in range(SECOND)}
# Whole numbers at the ends of the range, about zero and about what a single prime holds.
ENDS = sorted({sign * (x + d) for sign in (1, -1) for d in (-1, 0, 1) for x in (0, FIRST // 2, FIRST, SECOND // 2, SECOND, LIMIT // 2, LIMIT - 1)})


def combined(x, y):
    """The whole number with the residues x and y."""
    z = x + MULTIPLES[(y - x) % SECOND]
    return next(c for c in (z, z - FIRST * SECOND) if -LIMIT <= c <= LIMIT)


# ---- a call: the first job, its map, the second job, its map, the output

def valid(job):
    machine = Machine()
    machine.job = job
    return machine.valid()


def cell_of(job):
    return job[0], (job[2], job[4], job[6])


def refusal(first, v, second, w, output):
    """25, 22, 27, 6, 7, 14, each over both jobs or maps before the next."""
    if not (valid(first) and valid(second)):
        return 25
    if first[8] != 2 or second[8] != 2:
        return 22
    if cell_of(first) != cell_of(second) or (first[1], second[1]) != (1, 2):
        return 27
    if any(len(numbers) != volume_length(*cell_of(first)) for numbers in (v, w, output)):
        return 6
    if not (all(residue(x, FIRST) for x in v) and all(residue(x, SECOND) for x in w)):
        return 7
    if not (consistent_map(*cell_of(first), v) and consistent_map(*cell_of(second), w)):
        return 14
    return 0


def answer(first, v, second, w, output):
    """The refusal's number or 0, and what the output holds then."""
    refused = refusal(first, v, second, w, output)
    return refused, output if refused else [combined(x, y) for x, y in zip(v, w)]


def job_of(g, m, n, lists):
    return [g, m, *(x for length, fs in zip(n, lists) for x in (length, octal(fs))), 2]


# ---- joins

def some_map(g, n, draw):
    """A map of whole numbers, alike at all images of a point, in the layout of a volume."""
    drawn = {x: draw() for x in all_points(n)}
    return pack_map(g, n, {x: drawn[min(point_images(g, n, x))] for x in drawn})


def join(rng, g, n, M):
    """The call that combines the residues of a map of whole numbers."""
    jobs = [job_of(g, m, n, [rng.choice(list(factor_lists(length // 2))) for length in n]) for m in PRIMES]
    call = [jobs[0], [z % FIRST for z in M], jobs[1], [z % SECOND for z in M], [UNWRITTEN] * len(M)]
    assert answer(*call) == (0, M)
    return call


# ---- every way to spoil a call

def put(part, place, wrong):
    """Another number at a place of a job or a map."""
    def spoil(call):
        call[part][place] = wrong
    return spoil


def resized(part, length):
    """A map or the output cut to a length, or its last number once more."""
    def spoil(call):
        call[part] = (call[part] + call[part][-1:])[:length]
    return spoil


def other_length(axis):
    """The second job is of another cell, and its map as long as that asks for."""
    def spoil(call):
        call[2][2 + 2 * axis:4 + 2 * axis] = 8, 4
        call[3] = [0] * volume_length(*cell_of(call[2]))
    return spoil


def other_group(call):
    call[2][0] = (call[2][0] + 1) % 5
    call[3] = [0] * volume_length(*cell_of(call[2]))


def moduli(first, second):
    def spoil(call):
        call[0][1], call[2][1] = first, second
    return spoil


def spoilings(g, n):
    """Of each refusal, in their order, its ways. A map is spoilt for 14 behind its rows or, where two stored points are images, at one of them."""
    length, held = volume_length(g, n), planes(g, n)
    unlike = [(z * n[0] + x) * (n[1] + 2) + y for x, y, z in all_points(n) if z < held and any(i != (x, y, z) and i[2] < held for i in point_images(g, n, (x, y, z)))]
    return {
        25: [put(part, *wrong) for part in (0, 2) for wrong in ((0, 5), *((1, m) for m in NO_MODULI), (2, 14), (5, 7), (8, 3))],
        22: [put(part, 8, state) for part in (0, 2) for state in (0, 1)],
        27: [other_group, *(other_length(axis) for axis in range(3)), moduli(1, 1), moduli(2, 2), moduli(2, 1)],
        6: [resized(part, wrong) for part in (1, 3, 4) for wrong in (0, length - 1, length + 1)],
        7: [put(1, 0, FIRST), put(1, 0, SECOND - 1), put(1, -1, 4294967295), put(3, 0, SECOND), put(3, -1, 4294967295)],
        14: [put(part, place, 1) for part in (1, 3) for place in (n[1], -1, *unlike[:1])],
    }


def spoilt(g, n, spoils):
    """The join of two maps of zeros, spoilt."""
    lists = [next(factor_lists(length // 2)) for length in n]
    call = [job_of(g, 1, n, lists), [0] * volume_length(g, n), job_of(g, 2, n, lists), [0] * volume_length(g, n), [UNWRITTEN] * volume_length(g, n)]
    for spoil in spoils:
        spoil(call)
    return call


def refused(g, n, pairs):
    """Each refusal in each of its ways; with `pairs` also beside each way of every later one. Another cell comes first: it brings a map of its own."""
    ways = spoilings(g, n)
    for number, spoils in ways.items():
        for spoil in spoils:
            call = spoilt(g, n, [spoil])
            assert refusal(*call) == number
            yield call
    for earlier, later in itertools.combinations(ways, 2) if pairs else ():
        for one, other in itertools.product(ways[earlier], ways[later]):
            call = spoilt(g, n, [one, other] if earlier == 27 else [other, one])
            assert refusal(*call) == earlier
            yield call


# ---- the calls

def cases():
    rng = random.Random(SEED)
    for g in range(5):
        for n in ((2, 2, 2), (4, 2, 2), (2, 4, 4), (4, 4, 6), (2, 6, 4)):
            yield join(rng, g, n, some_map(g, n, lambda: rng.randint(-LIMIT, LIMIT)))
            yield join(rng, g, n, some_map(g, n, lambda: rng.choice(ENDS)))
        yield join(rng, g, (2, 2, 2), [0] * volume_length(g, (2, 2, 2)))
    # all of ENDS in one map
    n = (4, 4, 6)
    yield join(rng, 0, n, pack_map(0, n, dict(zip(all_points(n), itertools.cycle(ENDS)))))
    for g in range(5):
        yield from refused(g, (2, 2, 2), g == 3)


def main():
    out = sys.stdout.buffer
    for call in cases():
        if sys.argv[1] == "cases":
            first, v, second, w, output = call
            out.write(struct.pack(">%dI" % (21 + len(v) + len(w)), *first, *second, len(v), len(w), len(output), *v, *w))
        else:
            number, output = answer(*call)
            low, high = [abs(z) % 2 ** 32 for z in output], [abs(z) // 2 ** 32 * 2 + (z < 0) for z in output]
            out.write(b"%d %d %d %d\n" % (number, 0 if number else len(output), checksum(low), checksum(high)))


if __name__ == "__main__":
    main()
