#!/usr/bin/env python3
"""Writes the calls of the line test to standard output: one record of 52 bytes a call, all numbers big-endian.

    modulus, kind, direction, length (4 bytes each), count of factors (1), factors (15, rest zero),
    count of numbers in the line, seed of the line, place of a spoilt number, its value, count of numbers in the scratch (4 each)

Every accepted factor list of every admitted length occurs with each prime, the kinds and directions in turn; every kind and
direction occurs at every length with each prime; every refusal occurs, alone and beside every later one. The seed is fixed.
"""
import random
import struct
import sys

SEED = 19731
NO_PLACE = 0xFFFFFFFF
PRIMES = {1: 86399, 2: 302399}
SCRATCH = 11520


def lists(product):
    """Every factor list with this product."""
    if product == 1:
        yield []
        return
    for f in (2, 3, 4, 5):
        if product % f == 0:
            for rest in lists(product // f):
                yield [f] + rest


def numbers(kind, n):
    a = n // 2
    return [2 * n, n, n, n, 2 * (a + 1), 2 * (a - 1)][kind]


def main():
    rng = random.Random(SEED)
    out = bytearray()
    count = 0

    def call(modulus, kind, direction, n, factors, line, place=NO_PLACE, value=0, scratch=SCRATCH):
        nonlocal count
        assert len(factors) <= 15
        out.extend(struct.pack(">IIII", modulus, kind, direction, n))
        out.append(len(factors))
        out.extend(bytes(factors) + bytes(15 - len(factors)))
        out.extend(struct.pack(">IIIII", line, rng.randrange(1 << 31), place, value, scratch))
        count += 1

    lengths = [n for n in range(2, 2881, 2) if 2880 % n == 0]
    assert len(lengths) == 36

    # every list of every length, kinds and directions in turn
    for modulus in PRIMES:
        turn = 0
        for n in lengths:
            for factors in lists(n // 2):
                kind, direction = turn % 6, turn // 6 % 2
                call(modulus, kind, direction, n, factors, numbers(kind, n))
                turn += 1
        assert turn == 2023

    # every kind and direction at every length, one list each
    for modulus in PRIMES:
        for n in lengths:
            for kind in range(6):
                for direction in range(2):
                    all_lists = list(lists(n // 2))
                    call(modulus, kind, direction, n, rng.choice(all_lists), numbers(kind, n), scratch=rng.choice([11520, 11521, 11777]))

    # the specimens that are not proved: lengths 0, 1, 14, 5,760; lists of N = 8; the largest residue and one more
    for n in (0, 1, 14, 5760):
        call(1, 0, 0, n, [], 2 * n if n < 100 else 0)
    for factors in ([2, 2], [4], [2], [6]):
        call(1, 0, 0, 8, factors, 16)
    for modulus, p in PRIMES.items():
        call(modulus, 1, 0, 8, [4], 8, 3, p - 1)
        call(modulus, 1, 0, 8, [4], 8, 3, p)
    # .. which the second prime takes
    call(2, 1, 0, 8, [4], 8, 3, PRIMES[1])

    # faults, alone and in pairs: a fault changes one argument of a sound call
    faults = [
        ("modulus", (0, 3, 4294967295)),
        ("kind", (6, 7, 4294967295)),
        ("direction", (2, 3, 4294967295)),
        ("length", (0, 1, 3, 7, 14, 2879, 2882, 5760, 4294967295)),
        ("factor", (0, 1, 6, 255)),
        ("product", (None,)),
        ("line", (-1, 1, 2)),
        ("scratch", (0, 1, 11519)),
        ("residue", (0, 1, 2)),
    ]

    def faulty(chosen):
        n = rng.choice([4, 6, 8, 12, 30, 48, 90])
        modulus, kind, direction = rng.choice([1, 2]), rng.randrange(6), rng.randrange(2)
        p = PRIMES[modulus]
        factors = rng.choice(list(lists(n // 2)))
        line = numbers(kind, n)
        place, value, scratch = NO_PLACE, 0, SCRATCH
        for name, values in chosen:
            v = rng.choice(values)
            if name == "modulus":
                modulus = v
            elif name == "kind":
                kind = v
            elif name == "direction":
                direction = v
            elif name == "length":
                n = v
            elif name == "factor":
                factors = factors[:]
                factors.insert(rng.randrange(len(factors) + 1), v)
            elif name == "product":
                factors = factors + [rng.choice([2, 3, 4, 5])] * rng.choice([1, 2, 7])
            elif name == "line":
                line = max(0, line + v)
            elif name == "scratch":
                scratch = v
            elif name == "residue":
                if line:
                    place, value = rng.randrange(line), (p, p + 1, 4294967295)[v]
        call(modulus, kind, direction, n, factors, line, place, value, scratch)

    for i, one in enumerate(faults):
        for _ in range(12):
            faulty([one])
        for two in faults[i + 1:]:
            for _ in range(6):
                faulty([one, two])
    for _ in range(60):
        faulty(rng.sample(faults, 3))

    sys.stdout.buffer.write(out)
    print(count, "calls", file=sys.stderr)


main()
