#!/usr/bin/env python3
"""The calls of the window test, and by brute force what each answers and leaves.

    window_cases.py cases|answers

`cases` writes crates/window_test/stdin: for each call six big-endian numbers of four bytes (the window's length, the run's, those of the four
outputs) and a byte for each score, which is its place among SCORES. `answers` writes crates/window_test/stdout. The seed is fixed.

Every w from 0 to 66, with runs of w - 1, w, w + 1, 2 w and 2 w + 1 entries and some more; runs of one score, rising, falling and drawn from few
scores or many, so that most windows have ties and many have an end of 64 bits; outputs that are all just long enough, one place too short one by one, longer,
empty.
"""
import random
import struct
import sys

SEED = 113
LONGEST = 64
SCORES = [-2**63, -2**63 + 1, -2, -1, 0, 1, 2**63 - 2, 2**63 - 1]
UNSCORED = len(SCORES)
UNPLACED = 7


def windows(run, w):
    """For each window the least and the greatest score and the first place of each, by looking at every entry of it."""
    found = []
    for end in range(w, len(run) + 1):
        seen = run[end - w:end]
        found.append((min(seen), max(seen), end - w + seen.index(min(seen)), end - w + seen.index(max(seen))))
    return found


def checksum(numbers):
    h = 7
    for x in numbers:
        h = (h * 31 + x + 1) % 2147483647
    return h


def answer(w, codes, rooms):
    """The number, the count written, and the checksums of what stands in the four outputs."""
    outputs = [[UNSCORED] * rooms[0], [UNSCORED] * rooms[1], [UNPLACED] * rooms[2], [UNPLACED] * rooms[3]]
    number = count = 0
    if not 1 <= w <= LONGEST:
        number = 34
    else:
        found = windows([SCORES[c] for c in codes], w)
        if any(room < len(found) for room in rooms):
            number = 18
        else:
            count = len(found)
            for j, (least, greatest, least_at, greatest_at) in enumerate(found):
                for output, x in zip(outputs, (SCORES.index(least), SCORES.index(greatest), least_at, greatest_at)):
                    output[j] = x
    return [number, count, *map(checksum, outputs)]


def runs(rng, w):
    """Runs of every length that matters for a window of w entries, and of every kind."""
    for n in sorted({max(w - 1, 0), w, w + 1, 2 * w, 2 * w + 1, rng.randrange(3 * w + 2)}):
        few = rng.sample(range(len(SCORES)), 2)
        yield [rng.randrange(len(SCORES)) for _ in range(n)]
        yield [rng.choice(few) for _ in range(n)]
        yield rng.choice([[few[0]] * n, [j * len(SCORES) // max(n, 1) for j in range(n)], [(n - 1 - j) * len(SCORES) // max(n, 1) for j in range(n)]])


def cases():
    rng = random.Random(SEED)
    for w in range(LONGEST + 3):
        for codes in runs(rng, w):
            count = max(len(codes) + 1 - w, 0)
            yield w, codes, [count] * 4
            yield w, codes, [count + rng.randrange(4) for _ in range(4)]
            short = [count + rng.randrange(2) for _ in range(4)]
            short[rng.randrange(4)] = max(count - 1, 0)
            yield w, codes, short
    # every output by itself, at every length up to one more than is needed
    for w in (1, 2, 5):
        codes = [rng.randrange(len(SCORES)) for _ in range(w + 6)]
        for output in range(4):
            for room in range(9):
                yield w, codes, [room if k == output else 8 for k in range(4)]
    # no run, and no outputs
    for w in (0, 1, 64, 65, 2**31, 2**32 - 1):
        yield w, [], [0] * 4
        yield w, [4], [0] * 4


def main():
    out = sys.stdout.buffer
    for w, codes, rooms in cases():
        if sys.argv[1] == "cases":
            out.write(struct.pack(">6I", w, len(codes), *rooms) + bytes(codes))
        else:
            out.write(b"%d %d %d %d %d %d\n" % tuple(answer(w, codes, rooms)))


if __name__ == "__main__":
    main()
