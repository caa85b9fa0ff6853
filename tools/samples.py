#!/usr/bin/env python3
"""The second sample entry of P2_1, the combined map and a section of it: samples/p21.second.factors, p21.combined.txt and p21.section.txt.

    samples.py [FOLDER]

All are made from samples/p21.factors alone, and written to the folder, or to samples/. An entry whose factors are whole numbers beyond the first
prime: at each index that of p21.factors and some times 86,399. Its file modulo 86,399 is p21.factors itself; its file modulo 302,399 has the
numbers as they are. The combined text has at each point the only whole number from -13,063,485,600 to 13,063,485,600 that is congruent to both
triple sums, found by trying all numbers that are congruent to the first. The section is the page of plane 1.
"""
import os
import sys

from brute_force import PRIMES, file_bytes, needed, open_file, planes, records_in
from section_cases import page

SAMPLES = os.path.join(os.path.dirname(os.path.abspath(__file__)), "../samples")
# How often 86,399 is added to a and to b of each record.
TIMES = {(0, 0, 0): (3, 0), (0, 0, 2): (1, 1), (0, 1, 0): (2, 0), (0, 1, 1): (1, 0), (1, 0, 0): (1, 0), (1, 2, 3): (0, 1)}


def combined(x, y):
    """The whole number next to zero with a residue for each prime."""
    first, second = PRIMES[1], PRIMES[2]
    found = next(z for z in range(x, first * second, first) if z % second == y)
    return found - first * second if found > first * second // 2 else found


def second_file(contents):
    """The file modulo the second prime of the entry whose file modulo the first is given."""
    book = open_file(contents, needed(contents))[2]
    records = [(h, k, l, *(c + PRIMES[1] * t for c, t in zip((a, b), TIMES[(h, k, l)]))) for h, k, l, a, b in records_in(contents)]
    return file_bytes(book.g, book.n, book.lists, records, 2)


def combined_text(contents, others):
    """The text of the combined map of a file for each prime."""
    first, second = (open_file(file, needed(file))[2] for file in (contents, others))
    M, N = first.densities(), second.densities()
    lines = ["map %d %d %d %d" % (first.g, *first.n)]
    for z in range(planes(first.g, first.n)):
        for x in range(first.n[0]):
            lines.append(" ".join(map(str, [z, x] + [combined(M[(x, y, z)], N[(x, y, z)]) for y in range(first.n[1])])))
    return ("\n".join(lines) + "\n").encode()


def section_text(text, z):
    """The page of a plane of the text of a combined map."""
    lines = [list(map(int, line.split())) for line in text.decode().split("\n")[1:-1]]
    return page([line[2:] for line in lines if line[0] == z])


def main():
    with open(os.path.join(SAMPLES, "p21.factors"), "rb") as file:
        contents = file.read()
    others = second_file(contents)
    folder = sys.argv[1] if len(sys.argv) > 1 else SAMPLES
    text = combined_text(contents, others)
    for name, made in (("p21.second.factors", others), ("p21.combined.txt", text), ("p21.section.txt", section_text(text, 1))):
        with open(os.path.join(folder, name), "wb") as out:
            out.write(made)


if __name__ == "__main__":
    main()
