#!/usr/bin/env python3
"""The test of the calls that a first program needs: a file's header, the length of a file to be written, a chosen factor list, a point of a combined
map, the version; and of what include/recorder.h computes by itself: the words of refusals and the counts of volumes and lines.

    calls_test.py ARCHIVE

Each is held to brute force (tools/brute_force.py), which shares no code with the library, and to the calls that it speaks of: a header to opening its
file, a length to writing it. Files are whole, cut, lengthened and with bytes changed, of all groups, both versions and moduli. Then answers are falsified
in nine ways, and each has to be noticed. Prints how many comparisons agreed; the exit status is 1 where one did not.
"""
import os
import random
import subprocess
import sys
import tempfile
import types

TOP = os.path.dirname(os.path.dirname(os.path.abspath(__file__)))
sys.path[:0] = [os.path.join(TOP, "python"), os.path.join(TOP, "tools")]
sys.dont_write_bytecode = True

from brute_force import (LIMIT, PRIMES, Book, admitted, all_points, density_place, factor_lists, file_bytes, header_fault,  # noqa: E402
                         lengths_at, lengths_in, modulus_in, number, octal, open_file, orbit_of, planes, point_images, product, volume_length)

NAME = "librecorder.so.2"
SMALL = [2, 4, 6, 8, 10]


class Compared:
    """The count of comparisons."""

    def __init__(self, quiet=False):
        self.agreed, self.wrong, self.quiet = 0, 0, quiet

    def expect(self, what, got, want):
        if got == want:
            self.agreed += 1
        else:
            self.wrong += 1
            if self.wrong < 20 and not self.quiet:
                print("%s: got %.600r, expected %.300r" % (what, got, want))


def numbers_of(values):
    from array import array
    return array("I", values)


def counts_of(values):
    from array import array
    return array("q", values)


# ---- a factor list

def lists_chosen(compared, answered, _):
    for length in [*range(0, 3000), 5760, 65536, 2**31, 2**32 - 2]:
        fewest = min((len(found) for found in factor_lists(length // 2)), default=0) if admitted(length) and length <= 720 else None
        rest, greedy = length // 2, []
        for factor in (4, 5, 3, 2):
            while admitted(length) and rest % factor == 0:
                rest //= factor
                greedy.append(factor)
        for room in ((0, 1, 2, 3, 4, 5, 6, 7, 8, 12) if admitted(length) else (0, 8)):
            out = bytearray([9] * room)
            answer = answered("recorder_factor_list", length, out)
            want = (3, 0) if not admitted(length) else (18, 0) if room < len(greedy) else (0, len(greedy))
            compared.expect("list of %d with room %d" % (length, room), (answer.number, answer.written), want)
            kept = bytes(greedy) + bytes([9] * (room - len(greedy))) if want[0] == 0 else bytes([9] * room)
            compared.expect("bytes of the list of %d" % length, bytes(out), kept)
        if admitted(length):
            compared.expect("product of the list of %d" % length, (product(greedy), all(2 <= f <= 5 for f in greedy)), (length // 2, True))
        if fewest is not None:
            compared.expect("fewest factors of %d" % length, len(greedy), fewest)


# ---- a file's header

def header_of(file):
    """The refusal's number or 0, and what the header names, by brute force: open_file with no volume gives 6 where the header is sound."""
    refused = open_file(file, -1)[0]
    if refused != 6:
        return refused, (0,) * 10
    at, lists = lengths_at(file) + 6, []
    for _ in range(3):
        lists.append(list(file[at + 1:at + 1 + file[at]]))
        at += 1 + file[at]
    g, n = file[5], lengths_in(file)
    axes = [number for axis in zip(n, map(octal, lists)) for number in axis]
    return 0, (g, modulus_in(file), *axes, number(file[at:at + 4]), volume_length(g, n))


def said(answer):
    axes = [number for axis in (answer.a, answer.b, answer.c) for number in (axis.length, axis.factors)]
    return answer.number, (answer.group, answer.modulus, *axes, answer.records, answer.numbers)


def some_file(rng):
    g, n, modulus = rng.randrange(5), tuple(rng.choice(SMALL) for _ in range(3)), rng.choice([1, 2])
    if rng.random() < 0.15:
        n = tuple(rng.choice([2, 96, 240, 288, 576, 2880]) for _ in range(3))
    lists = [rng.choice(list(factor_lists(m // 2))) if m < 100 else next(factor_lists(m // 2)) for m in n]
    records = [(*(rng.randrange(m) for m in n), rng.randrange(PRIMES[modulus]), rng.randrange(PRIMES[modulus])) for _ in range(rng.randrange(4))]
    version = rng.choice([1, 2]) if modulus == 1 else 2
    return file_bytes(g, n, lists, records, modulus, version)


def damaged(rng, file):
    file, how = bytearray(file), rng.randrange(6)
    if how == 0:
        return bytes(file[:rng.randrange(len(file) + 1)])
    if how == 1:
        return bytes(file) + bytes(rng.randrange(1, 20))
    for _ in range(rng.choice([1, 1, 2, 3])):
        file[rng.randrange(4, min(len(file), 26))] = rng.choice([0, 1, 2, 3, 4, 5, 6, 7, 14, 255, rng.randrange(256)])
    if how == 2:
        file[:4] = (len(file) - 4 + rng.choice([0, 1, -1])).to_bytes(4, "big")
    return bytes(file)


def headers(compared, answered, rng):
    for turn in range(6000):
        file = some_file(rng)
        if turn % 3:
            file = damaged(rng, file)
        answer = answered("recorder_file_header", file)
        compared.expect("header of %s" % file[:40].hex(), said(answer), header_of(file))
        # Opening the file: refused alike on any volume, or up to its records on one of so many numbers.
        if answer.numbers <= 20000:
            for lent in {answer.numbers, answer.numbers + 1, 0}:
                volume = numbers_of([7] * lent)
                opened = answered("recorder_open_file", file, volume)
                if answer.number:
                    compared.expect("opening", (opened.number, list(volume)), (answer.number, [7] * lent))
                elif lent != answer.numbers:
                    compared.expect("opening on another volume", opened.number, 6)
                else:
                    compared.expect("records decide", opened.number in (0, 7, 10, 12, 24), True)
                    job = (answer.group, answer.modulus, answer.a, answer.b, answer.c, 0)
                    compared.expect("the job", opened.number != 0 or (opened.job.group, opened.job.modulus, opened.job.a, opened.job.b, opened.job.c,
                                                                      opened.job.state) == job, True)


# ---- the length of a file

def lengths_of_files(compared, answered, rng):
    from recorder.declarations import Axis, Job
    for turn in range(700):
        g, n, modulus = turn % 5, tuple(rng.choice(SMALL[:4]) for _ in range(3)), rng.choice([1, 2])
        book, p = Book(g, n, [rng.choice(list(factor_lists(m // 2))) for m in n], modulus), PRIMES[modulus]
        for _ in range(rng.choice([0, 1, 2, 5, 30])):
            book.record(*(rng.randrange(m) for m in n), rng.randrange(p), rng.choice([0, rng.randrange(p)]))
        orbits = {tuple(orbit_of(g, n, j)) for j, value in book.F.items() if value != (0, 0)}
        records = [(*min(orbit), *book.F[min(orbit)]) for orbit in sorted(orbits)]
        file = file_bytes(g, n, book.lists, records, modulus)
        group, m, n1, f1, n2, f2, n3, f3, _ = book.job()
        state, volume = rng.choice([0, 0, 0, 1, 1, 2]), numbers_of(book.volume())
        fault = rng.randrange(8)
        if fault == 0 and len(volume):
            volume[rng.randrange(len(volume))] = p
        elif fault == 1:
            volume = volume[:-1]
        elif fault == 2:
            m = rng.choice([0, 3])
        job = Job(group, m, Axis(n1, f1), Axis(n2, f2), Axis(n3, f3), state)
        answer = answered("recorder_file_length", job, volume)
        want = 25 if fault == 2 else 23 if state == 2 else 6 if fault == 1 else 7 if fault == 0 else 0
        compared.expect("length of the file", (answer.number, answer.length), (want, 0 if want else len(file)))
        for room in (len(file), len(file) + 3, len(file) - 1, 0):
            out = bytearray([9] * room)
            written = answered("recorder_write_file", job, volume, out)
            number = answer.number or (18 if room < answer.length else 0)
            compared.expect("the writer", (written.number, written.written), (number, 0 if number else len(file)))
            compared.expect("its bytes", bytes(out), bytes([9] * room) if number else file + bytes([9] * (room - len(file))))
    # Volumes that no cell has are refused with 14 by both, or taken by both.
    for turn in range(300):
        g, n = rng.randrange(5), tuple(rng.choice(SMALL[:3]) for _ in range(3))
        volume = numbers_of([rng.choice([0, 0, 0, rng.randrange(PRIMES[1])]) for _ in range(volume_length(g, n))])
        job = Job(g, 1, *(Axis(m, octal(next(factor_lists(m // 2)))) for m in n), 1)
        answer, out = answered("recorder_file_length", job, volume), bytearray(100000)
        written = answered("recorder_write_file", job, volume, out)
        compared.expect("any volume", (answer.number, answer.length), (written.number, written.written))


# ---- a point of a combined map

def points(compared, answered, rng):
    from recorder.declarations import GridPoint
    for turn in range(250):
        g, n = turn % 5, tuple(rng.choice(SMALL[:4]) for _ in range(3))
        cell = {}
        for x in all_points(n):
            if x not in cell:
                cell.update(dict.fromkeys(point_images(g, n, x), rng.choice([0, -1, rng.randint(-2**63, 2**63 - 1), rng.randint(-13063485600, 13063485600)])))
        rows = [[cell[(x, y, z)] for y in range(n[1])] + [rng.randint(-9, 9) for _ in range(2)] for z in range(planes(g, n)) for x in range(n[0])]
        volume = counts_of([number for row in rows for number in row])
        for x in all_points(n):
            answer = answered("recorder_combined_point", g, *n, volume, GridPoint(*x))
            compared.expect("point %r of group %d" % (x, g), (answer.number, answer.density), (0, cell[x]))
    for turn in range(3000):
        g, n = rng.randrange(7), [rng.choice([*SMALL, 0, 3, 14, 2880, 960, 2882]) for _ in range(3)]
        sound = g < 5 and all(map(admitted, n))
        asked = volume_length(g, n) if sound else 0
        length = max(0, asked + rng.choice([0, 0, 0, 1, -1])) if asked < 5000 else rng.choice([0, 1])
        volume, at = counts_of(rng.randint(-9, 9) for _ in range(length)), [rng.choice([0, 1, max(m - 1, 0), m, m + 1, 2**32 - 1]) for m in n]
        outside = any(i >= m for i, m in zip(at, n))
        want = 8 if g > 4 else 3 if not sound else 9 if asked > LIMIT else 6 if length != asked else 10 if outside else 0
        answer = answered("recorder_combined_point", g, *n, volume, GridPoint(*at))
        density = volume[density_place(g, n, tuple(at))] if want == 0 else 0
        compared.expect("point %r of %d %r" % (at, g, n), (answer.number, answer.density), (want, density))


# ---- the header's own functions

def printed(compared, archive, folder, version):
    from recorder.declarations import WORDS
    for compiler, flags in (("gcc", ["-std=c99"]), ("gcc", ["-std=c11", "-O2"])):
        program = os.path.join(folder, "calls_test")
        flags = [*flags, "-Wall", "-Wextra", "-pedantic", "-Werror", "-I" + os.path.join(TOP, "include"), "-o", program]
        subprocess.run([compiler, *flags, os.path.join(TOP, "tools/calls_test.c"), archive], check=True)
        for line in subprocess.run([program], stdout=subprocess.PIPE, check=True).stdout.decode().splitlines():
            kind, *rest = line.split(" ")
            if kind == "words":
                of = int(rest[0])
                compared.expect("words of %d" % of, " ".join(rest[1:]), "accepted" if of == 0 else WORDS.get(of, "no refusal has this number"))
                continue
            numbers = list(map(int, rest))
            if kind == "version":
                compared.expect("version", numbers, [version, version])
            elif kind == "volume":
                g, *n = numbers[:4]
                sound = g < 5 and all(map(admitted, n)) and volume_length(g, n) <= LIMIT
                refused = 8 if g > 4 else header_fault(g, n, [next(factor_lists(m // 2), []) if admitted(m) else [] for m in n]) or 6
                compared.expect("volume of %r" % numbers[:4], numbers[4:], [volume_length(g, n) if sound else 0, refused])
            else:
                k, n, length, exact, longer = numbers
                counts = (2 * n, n, n, n, n + 2, n - 2)
                want = (counts[k], 0, 6) if k < 6 and admitted(n) else (0, 1, 1) if k > 5 else (0, 3, 3)
                compared.expect("line of %d %d" % (k, n), (length, exact, longer), want)


# ---- answers that are falsified

def reversed_list(arguments, answer):
    arguments[1][:answer.written] = bytes(reversed(arguments[1][:answer.written]))


def exact_room_refused(arguments, answer):
    if answer.number == 0 and len(arguments[1]) == answer.written:
        answer.number, answer.written = 18, 0


def exchanged(_, answer):
    answer.records, answer.numbers = answer.numbers, answer.records


def pairs_for_numbers(_, answer):
    answer.numbers //= 2


def record_too_few(_, answer):
    answer.length = max(answer.length - 14, 0)


def told_as(number, other):
    def falsified(_, answer):
        answer.number = other if answer.number == number else answer.number
    return falsified


def operation_left_out(arguments, answer):
    group, n1, n2, n3, volume, at = arguments
    if answer.number == 0 and group == 4 and at.z >= n3 // 2:
        answer.density = volume[(at.z % (n3 // 2) * n1 + at.x) * (n2 + 2) + at.y]


FALSE = [("recorder_factor_list", reversed_list), ("recorder_factor_list", exact_room_refused), ("recorder_file_header", exchanged),
         ("recorder_file_header", pairs_for_numbers), ("recorder_file_header", told_as(26, 8)), ("recorder_file_length", record_too_few),
         ("recorder_file_length", told_as(7, 14)), ("recorder_combined_point", told_as(10, 6)), ("recorder_combined_point", operation_left_out)]
PARTS = {"recorder_factor_list": lists_chosen, "recorder_file_header": headers, "recorder_file_length": lengths_of_files, "recorder_combined_point": points}


def falsified(compared, answered):
    """Each false answer changes some comparison of its call's part."""
    for call, change in FALSE:
        def changed(name, *arguments):
            answer = answered(name, *arguments)
            if name != call:
                return answer
            answer = types.SimpleNamespace(**{field: getattr(answer, field) for field, _ in answer._fields_})
            change(arguments, answer)
            return answer
        found = Compared(quiet=True)
        PARTS[call](found, changed, random.Random(41))
        compared.expect("%s, falsified by %s" % (call, change.__name__), found.wrong > 0, True)


def main():
    if len(sys.argv) != 2:
        sys.exit("usage: calls_test.py ARCHIVE")
    compared, rng, archive = Compared(), random.Random(41), os.path.abspath(sys.argv[1])
    with tempfile.TemporaryDirectory() as folder:
        shared = os.path.join(folder, NAME)
        subprocess.run(["gcc", "-shared", "-o", shared, "-Wl,--whole-archive", archive, "-Wl,--no-whole-archive"], check=True)
        os.environ["RECORDER_LIBRARY"] = shared
        from recorder.calling import answered
        from recorder.declarations import VERSION
        compared.expect("version of the package", answered("recorder_version"), VERSION)
        lists_chosen(compared, answered, rng)
        headers(compared, answered, rng)
        lengths_of_files(compared, answered, rng)
        points(compared, answered, rng)
        printed(compared, archive, folder, VERSION)
        falsified(compared, answered)
    print("%d comparisons agree, %d do not" % (compared.agreed, compared.wrong))
    sys.exit(1 if compared.wrong else 0)


if __name__ == "__main__":
    main()
