#!/usr/bin/env python3
"""The recorder test's factor files, sound and damaged, lists of calls on the jobs that they open, and the files of those jobs, by brute force.

    file_cases.py cases   writes the recorder test's input to standard output
    file_cases.py answers writes what the test program must print

test_records.py says what the input holds and what is printed. The cases are made of
    0 new       the file and the script are empty
    1 bytes     bytes that are added to the file
    2 length    how many numbers of the buffer are lent as the volume
    3 open      opens the file; the job goes on if there is one
    4 damage    opens every part of the file that starts with its first byte, then the file with each of its bytes in turn 1, 128 and 255 more
    5 call      six numbers: a call of the script (0 for those not named)
    6 replay    lengths of the scratch and of the answers: the script is replayed on the job
    7 write     length of the output: the file of the job is written
    8 poke      place, value: one number of the volume
    9 job       group, modulus, N1, list, N2, list, N3, list, state: the job itself (lists as octal digits)

The answers of openings and replays are those of the book in brute_force.py, which is fed the calls' arguments alone; the records at fault are
those of its rule, which faults_cases.py holds to all lists of records; a file is written
from the job and the volume that the calls left. The random cases are shared between the two primes, which are files of version 1 and of version 2,
where no version is named. The seed is fixed.
"""
import itertools
import random
import sys

import test_records
from brute_force import P, PRIMES, SCRATCH, Machine, all_points, factor_lists, file_bytes, file_faults, images, open_file, orbit_of, volume_length
from order_cases import factors_of, fault_sets, faulty_arguments, faulty_header, faulty_job, pair, sound_values
from test_records import JOB, POKE, WRITE, checksum

SEED = 1974


class TestProgram:
    """What the test program keeps, and the lines that it prints."""

    def __init__(self):
        self.file = b""
        self.script = []
        self.length = 0
        self.book = None
        self.left = Machine()

    def leave(self):
        """The job and the volume that the book's calls leave."""
        self.left.job = self.book.job()
        self.left.volume[:self.length] = self.book.volume()

    def writing(self, room):
        self.left.length = self.length
        refused, file = self.left.write(room)
        return "%d %d %d" % (refused, len(file), checksum(file + bytes([7]) * (room - len(file))))

    def faults(self, file):
        places = file_faults(file)
        return "%d %d %d" % (len(places), *places, *[0] * (2 - len(places)))

    def opening(self, file):
        """What is printed of a file: its records at fault, then its opening."""
        yield self.faults(file)
        refused, place, book = open_file(file, self.length)
        if book:
            volume = book.volume()
        elif place or refused in (7, 10, 12, 24):
            volume = [0] * self.length
        else:
            volume = [7] * self.length
        job = book.job() if book else [0] * 9
        if book:
            self.book = book
            self.leave()
        yield "%d %d %d %d" % (refused, place, checksum(job), checksum(volume))

    def replay(self, scratch, room):
        book = self.book
        calls = [self.script[i:i + 6] for i in range(0, len(self.script), 6)][:room // 3]
        out = []
        left = [7] * scratch
        for op, h, k, l, a, b in calls:
            if op == 0:
                out += book.record(h, k, l, a, b)
            elif op == 1 or op == 2:
                answer = book.synthesis(scratch) if op == 1 else book.analysis(scratch)
                if answer[0] == 0:
                    left[:SCRATCH] = [0] * SCRATCH
                out += answer
            elif op == 3:
                out += book.point(h, k, l)
            elif op == 5 or op == 6:
                out += book.power(op == 5)
            else:
                out += book.factor(h, k, l)
        self.leave()
        written = len(out)
        out += [9] * (room - written)
        yield "%d %d %d %d" % (written, checksum(book.job()), checksum(book.volume()), checksum(left))
        yield " ".join(str(x) for x in out)

    def damaged(self):
        """Every part of the file that starts with its first byte, then the file with each of its bytes in turn changed."""
        for n in range(len(self.file) + 1):
            yield self.file[:n]
        for q in range(len(self.file)):
            for more in (1, 128, 255):
                yield self.file[:q] + bytes([(self.file[q] + more) % 256]) + self.file[q + 1:]

    def set(self, op, w):
        """The file, the script and how much of the volume is lent."""
        if op == 0:
            self.file, self.script = b"", []
        elif op == 1:
            self.file += w[0]
        elif op == 2:
            self.length = w[0]
        elif op == 5:
            self.script += [*w, *[0] * (6 - len(w))]

    def packed(self, op, w):
        """The records of the input."""
        self.set(op, w)
        if op == 3:
            yield test_records.file(self.length, self.file)
        elif op == 4:
            for file in self.damaged():
                yield test_records.file(self.length, file)
        elif op == 6:
            yield test_records.replay(self.length, self.script, *w)
        elif op > 6:
            yield test_records.record({7: WRITE, 8: POKE, 9: JOB}[op], self.length, *w)

    def lines(self, op, w):
        """The lines that are printed."""
        self.set(op, w)
        if op == 3:
            yield from self.opening(self.file)
        elif op == 4:
            for file in self.damaged():
                yield from self.opening(file)
        elif op == 6:
            yield from self.replay(*w)
        elif op == 7:
            yield self.writing(*w)
        elif op == 8:
            assert w[0] < self.length
            self.left.volume[w[0]] = w[1]
        elif op == 9:
            self.left.job = list(w)


def cases():
    rng = random.Random(SEED)
    out = []

    def say(op, *w):
        out.append((op, w))

    def say_file(file):
        say(0)
        say(1, file)

    def index(n):
        return tuple(rng.choice([0, m // 2, rng.randrange(m), rng.randrange(m)]) for m in n)

    def sound(g, m, n, j):
        """A value at j that agrees with its own images, or None."""
        a, b = rng.randrange(1, PRIMES[m]), rng.randrange(1, PRIMES[m])
        for v in ((a, b), (a, 0), (0, b)):
            if all(i != j or w == v for i, w in images(g, n, j, v, PRIMES[m])):
                return v
        return None

    def records(g, m, n, most):
        taken = set()
        found = []
        for _ in range(40):
            j = index(n)
            v = sound(g, m, n, j)
            if v is None or j in taken or len(found) == most:
                continue
            taken.update(orbit_of(g, n, j))
            found.append((*j, *v))
        return found

    def lists(n):
        return [rng.choice(list(factor_lists(m // 2))) for m in n]

    # the paper's specimen, and small files of all groups and both versions, at every byte and length
    specimen = bytes.fromhex("0000001D" "01" "00" "0002" "0002" "0002" "00" "00" "00" "00000001" "0001" "0000" "0000" "00000003" "00000000")
    damaged = [(0, (2, 2, 2), specimen)]
    for g in range(5):
        n = [(4, 4, 4), (4, 4, 6), (2, 4, 8), (4, 2, 12), (4, 4, 6)][g]
        m = 1 + g % 2
        damaged.append((g, n, file_bytes(g, n, lists(n), records(g, m, n, 4), m)))
        damaged.append((g, (2, 2, 4), file_bytes(g, (2, 2, 4), [[], [], [2]], records(g, 2, (2, 2, 4), 1), 2)))
    for g, n, file in damaged:
        say_file(file)
        say(2, volume_length(g, n))
        say(3)
        say(4)

    # lengths of the volume, no records, faults of the header, records out of order and refused records of every kind, at the first and at a later place
    for g in range(5):
        n, m = (4, 6, 4), 2 - g % 2
        p = PRIMES[m]
        rs = records(g, m, n, 5)
        length = volume_length(g, n)
        files = [file_bytes(g, n, lists(n), rs, m), file_bytes(g, n, lists(n), rs[::-1], m), file_bytes(g, n, lists(n), [], m), file_bytes(g, n, [[2], [3], [4]], rs, m), file_bytes(g, (4, 6, 14), lists(n), rs, m), file_bytes(g + 4, n, lists(n), rs, m), file_bytes(g, n, [[2], [7], [2]], rs, m)]
        for spoilt in ((4, 0, 0, 1, 1), (0, 6, 0, 1, 1), (0, 0, 4, 1, 1), (1, 1, 1, p, 1), (1, 1, 1, 1, p), (1, 2, 1, 0, 0), (0, 0, 0, 1, 1), rs[0]):
            files.append(file_bytes(g, n, lists(n), [spoilt] + rs, m))
            files.append(file_bytes(g, n, lists(n), rs[:3] + [spoilt] + rs[3:], m))
        for file in files:
            say_file(file)
            for lent in (length, length - 1, length + 1):
                say(2, lent)
                say(3)

    # lists of calls, refused ones among them, on the jobs of accepted files; the two powers and numbers that stand for no other call in turn
    others = itertools.cycle((5, 6, 7, 5, 6, 4294967295))
    for g in range(5):
        for n in [(2, 2, 2), (4, 4, 4), (6, 4, 2), (4, 6, 6), (2, 8, 6), (4, 4, 10), (6, 6, 6)]:
            for m, p in PRIMES.items():
                say_file(file_bytes(g, n, lists(n), records(g, m, n, 3), m))
                say(2, volume_length(g, n))
                say(3)
                count = 0
                for _ in range(24):
                    op = rng.choice([0, 0, 0, 0, 1, 2, 3, 3, 4, 5])
                    op = next(others) if op == 5 else op
                    j = index(n)
                    v = sound(g, m, n, j) if rng.randrange(4) else (rng.randrange(p), rng.randrange(p))
                    if rng.randrange(8) == 0:
                        j = tuple(c + rng.choice([0, m]) for c, m in zip(j, n))
                    if rng.randrange(12) == 0:
                        v = rng.choice([(0, 0), (p, 0), (1, 4294967295), (3, PRIMES[2] - 1)])
                    say(5, op, *j, *(v or (3, 4)))
                    count += 1
                say(6, rng.choice([SCRATCH, SCRATCH, SCRATCH + 480, SCRATCH - 1]), rng.choice([3 * count, 3 * count, 3 * count + 2, 3 * count - 1, 0]))
                say(7, 4096)

    # files of jobs: outputs of every length around the file's, each refusal, and those of spoilt jobs and volumes
    for g in range(5):
        for turn, n in enumerate([(2, 2, 2), (4, 4, 4), (6, 4, 2), (4, 6, 6), (4, 2, 12), (2, 8, 10)]):
            m = 1 + (g + turn) % 2
            file = file_bytes(g, n, lists(n), records(g, m, n, rng.choice([1, 3, 12])), m)
            book = open_file(file, volume_length(g, n))[2]
            length = len(file)
            say_file(file)
            say(2, volume_length(g, n))
            say(3)
            for room in (length, length - 1, length + 5, 4096, 4, 0):
                say(7, room)
            for call in ((1, 2, 0), (1,)):
                say(0)
                for op in call:
                    say(5, op)
                say(6, SCRATCH, 9)
                say(7, 4096)
            say_file(file)
            say(3)
            job, volume = book.job(), book.volume()
            for _ in range(6):
                place = rng.randrange(len(volume))
                say(8, place, rng.choice([0, 1, P, PRIMES[m] - 1, PRIMES[m], rng.randrange(P)]))
                say(7, 4096)
                say(8, place, volume[place])
            for change in ((0, 5), (1, 0), (1, 3 - m), (1, 3), (2, 14), (3, 7), (4, 0), (5, 2), (6, 2880), (8, 1), (8, 2), (8, 3)):
                say(9, *job[:change[0]], change[1], *job[change[0] + 1:])
                say(7, 4096)
            say(9, *job)
            for lent in (len(volume) - 1, len(volume) + 1):
                say(2, lent)
                say(7, 4096)
            say(2, len(volume))
            for place, x in enumerate(volume):
                if x:
                    say(8, place, 0)
            say(7, 4096)

    # files of no records at every byte and length; written back as they are read, after a synthesis and an analysis, and once a record has come
    for g in range(5):
        for n, m in [((2, 2, 2), 1), ((2, 2, 2), 2), ((4, 6, 6), 1 + g % 2)]:
            file = file_bytes(g, n, lists(n), [], m)
            say_file(file)
            say(2, volume_length(g, n))
            if n == (2, 2, 2):
                say(4)
            say(3)
            for room in (len(file), len(file) - 1, 4096, 0):
                say(7, room)
            for calls in ([(4, *index(n)), (1,)] + [(3, *index(n)) for _ in range(4)] + [(2,), (4, *index(n))], [(0, 0, 0, 0, 5, 0), (1,), (3, *index(n)), (2,)]):
                say_file(file)
                say(3)
                for call in calls:
                    say(5, *call)
                say(6, SCRATCH, 3 * len(calls))
                say(7, 4096)
    out += [case for m in PRIMES for case in faulty_files(m)]
    for g in range(5):
        out += versions(g)
        for m in PRIMES:
            out += [*faulty_records(g, m), *faulty_writings(g, m)]
        out += [*zero_files(g, 2 - g % 2), *repeated_orbits(g, 1 + g % 2)]
    return out


# ---- each fault alone and every two at once

def versions(g):
    """Files of every version and every modulus byte about those that are taken, of values below the first prime and below the second, and what is
    written of those that are opened."""
    n = (4, 2, 2)
    yield 2, (volume_length(g, n),)
    for version, m, a in itertools.product((0, 1, 2, 3, 255), (0, 1, 2, 3, 255), (P - 1, P, PRIMES[2] - 1, PRIMES[2])):
        if version == 2 or m == 1:
            yield 0, ()
            yield 1, (file_bytes(g, n, [[2], [], []], [(0, 0, 0, a, 0)], m, version),)
            yield 3, ()
            if version == 2 and m in PRIMES and a < PRIMES[m]:
                yield 7, (4096,)


def faulty_files(m):
    """Files of P1 whose count is wrong (fault 0 here), with a byte beyond their records (15), with faults of version, header and length of the
    volume, in version 2 of the modulus, and with a second record that has 10; then files of no records."""
    faults_of_files = (0, 16, 15, 8, *[26] * (m == 2), 3, 4, 5, 9, 6, 10)
    every = [(turn, faults, False) for turn, faults in fault_sets(faults_of_files)]
    every += [(turn, faults, True) for turn, faults in fault_sets(faults_of_files[:-1])]
    for turn, faults, empty in every:
        n, lists = faulty_header((4, 4, 6), faults)
        records = [] if empty else [(0, 0, 0, PRIMES[m] - 5, 0), (1, 1, n[2] if 10 in faults else 1, 3, 4)]
        body = file_bytes(5 if 8 in faults else 0, n, lists, records, 3 * (turn % 2) if 26 in faults else m, m)[4:] + bytes(15 in faults)
        if 16 in faults:
            body = bytes([3 * (turn % 2)]) + body[1:]
        yield 2, (volume_length(0, (4, 4, 6)) + (6 in faults),)
        yield 0, ()
        yield 1, ((len(body) + (0 in faults)).to_bytes(4, "big") + body,)
        yield 3, ()


def faulty_records(g, m):
    """Files whose second record has the faults; the first is F(0,0,0) = 5, or 0."""
    n = (4, 4, 6)
    yield 2, (volume_length(g, n),)
    for first in (5, 0):
        for turn, faults in fault_sets((10, 7, 12, 24)):
            yield 0, ()
            yield 1, (file_bytes(g, n, [[2], [2], [3]], [(0, 0, 0, first, 0), faulty_arguments(PRIMES[m], n, 1, faults, turn)], m),)
            yield 3, ()


def lowest_indices(g, n):
    """One index of each orbit."""
    seen = set()
    for j in all_points(n):
        if j not in seen:
            seen.update(orbit_of(g, n, j))
            yield j


def zero_files(g, m):
    """A zero record for every orbit of a cell, then another for one of them at an image: at self-mates, in Pa's zero pairs, at both ends of
    alternating lines; zeros and other values in turn, written and read on."""
    for n in ((2, 2, 2), (4, 2, 4), (2, 4, 6)):
        every = list(lowest_indices(g, n))
        yield 2, (volume_length(g, n),)
        zeros = [(*j, 0, 0) for j in every]
        for j in every:
            for i in orbit_of(g, n, j):
                for v in ((0, 0), (5, 0)):
                    yield 0, ()
                    yield 1, (file_bytes(g, n, factors_of(n), zeros + [(*i, *v)], m),)
                    yield 3, ()
        sound = [[*sound_values(g, PRIMES[m], n, j), (0, 0)][0] for j in every]
        for turn in (0, 1):
            yield 0, ()
            yield 1, (file_bytes(g, n, factors_of(n), [(*j, *(v if place % 2 == turn else (0, 0))) for place, (j, v) in enumerate(zip(every, sound))], m),)
            yield 3, ()
            yield 7, (4096,)
            calls = [(0, *j, *v) for j, v in zip(every, sound)] + [(1,), (2,), (4,)]
            for at in range(0, len(calls), 20):
                yield 0, ()
                for call in calls[at:at + 20]:
                    yield 5, call
                yield 6, (SCRATCH, 3 * len(calls[at:at + 20]))
            yield 7, (4096,)


def repeated_orbits(g, m):
    """Short files in which the record at one place is of the orbit of another, at every two places, with and without zeros."""
    n = (4, 4, 6)
    yield 2, (volume_length(g, n),)
    records = [((1, 1, 1), (3, 4)), ((0, 0, 3), (0, 0)), ((1, 0, 0), (0, 0)), ((2, 1, 2), (7, 8)), ((2, 2, 0), (0, 0))]
    for first, second in itertools.combinations(range(len(records)), 2):
        orbit = orbit_of(g, n, records[first][0])
        for again in (orbit[0], orbit[-1]):
            for v, w in itertools.product(((0, 0), records[first][1]), ((0, 0), (7, 8))):
                file = list(records)
                file[first] = records[first][0], v
                file[second] = again, w
                yield 0, ()
                yield 1, (file_bytes(g, n, [[2], [2], [3]], [(*j, *x) for j, x in file], m),)
                yield 3, ()


def faulty_writings(g, m):
    """Writings of the job with F(0,0,0) = p - 5, and of that whose factors are all zero. In Pa a zero pair is what makes its factors inconsistent."""
    n, p = (4, 4, 6), PRIMES[m]
    length = volume_length(g, n)
    file = file_bytes(g, n, [[2], [2], [3]], [(0, 0, 0, p - 5, 0)], m)
    job = open_file(file, length)[2].job()
    inconsistent = pair(n, 0 if g == 3 else 1, 1, 0)
    yield from ((2, (length,)), (0, ()), (1, (file,)), (3, ()))
    every = [(turn, faults, empty) for empty in (False, True) for turn, faults in fault_sets((25, 23, 6, 7, 14, 18))]
    for turn, faults, empty in every:
        pokes = [poke for holds, *poke in ((7 in faults, 1, p, 0), (14 in faults, inconsistent, 1, 0), (empty, 0, 0, p - 5)) if holds]
        yield 9, faulty_job(job, 5, faults, turn)
        for place, wrong, _ in pokes:
            yield 8, (place, wrong)
        yield 2, (length + (-1, 1)[turn % 2] if 6 in faults else length,)
        yield 7, (4096 if 18 not in faults else len(file) - 14 * empty - 1 if len(faults) == 1 else 0,)
        yield 2, (length,)
        for place, _, right in pokes:
            yield 8, (place, right)


def main():
    program = TestProgram()
    if sys.argv[1:] == ["cases"]:
        for op, w in cases():
            for record in program.packed(op, w):
                sys.stdout.buffer.write(record)
    elif sys.argv[1:] == ["answers"]:
        for op, w in cases():
            for line in program.lines(op, w):
                print(line)
    else:
        sys.exit(__doc__)


if __name__ == "__main__":
    main()
