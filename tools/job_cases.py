#!/usr/bin/env python3
"""The recorder test's calls of jobs: random lists of calls and those of order_cases.py, and what they must answer and leave, by brute force.

    job_cases.py cases   writes the recorder test's input to standard output
    job_cases.py answers writes what the test program must print

test_records.py says what the input holds and what is printed. Each call of a job is a script of its own. The lists are made of
    0 open       group, modulus, kind, N1, N2, N3       (lists as set by 8)
    1 record     h, k, l, a, b
    2 synthesis  length of the scratch
    3 analysis   length of the scratch
    4 point      x, y, z
    5 factor     h, k, l
    6 fill       seed: the volume's numbers, residues of both primes, by a linear congruential generator
    7 poke       place, value: one number of the volume
    8 list       axis, a factor list
    9 job        group, modulus, N1, list, N2, list, N3, list, state: the job itself (lists as octal digits)
   10 length     how many numbers of the buffer are lent as the volume
   11 readings   4 or 5, then points or indices: all of them in one script
   12 power      of the map
   13 power      of the factors

The answers are those of brute_force.py. The random lists are shared between the two primes. The seed is fixed.
"""
import random
import sys

import order_cases
import test_records
from brute_force import P, PRIMES, SCRATCH, Machine, factor_lists, images, octal, volume_length
from test_records import FILL, JOB, POKE, checksum

SEED = 1973

# The operations of a script.
OPERATIONS = {1: 0, 2: 1, 3: 2, 4: 3, 5: 4, 12: 5, 13: 6}


class TestProgram(Machine):
    """What the test program keeps, its input and the lines that it prints."""

    def set(self, op, w):
        """The volume, the job, and what the next openings and calls are lent."""
        if op == 6:
            state = w[0]
            for j in range(self.length):
                state = (state * 1103515245 + 12345) % 2147483648
                self.volume[j] = state // 8 % P
        elif op == 7:
            assert w[0] < self.length
            self.volume[w[0]] = w[1]
        elif op == 8:
            self.lists[w[0]] = w[1]
        elif op == 9:
            self.job = list(w)
        else:
            self.length = w[0]

    def answer(self, op, w):
        """The three numbers that a call of a script answers."""
        return {1: lambda: self.record(*w), 2: lambda: self.work(w[0], False), 3: lambda: self.work(w[0], True),
                4: lambda: self.point(*w), 5: lambda: self.factor(*w), 12: lambda: self.power(True), 13: lambda: self.power(False)}[op]()

    def packed(self, op, w):
        """The records of the input."""
        if op == 11:
            script = [x for j in w[1:] for x in (OPERATIONS[w[0]], *j, 0, 0)]
            return test_records.replay(self.length, script, SCRATCH, len(script) // 2)
        if op > 5 and op not in OPERATIONS:
            self.set(op, w)
            kinds = {6: FILL, 7: POKE, 9: JOB}
            return test_records.record(kinds[op], self.length, *w) if op in kinds else b""
        if op == 0:
            return test_records.opening(self.length, *w[:3], w[3:], self.lists)
        numbers = [] if op in (2, 3) else list(w)
        return test_records.replay(self.length, [OPERATIONS[op]] + numbers + [0] * (5 - len(numbers)), w[0] if op in (2, 3) else SCRATCH, 3)

    def lines(self, op, w):
        """The lines of an opening, a call or readings, none for the others."""
        if op == 11:
            answers = [x for j in w[1:] for x in self.answer(w[0], j)]
            return self.replayed([7] * SCRATCH, answers)
        if op > 5 and op not in OPERATIONS:
            self.set(op, w)
            return []
        if op == 0:
            return ["%d 0 %d %d" % (self.open(*w)[0], checksum(self.job), checksum(self.lent()))]
        self.scratch = [7] * 12032
        answer = self.answer(op, w)
        return self.replayed(self.scratch[:w[0] if op in (2, 3) else SCRATCH], answer)

    def replayed(self, scratch, answers):
        left = checksum(self.job), checksum(self.lent()), checksum(scratch)
        return ["%d %d %d %d" % (len(answers), *left), " ".join(map(str, answers))]


# ---- the lists of calls

def scripts():
    rng = random.Random(SEED)
    calls = []

    def say(op, *w):
        calls.append((op, w))

    def lists(n):
        for axis, m in enumerate(n):
            fs = rng.choice(list(factor_lists(m // 2)))
            set_list(axis, fs)

    def set_list(axis, fs):
        say(8, axis, fs)

    def value(p):
        kind = rng.randrange(6)
        a, b = rng.randrange(p), rng.randrange(p)
        if kind == 0:
            return a, 0
        if kind == 1:
            return 0, b
        return a, b

    def index(n, g):
        j = [rng.randrange(m) for m in n]
        for axis in range(3):
            if rng.randrange(3) == 0:
                j[axis] = rng.choice([0, n[axis] // 2])
        return j

    def powers():
        say(12)
        say(13)

    def sound(n, g, p):
        """A record that agrees with its own images, where some value does."""
        j = tuple(index(n, g))
        a, b = rng.randrange(1, p), rng.randrange(1, p)
        for v in ((a, b), (a, 0), (0, b)):
            if all(i != j or w == v for i, w in images(g, n, j, v, p)):
                break
        say(1, *j, *v)

    def faulty(n, g, p):
        kind = rng.randrange(9)
        if kind == 0:
            say(1, *[rng.choice([c, m, m + 1, 4294967295]) for c, m in zip(index(n, g), n)], *value(p))
        elif kind == 1:
            say(1, *index(n, g), rng.choice([p, p + 5, PRIMES[2] - 1, 4294967295]), 3)
        elif kind == 2:
            say(1, *index(n, g), 0, 0)
        elif kind == 3:
            say(2, rng.choice([0, 11519]))
        elif kind == 4:
            say(3, rng.choice([0, 11519]))
        elif kind == 5:
            say(4, *[c + rng.choice([0, m]) for c, m in zip(index(n, g), n)])
        elif kind == 6:
            say(5, *[c + rng.choice([0, m]) for c, m in zip(index(n, g), n)])
        elif kind == 7:
            length = volume_length(g, n)
            say(10, rng.choice([0, length - 1, length + 1, length + 2]))
            for _ in range(3):
                rng.choice([lambda: say(1, *index(n, g), *value(p)), lambda: say(2, SCRATCH), lambda: say(3, SCRATCH),
                            lambda: say(4, *index(n, g)), lambda: say(5, *index(n, g))])()
            say(10, length)
        else:
            say(rng.choice([2, 3]), SCRATCH)

    def session(g, m, n, turns):
        length, p = volume_length(g, n), PRIMES[m]
        say(10, length)
        say(6, rng.randrange(1 << 31))
        lists(n)
        say(0, g, m, 0, *n)
        for _ in range(10):
            sound(n, g, p)
        for _ in range(turns):
            kind = rng.randrange(16)
            if kind < 6:
                say(1, *index(n, g), *value(p))
            elif kind == 6:
                say(2, rng.choice([11520, 11521, 12032]))
            elif kind == 7:
                say(3, rng.choice([11520, 12032]))
            elif kind in (8, 9):
                say(4, *index(n, g))
            elif kind in (10, 11):
                say(5, *index(n, g))
            elif kind == 12:
                faulty(n, g, p)
            elif kind == 13:
                lists(n)
                say(0, g, m, 1, *n)
            elif kind == 14:
                say(7, rng.randrange(length), rng.choice([1, 5, P, p - 1, p, 4294967295, 0]))
                rng.choice([lambda: say(2, SCRATCH), lambda: say(3, SCRATCH), lambda: say(0, g, m, 1, *n), lambda: say(1, *index(n, g), *value(p)),
                            lambda: say(5, *index(n, g)), lambda: say(4, *index(n, g))])()
                powers()
                if rng.randrange(2):
                    lists(n)
                    say(0, g, m, 0, *n)
                    for _ in range(4):
                        sound(n, g, p)
            else:
                say(5, *index(n, g))
        say(2, SCRATCH)
        for _ in range(4):
            say(4, *index(n, g))
        powers()
        say(3, SCRATCH)
        for _ in range(4):
            say(5, *index(n, g))
        powers()
        say(2, SCRATCH)
        say(0, g, m, 1, *n)

    # every group on small grids, the primes in turn: mates in the planes k = 0 and k = B, odd and even halves, one pair lines
    grids = [(2, 2, 2), (4, 2, 2), (2, 4, 2), (2, 2, 4), (4, 4, 4), (6, 4, 2), (4, 6, 6), (2, 8, 6), (6, 2, 8), (4, 4, 10), (8, 4, 4), (6, 6, 6)]
    for g in range(5):
        for turn, n in enumerate(grids):
            session(g, 1 + (g + turn) % 2, n, 30 if n[0] * n[1] * n[2] < 100 else 12)

    # the paper's specimens
    for axis in range(3):
        set_list(axis, [])
    say(10, volume_length(1, (2, 2, 2)))
    say(0, 1, 1, 0, 2, 2, 2)
    say(1, 0, 0, 1, 3, 0)
    say(10, volume_length(3, (2, 2, 2)))
    say(0, 3, 1, 0, 2, 2, 2)
    say(1, 1, 0, 0, 3, 0)
    set_list(2, [2])
    say(10, volume_length(2, (2, 2, 4)))
    say(0, 2, 1, 0, 2, 2, 4)
    say(1, 0, 0, 1, 3, 0)
    say(1, 0, 0, 3, 3, 0)
    set_list(2, [])
    say(10, volume_length(3, (2, 2, 2)))
    say(0, 3, 1, 0, 2, 2, 2)
    say(7, 0, 5)
    say(0, 3, 1, 1, 2, 2, 2)
    big = [2, 3, 4, 5]
    for axis in range(3):
        set_list(axis, big)
    say(10, 0)
    say(0, 0, 1, 0, 240, 240, 240)
    for axis in range(3):
        set_list(axis, [4, 4, 3, 3])
    say(0, 0, 1, 0, 288, 288, 288)
    say(0, 1, 1, 0, 288, 288, 288)

    # faults of openings, alone and in pairs
    def opening(faults):
        n = [rng.choice([2, 4, 6]) for _ in range(3)]
        g, m, kind = rng.randrange(5), rng.randrange(1, 3), rng.randrange(2)
        p = PRIMES[m]
        length = volume_length(g, n)
        ls = [rng.choice(list(factor_lists(m // 2))) for m in n]
        if 8 in faults:
            g = rng.choice([5, 6, 4294967295])
        if 26 in faults:
            m = rng.choice([0, 3, 4294967295])
        if 2 in faults:
            kind = rng.choice([2, 3, 4294967295])
        if 3 in faults:
            n[rng.randrange(3)] = rng.choice([0, 1, 3, 14, 5760, 4294967295])
        if 4 in faults:
            ls[rng.randrange(3)] = rng.choice([[0], [1], [6], [2, 255], [7, 2]])
        if 5 in faults:
            ls[rng.randrange(3)] = rng.choice([[5], [2, 2, 2, 2], [4, 5, 3]])
        if 6 in faults:
            length += rng.choice([-1, 1, 2])
        say(10, length)
        say(6, rng.randrange(1 << 31))
        if 7 in faults:
            say(7, rng.randrange(length), rng.choice([p, 4294967295]))
        for axis in range(3):
            set_list(axis, ls[axis])
        say(0, g, m, kind, *n)

    kinds = [8, 26, 2, 3, 4, 5, 6, 7]
    for one in kinds:
        for _ in range(4):
            opening({one})
        for two in kinds:
            opening({one, two})

    # jobs that no opening could have made, and jobs that one could
    for _ in range(120):
        n = [rng.choice([2, 4, 6]) for _ in range(3)]
        g, m, s = rng.randrange(5), rng.randrange(1, 3), rng.randrange(3)
        fs = [octal(rng.choice(list(factor_lists(m // 2)))) for m in n]
        spoil = rng.randrange(9)
        job = [g, m, n[0], fs[0], n[1], fs[1], n[2], fs[2], s]
        length = volume_length(g, n)
        if spoil == 0:
            job[0] = rng.choice([5, 4294967295])
        elif spoil == 1:
            job[8] = rng.choice([3, 4294967295])
        elif spoil in (2, 3):
            job[rng.choice([3, 5, 7])] = rng.choice([0, 1, 2, 3, 6, 7, 8, 16, 0o20, 0o203, 0o22222222222, 4294967295])
        elif spoil == 4:
            job[rng.choice([2, 4, 6])] = rng.choice([0, 1, 2, 4, 6, 14, 2880, 4294967295])
        elif spoil == 5:
            job[2:8] = 240, octal(big), 288, octal([4, 4, 3, 3]), 288, octal([4, 4, 3, 3])
        elif spoil == 6:
            job[1] = rng.choice([0, 3, 4, 86399, 4294967295])
        say(10, length)
        say(6, rng.randrange(1 << 31))
        say(9, *job)
        for _ in range(5):
            rng.choice([lambda: say(1, *index(n, g), *value(PRIMES[m])), lambda: say(2, SCRATCH), lambda: say(3, SCRATCH), lambda: say(4, *index(n, g)),
                        lambda: say(5, *index(n, g)), lambda: faulty(n, g, PRIMES[m])])()
        powers()
    return calls + list(order_cases.calls())


def main():
    program = TestProgram()
    if sys.argv[1:] == ["cases"]:
        for op, w in scripts():
            sys.stdout.buffer.write(program.packed(op, w))
    elif sys.argv[1:] == ["answers"]:
        for op, w in scripts():
            for line in program.lines(op, w):
                print(line)
    else:
        sys.exit(__doc__)


if __name__ == "__main__":
    main()
