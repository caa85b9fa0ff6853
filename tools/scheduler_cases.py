#!/usr/bin/env python3
"""The calls of the scheduler test, and by brute force what each answers and leaves.

    scheduler_cases.py cases|answers

`cases` writes crates/scheduler_test/stdin, `answers` crates/scheduler_test/stdout; scheduler_records.py says what they hold.

What a call answers and leaves is that of lanes.py. Where a lane is finished and each of its turns was lent what the last one left, the volume is held
to the map of brute_force.py, which is a triple sum over the whole cell. The seed is fixed.
"""
import functools
import itertools
import random
import sys

from brute_force import LIMIT, PRIMES, SCRATCH, admitted, all_points, consistent, factor_lists, images, octal, pack_cell, synthesised, volume_length
from lanes import FINISHED, FREE, SERVED, SMALLEST, cell_of, count_of, numbers_of, own_places
from scheduler_records import JOB, ROOM, Input, lines, packed

SEED = 111
NO_LANES = (0, 9, 10, 4294967295)
GRIDS = [(2, 2, 2), (4, 2, 2), (2, 4, 2), (2, 2, 4), (2, 4, 4), (4, 4, 6), (6, 2, 6), (2, 8, 4), (4, 2, 10)]
NUMBERS = 4294967296


# ---- jobs and volumes

def job_of(g, m, n, lists, state=0):
    return [g, m, *(x for length, fs in zip(n, lists) for x in (length, octal(fs))), state]


def some_job(rng, g, m, n):
    return job_of(g, m, n, [rng.choice(list(factor_lists(length // 2))) for length in n], rng.randrange(2))


def some_factors(rng, job):
    """Packed factors of a cell that obeys every rule: the sum of a cell drawn at random over all operations."""
    (g, n), p = cell_of(job), PRIMES[job[1]]
    F = {j: (0, 0) for j in all_points(n)}
    for j in all_points(n):
        for i, w in images(g, n, j, (rng.randrange(p), rng.randrange(p)), p):
            F[i] = (F[i][0] + w[0]) % p, (F[i][1] + w[1]) % p
    v = pack_cell(g, n, F, p)
    assert consistent(g, n, v, p)
    return v


def too_large(p, turn):
    """A number that is no residue of p; under the first prime at times one that is a residue of the second."""
    return (p, PRIMES[2] - 1 if p == PRIMES[1] else p + 1, 2 * p, NUMBERS - 1)[turn % 4]


@functools.cache
def jobs_by_numbers():
    """For every count of numbers that a volume can have, a job with it."""
    lengths = [length for length in range(2, 2881) if admitted(length)]
    found = {}
    for g, n in itertools.product((4, 2, 0), itertools.product(lengths, repeat=3)):
        if volume_length(g, n) <= LIMIT:
            found.setdefault(volume_length(g, n), (g, n))
    return {count: job_of(g, 1 + count // 4 % 2, n, [next(factor_lists(length // 2)) for length in n]) for count, (g, n) in found.items()}


def jobs_with(total):
    """Three jobs whose volumes have so many numbers in all."""
    found = jobs_by_numbers()
    for third, first in itertools.product(sorted(found), sorted(found, reverse=True)):
        if total - third - first in found:
            return [found[first], found[total - third - first], found[third]]


def lane_with(job, done=0):
    """A lane that runs a job of which so many lines are done."""
    return [count_of(job) - done, *job]


# ---- lanes alone and together

def alone(rng, out):
    """Every group on every grid with one of the primes, on one grid with both, by itself in a lane from its entering to its map, then idle."""
    for (turn, n), g, m in itertools.product(enumerate(GRIDS), range(5), PRIMES):
        if n == (2, 4, 4) or m == 1 + (turn + g) % 2:
            out.new()
            job = some_job(rng, g, m, n)
            d = 1 + (turn + 3 * g) % 8
            assert out.enter(d, job, some_factors(rng, job))[0] == 0
            for _ in range(count_of(job)):
                answer = out.turn()
            assert answer[0] == FINISHED
            out.next()
            out.turn()


def in_time(rng, out):
    """A lane with n lines left beside seven others that run is finished by turn 8 n and none before: it was served last."""
    for g, n in zip(range(5), [(2, 2, 2), (2, 2, 4), (2, 2, 2), (2, 4, 2), (4, 2, 2)]):
        out.new()
        d = 1 + (3 * g + 2) % 8
        job = some_job(rng, g, 1 + g % 2, n)
        out.enter(d, job, some_factors(rng, job))
        out.turn()
        others = [c for c in range(1, 9) if c != d]
        left = count_of(job) - 1
        for turn in range(1, 8 * left + 1):
            for c in others:
                if not out.scheduler.running(c):
                    other = some_job(rng, rng.randrange(5), rng.randrange(1, 3), rng.choice([(2, 2, 2), (2, 4, 2)]))
                    assert out.enter(c, other, some_factors(rng, other))[0] == 0
            if rng.randrange(12) == 0:
                c = rng.choice(others)
                assert out.withdraw(c)[0] == 0
                other = some_job(rng, rng.randrange(5), rng.randrange(1, 3), (2, 2, 2))
                out.enter(c, other, some_factors(rng, other))
            answer = out.turn()
            assert (answer[:2] == (FINISHED, d)) == (turn == 8 * left)


def coming_and_going(rng, out, calls):
    """Random calls on one scheduler, refused ones among them."""
    out.new()
    for _ in range(calls):
        kind = rng.randrange(40)
        d = rng.randrange(1, 9)
        if kind < 5:
            job = some_job(rng, rng.randrange(5), rng.randrange(1, 3), rng.choice(GRIDS[:6]))
            if not out.scheduler.running(d):
                out.enter(d, job, some_factors(rng, job))
            else:
                out.enter(d, job, out.volume(d, numbers_of(job)))
        elif kind == 5:
            out.withdraw(rng.choice([*range(1, 9), 0, 9]))
        elif kind == 6:
            out.next()
        elif kind == 7:
            out.turn(rng.choice([-1, 1, 2]), rng.choice([SCRATCH, SCRATCH - 1]))
        elif kind == 8:
            out.turn(0, rng.choice([SCRATCH - 1, 0, SCRATCH + 80]))
        elif kind < 11:
            spoilt_number(rng, out)
        else:
            out.turn(0, rng.choice([SCRATCH, SCRATCH, SCRATCH + 1, SCRATCH + 80]))


def spoilt_number(rng, out):
    """A turn where one number of the lane's volume is none of its residues: of its own line, or of another, which is not looked at."""
    d, length = out.lent()
    if out.scheduler.next_lane() == 0:
        return
    job = out.scheduler.lanes[d - 1][1:]
    own = own_places(job, out.scheduler.line_of(d))
    place = rng.choice(own) if own and rng.randrange(2) else rng.randrange(length)
    before = out.volume(d, length)[place]
    out.poke(d, place, too_large(PRIMES[job[1]], rng.randrange(4)))
    entered, out.entered[d] = out.entered[d], None
    answer = out.turn()
    out.poke(d, place, before)
    if answer[0] != FINISHED:
        out.entered[d] = entered


# ---- refusals of entering, alone and in pairs

ENTERING = ("25 of the scheduler", 31, "25 of the job", 32, 23, 6, 13, 7, 14)


def entering(rng, out, g, m, n):
    """Every refusal of entering alone and beside each later one, in its ways by turns. Without a fault the job fills the allowance exactly."""
    job = some_job(rng, g, m, n)
    factors = some_factors(rng, job)
    beside = jobs_with(LIMIT - numbers_of(job))
    out.new()
    for turn, faults in enumerate([{one} for one in ENTERING] + [set(two) for two in itertools.combinations(ENTERING, 2)] + [set()]):
        out.set_kept(faulty_scheduler(beside, faults, turn))
        volume = faulty_volume(job, factors, faults, turn)
        length = len(volume) + (-1, 1, -len(volume))[turn % 3] if 6 in faults else len(volume)
        scratch = (SCRATCH - 1, 0)[turn % 2] if 13 in faults else SCRATCH + turn % 3
        d = (*NO_LANES, 1, 3, 7)[turn % 7] if 31 in faults else (2, 4, 6, 8)[turn % 4]
        answer = out.enter(d, faulty_job(job, faults, turn), volume, length, scratch, 8)
    assert answer[0] == 0 and out.scheduler.held() == LIMIT


def faulty_scheduler(beside, faults, turn):
    """Three lanes run, of which the last one served has had a turn; 32 by one more of the fewest numbers."""
    some = [list(FREE) for _ in range(8)]
    some[0], some[2], some[6] = lane_with(beside[0]), lane_with(beside[1], 1), lane_with(beside[2])
    if 32 in faults:
        some[4] = lane_with(jobs_by_numbers()[SMALLEST])
    return [x for lane in some for x in lane] + [(0, 9, NUMBERS - 1)[turn % 3] if "25 of the scheduler" in faults else 3]


def faulty_job(job, faults, turn):
    spoilt = list(job)
    if 23 in faults:
        spoilt[8] = 2
    if "25 of the job" in faults:
        place, wrong = ((0, 5), (1, 0), (1, 3), (2, 14), (5, 7), (0, NUMBERS - 1) if 23 in faults else (8, 3))[turn % 6]
        spoilt[place] = wrong
    return spoilt


def faulty_volume(job, factors, faults, turn):
    """For 14 one number is changed so that no cell has the factors."""
    (g, n), p = cell_of(job), PRIMES[job[1]]
    volume = list(factors)
    if 14 in faults:
        changed = ([(x + (q == place)) % p for q, x in enumerate(factors)] for place in range(len(factors)))
        volume = next(v for v in changed if not consistent(g, n, v, p))
    if 7 in faults:
        volume[turn % len(volume)] = too_large(p, turn)
    return volume


# ---- refusals of turns, alone and in pairs, at every line

def turning(rng, out, g, m, n):
    """Every line of a job: each of its numbers by itself no residue, which is 7, and beside one of them 6, 13 and 25; 6 and 13 without it; then a turn that
    is accepted though every number of every other line is no residue."""
    job = some_job(rng, g, m, n)
    p, length, d = PRIMES[m], numbers_of(job), 1 + (g + 3 * m) % 8
    out.new()
    out.enter(d, job, some_factors(rng, job))
    entered, out.entered[d] = out.entered[d][1], None
    for turn in range(count_of(job)):
        own = own_places(job, out.scheduler.line_of(d))
        before = out.volume(d, length)
        out.set_volume(d, [x if q in own else too_large(p, q) for q, x in enumerate(before)])
        for q in own:
            out.poke(d, q, too_large(p, turn + q))
            out.turn()
            if q == own[turn % len(own)]:
                turn_faults(out, turn)
            out.poke(d, q, before[q])
        turn_faults(out, turn + 1)
        assert out.turn()[:2] == (FINISHED if turn == count_of(job) - 1 else SERVED, d)
        after = out.volume(d, length)
        out.set_volume(d, [after[q] if q in own else before[q] for q in range(length)])
    assert out.volume(d, length) == synthesised(g, n, entered, p)


def turn_faults(out, turn):
    """6 and 13, alone and together; at times 25 before them."""
    last = out.scheduler.last
    out.turn((-1, 1)[turn % 2])
    out.turn(0, (SCRATCH - 1, 0)[turn % 2])
    out.turn((1, -1)[turn % 2], SCRATCH - 1)
    if turn % 4 == 0:
        out.next()
        out.set_kept([9], 80)
        out.turn(0, SCRATCH)
        out.turn(1)
        out.turn(0, SCRATCH - 1)
        out.set_kept([last], 80)


def any_residues(rng, out, g, m, n):
    """Every line of a job on residues drawn at random, which no entering and no turn left: a turn asks no more of its volume."""
    job = some_job(rng, g, m, n)
    length = numbers_of(job)
    d = rng.randrange(1, 9)
    out.new()
    for done in range(count_of(job)):
        out.set_kept([x for c in range(1, 9) for x in (lane_with(job, done) if c == d else FREE)] + [d if done else 0])
        if done % 3 == 0:
            out.set_volume(d, [rng.randrange(PRIMES[m]) for _ in range(length)])
        out.turn()


# ---- schedulers that no calls could have left, and those that some could

def tried(out, turn):
    """Two of the calls on a scheduler, by turns, after `next`; what they leave is taken back."""
    kept, volumes = out.program.kept(), list(out.program.volumes)
    free = next((d for d in range(1, 9) if not any(out.scheduler.lanes[d - 1])), 1 + turn % 8)
    runs = next((d for d in (*range(1 + turn % 8, 9), *range(1, 9)) if out.scheduler.running(d)), 1 + turn % 8)
    calls = [out.turn, lambda: out.withdraw(runs), lambda: out.enter(free, jobs_by_numbers()[SMALLEST], [0] * SMALLEST),
             lambda: out.withdraw((*NO_LANES, free)[turn % 5])]
    out.next()
    for call in calls[turn % 4], calls[(turn + 1) % 4]:
        call()
        out.set_kept(kept)
    for d in range(1, 9):
        out.set_volume(d, volumes[ROOM * (d - 1):ROOM * d])
    out.entered = [None] * 9


def genuine(rng, out, withdrawn):
    """A scheduler that calls left: free lanes, lanes that have had turns and one that has had none; the lane served last is among them or withdrawn."""
    out.new()
    for g, d in enumerate((1, 2, 4, 5, 8)):
        job = some_job(rng, g, 1 + d % 2, (2, 2, 4) if g % 2 else (2, 4, 2))
        out.enter(d, job, some_factors(rng, job))
    for _ in range(9):
        out.turn()
    if withdrawn:
        out.withdraw(out.scheduler.last)
    job = some_job(rng, 0, 2, (2, 2, 2))
    out.enter(3, job, some_factors(rng, job))
    out.entered = [None] * 9


def number_by_number(rng, out):
    """Each of the 81 numbers of a genuine scheduler changed, to its neighbours, to 0, to what is right elsewhere and to the largest."""
    turn = 0
    for withdrawn in (False, True):
        genuine(rng, out, withdrawn)
        whole = out.scheduler.numbers()
        for place, x in enumerate(whole):
            for wrong in sorted({0, 1, 2, x + 1, max(x - 1, 0), rng.choice([3, 4, 6, 8, 9, 16]), NUMBERS - 1} - {x}):
                if rng.randrange(3) or place == 80 or place % 10 in (0, 9):
                    turn += 1
                    out.set_kept([wrong], place)
                    tried(out, turn)
                    out.set_kept(whole)


def lanes_in_doubt(rng):
    """What a lane may hold and what not, and the lane served last: lines left, states, a job in a lane that does not run, numbers whose sum goes round."""
    for g, m, n in ((0, 1, (2, 2, 2)), (1, 2, (2, 4, 2)), (2, 1, (2, 2, 4)), (3, 2, (4, 2, 2)), (4, 1, (2, 2, 6))):
        job = some_job(rng, g, m, n)
        all_lines = count_of(job)
        for left, state, last in itertools.product((0, 1, all_lines - 1, all_lines, all_lines + 1, NUMBERS - 1), range(4), range(3)):
            if state == rng.randrange(4) or left in (0, all_lines):
                yield last, [left, *job[:8], state]
    for place in range(1, 10):
        yield 0, [int(i == place) for i in range(10)]
        yield 0, [NUMBERS // 2 * (i in (place, place % 9 + 1)) for i in range(10)]
    yield 0, [0, 1] + [0] * 7 + [NUMBERS - 1]


def last_in_doubt():
    """The lane served last, beside none, lanes without a turn and lanes that have had one."""
    smallest = jobs_by_numbers()[SMALLEST]
    for last in (*range(10), NUMBERS - 1, NUMBERS - 8):
        yield last, FREE
        yield last, *[lane_with(smallest)] * 8
        yield last, *[lane_with(smallest, 1)] * 8
        yield last, FREE, lane_with(smallest, 1), lane_with(smallest)


def allowance_in_doubt():
    """The allowance exactly met, exceeded, and met but for a few numbers; the lane served last is one of those that have had turns, or one that has left,
    whose volume had 8 numbers at least."""
    found = jobs_by_numbers()
    for over in (-SMALLEST, -4, 0, 4, 8):
        three = jobs_with(LIMIT + over)
        for done, last in itertools.product(((0, 0, 0), (1, 1, 1), (1, 0, 0), (0, 1, 1), (2, 1, 0)), (0, 1, 2, 5, 8)):
            yield last, *map(lane_with, three, done)
    for less, last in itertools.product((0, 4, SMALLEST - 4, SMALLEST, SMALLEST + 4, 2 * SMALLEST), (1, 4, 7)):
        begun = [*map(lane_with, jobs_with(LIMIT - less), (1, 3, 1))]
        yield last, FREE, *begun
        yield last, lane_with(found[SMALLEST]), *begun
    yield 0, *[lane_with(found[max(found)])] * 8


def hand_made(rng, out):
    """Schedulers at the ends of what calls could have left, on both sides."""
    possible = 0
    cases = [*lanes_in_doubt(rng), *last_in_doubt(), *allowance_in_doubt()]
    for turn, (last, *some) in enumerate(cases):
        out.set_kept([x for lane in some + [FREE] * (8 - len(some)) for x in lane] + [last])
        possible += out.scheduler.possible()
        tried(out, turn)
    assert 100 < possible < len(cases) - 100


def leaving(rng, out):
    """Withdrawing: 25 beside 31 and 33, 31, 33, and of lanes that run; then turns of those that are left."""
    out.new()
    for d in NO_LANES + (1, 8):
        out.withdraw(d)
    for d in (2, 5, 7):
        job = some_job(rng, d % 5, 1 + d % 2, (2, 2, 2))
        out.enter(d, job, some_factors(rng, job))
    out.turn()
    out.set_kept([0], 80)
    for d in NO_LANES + (1, 2):
        out.withdraw(d)
    out.set_kept([2], 80)
    for d in (1, 2, 2, *NO_LANES):
        out.withdraw(d)
        out.turn()


def records():
    rng = random.Random(SEED)
    out = Input()
    out.next()
    out.turn()
    leaving(rng, out)
    alone(rng, out)
    in_time(rng, out)
    for _ in range(3):
        coming_and_going(rng, out, 500)
    for g, m in itertools.product(range(5), PRIMES):
        entering(rng, out, g, m, (2, 4, 4) if m == 1 + g % 2 else (2, 2, 6))
        turning(rng, out, g, m, (2, 4, 4) if m == 1 + g % 2 else (2, 2, 2))
        any_residues(rng, out, g, m, (2, 4, 6) if m == 1 + g % 2 else (4, 2, 4))
    number_by_number(rng, out)
    hand_made(rng, out)
    return out.records


def main():
    if sys.argv[1:] == ["cases"]:
        for record in records():
            sys.stdout.buffer.write(packed(*record))
    elif sys.argv[1:] == ["answers"]:
        print("\n".join(lines(records())))
    else:
        sys.exit(__doc__)


if __name__ == "__main__":
    main()
