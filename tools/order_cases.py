"""Calls of jobs that tell the orders of refusals and the numbers that a call reads: every two faults of a call at once, and numbers of p or
more at single places, for both primes p; for the second also numbers below it that are no residues of the first. job_cases.py says what a call
here is, and adds these to its own.
"""
import itertools

from brute_force import P, PRIMES, SCRATCH, factor_lists, images, octal, orbit_of, planes, point_images, read_factor, volume_length

# Of each call of a script, in their order.
NO_MODULI = (0, 3, 4294967295)
REFUSALS = {1: (25, 21, 10, 7, 12, 6, 24), 2: (25, 23, 6, 13, 7, 14), 3: (25, 22, 6, 13, 7, 14), 4: (25, 22, 10, 6, 7), 5: (25, 23, 10, 6, 7),
            12: (25, 22, 6, 7, 14), 13: (25, 23, 6, 7, 14)}


def calls():
    for m in PRIMES:
        yield from faulty_openings(0, m, (4, 4, 6))
        for g in range(5):
            yield from together(g, m, (4, 4, 6))
            for n in ((4, 4, 4), (4, 4, 6)) if g in (1, 4) else ((4, 4, 6),):
                yield from factors_read(g, m, n)
                yield from orbits_read(g, m, n)
                if m == 1 + g % 2:
                    yield from zero_records(g, m, n)
            yield from points_read(g, m, (4, 4, 6))
            yield from signs_read(g, m, (4, 4, 6))


def opened(g, m, n):
    """A new job, collecting: its calls, and the job."""
    lists = factors_of(n)
    opening = [(10, (volume_length(g, n),))] + [(8, (axis, fs)) for axis, fs in enumerate(lists)] + [(0, (g, m, 0, *n))]
    return opening, [g, m, *(x for length, fs in zip(n, lists) for x in (length, octal(fs))), 0]


def factors_of(n):
    """A factor list for each axis."""
    return [next(factor_lists(m // 2)) for m in n]


def pair(n, w, h, k):
    """The place of a pair's first number."""
    return 2 * ((w * n[0] + h) * (n[1] // 2 + 1) + k)


def too_large(p, turn):
    """A number that is no residue of p; under the first prime at times one that is a residue of the second."""
    return (p, p + 1, PRIMES[2] - 1 if p == P else 2 * p, 4294967295)[turn % 4]


def numbers_tried(p, turn):
    """A number of p or more; then, under the second prime, one below it that is no residue of the first."""
    return [too_large(p, turn)] + [(P, 200000, p - 1)[turn % 3]] * (p != P)


def faulty_openings(g, m, n):
    """Openings of the map that is 0 everywhere."""
    opening, _ = opened(g, m, n)
    yield from opening
    length = volume_length(g, n)
    for turn, faults in fault_sets((8, 26, 2, 3, 4, 5, 9, 6, 7, 14)):
        lengths, lists = faulty_header(n, faults)
        pokes = [(place, wrong) for fault, place, wrong in ((7, 0, PRIMES[m]), (14, n[1], 1)) if fault in faults]
        for place, wrong in pokes:
            yield 7, (place, wrong)
        for axis, fs in enumerate(lists):
            yield 8, (axis, fs)
        yield 10, (length + (-1, 1)[turn % 2] if 6 in faults else length,)
        yield 0, (5 if 8 in faults else g, NO_MODULI[turn % 3] if 26 in faults else m, 2 if 2 in faults else 1, *lengths)
        yield 10, (length,)
        for place, _ in pokes:
            yield 7, (place, 0)


def faulty_header(n, faults):
    """Lengths and factor lists with 3, 4, 5 or 9 among their faults; 9 is one of P1."""
    lengths = [288, 288, 288] if 9 in faults else list(n)
    lists = [[4, 4, 3, 3]] * 3 if 9 in faults else factors_of(n)
    if 5 in faults:
        lists[0] = lists[0] + [2]
    if 4 in faults:
        lists[1] = [7]
    if 3 in faults:
        lengths[2] = 14
    return lengths, lists


def together(g, m, n):
    """Every call with each of its faults alone and with every two at once. F(0,0,0) = p - 5 stands in the volume, or its map, which has that at
    every point: nothing else is refused, and a refused call leaves it so."""
    opening, job = opened(g, m, n)
    yield from opening
    yield 1, (0, 0, 0, PRIMES[m] - 5, 0)
    for op in (1, 2, 5, 13):
        yield from faulty_calls(g, m, n, job, op)
    yield 2, (SCRATCH,)
    for op in (3, 4, 12):
        yield from faulty_calls(g, m, n, job[:8] + [2], op)
    yield 3, (SCRATCH,)


def faulty_calls(g, m, n, job, op):
    length, p = volume_length(g, n), PRIMES[m]
    held = job
    for turn, faults in fault_sets(REFUSALS[op]):
        spoilt = faulty_job(job, op, faults, turn)
        if spoilt != held:
            yield 9, spoilt
            held = spoilt
        pokes = faulty_numbers(g, p, n, op, faults, turn)
        for place, wrong, _ in pokes:
            yield 7, (place, wrong)
        yield 10, (length + (-1, 1)[turn % 2] if 6 in faults else length,)
        yield op, faulty_arguments(p, n, op, faults, turn)
        yield 10, (length,)
        for place, _, right in pokes:
            yield 7, (place, right)
    if held != job:
        yield 9, job


def fault_sets(faults):
    """Each fault alone and every two of them, numbered."""
    return enumerate([{one} for one in faults] + [set(two) for two in itertools.combinations(faults, 2)])


def faulty_job(job, op, faults, turn):
    spoilt = list(job)
    if faults & {21, 22, 23}:
        spoilt[8] = {1: 1 + turn % 2, 2: 2, 3: turn % 2, 4: turn % 2, 5: 2, 12: turn % 2, 13: 2}[op]
    if 25 in faults:
        place, wrong = ((0, 5), (2, 14), (5, 7), *((1, wrong) for wrong in NO_MODULI))[(turn + job[0]) % 6]
        spoilt[place] = wrong
    return spoilt


def faulty_numbers(g, p, n, op, faults, turn):
    """Places of the volume, the wrong numbers there and the right ones. In Pa a zero pair is what makes factors inconsistent, in the other
    groups a factor without its mate; in a map a number beside the points."""
    pokes = []
    if 7 in faults and op > 1:
        pokes.append((0, too_large(p, turn), p - 5))
    if 14 in faults:
        pokes.append((n[1] if op in (3, 12) else pair(n, 0 if g == 3 else 1, 1, 0), 1, 0))
    return pokes


def faulty_arguments(p, n, op, faults, turn):
    """What a call is given: beside the faults asked for, a free index for a record, a place whose number is right or poked for a reading; a power
    is given nothing."""
    if op > 5:
        return ()
    if op in (2, 3):
        return (SCRATCH - 1 if 13 in faults else SCRATCH,)
    j = [0, 0, 0] if op > 1 or 24 in faults else [2, 0, 0] if 12 in faults else [1, 1, 1]
    if 10 in faults:
        j[turn % 3] += n[turn % 3]
    if op > 1:
        return tuple(j)
    v = [3, 4] if 12 in faults else [3, 0]
    if 7 in faults:
        v[turn % 2] += p
    return (*j, *v)


def factors_read(g, m, n):
    """The ends of three lines and the pairs next to the first end, each number in turn p or more, read at both ends and next to them, on the line
    and on its Friedel mate."""
    opening, _ = opened(g, m, n)
    yield from opening
    yield 6, (g + 1,)
    last = planes(g, n) - 1
    for h, k in ((1, 0), (1, 1), (2, 1)):
        indices = [j for l in (0, 1, n[2] // 2, n[2] - 1) for j in ((h, k, l), (n[0] - h, -k % n[1], l))]
        for w in sorted({0, 1, last}):
            for place in (pair(n, w, h, k), pair(n, w, h, k) + 1):
                for x in numbers_tried(PRIMES[m], w + place):
                    yield 7, (place, x)
                    yield 11, (5, *indices)
                yield 7, (place, place)


def points_read(g, m, n):
    """Two rows of a map, each number in turn p or more, the two beside the points too, read at the row's points and their images."""
    opening, job = opened(g, m, n)
    yield from opening
    yield 6, (g + 1,)
    yield 9, job[:8] + [2]
    for z in (0, planes(g, n) - 1):
        points = sorted({i for y in range(n[1]) for i in point_images(g, n, (1, y, z))})
        for place in range(pair(n, z, 1, 0), pair(n, z, 2, 0)):
            for x in numbers_tried(PRIMES[m], place):
                yield 7, (place, x)
                yield 11, (4, *points)
            yield 7, (place, place)


def signs_read(g, m, n):
    """A row of a map whose numbers are the ends of both halves of the residues: 0, 1, 43,199, 43,200 and 86,398, or 0, 1, 151,199, 151,200 and
    302,398, read at its points and their images."""
    opening, job = opened(g, m, n)
    p = PRIMES[m]
    yield from opening
    yield 9, job[:8] + [2]
    points = sorted({i for y in range(n[1]) for i in point_images(g, n, (1, y, 1))})
    for start, numbers in ((0, (0, 1, p // 2, p // 2 + 1)), (2, (p - 1, p // 2 + 2))):
        for y, x in enumerate(numbers):
            yield 7, (pair(n, 1, 1, 0) + start + y, x)
        yield 11, (4, *points)


def orbits_read(g, m, n):
    """Records where a single number of the orbit is p or more, and where every number is 0 but for those of no factor in the orbit."""
    opening, _ = opened(g, m, n)
    b, a, p = n[1] // 2, n[2] // 2, PRIMES[m]
    for j in ((1, 1, 1), (1, 0, 1), (2, b, 0), (2, 1, a), (1, 1, a)):
        v = next(iter(sound_values(g, p, n, j)), None)
        if v is None:
            continue
        places = sorted({q for i in orbit_of(g, n, j) for q in read_factor(g, n, [0] * volume_length(g, n), i)[1]})
        yield from opening
        for place in places:
            yield 7, (place, (p, 2 * p, p + 1)[place % 3])
            yield 1, (*j, *v)
            yield 7, (place, 0)
        yield 6, (g + 1,)
        for place in places:
            yield 7, (place, 0)
        yield 1, (*j, *v)


def sound_values(g, p, n, j):
    """Values for an index that its images allow."""
    return [v for v in ((3, 4), (p - 3, 0), (0, p - 3)) if all(i != j or w == v for i, w in images(g, n, j, v, p))]


def zero_records(g, m, n):
    """Records of value zero: at the ends of lines, where the pairs that hold no factor are not zero; then another value for the orbit, and a
    zero after that."""
    opening, _ = opened(g, m, n)
    b, a = n[1] // 2, n[2] // 2
    yield from opening
    for h, k, l in itertools.product((0, 1), (0, b), (0, a, 1)):
        for w in sorted({0, planes(g, n) - 1}):
            unread = pair(n, w, h, k) if g == 3 and h % 2 and w in (0, a) else None
            if unread is not None:
                yield 7, (unread, 5)
                yield 7, (unread + 1, PRIMES[m])
            yield 1, (h, k, l, 0, 0)
            if unread is not None:
                yield 7, (unread, 0)
                yield 7, (unread + 1, 0)
    for j in ((1, 1, 1), (1, 0, 0), (0, b, a), (2, 0, 1), (2, 0, 0), (0, 0, a)):
        orbit = orbit_of(g, n, j)
        yield from opening
        for i in orbit:
            yield 1, (*i, 0, 0)
        for v in sound_values(g, PRIMES[m], n, j)[:1]:
            yield 1, (*j, *v)
            for i in orbit:
                yield 1, (*i, 0, 0)
            yield 11, (5, *orbit)
            yield 2, (SCRATCH,)
