"""Lanes by brute force: what a record of the doors, here a scheduler, answers and leaves at every call.

A scheduler is a list of eight lanes and the number of the lane served last; a lane is a list of ten numbers, its lines left and the nine of its job.
A line is read from the volume factor by factor and its transform is a direct sum over the whole line. It shares no code with the crates.
"""
import functools

from brute_force import LIMIT, PRIMES, SCRATCH, Machine, consistent, e, mul, planes, read_factor, residue, volume_length

DONE, IDLE, SERVED, FINISHED, NEXT = 0, 100, 101, 102, 103
NO_JOB = [0] * 9
FREE = [0] * 10
# No job has fewer numbers.
SMALLEST = min(volume_length(g, (2, 2, 2)) for g in range(5))


# ---- jobs

def valid(job):
    return valid_numbers(tuple(job))


@functools.cache
def valid_numbers(job):
    machine = Machine.__new__(Machine)
    machine.job = job
    return machine.valid()


def cell_of(job):
    return job[0], (job[2], job[4], job[6])


def numbers_of(job):
    """How many numbers the volume of a job has."""
    return volume_length(*cell_of(job))


# ---- the lines of a job

def pair(n, w, h, k):
    """The place of a pair's first number."""
    return 2 * ((w * n[0] + h) * (n[1] // 2 + 1) + k)


def lines_of(job):
    """Its lines in the order of their turns, each as the axis that it runs along and its two other indices: along l, along h, along k, each by the
    place of its pair at index 0."""
    g, n = cell_of(job)
    b, held = n[1] // 2, planes(g, n)
    along_l = sorted((pair(n, 0, h, k), ("l", h, k)) for k in range(b + 1) for h in range(n[0]))
    along_h = sorted((pair(n, w, 0, k), ("h", w, k)) for k in range(b + 1) for w in range(held))
    along_k = sorted((pair(n, w, h, 0), ("k", w, h)) for h in range(n[0]) for w in range(held))
    return [line for _, line in along_l + along_h + along_k]


def count_of(job):
    """How many lines a job has, without listing them."""
    g, n = cell_of(job)
    return n[0] * (n[1] // 2 + 1) + planes(g, n) * (n[1] // 2 + 1) + planes(g, n) * n[0]


def pairs_of(job, line):
    """The places of a line's pairs, and the index of each. Where h is odd, a line of Pa along l has neither end."""
    g, n = cell_of(job)
    axis, i, j = line
    if axis == "l":
        inner = range(1, n[2] // 2) if g == 3 and i % 2 else range(planes(g, n))
        return {pair(n, w, i, j): w for w in inner}
    if axis == "h":
        return {pair(n, i, h, j): h for h in range(n[0])}
    return {pair(n, i, j, k): k for k in range(n[1] // 2 + 1)}


def own_places(job, line):
    """The places of all numbers of a line."""
    return [place + part for place in pairs_of(job, line) for part in (0, 1)]


def direct_sum(X, s, p):
    """The sum over a whole line of X(t) e(t s/N)."""
    terms = [mul(x, e(t * s, len(X), p), p) for t, x in enumerate(X)]
    return sum(x[0] for x in terms) % p, sum(x[1] for x in terms) % p


def turned(job, line, v):
    """The volume after a line's turn."""
    g, n = cell_of(job)
    p = PRIMES[job[1]]
    axis, i, j = line
    places = pairs_of(job, line)
    if axis == "l":
        X = [read_factor(g, n, v, (i, j, l), p)[0] for l in range(n[2])]
    elif axis == "h":
        X = [(v[place], v[place + 1]) for place in sorted(places)]
    else:
        # Friedel's rule; the first pair and the last are real, whatever their second numbers are
        half = [(v[place], v[place + 1] if 0 < k < n[1] // 2 else 0) for place, k in sorted(places.items())]
        X = half + [(a, -b % p) for a, b in reversed(half[1:-1])]
    after = list(v)
    if axis == "k":
        row = [direct_sum(X, y, p) for y in range(n[1])]
        assert all(x[1] == 0 for x in row)
        after[pair(n, i, j, 0):pair(n, i, j + 1, 0)] = [x[0] for x in row] + [0, 0]
    else:
        for place, s in places.items():
            after[place:place + 2] = direct_sum(X, s, p)
    return after


# ---- which schedulers some calls could have left

def possible(lanes, last, numbers, lines, limit, smallest):
    """Whether some calls leave these lanes and this lane served last. A lane is None or what it runs and its lines left; `numbers` and `lines` are those of
    what it runs, and `smallest` is the least that anything that may enter has.

    Call a lane begun that has had a turn and still runs. The others that run can all have entered after the last turn, since entering asks for nothing but
    the allowance and changes no other lane: so they matter for the allowance alone.

    Where no turn was ever accepted, none is begun. Where one was, let it be one of lane d. If d is begun, any other begun lanes may stand beside it, with any
    number of lines done. For let every lane have its last turns in rounds, each round going from the lane above d round to d; a lane with c lines
    done enters in the last round but c - 1, at the moment when it is next. Each of those that run has a turn in each round, the last round ends at d, and never
    more is held than by the begun lanes. If d is not begun, then what ran there at the last turn has left, by that turn or after it, and every lane
    that is begun now ran beside it at that turn, because none has had a turn since. So their numbers and those of the smallest are within the allowance. And
    if they are, the smallest may have run in d with the begun lanes, by what was said, and been withdrawn.
    """
    running = [lane for lane in lanes if lane is not None]
    if any(not 1 <= left <= lines(job) for job, left in running):
        return False
    if sum(numbers(job) for job, _ in running) > limit:
        return False
    begun = {d: numbers(lane[0]) for d, lane in enumerate(lanes, 1) if lane is not None and lane[1] < lines(lane[0])}
    if last == 0:
        return not begun
    if last > len(lanes):
        return False
    departed = 0 if last in begun else smallest
    return sum(begun.values()) + departed <= limit


class Scheduler:
    """Eight lanes and the lane served last. A call answers its number, a lane or 0, and a job or none; volume and scratch are lists that it may change."""

    def __init__(self):
        self.lanes = [list(FREE) for _ in range(8)]
        self.last = 0

    def numbers(self):
        return [x for lane in self.lanes for x in lane] + [self.last]

    def put(self, numbers):
        self.lanes = [list(numbers[10 * i:10 * i + 10]) for i in range(8)]
        self.last = numbers[80]

    def running(self, d):
        return self.lanes[d - 1][0] != 0

    def possible(self):
        """Whether some calls left it: a lane that runs has a job that a synthesis may take, and one that does not has no number but 0."""
        lanes = []
        for left, *job in self.lanes:
            if left == 0 and job == NO_JOB:
                lanes.append(None)
            elif valid(job) and job[8] != 2:
                lanes.append((tuple(job), left))
            else:
                return False
        return possible(lanes, self.last, numbers_of, count_of, LIMIT, SMALLEST)

    def held(self):
        return sum(numbers_of(job) for left, *job in self.lanes if left)

    def next_lane(self):
        """The next lane that runs above the one served last, round again after the eighth; 0 where none does."""
        order = [*range(self.last + 1, 9), *range(1, self.last + 1)]
        return next((d for d in order if self.running(d)), 0)

    def next(self):
        if not self.possible():
            return 25, 0, NO_JOB
        d = self.next_lane()
        return (NEXT, d, NO_JOB) if d else (IDLE, 0, NO_JOB)

    def enter_refusal(self, d, job, volume, scratch):
        """25, 31, 25, 32, then as synthesis does: 23, 6, 13, 7, 14."""
        if not self.possible():
            return 25
        if not 1 <= d <= 8 or self.running(d):
            return 31
        if not valid(job):
            return 25
        if self.held() + numbers_of(job) > LIMIT:
            return 32
        if job[8] == 2:
            return 23
        if len(volume) != numbers_of(job):
            return 6
        if len(scratch) < SCRATCH:
            return 13
        if not all(residue(x, PRIMES[job[1]]) for x in volume):
            return 7
        if not consistent(*cell_of(job), volume, PRIMES[job[1]]):
            return 14
        return 0

    def enter(self, d, job, volume, scratch):
        refused = self.enter_refusal(d, job, volume, scratch)
        if not refused:
            self.lanes[d - 1] = [count_of(job), *job]
            scratch[:SCRATCH] = [0] * SCRATCH
        return refused, 0, NO_JOB

    def withdraw(self, d):
        if not self.possible():
            return 25, 0, NO_JOB
        if not 1 <= d <= 8:
            return 31, 0, NO_JOB
        if not self.running(d):
            return 33, 0, NO_JOB
        self.lanes[d - 1] = list(FREE)
        return DONE, 0, NO_JOB

    def line_of(self, d):
        """The line of a lane's next turn."""
        left, *job = self.lanes[d - 1]
        return lines_of(job)[-left]

    def turn_refusal(self, d, volume, scratch):
        """6, 13, and 7 for its own line."""
        job = self.lanes[d - 1][1:]
        if len(volume) != numbers_of(job):
            return 6
        if len(scratch) < SCRATCH:
            return 13
        if not all(residue(volume[q], PRIMES[job[1]]) for q in own_places(job, self.line_of(d))):
            return 7
        return 0

    def turn(self, volume, scratch):
        if not self.possible():
            return 25, 0, NO_JOB
        d = self.next_lane()
        if d == 0:
            return IDLE, 0, NO_JOB
        refused = self.turn_refusal(d, volume, scratch)
        if refused:
            return refused, 0, NO_JOB
        left, *job = self.lanes[d - 1]
        volume[:] = turned(job, self.line_of(d), volume)
        scratch[:SCRATCH] = [0] * SCRATCH
        self.last = d
        if left > 1:
            self.lanes[d - 1][0] = left - 1
            return SERVED, d, NO_JOB
        self.lanes[d - 1] = list(FREE)
        return FINISHED, d, job[:8] + [2]
