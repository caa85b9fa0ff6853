"""Faults of lanes for planted_faults.py: what is wrong, the text in lanes.py and what stands in its place."""


def refusal(condition, number, indent=8):
    """A refusal of entering or of a turn as lanes.py writes it."""
    return "%sif %s:\n%s    return %d\n" % (" " * indent, condition, " " * indent, number)


POSSIBLE = refusal("not self.possible()", 25)
BUSY = refusal("not 1 <= d <= 8 or self.running(d)", 31)
VALID = refusal("not valid(job)", 25)
CAPACITY = refusal("self.held() + numbers_of(job) > LIMIT", 32)
STATE = refusal("job[8] == 2", 23)
LENGTH = refusal("len(volume) != numbers_of(job)", 6)
SCRATCH = refusal("len(scratch) < SCRATCH", 13)
NUMBERS = refusal("not all(residue(x, PRIMES[job[1]]) for x in volume)", 7)
CONSISTENT = refusal("not consistent(*cell_of(job), volume, PRIMES[job[1]])", 14)
OWN_NUMBERS = refusal("not all(residue(volume[q], PRIMES[job[1]]) for q in own_places(job, self.line_of(d)))", 7)
JUDGED = "for q in own_places(job, self.line_of(d)))"
WITHDRAW_LANE = "        if not 1 <= d <= 8:\n            return 31, 0, NO_JOB\n"
TURN_IDLE = "        if d == 0:\n            return IDLE, 0, NO_JOB\n"
TURN_REFUSED = "        if refused:\n            return refused, 0, NO_JOB\n"
TURN_FREES = "        self.lanes[d - 1] = list(FREE)\n        return FINISHED"
WITHDRAW_FREES = "        self.lanes[d - 1] = list(FREE)\n        return DONE"
ENTERED = "            self.lanes[d - 1] = [count_of(job), *job]\n"
ORDER = "        order = [*range(self.last + 1, 9), *range(1, self.last + 1)]\n"
LINES = "    return [line for _, line in along_l + along_h + along_k]\n"
READ_L = "        X = [read_factor(g, n, v, (i, j, l), p)[0] for l in range(n[2])]\n"
INNER = "        inner = range(1, n[2] // 2) if g == 3 and i % 2 else range(planes(g, n))\n"
ROW = "[x[0] for x in row] + [0, 0]\n"
DEPARTED = "    departed = 0 if last in begun else smallest\n"
RUNS = "            elif valid(job) and job[8] != 2:\n"

LANE_FAULTS = [
    ("turn: the lane served last not kept", "        self.last = d\n", ""),
    ("turn: the lane served last moved by a refused turn", TURN_REFUSED, TURN_REFUSED.replace("            return", "            self.last = d\n            return")),
    ("turn: the search from lane 1 each time", ORDER, "        order = range(1, 9)\n"),
    ("turn: the search from the lane served last", ORDER, "        order = [*range(max(self.last, 1), 9), *range(1, self.last)]\n"),
    ("turn: no round again after lane 8", ORDER, "        order = range(self.last + 1, 9)\n"),
    ("turn: the scratch cleared when idle", TURN_IDLE, TURN_IDLE.replace("            return", "            scratch[:SCRATCH] = [0] * len(scratch[:SCRATCH])\n            return")),
    ("turn: the scratch not cleared", "        scratch[:SCRATCH] = [0] * SCRATCH\n        self.last", "        self.last"),
    ("turn: the finishing job in its old state", "job[:8] + [2]\n", "job\n"),
    ("turn: the finishing job not given", "return FINISHED, d, job[:8] + [2]\n", "return FINISHED, d, NO_JOB\n"),
    ("turn: a finished lane keeps its job", TURN_FREES, TURN_FREES.replace("list(FREE)", "[0, *job]")),
    ("turn: finished one line early", "        if left > 1:\n", "        if left > 2:\n"),
    ("turn: 13 before 6", LENGTH + SCRATCH + OWN_NUMBERS, SCRATCH + LENGTH + OWN_NUMBERS),
    ("turn: 7 before 13", SCRATCH + OWN_NUMBERS, OWN_NUMBERS + SCRATCH),
    ("turn: 7 before 6", LENGTH + SCRATCH + OWN_NUMBERS, OWN_NUMBERS.replace("if not", "if len(volume) >= numbers_of(job) and not") + LENGTH + SCRATCH + OWN_NUMBERS),
    ("turn: 6 as any longer volume too", LENGTH + SCRATCH + OWN_NUMBERS, LENGTH.replace("!=", "<") + SCRATCH + OWN_NUMBERS),
    ("turn: 7 of the other lines too", JUDGED, "for q in range(len(volume)))"),
    ("turn: 7 not asked", OWN_NUMBERS, ""),
    ("turn: 7 by the first prime always", OWN_NUMBERS, OWN_NUMBERS.replace("PRIMES[job[1]]", "PRIMES[1]")),
    ("turn: 7 along k without the second numbers of both end pairs", JUDGED,
     "for q in own_places(job, self.line_of(d)) if self.line_of(d)[0] != 'k' or q % (job[4] + 2) not in (1, job[4] + 1))"),
    ("turn: 7 along k without the last pair", JUDGED, "for q in own_places(job, self.line_of(d)) if self.line_of(d)[0] != 'k' or q % (job[4] + 2) < job[4])"),
    ("turn: Pa's odd lines have their zero pairs", INNER, "        inner = range(planes(g, n))\n"),
    ("turn: P2₁'s first pair alone of a line judged", "    return [place + part for place in pairs_of(job, line) for part in (0, 1)]\n",
     "    places = [place + part for place in pairs_of(job, line) for part in (0, 1)]\n    return places[:2] if job[0] == 1 and line[0] == 'l' else places\n"),
    ("turn: P2₁2₁2₁'s odd lines keep their i along l", READ_L,
     READ_L + "        X = [mul(x, (0, 1), p) if g == 4 and i % 2 else x for x in X]\n"),
    ("turn: the second number of the last pair added along k", "X = half + [", "half[-1] = (half[-1][0] + v[max(places) + 1]) % p, 0\n        X = half + ["),
    ("turn: no zeros behind a row", ROW, "[x[0] for x in row] + v[pair(n, i, j + 1, 0) - 2:pair(n, i, j + 1, 0)]\n"),
    ("turn: along h before l", LINES, "    return [line for _, line in along_h + along_l + along_k]\n"),
    ("turn: along l by rising k first", "along_l = sorted((pair(n, 0, h, k), ", "along_l = sorted((k * n[0] + h, "),
    ("turn: along h by rising k first", "along_h = sorted((pair(n, w, 0, k), ", "along_h = sorted((k * held + w, "),
    ("turn: along k by rising h first", "along_k = sorted((pair(n, w, h, 0), ", "along_k = sorted((h * held + w, "),
    ("turn: Pa's odd lines along l after the even ones", "along_l = sorted((pair(n, 0, h, k), ", "along_l = sorted((pair(n, 0, h, k) + (g == 3 and h % 2) * 1000, "),
    ("enter: 31 before 25 of the scheduler", POSSIBLE + BUSY, BUSY + POSSIBLE),
    ("enter: 25 of the job before 31", BUSY + VALID, VALID + BUSY),
    ("enter: 32 before 25 of the job", VALID + CAPACITY, CAPACITY.replace("if self", "if job[0] < 5 and self") + VALID + CAPACITY),
    ("enter: 23 before 32", CAPACITY + STATE, STATE + CAPACITY),
    ("enter: 32 after 23 and 6", CAPACITY + STATE + LENGTH, STATE + LENGTH + CAPACITY),
    ("enter: 6 before 23", STATE + LENGTH, LENGTH + STATE),
    ("enter: 13 before 6", STATE + LENGTH + SCRATCH, STATE + SCRATCH + LENGTH),
    ("enter: 7 before 13", SCRATCH + NUMBERS, NUMBERS + SCRATCH),
    ("enter: 14 before 7", NUMBERS + CONSISTENT, CONSISTENT + NUMBERS),
    ("enter: 14 not asked", CONSISTENT, ""),
    ("enter: a busy lane taken", BUSY, BUSY.replace(" or self.running(d)", "")),
    ("enter: lane 8 not taken", BUSY, BUSY.replace("<= 8", "< 8")),
    ("enter: 32 where the allowance is exactly met", CAPACITY, CAPACITY.replace("> LIMIT", ">= LIMIT")),
    ("enter: 32 where it is exceeded by 8 only", CAPACITY, CAPACITY.replace("> LIMIT", "> LIMIT + 8")),
    ("enter: 32 by the entering job alone", CAPACITY, CAPACITY.replace("self.held() + ", "")),
    ("enter: one line less", ENTERED, ENTERED.replace("count_of(job)", "count_of(job) - 1")),
    ("enter: the lane served last moved", ENTERED, ENTERED + "            self.last = d\n"),
    ("enter: the job collects again", ENTERED, ENTERED.replace("*job", "*job[:8], 0")),
    ("enter: the scratch not cleared", "            scratch[:SCRATCH] = [0] * SCRATCH\n        return refused", "        return refused"),
    ("withdraw: 31 answered as 33", WITHDRAW_LANE, WITHDRAW_LANE.replace("31", "33")),
    ("withdraw: 33 not asked", "        if not self.running(d):\n            return 33, 0, NO_JOB\n", ""),
    ("withdraw: 31 before 25", "        if not self.possible():\n            return 25, 0, NO_JOB\n" + WITHDRAW_LANE,
     WITHDRAW_LANE + "        if not self.possible():\n            return 25, 0, NO_JOB\n"),
    ("withdraw: the lane served last moved", WITHDRAW_FREES, "        self.last = d\n" + WITHDRAW_FREES),
    ("withdraw: its numbers not given back", WITHDRAW_FREES, WITHDRAW_FREES.replace("list(FREE)", "[0, *self.lanes[d - 1][1:]]")),
    ("25: a lane that has left not counted", DEPARTED, "    departed = 0\n"),
    ("25: a lane that has left always counted", DEPARTED, "    departed = smallest\n"),
    ("25: a lane that has left had 12 numbers at least", DEPARTED, DEPARTED.replace("smallest", "smallest + 4")),
    ("25: a lane that has left had 4 numbers", DEPARTED, DEPARTED.replace("smallest", "smallest - 4")),
    ("25: lanes without a turn count beside the one that has left", "    return sum(begun.values()) + departed <= limit\n",
     "    return sum(numbers(job) for job, _ in running) + departed <= limit\n"),
    ("25: turns before any lane was served taken", "        return not begun\n", "        return True\n"),
    ("25: the last lane must run", "    if last > len(lanes):\n", "    if last > len(lanes) or lanes[last - 1] is None:\n"),
    ("25: the allowance not asked", "    if sum(numbers(job) for job, _ in running) > limit:\n", "    if False:\n"),
    ("25: the allowance must not be met", "    if sum(numbers(job) for job, _ in running) > limit:\n", "    if sum(numbers(job) for job, _ in running) >= limit:\n"),
    ("25: a map in a lane taken", RUNS, "            elif valid(job):\n"),
    ("25: factors held in a lane not taken", RUNS, "            elif valid(job) and job[8] == 0:\n"),
    ("25: a job in a lane that does not run taken", "            if left == 0 and job == NO_JOB:\n", "            if left == 0:\n"),
    ("25: a state in a lane that does not run taken", "            if left == 0 and job == NO_JOB:\n", "            if left == 0 and job[:8] == NO_JOB[:8]:\n"),
    ("25: numbers whose sum goes round taken for a free lane", "            if left == 0 and job == NO_JOB:\n", "            if left == 0 and sum(job) % 4294967296 == 0:\n"),
    ("25: a lane that has had no turn not taken", "1 <= left <= lines(job)", "1 <= left < lines(job)"),
    ("next: the lane served last", "        return (NEXT, d, NO_JOB) if d", "        return (NEXT, self.last, NO_JOB) if d"),
]
