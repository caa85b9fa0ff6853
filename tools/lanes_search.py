#!/usr/bin/env python3
"""Holds the rule of lanes.py for the schedulers that some calls could have left to an exhaustive search.

In small vaults, of two to five lanes and a few jobs of given numbers and lines, every call is made on every scheduler that calls leave, until no new one
is left. Those are compared with all schedulers that the rule takes, of every job and every count of lines left in each lane.
"""
import itertools
import sys

from lanes import possible

# Lanes, jobs as (numbers, lines), the allowance: met exactly or not, large jobs beside small ones, jobs of a single line.
VAULTS = [
    (2, [(2, 4), (5, 3), (7, 2)], 9), (2, [(3, 1), (5, 3), (7, 2)], 9), (2, [(2, 5), (3, 5)], 5), (2, [(4, 3)], 4), (2, [(4, 3)], 7),
    (3, [(2, 2), (3, 3), (5, 2)], 7), (3, [(2, 3), (4, 2)], 6), (3, [(2, 3), (4, 2)], 7), (3, [(2, 3), (4, 2)], 8), (3, [(3, 1), (4, 3)], 8),
    (3, [(1, 1), (9, 4)], 9), (3, [(1, 4), (8, 4)], 10), (4, [(2, 2), (4, 2)], 8), (4, [(2, 2), (3, 2)], 7), (4, [(1, 1), (2, 3)], 5), (4, [(1, 3), (3, 2)], 4),
    (5, [(2, 2), (3, 2)], 9), (5, [(1, 3)], 4),
]


def calls(lanes, last, jobs, limit):
    """What each call leaves: a job entering a free lane, a lane withdrawn, a turn."""
    held = sum(lane[0][0] for lane in lanes if lane)
    for d, lane in enumerate(lanes):
        if lane:
            yield lanes[:d] + (None,) + lanes[d + 1:], last
        else:
            for job in jobs:
                if held + job[0] <= limit:
                    yield lanes[:d] + ((job, job[1]),) + lanes[d + 1:], last
    for d in [*range(last, len(lanes)), *range(last)]:
        if lanes[d]:
            job, left = lanes[d]
            yield lanes[:d] + ((job, left - 1) if left > 1 else None,) + lanes[d + 1:], d + 1
            return


def reached(count, jobs, limit):
    """Every scheduler that calls leave, from a new one on."""
    new = (None,) * count, 0
    seen, found = {new}, [new]
    for scheduler in found:
        for after in calls(*scheduler, jobs, limit):
            if after not in seen:
                seen.add(after)
                found.append(after)
    return seen


def main():
    total = 0
    for count, jobs, limit in VAULTS:
        found = reached(count, jobs, limit)
        runs = [None] + [(job, left) for job in jobs for left in range(job[1] + 2)]
        smallest = min(numbers for numbers, _ in jobs)
        taken = {(lanes, last) for lanes in itertools.product(runs, repeat=count) for last in range(count + 2)
                 if possible(lanes, last, lambda job: job[0], lambda job: job[1], limit, smallest)}
        if found != taken:
            sys.exit("%d lanes, jobs %s, allowance %d: %d schedulers are reached, %d taken, as %s" % (count, jobs, limit, len(found), len(taken), (found ^ taken).pop()))
        total += len(found)
    print("the %d schedulers that calls leave in %d small vaults are those that the rule takes" % (total, len(VAULTS)))


main()
