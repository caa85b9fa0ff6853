"""What the scheduler test reads and prints.

A record is five big-endian numbers of four bytes: an operation, a lane, a place, a length and the length of the scratch. The test program keeps 90
numbers, the 81 of a scheduler and nine of a job, and 4,096 numbers of volumes; all are 0 at first.
    0 enter      the job enters the lane; lent are the part of the volumes that has the place and the length, and a scratch of sevens
    1 turn       lent the same
    2 withdraw   the lane
    3 next
    4 new        a new scheduler
    5 lanes      as many numbers of scheduler and job as the length says, from the place on; they follow
    6 volumes    the same of the volumes

A line is printed for each call: a refusal's number or 0 done, 100 idle, 101 served, 102 finished, 103 next; the lane or 0; checksums of the job that a
turn gives (nine zeros where it gives none), of the 90 numbers, of the part of the volumes, and of the scratch.
"""
import functools
import struct

import lanes
from brute_force import PRIMES, SCRATCH, synthesised
from lanes import FINISHED, numbers_of

ENTER, TURN, WITHDRAW, NEXT, NEW, LANES, VOLUMES = range(7)
JOB = 81
ROOM = 512


@functools.cache
def checksum_of(numbers):
    h = 7
    for x in numbers:
        h = (h * 31 + x + 1) % 2147483647
    return h


def checksum(numbers):
    return checksum_of((bytes if isinstance(numbers, bytearray) else tuple)(numbers))


class TestProgram:
    """What the test program keeps; `run` gives the line that it prints for a record, or none."""

    def __init__(self, model=lanes):
        self.model = model
        self.scheduler = model.Scheduler()
        self.job = [0] * 9
        self.volumes = [0] * (8 * ROOM)

    def kept(self):
        return self.scheduler.numbers() + self.job

    def run(self, operation, lane=0, place=0, length=0, scratch=0, numbers=()):
        if operation == NEW:
            self.scheduler = self.model.Scheduler()
        elif operation == LANES:
            kept = self.kept()
            kept[place:place + length] = numbers
            self.scheduler.put(kept[:81])
            self.job = kept[81:]
        elif operation == VOLUMES:
            self.volumes[place:place + length] = numbers
        else:
            return self.call(operation, lane, place, length, bytearray([7]) * scratch)

    def call(self, operation, lane, place, length, scratch):
        volume = self.volumes[place:place + length]
        if operation == ENTER:
            answer = self.scheduler.enter(lane, self.job, volume, scratch)
        elif operation == TURN:
            answer = self.scheduler.turn(volume, scratch)
        elif operation == WITHDRAW:
            answer = self.scheduler.withdraw(lane)
        else:
            answer = self.scheduler.next()
        self.volumes[place:place + length] = volume
        number, served, job = answer
        return number, served, checksum(job), checksum(self.kept()), checksum(volume), checksum(scratch)


class Input:
    """The records so far and the test program that has run them. Each lane's volume has a place of its own; a call is lent that of its lane."""

    def __init__(self):
        self.records = []
        self.program = TestProgram()
        self.entered = [None] * 9

    def say(self, operation, lane=0, place=0, length=0, scratch=0, numbers=()):
        record = operation, lane, place, length, scratch, tuple(numbers)
        self.records.append(record)
        return self.program.run(*record)

    @property
    def scheduler(self):
        return self.program.scheduler

    def set_kept(self, numbers, place=0):
        """Numbers of scheduler and job, those that differ and what stands between them."""
        stands = self.program.kept()[place:place + len(numbers)]
        differ = [i for i, (x, y) in enumerate(zip(numbers, stands)) if x != y]
        if differ:
            part = numbers[differ[0]:differ[-1] + 1]
            self.say(LANES, place=place + differ[0], length=len(part), numbers=part)

    def set_volume(self, d, numbers):
        start = ROOM * (d - 1)
        assert len(numbers) <= ROOM
        stands = self.program.volumes[start:start + len(numbers)]
        differ = [i for i, (x, y) in enumerate(zip(numbers, stands)) if x != y]
        if differ:
            part = numbers[differ[0]:differ[-1] + 1]
            self.say(VOLUMES, place=start + differ[0], length=len(part), numbers=part)

    def poke(self, d, place, x):
        self.say(VOLUMES, place=ROOM * (d - 1) + place, length=1, numbers=[x])

    def volume(self, d, length):
        return self.program.volumes[ROOM * (d - 1):ROOM * (d - 1) + length]

    def new(self):
        self.say(NEW)
        self.entered = [None] * 9

    def enter(self, d, job, volume, length=None, scratch=SCRATCH, room=None):
        """A job enters lane d; its volume stands where the lane's does, or where another's would."""
        room = room or d
        self.set_kept(job, JOB)
        self.set_volume(room, volume)
        answer = self.say(ENTER, d, ROOM * (room - 1), len(volume) if length is None else length, scratch)
        if answer[0] == 0 and room == d:
            self.entered[d] = list(job), list(volume)
        return answer

    def lent(self):
        """The lane whose turn it is, or 1, and how many numbers its volume has, as far as there is room."""
        d = self.scheduler.next_lane() if self.scheduler.possible() else 0
        return d or 1, min(numbers_of(self.scheduler.lanes[d - 1][1:]), ROOM) if d else 16

    def turn(self, change=0, scratch=SCRATCH):
        """A turn that is lent the volume of its lane, or `change` numbers more. A map is what a synthesis leaves."""
        d, length = self.lent()
        answer = self.say(TURN, 0, ROOM * (d - 1), length + change, scratch)
        if answer[0] == FINISHED and self.entered[d]:
            job, volume = self.entered[d]
            assert self.volume(d, length) == synthesised(*lanes.cell_of(job), volume, PRIMES[job[1]])
            self.entered[d] = None
        return answer

    def withdraw(self, d):
        room = d if 1 <= d <= 8 else 1
        answer = self.say(WITHDRAW, d, ROOM * (room - 1), 16, 4)
        if answer[0] == 0:
            self.entered[d] = None
        return answer

    def next(self):
        return self.say(NEXT)


def packed(operation, lane, place, length, scratch, numbers):
    return struct.pack(">%dI" % (5 + len(numbers)), operation, lane, place, length, scratch, *numbers)


def lines(records, model=lanes):
    """What the test program must print."""
    program = TestProgram(model)
    printed = (program.run(*record) for record in records)
    return ["%d %d %d %d %d %d" % line for line in printed if line]
