"""The structs, the numbers and the calls of include/recorder.h, as ctypes declares them. It stands alone and loads nothing.

tools/interface_test.py holds it to the header: the same structs with the same fields, the same refusals with the same words, the same calls with
the same types in the same order. A struct is a value: it is handed to a call and comes back from it, and its fields are never set.
"""
from __future__ import annotations

import ctypes
import enum
import operator
from ctypes import c_float, c_int32, c_int64, c_size_t, c_uint8, c_uint32, c_uint64
from typing import Any, Dict, NamedTuple, Tuple

VERSION = 20200
PRIMES = {1: 86399, 2: 302399}
LONGEST = 2880
MOST_NUMBERS = 16777216
SCRATCH = 11520
LONGEST_WINDOW = 64
GREATEST_EXACT = 16777215
GREATEST_COMBINED = 13063485600
MRC_HEADER = 1024
LANES = 8


class Group(enum.IntEnum):
    """The groups: P2_1 has its axis along c, Pm and Pa their mirror across c, Pa its glide along a."""
    P1 = 0
    P21 = 1
    PM = 2
    PA = 3
    P212121 = 4


class Kind(enum.IntEnum):
    """The kinds of line."""
    PLAIN = 0
    HERMITIAN = 1
    ANTI_HERMITIAN = 2
    ALTERNATING = 3
    SYMMETRIC = 4
    ANTISYMMETRIC = 5


class Direction(enum.IntEnum):
    """The directions of a line's transform."""
    FORWARD = 0
    INVERSE = 1


class Opening(enum.IntEnum):
    """The kinds of opening: to collect records, or with a map."""
    COLLECTING = 0
    MAP = 1


class State(enum.IntEnum):
    """The states of a job."""
    COLLECTING = 0
    FACTORS_HELD = 1
    MAP_HELD = 2


class Refusal(enum.IntEnum):
    """The numbers of refusals; WORDS says each in words."""
    LINE_KIND = 1
    DIRECTION = 2
    LENGTH = 3
    FACTOR = 4
    PRODUCT = 5
    BUFFER_LENGTH = 6
    NOT_RESIDUE = 7
    GROUP = 8
    VOLUME_TOO_LARGE = 9
    INDEX = 10
    CONTRADICTION = 12
    SCRATCH_TOO_SHORT = 13
    INCONSISTENT = 14
    FILE_SHAPE = 15
    FILE_VERSION = 16
    OUTPUT_TOO_SHORT = 18
    NOT_COLLECTING = 21
    NO_MAP = 22
    NO_FACTORS = 23
    OCCUPIED = 24
    IMPOSSIBLE_JOB = 25
    MODULUS = 26
    DIFFERENT_CELLS = 27
    MAGNITUDE = 28
    UNIT_CELL = 29
    FLOAT_RANGE = 30
    LANE = 31
    CAPACITY = 32
    NOTHING_RUNS = 33
    WINDOW = 34


WORDS = {
    1: "kind of line not 0 to 5",
    2: "direction, or kind of opening, not 0 or 1",
    3: "length not an even divisor of 2,880",
    4: "a factor not 2 to 5",
    5: "product of a list not N/2",
    6: "volume, combined map or line not exactly as long as required",
    7: "a number not below the prime of its modulus",
    8: "group not 0 to 4",
    9: "volume above 16,777,216 numbers",
    10: "an index not below its length",
    12: "an image falls on the index itself with another value",
    13: "scratch below 11,520 numbers",
    14: "no cell that obeys the group has these numbers",
    15: "a file's bytes are not those that its count and header ask for",
    16: "a file's version not 1 or 2",
    18: "output too short",
    21: "a record while not collecting",
    22: "no map held",
    23: "no factors held",
    24: "of a record: a number that holds part of its orbit is not 0; in a file: an earlier record is of its orbit",
    25: "no call could have given this job, or this scheduler, back",
    26: "modulus not 1 or 2",
    27: "two jobs that differ in group or lengths, or whose moduli are not 1 and 2 in order",
    28: "a magnitude, or of an overlay the sum of those in a times the largest in b, above 13,063,485,600",
    29: "edge not finite and above 0, angle not strictly between 0 and 180, or another kind of cell than the group's",
    30: "a magnitude above 16,777,215",
    31: "lane not 1 to 8, or busy when entering",
    32: "the volumes of all lanes would have more than 16,777,216 numbers",
    33: "withdrawing from a lane in which nothing runs",
    34: "window not of 1 to 64 entries",
}

# The whole numbers that a C type holds. ctypes would cut a number that it does not hold.
RANGES = {c_uint8: (0, 2**8 - 1), c_int32: (-2**31, 2**31 - 1), c_uint32: (0, 2**32 - 1), c_int64: (-2**63, 2**63 - 1), c_uint64: (0, 2**64 - 1)}
RANGES[c_size_t] = (0, 2**(8 * ctypes.sizeof(c_size_t)) - 1)


def checked(name: str, value: Any, kind: Any) -> Any:
    """A value that a C type holds: TypeError for what is none, ValueError for a number beyond its ends."""
    if kind is c_float:
        try:
            return c_float(value).value
        except TypeError:
            raise TypeError("%s has to be a number, and is a %s" % (name, type(value).__name__)) from None
        except OverflowError:
            raise ValueError("%s is beyond every float" % name) from None
    if kind not in RANGES:
        # Exactly this type: a subclass may have more fields, and so another place for what follows it in C.
        if type(value) is not kind:
            raise TypeError("%s has to be a %s, and is a %s" % (name, kind.__name__, type(value).__name__))
        return value
    try:
        number = operator.index(value)
    except TypeError:
        raise TypeError("%s has to be a whole number, and is a %s" % (name, type(value).__name__)) from None
    least, greatest = RANGES[kind]
    if not least <= number <= greatest:
        raise ValueError("%s has to be from %d to %d, and is %d" % (name, least, greatest, number))
    return number


class Value(ctypes.Structure):
    """A struct of the header as a value: made whole, never changed, equal where all its fields are."""

    def __init__(self, *fields: Any, **named: Any) -> None:
        super().__init__()
        kinds = dict(self._fields_)
        if len(fields) > len(kinds):
            raise TypeError("%s has %d fields" % (type(self).__name__, len(kinds)))
        for name, value in [*zip(kinds, fields), *named.items()]:
            if name not in kinds:
                raise TypeError("%s has no field %s" % (type(self).__name__, name))
            super().__setattr__(name, checked(name, value, kinds[name]))

    def __setattr__(self, name: str, _: Any) -> None:
        raise AttributeError("%s of a %s cannot be set: make another" % (name, type(self).__name__))

    def _parts(self) -> Tuple[Any, ...]:
        values = (getattr(self, field[0]) for field in self._fields_)
        return tuple(tuple(value) if isinstance(value, ctypes.Array) else value for value in values)

    def __eq__(self, other: object) -> bool:
        return type(self) is type(other) and self._parts() == other._parts()  # type: ignore[attr-defined]

    def __hash__(self) -> int:
        return hash(self._parts())

    def __repr__(self) -> str:
        fields = ", ".join("%s=%r" % (field[0], part) for field, part in zip(self._fields_, self._parts()))
        return "%s(%s)" % (type(self).__name__, fields)


# ---- the structs

class Reflection(Value):
    """A reflection's index."""
    h: int
    k: int
    l: int
    _fields_ = [("h", c_uint32), ("k", c_uint32), ("l", c_uint32)]


class GridPoint(Value):
    """A grid point's index."""
    x: int
    y: int
    z: int
    _fields_ = [("x", c_uint32), ("y", c_uint32), ("z", c_uint32)]


class Axis(Value):
    """An axis: its length, and its factor list as octal digits, the first factor lowest."""
    length: int
    factors: int
    _fields_ = [("length", c_uint32), ("factors", c_uint32)]


class Job(Value):
    """A job. One that no call could have given back is refused with 25, as is Job()."""
    group: int
    modulus: int
    a: Axis
    b: Axis
    c: Axis
    state: int
    _fields_ = [("group", c_uint32), ("modulus", c_uint32), ("a", Axis), ("b", Axis), ("c", Axis), ("state", c_uint32)]


class FileHeader(Value):
    """What the header of a factor file names: group, modulus, axes, how many records follow, and how many numbers the volume has."""
    number: int
    group: int
    modulus: int
    a: Axis
    b: Axis
    c: Axis
    records: int
    numbers: int
    _fields_ = [("number", c_uint32), ("group", c_uint32), ("modulus", c_uint32), ("a", Axis), ("b", Axis), ("c", Axis), ("records", c_uint32),
                ("numbers", c_uint32)]


class UnitCell(Value):
    """A unit cell for viewers: edges in angstrom, angles in degrees. P1 asks for 3 angles, the other groups for 1, gamma alone."""
    angles: int
    a: float
    b: float
    c: float
    alpha: float
    beta: float
    gamma: float
    _fields_ = [("angles", c_uint32), ("a", c_float), ("b", c_float), ("c", c_float), ("alpha", c_float), ("beta", c_float), ("gamma", c_float)]


class Lane(Value):
    """A lane of a scheduler: how many lines of its job are left, and the job; a free lane is all zeros."""
    left: int
    job: Job
    _fields_ = [("left", c_uint32), ("job", Job)]


class Lanes(Value):
    """The scheduler of recorder.h: its lanes, lane 1 first, and the lane that was served last, 0 before any turn."""
    lanes: Any
    last: int
    _fields_ = [("lanes", Lane * LANES), ("last", c_uint32)]


class Answer(Value):
    """A number and a job."""
    number: int
    job: Job
    _fields_ = [("number", c_uint32), ("job", Job)]


class FileAnswer(Value):
    """A number, a record's place and a job."""
    number: int
    place: int
    job: Job
    _fields_ = [("number", c_uint32), ("place", c_uint32), ("job", Job)]


class Faults(Value):
    """How many records are at fault, and the places of at most two."""
    count: int
    first: int
    second: int
    _fields_ = [("count", c_uint32), ("first", c_uint32), ("second", c_uint32)]


class WriteAnswer(Value):
    """A number and how much was written."""
    number: int
    written: int
    _fields_ = [("number", c_uint32), ("written", c_size_t)]


class Length(Value):
    """A number and how long a file is."""
    number: int
    length: int
    _fields_ = [("number", c_uint32), ("length", c_size_t)]


class Density(Value):
    """A number and a density."""
    number: int
    density: int
    _fields_ = [("number", c_uint32), ("density", c_int32)]


class CombinedDensity(Value):
    """A number and a density of a combined map."""
    number: int
    density: int
    _fields_ = [("number", c_uint32), ("density", c_int64)]


class FactorValue(Value):
    """A number and a structure factor a + b i."""
    number: int
    a: int
    b: int
    _fields_ = [("number", c_uint32), ("a", c_uint32), ("b", c_uint32)]


class Power(Value):
    """A number and a power."""
    number: int
    power: int
    _fields_ = [("number", c_uint32), ("power", c_uint32)]


class NextAnswer(Value):
    """A number and a lane."""
    number: int
    lane: int
    _fields_ = [("number", c_uint32), ("lane", c_uint32)]


class SchedulerAnswer(Value):
    """A number and a scheduler."""
    number: int
    scheduler: Lanes
    _fields_ = [("number", c_uint32), ("scheduler", Lanes)]


class TurnAnswer(Value):
    """A number, the lane that was served, whether it is finished, its job and the scheduler."""
    number: int
    lane: int
    finished: int
    job: Job
    scheduler: Lanes
    _fields_ = [("number", c_uint32), ("lane", c_uint32), ("finished", c_uint32), ("job", Job), ("scheduler", Lanes)]


STRUCTS = {
    "recorder_reflection": Reflection, "recorder_grid_point": GridPoint, "recorder_axis": Axis, "recorder_job": Job, "recorder_header": FileHeader,
    "recorder_cell": UnitCell,
    "recorder_lane": Lane, "recorder_scheduler": Lanes, "recorder_answer": Answer, "recorder_file_answer": FileAnswer, "recorder_faults": Faults,
    "recorder_write_answer": WriteAnswer, "recorder_length": Length, "recorder_density": Density, "recorder_combined_density": CombinedDensity,
    "recorder_factor_value": FactorValue, "recorder_power": Power,
    "recorder_next_answer": NextAnswer, "recorder_scheduler_answer": SchedulerAnswer, "recorder_turn_answer": TurnAnswer,
}


# ---- the calls

class Lent(NamedTuple):
    """A buffer that is lent, in C a pointer and a count: the type of its elements, and whether the call may write them."""
    element: Any
    written: bool


FACTORS = READ_BYTES = Lent(c_uint8, False)
WRITE_BYTES = Lent(c_uint8, True)
READ_NUMBERS, WRITE_NUMBERS = Lent(c_uint32, False), Lent(c_uint32, True)
READ_COUNTS, WRITE_COUNTS = Lent(c_int64, False), Lent(c_int64, True)
WRITE_PLACES = Lent(c_uint64, True)
LENGTHS = {"n1": c_uint32, "n2": c_uint32, "n3": c_uint32}
LISTS = {"factors1": FACTORS, "factors2": FACTORS, "factors3": FACTORS}

# What each call gives and what it takes, in its order.
CALLS: Dict[str, Tuple[Any, Dict[str, Any]]] = {
    "recorder_version": (c_uint32, {}),
    "recorder_factor_list": (WriteAnswer, {"length": c_uint32, "out": WRITE_BYTES}),
    "recorder_open": (Answer, {"group": c_uint32, "modulus": c_uint32, "kind": c_uint32, **LENGTHS, **LISTS, "volume": WRITE_NUMBERS}),
    "recorder_open_file": (FileAnswer, {"file": READ_BYTES, "volume": WRITE_NUMBERS}),
    "recorder_file_header": (FileHeader, {"file": READ_BYTES}),
    "recorder_file_faults": (Faults, {"file": READ_BYTES}),
    "recorder_file_length": (Length, {"job": Job, "volume": READ_NUMBERS}),
    "recorder_write_file": (WriteAnswer, {"job": Job, "volume": READ_NUMBERS, "out": WRITE_BYTES}),
    "recorder_record": (Answer, {"job": Job, "at": Reflection, "a": c_uint32, "b": c_uint32, "volume": WRITE_NUMBERS}),
    "recorder_synthesis": (Answer, {"job": Job, "volume": WRITE_NUMBERS, "scratch": WRITE_NUMBERS}),
    "recorder_analysis": (Answer, {"job": Job, "volume": WRITE_NUMBERS, "scratch": WRITE_NUMBERS}),
    "recorder_point": (Density, {"job": Job, "at": GridPoint, "volume": READ_NUMBERS}),
    "recorder_factor": (FactorValue, {"job": Job, "at": Reflection, "volume": READ_NUMBERS}),
    "recorder_map_power": (Power, {"job": Job, "volume": READ_NUMBERS}),
    "recorder_factor_power": (Power, {"job": Job, "volume": READ_NUMBERS}),
    "recorder_combine": (WriteAnswer, {"first": Job, "first_map": READ_NUMBERS, "second": Job, "second_map": READ_NUMBERS, "output": WRITE_COUNTS}),
    "recorder_combined_point": (CombinedDensity, {"group": c_uint32, **LENGTHS, "map": READ_COUNTS, "at": GridPoint}),
    "recorder_section": (WriteAnswer, {"group": c_uint32, **LENGTHS, "map": READ_COUNTS, "z": c_uint32, "out": WRITE_BYTES}),
    "recorder_mrc": (WriteAnswer, {"group": c_uint32, **LENGTHS, "map": READ_COUNTS, "cell": UnitCell, "out": WRITE_BYTES}),
    "recorder_correlate": (WriteAnswer, {**LENGTHS, **LISTS, "a": READ_COUNTS, "b": READ_COUNTS, "output": WRITE_COUNTS, "work1": WRITE_NUMBERS,
                                         "work2": WRITE_NUMBERS, "work3": WRITE_NUMBERS, "scratch": WRITE_NUMBERS}),
    "recorder_line": (c_uint32, {"modulus": c_uint32, "kind": c_uint32, "direction": c_uint32, "length": c_uint32, "factors": FACTORS,
                                 "line": WRITE_NUMBERS, "scratch": WRITE_NUMBERS}),
    "recorder_drift": (WriteAnswer, {"run": READ_COUNTS, "w": c_uint32, "least": WRITE_COUNTS, "greatest": WRITE_COUNTS, "least_at": WRITE_PLACES,
                                     "greatest_at": WRITE_PLACES}),
    "recorder_scheduler_new": (Lanes, {}),
    "recorder_scheduler_next": (NextAnswer, {"scheduler": Lanes}),
    "recorder_scheduler_enter": (SchedulerAnswer, {"scheduler": Lanes, "lane": c_uint32, "job": Job, "volume": READ_NUMBERS,
                                                   "scratch": WRITE_NUMBERS}),
    "recorder_scheduler_turn": (TurnAnswer, {"scheduler": Lanes, "volume": WRITE_NUMBERS, "scratch": WRITE_NUMBERS}),
    "recorder_scheduler_withdraw": (SchedulerAnswer, {"scheduler": Lanes, "lane": c_uint32}),
}
