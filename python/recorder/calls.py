"""The calls of recorder.h, each with its buffers lent by the caller: for those who keep volumes and scratch themselves, as in C.

A job is handed in and handed back by value. A refused call raises Refused, and what is no argument at all a TypeError or a ValueError; then no buffer
and no job has changed, but that open_file leaves the volume zero where it refuses a record.
"""
from __future__ import annotations

from ctypes import c_uint8
from typing import Any, Sequence, Tuple

from .calling import call
from .declarations import FileHeader, GridPoint, Job, Lanes, Reflection, TurnAnswer, UnitCell, checked

Lengths = Sequence[int]
Lists = Sequence[Sequence[int]]


def three(name: str, values: Any) -> Tuple[Any, Any, Any]:
    """Three values, one for each axis."""
    try:
        found = tuple(values)
    except TypeError:
        raise TypeError("%s has to be three values, and is a %s" % (name, type(values).__name__)) from None
    if len(found) != 3:
        raise ValueError("%s has to be three values, and is %d" % (name, len(found)))
    first, second, third = found
    return first, second, third


def factor_bytes(factors: Any) -> bytes:
    """A factor list as the library takes it."""
    try:
        listed = list(factors)
    except TypeError:
        raise TypeError("a factor list has to be a list, and is a %s" % type(factors).__name__) from None
    return bytes(checked("a factor", factor, c_uint8) for factor in listed)


# ---- the library, and factor lists

def version() -> int:
    """The version of the library: 10,000 times the major, 100 times the minor, and the patch number. VERSION is that of the package."""
    return int(call("recorder_version"))


def factor_list(length: int, out: Any) -> int:
    """Writes a factor list of a length, as few factors as any has, and gives how many there are, at most 8."""
    return int(call("recorder_factor_list", length, out).written)


# ---- jobs and files

def open_job(group: int, modulus: int, kind: int, lengths: Lengths, lists: Lists, volume: Any) -> Job:
    """Opens a job: kind 0 zeroes the volume and collects, kind 1 takes the volume as a map."""
    factors = map(factor_bytes, three("lists", lists))
    job: Job = call("recorder_open", group, modulus, kind, *three("lengths", lengths), *factors, volume).job
    return job


def open_file(file: Any, volume: Any) -> Job:
    """Opens a job by a factor file of any bytes."""
    job: Job = call("recorder_open_file", file, volume).job
    return job


def file_header(file: Any) -> FileHeader:
    """What the header of a factor file of any bytes names. Its records are not looked at."""
    found: FileHeader = call("recorder_file_header", file)
    return found


def file_faults(file: Any) -> Tuple[int, ...]:
    """The places of the fewest records at fault of a file that is refused at a record: none, one or two."""
    found = call("recorder_file_faults", file)
    return (found.first, found.second)[:found.count]


def file_length(job: Job, volume: Any) -> int:
    """How many bytes the file has that write_file writes, and so how many places it has to be lent."""
    return int(call("recorder_file_length", job, volume).length)


def write_file(job: Job, volume: Any, out: Any) -> int:
    """Writes the factor file of a job that holds factors, and gives the count of its bytes."""
    return int(call("recorder_write_file", job, volume, out).written)


def record(job: Job, at: Reflection, a: int, b: int, volume: Any) -> Job:
    """Records a + b i at an index, and the implied values at all images."""
    after: Job = call("recorder_record", job, at, a, b, volume).job
    return after


def synthesis(job: Job, volume: Any, scratch: Any) -> Job:
    """From factors to the map."""
    after: Job = call("recorder_synthesis", job, volume, scratch).job
    return after


def analysis(job: Job, volume: Any, scratch: Any) -> Job:
    """From the map to its factors."""
    after: Job = call("recorder_analysis", job, volume, scratch).job
    return after


def point(job: Job, at: GridPoint, volume: Any) -> int:
    """The density at a point anywhere in the cell."""
    return int(call("recorder_point", job, at, volume).density)


def factor(job: Job, at: Reflection, volume: Any) -> Tuple[int, int]:
    """The structure factor a + b i at an index anywhere in the cell."""
    found = call("recorder_factor", job, at, volume)
    return found.a, found.b


def map_power(job: Job, volume: Any) -> int:
    """The sum of the squares of a map over the whole cell, modulo the prime."""
    return int(call("recorder_map_power", job, volume).power)


def factor_power(job: Job, volume: Any) -> int:
    """The sum of F conj F over all indices, modulo the prime."""
    return int(call("recorder_factor_power", job, volume).power)


# ---- combined maps

def combine(first: Job, first_map: Any, second: Job, second_map: Any, output: Any) -> int:
    """Combines two maps of one cell, modulo the one prime and the other, into whole numbers; gives their count."""
    return int(call("recorder_combine", first, first_map, second, second_map, output).written)


def combined_point(group: int, lengths: Lengths, combined: Any, at: GridPoint) -> int:
    """The density at a point anywhere in the cell."""
    return int(call("recorder_combined_point", group, *three("lengths", lengths), combined, at).density)


def section(group: int, lengths: Lengths, combined: Any, z: int, out: Any) -> int:
    """Writes plane z as a page of text, and gives the count of its bytes."""
    return int(call("recorder_section", group, *three("lengths", lengths), combined, z, out).written)


def mrc(group: int, lengths: Lengths, combined: Any, cell: UnitCell, out: Any) -> int:
    """Writes the whole cell for viewers, in the format MRC2014, and gives the count of its bytes."""
    return int(call("recorder_mrc", group, *three("lengths", lengths), combined, cell, out).written)


def correlate(lengths: Lengths, lists: Lists, a: Any, b: Any, output: Any, work: Sequence[Any], scratch: Any) -> int:
    """Overlays two combined maps of P1 at every shift, with three work volumes; gives the count of numbers."""
    factors = map(factor_bytes, three("lists", lists))
    return int(call("recorder_correlate", *three("lengths", lengths), *factors, a, b, output, *three("work", work), scratch).written)


# ---- lines and windows

def line(modulus: int, kind: int, direction: int, length: int, factors: Sequence[int], numbers: Any, scratch: Any) -> None:
    """Transforms one line in place."""
    call("recorder_line", modulus, kind, direction, length, factor_bytes(factors), numbers, scratch)


def drift(run: Any, w: int, least: Any, greatest: Any, least_at: Any, greatest_at: Any) -> int:
    """Of each w neighbouring scores the least and the greatest and the first place of each; gives how many windows there are."""
    return int(call("recorder_drift", run, w, least, greatest, least_at, greatest_at).written)


# ---- the scheduler

def scheduler_new() -> Lanes:
    """Eight free lanes, of which none was served."""
    lanes: Lanes = call("recorder_scheduler_new")
    return lanes


def scheduler_next(scheduler: Lanes) -> int:
    """The lane that the next turn serves, 1 to 8, or 0 where none runs."""
    return int(call("recorder_scheduler_next", scheduler).lane)


def scheduler_enter(scheduler: Lanes, lane: int, job: Job, volume: Any, scratch: Any) -> Lanes:
    """A job that holds factors enters a free lane."""
    lanes: Lanes = call("recorder_scheduler_enter", scheduler, lane, job, volume, scratch).scheduler
    return lanes


def scheduler_turn(scheduler: Lanes, volume: Any, scratch: Any) -> TurnAnswer:
    """One line of the lane that scheduler_next names, in its volume."""
    answer: TurnAnswer = call("recorder_scheduler_turn", scheduler, volume, scratch)
    return answer


def scheduler_withdraw(scheduler: Lanes, lane: int) -> Lanes:
    """Frees a lane whose job is not finished."""
    lanes: Lanes = call("recorder_scheduler_withdraw", scheduler, lane).scheduler
    return lanes
