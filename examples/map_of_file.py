#!/usr/bin/env python3
"""The map of a factor file in Python, by ctypes over the shared library: the work and the text of map_of_file.c, with its exit status.

    map_of_file.py FILE

A struct of recorder.h is a class here, and goes into a call and comes back by value; numbers go by pointer, as an array and its length.
"""
import sys
from ctypes import CDLL, POINTER, Structure, c_int32, c_size_t, c_uint8, c_uint32

SCRATCH = 11520


class Axis(Structure):
    _fields_ = [("length", c_uint32), ("factors", c_uint32)]


class Job(Structure):
    _fields_ = [("group", c_uint32), ("modulus", c_uint32), ("a", Axis), ("b", Axis), ("c", Axis), ("state", c_uint32)]


class Header(Structure):
    _fields_ = [("number", c_uint32), ("group", c_uint32), ("modulus", c_uint32), ("a", Axis), ("b", Axis), ("c", Axis), ("records", c_uint32),
                ("numbers", c_uint32)]


class GridPoint(Structure):
    _fields_ = [("x", c_uint32), ("y", c_uint32), ("z", c_uint32)]


class Answer(Structure):
    _fields_ = [("number", c_uint32), ("job", Job)]


class FileAnswer(Structure):
    _fields_ = [("number", c_uint32), ("place", c_uint32), ("job", Job)]


class Faults(Structure):
    _fields_ = [("count", c_uint32), ("first", c_uint32), ("second", c_uint32)]


class Density(Structure):
    _fields_ = [("number", c_uint32), ("density", c_int32)]


class Power(Structure):
    _fields_ = [("number", c_uint32), ("power", c_uint32)]


BYTES, NUMBERS = [POINTER(c_uint8), c_size_t], [POINTER(c_uint32), c_size_t]
CALLS = {
    "recorder_file_header": (Header, BYTES),
    "recorder_open_file": (FileAnswer, BYTES + NUMBERS),
    "recorder_file_faults": (Faults, BYTES),
    "recorder_factor_power": (Power, [Job] + NUMBERS),
    "recorder_synthesis": (Answer, [Job] + NUMBERS + NUMBERS),
    "recorder_map_power": (Power, [Job] + NUMBERS),
    "recorder_point": (Density, [Job, GridPoint] + NUMBERS),
}


def library():
    """The installed library, with the types of the calls that are made."""
    found = CDLL("librecorder.so.2")
    for name, (gives, takes) in CALLS.items():
        call = getattr(found, name)
        call.restype, call.argtypes = gives, takes
    return found


def end(status, words):
    print(words, file=sys.stderr)
    sys.exit(status)


def accepted(call, answer):
    """Every answer is looked at: what only an accepted call gives is 0 of a refused one."""
    if answer.number:
        end(1, "%s: refused %d" % (call.__name__, answer.number))
    return answer


def main():
    if len(sys.argv) != 2:
        end(2, "usage: map_of_file FILE")
    name = sys.argv[1]
    try:
        with open(name, "rb") as opened:
            file = opened.read()
    except OSError as error:
        end(2, "%s: %s" % (name, error.strerror))
    recorder = library()
    given = (c_uint8 * len(file)).from_buffer_copy(file), len(file)
    numbers = recorder.recorder_file_header(*given).numbers  # 0 where the header is refused, and opening the file is refused alike
    volume, scratch = ((c_uint32 * numbers)(), numbers), ((c_uint32 * SCRATCH)(), SCRATCH)

    opened = recorder.recorder_open_file(*given, *volume)
    if opened.number:
        faults = recorder.recorder_file_faults(*given)
        places = ", ".join("record %d" % place for place in (faults.first, faults.second)[:faults.count])
        end(1, "%s: refused %d%s" % (name, opened.number, places and ", at fault: " + places))

    factors = accepted(recorder.recorder_factor_power, recorder.recorder_factor_power(opened.job, *volume))
    job = accepted(recorder.recorder_synthesis, recorder.recorder_synthesis(opened.job, *volume, *scratch)).job
    power = accepted(recorder.recorder_map_power, recorder.recorder_map_power(job, *volume))

    n1, n2, n3 = job.a.length, job.b.length, job.c.length
    print("group %d, modulus %d, %d x %d x %d points" % (job.group, job.modulus, n1, n2, n3))
    for point in ((0, 0, 0), (n1 // 2, n2 // 2, n3 // 2), (n1 - 1, n2 - 1, n3 - 1)):
        read = accepted(recorder.recorder_point, recorder.recorder_point(job, GridPoint(*point), *volume))
        print("density at (%d, %d, %d): %d" % (*point, read.density))
    print("power of the factors: %d\npower of the map: %d" % (factors.power, power.power))


if __name__ == "__main__":
    main()
