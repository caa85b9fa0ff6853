"""Arguments of the Python package that are none, in every place of every call and of every class, and what is lent without a copy.

Whatever stands in the place of an argument, there is an exception in Python or an answer, and what was not accepted has changed no buffer. A crash would
end the interpreter that python_test.py started, which it notices.
"""
import array
import ctypes

import recorder
from recorder import arrays, calling, calls
from recorder.declarations import CALLS, STRUCTS, Lent, Value

from brute_force import SCRATCH, volume_length
from python_values import counts_of, listed, numbers_of, outcome


class Longer(recorder.Job):
    """A job with a field more."""
    _fields_ = [("more", ctypes.c_uint32 * 9)]


def odd_things():
    numbers = array.array("I", range(64))
    unaligned = memoryview(bytearray(65))[1:]
    found = [None, -1, 2**32, 2**64, -2**63 - 1, 10**400, 1.5, float("nan"), "x", "1", b"", b"abc", bytearray(7), [], [1, 2], (1, 2, 3), {}, object(), int, len,
             array.array("H", [1, 2]), array.array("d", [1.0]), array.array("i", [1]), array.array("I"), array.array("I", [1] * 3), numbers.tobytes(),
             memoryview(numbers)[::2], memoryview(numbers).toreadonly(), unaligned.cast("I"), unaligned.cast("q"), memoryview(bytes(64)).cast("I"),
             array.array("q", [1] * 8), (ctypes.c_uint32 * 4)(), (ctypes.c_uint32.__ctype_be__ * 4)(), Longer(), ctypes.c_uint32(3), 1 + 2j, True]
    found += [struct_() for struct_ in STRUCTS.values()] + [recorder.Job]
    if arrays.numpy is not None:
        made = arrays.numpy.arange(64, dtype="uint32")
        found += [made[::-1], made[1::2], made.reshape(8, 8).T, made.astype(">u4"), made.astype("float64"), made.view("datetime64[s]"), made[:0], made[0],
                  arrays.numpy.zeros((0, 3), dtype="uint32"), arrays.numpy.array(["a", None], dtype=object)]
    return found


def sound_arguments():
    """Arguments of each call that it accepts, made anew."""
    scratch = lambda: numbers_of([0] * SCRATCH)
    axis = recorder.Axis(2, 0)
    job, held = recorder.Job(0, 1, axis, axis, axis, 0), recorder.Job(0, 1, axis, axis, axis, 2)
    other = recorder.Job(0, 2, axis, axis, axis, 2)
    volume = lambda: numbers_of([0] * volume_length(0, (2, 2, 2)))
    counts = lambda: counts_of([0] * volume_length(0, (2, 2, 2)))
    file = bytes.fromhex("0000001D010000020002000200000000000001000100000000" "0000000300000000")
    at, point, new = recorder.Reflection(0, 0, 0), recorder.GridPoint(0, 0, 0), calls.scheduler_new()
    entered = calls.scheduler_enter(new, 1, job, volume(), scratch())
    places = lambda: arrays.filled([0] * 2, arrays.PLACES)
    pair = lambda: counts_of([0] * 2)
    return {
        "recorder_version": [], "recorder_factor_list": [2880, bytearray(8)], "recorder_file_header": [file], "recorder_file_length": [job, volume()],
        "recorder_combined_point": [0, 2, 2, 2, counts(), point],
        "recorder_open": [0, 1, 0, 2, 2, 2, b"", b"", b"", volume()], "recorder_open_file": [file, volume()], "recorder_file_faults": [file],
        "recorder_write_file": [job, volume(), bytearray(100)], "recorder_record": [job, at, 1, 0, volume()],
        "recorder_synthesis": [job, volume(), scratch()], "recorder_analysis": [held, volume(), scratch()], "recorder_point": [held, point, volume()],
        "recorder_factor": [job, at, volume()], "recorder_map_power": [held, volume()], "recorder_factor_power": [job, volume()],
        "recorder_combine": [held, volume(), other, volume(), counts()], "recorder_section": [0, 2, 2, 2, counts(), 0, bytearray(350)],
        "recorder_mrc": [0, 2, 2, 2, counts(), recorder.UnitCell(3, 1, 1, 1, 90, 90, 90), bytearray(1056)],
        "recorder_correlate": [2, 2, 2, b"", b"", b"", counts(), counts(), counts(), volume(), volume(), volume(), scratch()],
        "recorder_line": [1, 1, 0, 2, b"", numbers_of([0, 0]), scratch()], "recorder_drift": [counts_of([1, 2, 3]), 2, pair(), pair(), places(), places()],
        "recorder_scheduler_new": [], "recorder_scheduler_next": [new], "recorder_scheduler_enter": [new, 1, job, volume(), scratch()],
        "recorder_scheduler_turn": [entered, volume(), scratch()], "recorder_scheduler_withdraw": [entered, 1],
    }


def state_of(arguments):
    """What stands in the buffers and values of a call."""
    return [bytes(memoryview(argument)) if not isinstance(argument, (int, Value)) else repr(argument) for argument in arguments]


def wrong_arguments(compared, _):
    """Every parameter of every call with every odd thing: a TypeError, a ValueError or a refusal leaves all other buffers as they were."""
    compared.expect("the calls that are tried", sorted(sound_arguments()), sorted(CALLS))
    things = odd_things()
    for name, (_, takes) in CALLS.items():
        compared.expect("%s on sound arguments" % name, outcome(calling.call, name, *sound_arguments()[name])[0], 0)
        for count in (len(takes) + 1, max(len(takes) - 1, 0)):
            if count != len(takes):
                compared.expect("%s with %d arguments" % (name, count), raised(calling.call, name, *(sound_arguments()[name] + [0])[:count]), "TypeError")
        for place, (parameter, kind) in enumerate(takes.items()):
            sound, ends = sound_arguments()[name], set()
            for thing in things:
                arguments = list(sound)
                arguments[place] = thing
                others = arguments[:place] + arguments[place + 1:]
                before = state_of(others)
                end = raised(calling.call, name, *arguments)
                ends.add(end)
                if end == "nothing":
                    sound = sound_arguments()[name]
                elif state_of(others) != before and name != "recorder_open_file":
                    compared.expect("%s of %s is %.60r" % (parameter, name, thing), "changed", "unchanged")
            compared.expect("%s of %s" % (parameter, name), (ends <= {"TypeError", "ValueError", "Refused", "nothing"}, "TypeError" in ends), (True, True))
            if isinstance(kind, Lent):
                shared(compared, name, place)


def shared(compared, name, place):
    """One buffer for two parameters: refused where either is written."""
    kinds = list(CALLS[name][1].values())
    for other, kind in enumerate(kinds):
        if other < place and isinstance(kind, Lent) and kind.element is kinds[place].element:
            arguments = sound_arguments()[name]
            arguments[place] = arguments[other]
            if kind.element is ctypes.c_uint8:  # lists of no factors: no memory is shared
                continue
            end = raised(calling.call, name, *arguments)
            compared.expect("one buffer twice in %s" % name, end == "ValueError", kind.written or kinds[place].written)
            part = sound_arguments()[name]
            part[place] = memoryview(part[other])[len(part[other]) - 1:]
            compared.expect("a shared end in %s" % name, raised(calling.call, name, *part) == "ValueError", kind.written or kinds[place].written)


def raised(call, *arguments):
    try:
        call(*arguments)
    except Exception as error:
        return type(error).__name__ if not isinstance(error, recorder.Refused) else "Refused"
    return "nothing"


def friendly_arguments(compared, _):
    """The classes with every odd thing in every place: words in Python, whatever it is."""
    entry, held = recorder.Entry.collecting(0, (2, 2, 2)), recorder.Entry.collecting(0, (2, 2, 2)).synthesis()
    found, expected = held.map(), {"TypeError", "ValueError", "Refused", "nothing"}
    for thing in odd_things():
        for what, call in {
            "collecting": lambda: [recorder.Entry.collecting(*arguments) for arguments in [(thing, (2, 2, 2))]],
            "lengths": lambda: recorder.Entry.collecting(0, thing), "a length": lambda: recorder.Entry.collecting(0, (2, thing, 2)),
            "modulus": lambda: recorder.Entry.collecting(0, (2, 2, 2), thing), "lists": lambda: recorder.Entry.collecting(0, (2, 2, 2), 1, thing),
            "a list": lambda: recorder.Entry.collecting(0, (2, 2, 2), 1, [thing, [], []]), "of_map": lambda: recorder.Entry.of_map(0, (2, 2, 2), thing),
            "of_file": lambda: recorder.Entry.of_file(thing), "of_numbers": lambda: recorder.Entry.of_numbers(thing),
            "of_numbers, modulus": lambda: recorder.Entry.of_numbers(found, thing), "Entry": lambda: recorder.Entry(thing, numbers_of([0])),
            "volume": lambda: recorder.Entry(entry.job, thing).volume, "a file of it": lambda: recorder.Entry(entry.job, thing).file(),
            "its map": lambda: recorder.Entry(held.job, thing).map(), "a record": lambda: entry.record(thing, 0, 0, 0), "a value": lambda: entry.record(0, 0, 0, thing, thing),
            "a point": lambda: held.point(0, thing, 0), "a factor": lambda: entry.factor(0, 0, thing), "combine": lambda: recorder.combine(held, thing),
            "Map": lambda: recorder.Map(thing, (2, 2, 2), counts_of([0] * 16)), "numbers": lambda: recorder.Map(0, (2, 2, 2), thing),
            "lengths of a map": lambda: recorder.Map(0, thing, counts_of([0] * 16)),
            "a point of a map": lambda: found.point(0, 0, thing), "factor_list": lambda: recorder.factor_list(thing),
            "section": lambda: found.section(thing), "plane": lambda: found.plane(thing), "mrc": lambda: found.mrc(1, thing, 1), "overlay": lambda: found.overlay(thing),
            "lists of an overlay": lambda: found.overlay(found, thing), "line": lambda: recorder.line(0, 0, 2, thing), "kind": lambda: recorder.line(thing, 0, 2, [0] * 4),
            "length": lambda: recorder.line(0, 0, thing, [0] * 4), "factors": lambda: recorder.line(0, 0, 2, [0] * 4, 1, thing), "run": lambda: recorder.drift(thing, 1),
            "w": lambda: recorder.drift([1, 2, 3], thing), "enter": lambda: recorder.Scheduler().enter(thing),
            "a lane": lambda: recorder.Scheduler().enter(recorder.Entry.collecting(0, (2, 2, 2)), thing), "withdraw": lambda: recorder.Scheduler().withdraw(thing),
            "a field": lambda: recorder.Job(thing), "a job": lambda: calls.synthesis(recorder.Job(0, 1, thing), entry.volume, numbers_of([0] * SCRATCH)),
        }.items():
            end = raised(call)
            compared.expect("%s with %.60r: %s" % (what, thing, end), end in expected, True)
    compared.expect("a field that is set", raised(setattr, entry.job, "group", 1), "AttributeError")
    compared.expect("equal values", (recorder.Axis(2, 0) == recorder.Axis(2, 0), hash(recorder.Axis(2, 0)) == hash(recorder.Axis(2, 0)), recorder.Axis(2, 0) == recorder.Axis(4, 2),
                                     recorder.Reflection(1, 2, 3) == recorder.GridPoint(1, 2, 3)), (True, True, False, False))
    compared.expect("the text of a value", repr(recorder.Axis(8, 4)), "Axis(length=8, factors=4)")
    first = recorder.Map(0, (2, 2, 4), counts_of([0] * 32))
    compared.expect("overlays of other cells", (raised(found.overlay, first), raised(found.overlay, recorder.Map(1, (2, 2, 2), counts_of([0] * 8)))), ("ValueError",) * 2)


def lent_as_they_are(compared, _):
    """No copy: what a call writes stands in the array that was lent, whatever kind of array it is; what is only read may be memory that is only read."""
    held = [0] * volume_length(1, (2, 2, 4))
    kinds = [array.array("I", held), memoryview(bytearray(4 * len(held))).cast("I"), memoryview(bytearray(4 * len(held))).cast("I", [2, 2, 4])]
    if arrays.numpy is not None:
        kinds += [arrays.numpy.zeros(len(held), dtype="uint32"), arrays.numpy.zeros((2, 2, 4), dtype="uint32")]
    for volume in kinds:
        entry = recorder.Entry(calls.open_job(1, 1, 0, (2, 2, 4), [[], [], [2]], volume), volume)
        entry.record(0, 0, 0, 5)
        compared.expect("a record in the memory that was lent", sum(memoryview(volume).cast("B")), 5)
        entry.synthesis()
        compared.expect("a map in the memory that was lent", (listed(volume), listed(entry.volume)), ([5, 5, 0, 0] * 4,) * 2)
        kept = memoryview(bytes(memoryview(volume))).cast("I")
        compared.expect("memory that is only read", calls.point(entry.job, recorder.GridPoint(1, 1, 3), kept), 5)
        entry.volume[1, 1, 2] = 6
        compared.expect("a number that is put", (listed(volume)[14], outcome(entry.map_power)), (6, (14, None)))
