"""Arrays for the library: of numpy where it is there, else of the standard library."""
from __future__ import annotations

from array import array
from typing import Any, Sequence, Tuple

numpy: Any
try:
    import numpy
except ImportError:
    numpy = None

# The letter of array.array and the type of numpy for residues, for counts and for places.
Elements = Tuple[str, str]
NUMBERS, COUNTS, PLACES = ("I", "uint32"), ("q", "int64"), ("Q", "uint64")


def zeros(count: int, kind: Elements) -> Any:
    """So many zeros."""
    if numpy is not None:
        return numpy.zeros(count, dtype=kind[1])
    return array(kind[0], bytes(count * array(kind[0]).itemsize))


def filled(values: Any, kind: Elements) -> Any:
    """An array of whole numbers that are listed. numpy would cut a number that does not fit: it is refused here."""
    try:
        found = array(kind[0], list(values))
    except OverflowError as error:
        raise ValueError("a number that %s does not hold: %s" % (kind[1], error)) from None
    return numpy.frombuffer(found, dtype=kind[1]) if numpy is not None and found else found


def buffer_of(values: Any, kind: Elements) -> Any:
    """A buffer as it is, without a copy, and an array of what is none."""
    try:
        memoryview(values)
    except TypeError:
        return filled(values, kind)
    return values


def shaped(buffer: Any, shape: Sequence[int], kind: Elements) -> Any:
    """The same memory with a shape: a numpy array, or a memoryview, which is read at [z, x, y] too."""
    if numpy is not None:
        return numpy.frombuffer(buffer, dtype=kind[1]).reshape(shape)
    return memoryview(buffer).cast("B").cast(kind[0], list(shape))


def flat(buffer: Any, kind: Elements) -> Any:
    """The elements of a contiguous buffer one after the other, without a copy: a numpy array or a memoryview."""
    if numpy is not None:
        return numpy.frombuffer(buffer, dtype=kind[1])
    return memoryview(buffer).cast("B").cast(kind[0])
