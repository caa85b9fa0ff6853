"""The one place where memory is lent to the library: every argument is looked at before a pointer is.

A buffer is anything with Python's buffer protocol: a numpy array, an array.array, bytes, a memoryview of one. It is lent as it is, without a copy, if
its elements are of the type that the call asks for, in this machine's byte order, one after the other, aligned, and may be written where the call writes;
no buffer that is written may share memory with another. All else is a TypeError or a ValueError before the call.
"""
from __future__ import annotations

import ctypes
from ctypes import c_int64, c_uint8, c_uint32, c_uint64
from typing import Any, List, NamedTuple, Optional

from .declarations import CALLS, Lent, checked
from .library import library
from .refusals import Refused

# The letters that the struct module has for an element in this machine's order, whichever of them has its size here. A format that names an order
# is another: Python could not give such memory a shape.
LETTERS = {c_uint8: "B", c_uint32: "IL", c_uint64: "LQ", c_int64: "lq"}
# What it gives is a number, and no refusal's.
NEVER_REFUSED = ("recorder_version",)
# The refusals of a file that are of a record.
OF_RECORD = (7, 10, 12, 24)


class PyBuffer(ctypes.Structure):
    """Py_buffer of Python's C interface, by which the address of memory is known that may only be read."""
    _fields_ = [("buf", ctypes.c_void_p), ("obj", ctypes.c_void_p), ("len", ctypes.c_ssize_t), ("itemsize", ctypes.c_ssize_t),
                ("readonly", ctypes.c_int), ("ndim", ctypes.c_int), ("format", ctypes.c_char_p), ("shape", ctypes.c_void_p),
                ("strides", ctypes.c_void_p), ("suboffsets", ctypes.c_void_p), ("internal", ctypes.c_void_p)]


PLAIN_BYTES = 0
get_buffer = ctypes.pythonapi.PyObject_GetBuffer
get_buffer.argtypes, get_buffer.restype = [ctypes.py_object, ctypes.POINTER(PyBuffer), ctypes.c_int], ctypes.c_int
release_buffer = ctypes.pythonapi.PyBuffer_Release
release_buffer.argtypes, release_buffer.restype = [ctypes.POINTER(PyBuffer)], None


class Loan(NamedTuple):
    """A buffer that is lent: while its view is kept, its memory stays where it is."""
    name: str
    view: Any
    address: int
    elements: int
    end: int
    written: bool


def address_of(view: memoryview) -> int:
    """Where the memory of a view begins."""
    seen = PyBuffer()
    get_buffer(view, ctypes.byref(seen), PLAIN_BYTES)
    address: int = seen.buf or 0
    release_buffer(ctypes.byref(seen))
    return address


def of_elements(view: memoryview, element: Any) -> bool:
    """Whether a view's elements are of a C type."""
    return view.itemsize == ctypes.sizeof(element) and view.format in tuple(LETTERS[element])


def lend(name: str, buffer: Any, asked: Lent) -> Loan:
    """Looks at a buffer, and lends it."""
    try:
        view = memoryview(buffer)
    except TypeError:
        raise TypeError("%s has to be a buffer, as an array is, and is a %s" % (name, type(buffer).__name__)) from None
    kind = asked.element.__name__.replace("c_", "")
    if not of_elements(view, asked.element):
        raise TypeError("%s has to have elements of %d bytes, %s, and has the format %r of %d bytes"
                        % (name, ctypes.sizeof(asked.element), kind, view.format, view.itemsize))
    if not view.c_contiguous:
        raise ValueError("%s has gaps between its elements, or another order: lend a contiguous array" % name)
    if asked.written and view.readonly:
        raise ValueError("%s is written by the call, and may only be read" % name)
    if view.nbytes == 0:
        # No elements, and a pointer that is not NULL all the same.
        spare = memoryview((asked.element * 1)())
        return Loan(name, spare, address_of(spare), 0, 0, False)
    address = address_of(view)
    if address % ctypes.sizeof(asked.element):
        raise ValueError("%s does not begin at a multiple of %d bytes" % (name, ctypes.sizeof(asked.element)))
    return Loan(name, view, address, view.nbytes // view.itemsize, address + view.nbytes, asked.written)


def apart(loans: List[Loan]) -> None:
    """No buffer that is written shares memory with another."""
    for place, one in enumerate(loans):
        for other in loans[:place]:
            if (one.written or other.written) and one.address < other.end and other.address < one.end:
                raise ValueError("%s and %s share memory" % (other.name, one.name))


def answered(name: str, *arguments: Any) -> Any:
    """What a call of recorder.h answers, refused or not. A buffer is one argument here; in C it is a pointer and a count."""
    takes = CALLS[name][1]
    if len(arguments) != len(takes):
        raise TypeError("%s takes %d arguments, and has %d" % (name, len(takes), len(arguments)))
    loans: List[Loan] = []
    passed: List[Any] = []
    for (parameter, kind), argument in zip(takes.items(), arguments):
        if isinstance(kind, Lent):
            loan = lend(parameter, argument, kind)
            loans.append(loan)
            passed += [loan.address, loan.elements]
        else:
            passed.append(checked(parameter, argument, kind))
    apart(loans)
    return getattr(library(), name)(*passed)


def call(name: str, *arguments: Any) -> Any:
    """What an accepted call of recorder.h answers; a refused one raises Refused."""
    answer = answered(name, *arguments)
    number = answer if isinstance(answer, int) else getattr(answer, "number", 0)
    if number and name not in NEVER_REFUSED:
        place: Optional[int] = answer.place if hasattr(answer, "place") and number in OF_RECORD else None
        raise Refused(name, number, place)
    return answer
