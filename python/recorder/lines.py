"""One line transformed, and the drift of a run of scores."""
from __future__ import annotations

from ctypes import c_uint32
from typing import Any, NamedTuple, Optional, Sequence

from . import calls
from .arrays import COUNTS, NUMBERS, PLACES, buffer_of, filled, zeros
from .calling import lend
from .cells import factor_list
from .declarations import READ_COUNTS, SCRATCH, checked


def line(kind: int, direction: int, length: int, numbers: Any, modulus: int = 1, factors: Optional[Sequence[int]] = None) -> Any:
    """A line transformed: a new array, as long as line_length(kind, length) says; `calls.line` does it in place. Factors are chosen where none are given."""
    found = filled(numbers, NUMBERS)
    calls.line(modulus, kind, direction, length, factor_list(length) if factors is None else factors, found, zeros(SCRATCH, NUMBERS))
    return found


class Windows(NamedTuple):
    """Of each window of a run the least and the greatest score, and the first place of each in the run, as arrays: place j is of the window from j on."""
    least: Any
    greatest: Any
    least_at: Any
    greatest_at: Any


def drift(run: Any, w: int) -> Windows:
    """The windows of w neighbouring scores of a run, 1 to 64: a buffer of signed numbers of 64 bits is lent as it is, else the scores are listed."""
    scores = buffer_of(run, COUNTS)
    windows = max(lend("run", scores, READ_COUNTS).elements + 1 - checked("w", w, c_uint32), 0)
    found = Windows(zeros(windows, COUNTS), zeros(windows, COUNTS), zeros(windows, PLACES), zeros(windows, PLACES))
    calls.drift(scores, w, *found)
    return found
