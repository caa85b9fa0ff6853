"""What a header says: how many numbers its volume has, in which shape, and factor lists for lengths that have none."""
from __future__ import annotations

import operator
from ctypes import c_uint32
from typing import Any, List, Optional, Sequence, Tuple

from .calls import Lengths, Lists, three
from .calls import factor_list as factor_list_into
from .declarations import LONGEST, MOST_NUMBERS, checked
from .refusals import Refused

# No admitted length has a chosen list of more.
MOST_FACTORS = 8


def admitted(length: int) -> bool:
    """Whether a length is an even divisor of 2,880."""
    return length > 0 and length % 2 == 0 and LONGEST % length == 0


def planes(group: int, n3: int) -> int:
    """How many planes are stored: all of P1, those below a half of P2_1 and P2_1 2_1 2_1, one more of Pm and Pa; of no group 0."""
    return (n3, n3 // 2, n3 // 2 + 1, n3 // 2 + 1, n3 // 2)[group] if group <= 4 else 0


def shape_of(group: int, lengths: Lengths) -> Tuple[int, int, int]:
    """The shape of a volume as [z, x, y], with two numbers behind each row; zeros where recorder_opening_length of recorder.h is 0."""
    n1, n2, n3 = (checked("a length", length, c_uint32) for length in three("lengths", lengths))
    shape = planes(checked("group", group, c_uint32), n3), n1, 2 * (n2 // 2 + 1)
    possible = all(map(admitted, (n1, n2, n3))) and shape[0] * shape[1] * shape[2] <= MOST_NUMBERS
    return shape if possible else (0, 0, 0)


def volume_length(group: int, lengths: Lengths) -> int:
    """How many numbers a volume has; 0 where every opening is refused, for its group, a length or its size."""
    w, n1, row = shape_of(group, lengths)
    return w * n1 * row


def section_length(n1: int, n2: int) -> int:
    """How many bytes a section has: five numbers to a line of 70, and three lines more."""
    return 70 * (n1 * ((n2 + 4) // 5) + 3)


def line_length(kind: int, length: int) -> int:
    """How many numbers a line of a kind has; 0 of no kind."""
    counts = (2 * length, length, length, length, length + 2, length - 2)
    return max(counts[kind], 0) if 0 <= kind < len(counts) else 0


def factor_list(length: int) -> List[int]:
    """Factors of half an admitted length, as few as can be, 4 before the others, as the library chooses them; of another length none."""
    out = bytearray(MOST_FACTORS)
    try:
        return list(out[:factor_list_into(length, out)])
    except Refused:
        return []


def lists_for(lengths: Lengths, lists: Optional[Lists]) -> Lists:
    """The lists that are given, else chosen ones."""
    return [factor_list(length) for length in three("lengths", lengths)] if lists is None else lists


def factors_of(octal: int) -> List[int]:
    """The factor list that an axis has as octal digits."""
    found = []
    while octal:
        found.append(octal % 8)
        octal //= 8
    return found


def counted_from_end(index: Any, length: int) -> Any:
    """An index with one from -length to -1 counted from the end, as -1 is the last; all else as it is."""
    try:
        number = operator.index(index)
    except TypeError:
        return index
    return number + length if -length <= number < 0 else number


def indices(index: Sequence[Any], lengths: Lengths) -> List[Any]:
    """The same for the three axes."""
    return [counted_from_end(i, n) for i, n in zip(index, lengths)]
