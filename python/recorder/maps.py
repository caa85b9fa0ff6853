"""A map of whole numbers: the densities of one entry, two maps combined, or an overlay."""
from __future__ import annotations

from typing import Any, Optional, Tuple

from . import calls
from .arrays import COUNTS, NUMBERS, numpy, shaped, zeros
from .calling import lend
from .calls import Lengths, Lists, three
from .cells import counted_from_end, indices, lists_for, section_length, shape_of, volume_length
from .declarations import MRC_HEADER, READ_COUNTS, SCRATCH, GridPoint, UnitCell

# What a page has of a row: lines of 70 bytes, x in 4 places, then five numbers in 13 places each.
LINE, FIRST, WIDTH, IN_LINE = 70, 4, 13, 5


class Map:
    """Whole numbers of 64 bits on the stored planes of a cell, as [z, x, y] with two numbers behind each row, which no call reads."""

    def __init__(self, group: int, lengths: Lengths, numbers: Any) -> None:
        """The numbers are a buffer of signed numbers of 64 bits, volume_length(group, lengths) of them. It is used as it is."""
        asked, lent = volume_length(group, lengths), lend("numbers", numbers, READ_COUNTS).elements
        if asked == 0 or lent != asked:
            raise ValueError("a map of group %d and lengths %d, %d, %d has %d numbers, and not %d" % (group, *lengths, asked, lent))
        self._group, self._lengths = int(group), three("lengths", map(int, lengths))
        self._numbers = shaped(numbers, shape_of(group, lengths), COUNTS)

    @property
    def group(self) -> int:
        """The group."""
        return self._group

    @property
    def lengths(self) -> Tuple[int, int, int]:
        """N1, N2, N3."""
        return self._lengths

    @property
    def numbers(self) -> Any:
        """The numbers as they are, without a copy, as [z, x, y]: a numpy array, or a memoryview."""
        return self._numbers

    def __repr__(self) -> str:
        return "<Map of group %d, %d x %d x %d points>" % (self._group, *self._lengths)

    def point(self, x: int, y: int, z: int) -> int:
        """The number at a point anywhere in the cell, stored or not; -1 is the last on its axis."""
        return calls.combined_point(self._group, self._lengths, self._numbers, GridPoint(*indices((x, y, z), self._lengths)))

    def section(self, z: int) -> str:
        """Plane z of the cell, stored or not, as a page of text, with total, mean and remainder at its end; -1 is the last plane."""
        out = bytearray(section_length(*self._lengths[:2]))
        calls.section(self._group, self._lengths, self._numbers, counted_from_end(z, self._lengths[2]), out)
        return out.decode("ascii")

    def plane(self, z: int) -> Any:
        """The numbers of plane z of the cell, stored or not, as [x][y]: a numpy array, or a list of rows. They are those that the section shows."""
        page, (n1, n2, _) = self.section(z), self._lengths
        lines = (n2 + IN_LINE - 1) // IN_LINE
        rows = []
        for x in range(n1):
            row = "".join(page[LINE * q + FIRST:LINE * (q + 1) - 1] for q in range(x * lines, (x + 1) * lines))
            rows.append([int(row[WIDTH * y:WIDTH * (y + 1)]) for y in range(n2)])
        return numpy.array(rows, dtype="int64") if numpy is not None else rows

    def mrc(self, a: float, b: float, c: float, alpha: Optional[float] = None, beta: Optional[float] = None, gamma: float = 90) -> bytes:
        """The whole cell for viewers, in the format MRC2014, with these edges in angstrom and angles in degrees. P1 may have three angles, the other
        groups have gamma alone."""
        all_angles = self._group == 0 or alpha is not None or beta is not None
        angles = [90 if angle is None else angle for angle in (alpha, beta)]
        n1, n2, n3 = self._lengths
        out = bytearray(MRC_HEADER + 4 * n1 * n2 * n3)
        calls.mrc(self._group, self._lengths, self._numbers, UnitCell(3 if all_angles else 1, a, b, c, *angles, gamma), out)
        return bytes(out)

    def overlay(self, other: Map, lists: Optional[Lists] = None) -> Map:
        """At each shift s = (x, y, z) the sum over all points u of this map at u times the other at u + s. Both are of P1 and of the same lengths."""
        if not isinstance(other, Map):
            raise TypeError("an overlay is of two maps, and not of a %s" % type(other).__name__)
        if self._group or other.group or self._lengths != other.lengths:
            raise ValueError("an overlay is of two maps of P1 with the same lengths, and not of %r and %r" % (self, other))
        count = volume_length(0, self._lengths)
        output, work = zeros(count, COUNTS), [zeros(count, NUMBERS) for _ in range(3)]
        chosen = lists_for(self._lengths, lists)
        calls.correlate(self._lengths, chosen, self._numbers, other.numbers, output, work, zeros(SCRATCH, NUMBERS))
        return Map(0, self._lengths, output)
