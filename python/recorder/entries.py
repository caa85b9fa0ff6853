"""An entry: a job with its volume and its scratch, kept together."""
from __future__ import annotations

import os
from typing import Any, List, Optional, Tuple, Union

from . import calls
from .arrays import COUNTS, NUMBERS, filled, flat, numpy, shaped, zeros
from .calling import lend
from .calls import Lengths, Lists
from .cells import counted_from_end, factors_of, indices, lists_for, planes, shape_of, volume_length
from .declarations import PRIMES, SCRATCH, WRITE_NUMBERS, GridPoint, Job, Opening, Reflection
from .maps import Map
from .refusals import Refused

Path = Union[str, bytes, "os.PathLike[Any]"]


class Entry:
    """A job, its volume and a scratch. `collecting`, `of_map`, `of_file` and `read` make one; a refused call leaves it as it was.

    An index is from 0 to its length less 1, or counted from the end, as -1 is the last. One thread at a time uses an entry; several may use one each.
    """

    def __init__(self, job: Job, volume: Any) -> None:
        """A job that a call gave and its volume, a buffer of unsigned numbers of 32 bits, which is used as it is."""
        if type(job) is not Job:
            raise TypeError("job has to be a Job, and is a %s" % type(job).__name__)
        lend("volume", volume, WRITE_NUMBERS)
        self._job, self._volume, self._scratch = job, volume, zeros(SCRATCH, NUMBERS)

    # ---- openings

    @classmethod
    def collecting(cls, group: int, lengths: Lengths, modulus: int = 1, lists: Optional[Lists] = None) -> Entry:
        """An entry whose records are to come; factor lists are chosen where none are given."""
        volume = zeros(volume_length(group, lengths), NUMBERS)
        return cls(calls.open_job(group, modulus, Opening.COLLECTING, lengths, lists_for(lengths, lists), volume), volume)

    @classmethod
    def of_map(cls, group: int, lengths: Lengths, volume: Any, modulus: int = 1, lists: Optional[Lists] = None) -> Entry:
        """An entry that holds a map: the residues of its stored planes as [z, x, y], two zeros behind each row. The buffer is used as it is."""
        return cls(calls.open_job(group, modulus, Opening.MAP, lengths, lists_for(lengths, lists), volume), volume)

    @classmethod
    def of_numbers(cls, numbers: Map, modulus: int = 1, lists: Optional[Lists] = None) -> Entry:
        """An entry that holds the residues of a map of whole numbers: with modulus 1 and 2 both, `combine` gives the numbers again."""
        if not isinstance(numbers, Map):
            raise TypeError("the numbers of an entry are a Map, and not a %s" % type(numbers).__name__)
        found, prime = flat(numbers.numbers, COUNTS), PRIMES.get(modulus, 1)
        volume = (found % prime).astype("uint32") if numpy is not None else filled((number % prime for number in found), NUMBERS)
        return cls.of_map(numbers.group, numbers.lengths, volume, modulus, lists)

    @classmethod
    def of_file(cls, file: Any) -> Entry:
        """An entry by the bytes of a factor file. Where a record is refused, the exception has the records at fault too."""
        try:
            volume = zeros(calls.file_header(file).numbers, NUMBERS)
            return cls(calls.open_file(file, volume), volume)
        except Refused as refused:
            raise Refused(refused.call, refused.number, refused.place, calls.file_faults(file)) from None

    @classmethod
    def read(cls, path: Path) -> Entry:
        """An entry by the name of a factor file."""
        with open(path, "rb") as file:
            return cls.of_file(file.read())

    # ---- what it holds

    @property
    def job(self) -> Job:
        """The job, a value; all zeros while the entry runs in a lane and after it was withdrawn from one."""
        return self._job

    @property
    def group(self) -> int:
        """The group."""
        return self._job.group

    @property
    def modulus(self) -> int:
        """1 for the prime 86,399, 2 for 302,399."""
        return self._job.modulus

    @property
    def prime(self) -> int:
        """The prime of its modulus."""
        return PRIMES.get(self._job.modulus, 0)

    @property
    def lengths(self) -> Tuple[int, int, int]:
        """N1, N2, N3."""
        return self._job.a.length, self._job.b.length, self._job.c.length

    @property
    def lists(self) -> List[List[int]]:
        """The factor lists of the three axes."""
        return [factors_of(axis.factors) for axis in (self._job.a, self._job.b, self._job.c)]

    @property
    def state(self) -> int:
        """Whether it is collecting, holds factors or holds a map, as State names them."""
        return self._job.state

    @property
    def planes(self) -> int:
        """How many planes are stored."""
        return planes(self._job.group, self._job.c.length)

    @property
    def volume(self) -> Any:
        """The volume as it is, without a copy, as [z, x, y]: residues of the map with two zeros behind each row, or packed factors."""
        numbers, count = flat(self._volume, NUMBERS), volume_length(self._job.group, self.lengths)
        return shaped(self._volume, shape_of(self._job.group, self.lengths), NUMBERS) if len(numbers) == count else numbers

    def __repr__(self) -> str:
        return "<Entry of group %d, %d x %d x %d points, modulus %d, state %d>" % (self.group, *self.lengths, self.modulus, self.state)

    # ---- the calls

    def record(self, h: int, k: int, l: int, a: int, b: int = 0) -> None:
        """Records a + b i at an index, and the implied values at all images. A value from -p + 1 to -1 stands for its residue, as -1 does for p - 1."""
        at = Reflection(*indices((h, k, l), self.lengths))
        self._job = calls.record(self._job, at, counted_from_end(a, self.prime), counted_from_end(b, self.prime), self._volume)

    def synthesis(self) -> Entry:
        """From factors to the map; gives the entry itself."""
        self._job = calls.synthesis(self._job, self._volume, self._scratch)
        return self

    def analysis(self) -> Entry:
        """From the map to its factors; gives the entry itself."""
        self._job = calls.analysis(self._job, self._volume, self._scratch)
        return self

    def point(self, x: int, y: int, z: int) -> int:
        """The density at a point anywhere in the cell, the whole number next to zero."""
        return calls.point(self._job, GridPoint(*indices((x, y, z), self.lengths)), self._volume)

    def factor(self, h: int, k: int, l: int) -> Tuple[int, int]:
        """The structure factor a + b i at an index anywhere in the cell, as the residues a and b."""
        return calls.factor(self._job, Reflection(*indices((h, k, l), self.lengths)), self._volume)

    def map_power(self) -> int:
        """The sum of the squares of the map over the whole cell, modulo the prime."""
        return calls.map_power(self._job, self._volume)

    def factor_power(self) -> int:
        """The sum of F conj F over all indices, modulo the prime. A synthesis multiplies it by N1 N2 N3."""
        return calls.factor_power(self._job, self._volume)

    def file(self) -> bytes:
        """The factor file of an entry that holds factors."""
        out = bytearray(calls.file_length(self._job, self._volume))
        calls.write_file(self._job, self._volume, out)
        return bytes(out)

    def write(self, path: Path) -> None:
        """Writes its factor file; where it has none, no file is opened."""
        contents = self.file()
        with open(path, "wb") as file:
            file.write(contents)

    def map(self) -> Map:
        """The densities of the map that it holds, the whole numbers next to zero: a copy, which later calls leave as it is."""
        calls.map_power(self._job, self._volume)  # refused where it holds no map
        residues, half = flat(self._volume, NUMBERS), self.prime // 2
        if numpy is not None:
            numbers = residues.astype("int64")
            numbers[numbers > half] -= self.prime
        else:
            numbers = filled((residue - self.prime if residue > half else residue for residue in residues), COUNTS)
        return Map(self.group, self.lengths, numbers)


def read(path: Path) -> Entry:
    """The entry of a factor file."""
    return Entry.read(path)


def combine(first: Entry, second: Entry) -> Map:
    """Two maps of one cell, the first modulo 86,399 and the second modulo 302,399, as the only whole numbers that leave both."""
    for entry in (first, second):
        if not isinstance(entry, Entry):
            raise TypeError("two entries are combined, and not a %s" % type(entry).__name__)
    output = zeros(volume_length(first.group, first.lengths), COUNTS)
    calls.combine(first.job, first._volume, second.job, second._volume, output)
    return Map(first.group, first.lengths, output)
