"""A refusal as an exception."""
from __future__ import annotations

from typing import Optional, Tuple

from .declarations import WORDS


class Refused(Exception):
    """A call was refused, and nothing has changed.

    `number` is the refusal's, as in recorder.h and in docs/FORMATS.md, and `words` says it. `call` is the call of recorder.h. `place` is the place of the
    record in a file, from 0, or None where no record is at fault; `faults` are the places of the fewest records that are refused so.
    """

    def __init__(self, call: str, number: int, place: Optional[int] = None, faults: Tuple[int, ...] = ()) -> None:
        super().__init__(call, number, place, faults)
        self.call, self.number, self.place, self.faults = call, number, place, faults
        self.words = WORDS.get(number, "a refusal of another version")

    def __str__(self) -> str:
        record = "" if self.place is None else " at record %d" % self.place
        others = "; records at fault: %s" % ", ".join(map(str, self.faults)) if self.faults else ""
        return "%s refused %d%s: %s%s" % (self.call, self.number, record, self.words, others)
