"""Several syntheses at once: a scheduler whose entries take turns, a line each."""
from __future__ import annotations

from typing import Dict, Iterator, NamedTuple, Optional, Tuple

from . import calls
from .arrays import NUMBERS, zeros
from .declarations import LANES, SCRATCH, Job, Lanes
from .entries import Entry


class Turn(NamedTuple):
    """A turn: the lane that was served, 0 where none runs, and the entry that it finished, if it did."""
    lane: int
    finished: Optional[Entry]


class Scheduler:
    """Eight lanes, numbered from 1. It keeps the entries that run, and lends each turn the volume of its lane.

    While an entry runs its job is in its lane: the entry has a job of zeros, which every call refuses with 25, until the turn that finishes it. One thread
    at a time uses a scheduler; several may use one each.
    """

    def __init__(self) -> None:
        self._lanes: Lanes = calls.scheduler_new()
        self._entries: Dict[int, Entry] = {}
        self._scratch = zeros(SCRATCH, NUMBERS)

    @property
    def entries(self) -> Dict[int, Entry]:
        """The entries that run, by their lanes."""
        return dict(self._entries)

    @property
    def lanes(self) -> Lanes:
        """The scheduler as the library has it, a value."""
        return self._lanes

    @property
    def next(self) -> int:
        """The lane that the next turn serves, or 0."""
        return calls.scheduler_next(self._lanes)

    def lines_left(self, lane: int) -> int:
        """How many lines of a lane's job are left, 0 of a free lane: it is finished within 8 times as many turns."""
        return int(self._lanes.lanes[lane - 1].left) if lane in self._entries else 0

    def enter(self, entry: Entry, lane: Optional[int] = None) -> int:
        """An entry that holds factors enters a lane, the lowest that is free where none is named. Where all are busy that is refused 31; where the
        volumes would have too many numbers together, 32: take turns until a lane is finished. Gives the lane."""
        if not isinstance(entry, Entry):
            raise TypeError("an entry enters a lane, and not a %s" % type(entry).__name__)
        if lane is None:
            lane = next((free for free in range(1, LANES + 1) if free not in self._entries), 1)
        self._lanes = calls.scheduler_enter(self._lanes, lane, entry.job, entry._volume, self._scratch)
        self._entries[int(lane)] = entry
        entry._job = Job()
        return int(lane)

    def turn(self) -> Turn:
        """One line of the next lane."""
        lane = self.next
        volume = self._entries[lane]._volume if lane else zeros(0, NUMBERS)
        answer = calls.scheduler_turn(self._lanes, volume, self._scratch)
        self._lanes = answer.scheduler
        if not answer.finished:
            return Turn(answer.lane, None)
        entry = self._entries.pop(answer.lane)
        entry._job = answer.job
        return Turn(answer.lane, entry)

    def run(self) -> Iterator[Tuple[int, Entry]]:
        """Takes turns until no lane runs, and gives each entry with its lane as it is finished. Others may enter in between."""
        while self._entries:
            lane, finished = self.turn()
            if finished is not None:
                yield lane, finished

    def withdraw(self, lane: int) -> Entry:
        """Frees a lane before its entry is finished. The entry's volume is then neither factors nor a map, and its job stays all zeros."""
        self._lanes = calls.scheduler_withdraw(self._lanes, lane)
        return self._entries.pop(int(lane))
