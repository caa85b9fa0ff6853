"""The map recorder: maps of unit cells from structure factors, by a library whose every function is proved.

    entry = recorder.read("samples/p21.factors").synthesis()
    print(entry.point(0, 0, 0), entry.map().section(0))

`Entry` keeps a job, its volume and its scratch together, `Map` whole numbers, `Scheduler` the entries of eight lanes; `recorder.calls` has the calls of
recorder.h one by one. Arrays are of numpy where it is there, else of the standard library, and are lent without a copy. A refused call raises `Refused`,
with the refusal's number, its words and the record's place.
"""
from . import calls
from .cells import factor_list, line_length, volume_length
from .declarations import (GREATEST_COMBINED, GREATEST_EXACT, LANES, LONGEST, LONGEST_WINDOW, MOST_NUMBERS, PRIMES, SCRATCH, Axis, Direction,
                           GridPoint, Group, Job, Kind, Lane, Lanes, Opening, Reflection, Refusal, State, UnitCell)
from .entries import Entry, combine, read
from .lanes import Scheduler, Turn
from .lines import Windows, drift, line
from .maps import Map
from .refusals import Refused

__version__ = "2.2.0"
__all__ = ["GREATEST_COMBINED", "GREATEST_EXACT", "LANES", "LONGEST", "LONGEST_WINDOW", "MOST_NUMBERS", "PRIMES", "SCRATCH", "Axis", "Direction",
           "Entry", "GridPoint", "Group", "Job", "Kind", "Lane", "Lanes", "Map", "Opening", "Reflection", "Refusal", "Refused", "Scheduler", "State",
           "Turn", "UnitCell", "Windows", "calls", "combine", "drift", "factor_list", "line", "line_length", "read", "volume_length"]
