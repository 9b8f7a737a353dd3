"""Which day a written date means in a territory, as the program oldstyle returns it.

    >>> from oldstyle import Register
    >>> print(Register("samples.journal").read("GB", "11 Feb. 1731/32"))
    Friday 11 February 1731/2, 1732-02-22 Gregorian (GB, edition 5)
"""
from .answers import Change, Day, Feast, Land, ListedEaster, Period, Reading, Regime, Run
from .faults import (BadCode, BadDate, BadField, DayOffLine, Fault, JournalRefused, LineTooLong,
                     NotJson, NotObject, OldstyleError, PlacesRefused, ProgramBusy,
                     ProgramDiffers, ProgramEnded, ProgramFailed, ProgramMissing, ProgramSlow,
                     ReadOnly, UnknownLand, UnknownOp, UnknownReader, YearOffRange)
from .frames import read_frame
from .places import Places
from .pool import Pool
from .register import Register

__version__ = "0.1.0"
__all__ = ["BadCode", "BadDate", "BadField", "Change", "Day", "DayOffLine", "Fault", "Feast",
           "JournalRefused", "Land", "LineTooLong", "ListedEaster", "NotJson", "NotObject",
           "OldstyleError", "Period", "Places", "PlacesRefused", "Pool", "ProgramBusy",
           "ProgramDiffers", "ProgramEnded", "ProgramFailed", "ProgramMissing", "ProgramSlow",
           "ReadOnly", "Reading", "Regime", "Register", "Run", "UnknownLand", "UnknownOp",
           "UnknownReader", "YearOffRange", "read_frame"]
