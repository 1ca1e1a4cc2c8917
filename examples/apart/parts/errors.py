"""Why something can't be done, or goes on no further."""

from __future__ import annotations

import enum


class Wrong(Exception):
    """Why this can't be done. It is told, and what comes next may be good again."""


class End(enum.Enum):
    """How a switch ends: the word that it says last, and its status. Up to OLDER they are those of the programs."""

    DONE = ("done", 0)
    MEMORY = ("memory", 1)
    READ = ("read", 4)
    WRITE = ("write", 5)
    CUT = ("cut", 20)
    LONG = ("long", 21)
    SETUP = ("setup", 22)
    PEER = ("peer", 23)
    DIFFER = ("differ", 24)
    REFUSED = ("refused", 25)
    OLDER = ("older", 26)
    COPIED = ("copied", 27)
    JOURNAL = ("journal", 28)
    STOPPED = ("stopped", 29)
    BROKEN = ("broken", 70)

    @property
    def word(self) -> str:
        return self.value[0]

    @property
    def status(self) -> int:
        return self.value[1]


class Stop(Exception):
    """Why a switch goes on no further, and how it ends then."""

    def __init__(self, end: End, why: str) -> None:
        super().__init__(why)
        self.end = end


# How a program ended, by its status.
ENDS = {end.status: end for end in End if end.status <= End.OLDER.status}
