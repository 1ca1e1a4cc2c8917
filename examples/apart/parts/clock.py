"""The one clock of a group: a tick at each multiple of the group's tick since 1970."""

from __future__ import annotations

import asyncio
import time
from typing import NamedTuple


class Moment(NamedTuple):
    """A moment by the clock that is shown and may be set, and by one that nobody sets."""

    shown: float
    even: float


class Clock:
    """The time of day, which may be set back or ahead, and waiting, which goes on evenly."""

    def now(self) -> float:
        return time.time()

    def moment(self) -> Moment:
        return Moment(self.now(), time.monotonic())

    async def wait(self, seconds: float) -> None:
        await asyncio.sleep(seconds)


def until_next(now: float, tick: float, is_first: bool) -> float:
    """How long it is to the next tick. Between two ticks are half a tick at least, and one and a half at most, so a
    clock that is set anew costs a tick."""
    left = tick - now % tick
    return left + tick if left <= tick / 2 and not is_first else left
