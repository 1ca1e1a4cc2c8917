"""Tells who is awaited where nothing comes, and since when; and that it goes on."""

from __future__ import annotations

import time
from typing import Callable, Dict

from parts.clock import Moment


class Awaiting:
    """What was told of those who are awaited."""

    def __init__(self, put: Callable[[str], None], end: str, patience: float) -> None:
        self.put, self.end, self.patience = put, end, patience
        self.told: set[str] = set()

    def tell(self, who: Dict[str, Moment]) -> None:
        """Tells those of whom it isn't told yet, where it takes too long."""
        for name, since in who.items():
            if name not in self.told and time.monotonic() - since.even >= self.patience:
                self.told.add(name)
                when = time.strftime("%Y-%m-%d %H:%M:%S", time.localtime(since.shown))
                self.put(f"awaits {name} since {when}")

    def over(self) -> None:
        """Nobody is awaited any more."""
        if self.told:
            self.put(self.end)
        self.told.clear()
