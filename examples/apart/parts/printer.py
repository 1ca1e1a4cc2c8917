"""Lines for a terminal, by a thread of their own: whoever doesn't read them stops nobody."""

from __future__ import annotations

import os
import threading
import time
from collections import deque
from typing import Callable, Dict

from parts.printable import shown

# How many causes are kept apart.
CAUSES = 1_000


class Printer:
    """Writes lines to a descriptor in their order, when it can."""

    def __init__(self, descriptor: int) -> None:
        self.descriptor = descriptor
        self.lines: deque[bytes] = deque()
        self.changed = threading.Condition()
        self.is_gone = False  # nobody can get a line any more
        threading.Thread(target=self.work, daemon=True).start()

    def put(self, line: bytes) -> None:
        with self.changed:
            if not self.is_gone:
                self.lines.append(line + b"\n")
                self.changed.notify_all()

    def waiting(self) -> int:
        return len(self.lines)

    def work(self) -> None:
        while True:
            with self.changed:
                self.changed.wait_for(lambda: self.lines)
                line = self.lines[0]
            self.write(line)
            with self.changed:
                self.lines.popleft()
                if self.is_gone:
                    self.lines.clear()
                self.changed.notify_all()

    def write(self, data: bytes) -> None:
        try:
            while data:
                data = data[os.write(self.descriptor, data) :]
        except OSError:
            self.is_gone = True

    def finish(self, seconds: float) -> None:
        """Waits until all is written, but no longer than so."""
        with self.changed:
            self.changed.wait_for(lambda: not self.lines, seconds)


class Complaints:
    """Lines of error: of each cause one, and then how often it came, in so many seconds."""

    def __init__(self, put: Callable[[bytes], None], pause: float, clock: Callable[[], float] = time.monotonic) -> None:
        self.put, self.pause, self.clock = put, pause, clock
        self.told: Dict[str, tuple[float, int]] = {}  # by cause, when it was told, and how often it came since

    def tell(self, cause: str) -> None:
        now = self.clock()
        when, count = self.told.get(cause, (None, 0))
        if when is not None and now - when < self.pause:
            self.told[cause] = when, count + 1
            return
        if len(self.told) >= CAUSES:
            self.told.clear()
        self.told[cause] = now, 0
        again = f" (and {count} times since it was last told)" if count else ""
        self.put(f"switch: {shown(cause)}{again}".encode())
