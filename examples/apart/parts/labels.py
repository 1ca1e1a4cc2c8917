"""What logs are called where people read or type: by the names of those who write them."""

from __future__ import annotations

from collections import Counter
from typing import List

from parts.group_file import Log


class Labels:
    """By log its label: the writer's name, and where that has several logs or is a number, a point and the log's
    number besides."""

    def __init__(self, logs: List[Log]) -> None:
        counts = Counter(it.writer for it in logs)
        self.all = [it.writer if counts[it.writer] == 1 and not it.writer.isdigit() else f"{it.writer}.{at}"
                    for at, it in enumerate(logs)]

    def of(self, log: int) -> str:
        """A log's label; of one that isn't there its number."""
        return self.all[log] if log < len(self.all) else str(log)

    def log(self, word: str) -> int | None:
        """The log of a label or of a number."""
        if word in self.all:
            return self.all.index(word)
        is_number = word.isascii() and word.isdigit() and len(word) <= 10 and int(word) < 1 << 32
        return int(word) if is_number else None
