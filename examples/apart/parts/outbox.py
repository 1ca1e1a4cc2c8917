"""The packets for one peer, numbered from 0. A server forgets those that the peer has on disk."""

from __future__ import annotations

import asyncio
from typing import List

# What a member that needs no more says that it has.
ALL = 0xFFFFFFFFFFFFFFFF


class Outbox:
    """What a program has for a peer."""

    def __init__(self) -> None:
        self.packets: List[bytes] = []
        self.first = 0
        self.more = asyncio.Event()
        self.is_done = False

    @property
    def count(self) -> int:
        """How many packets there were."""
        return self.first + len(self.packets)

    def put(self, data: bytes) -> None:
        self.packets.append(data)
        self.more.set()

    def since(self, number: int) -> List[bytes]:
        return self.packets[max(0, number - self.first) :]

    def forget(self, number: int) -> None:
        """The peer has so many on disk."""
        self.is_done = self.is_done or number == ALL
        gone = min(max(0, number - self.first), len(self.packets))
        del self.packets[:gone]
        self.first += gone
