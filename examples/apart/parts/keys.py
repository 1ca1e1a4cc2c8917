"""A log's keys, made as `talek handle RUN ROOT` makes them."""

from __future__ import annotations

import struct
from typing import List

# The length of a log's root and of a client's seed, and that of a handle.
KEY, HANDLE = 32, 104


def quarter_round(state: List[int], a: int, b: int, c: int, d: int) -> None:
    for one, two, three, turn in ((a, b, d, 16), (c, d, b, 12), (a, b, d, 8), (c, d, b, 7)):
        state[one] = (state[one] + state[two]) & 0xFFFFFFFF
        mixed = state[three] ^ state[one]
        state[three] = (mixed << turn | mixed >> (32 - turn)) & 0xFFFFFFFF


def words_of(key: bytes, stream: int, counter: int) -> List[int]:
    """The sixteen words of a block of ChaCha20 with a counter and a stream of 64 bits each."""
    first = [*struct.unpack("<16I", b"expand 32-byte k" + key + struct.pack("<QQ", counter, stream))]
    state = first[:]
    for _ in range(10):
        for at in range(4):
            quarter_round(state, at, 4 + at, 8 + at, 12 + at)
        for at in range(4):
            quarter_round(state, at, 4 + (at + 1) % 4, 8 + (at + 2) % 4, 12 + (at + 3) % 4)
    return [(one + other) & 0xFFFFFFFF for one, other in zip(first, state)]


def handle_of(number: int, root: bytes) -> bytes:
    """The handle of an identifier and a root."""
    words = words_of(root, number, 0) + words_of(root, number, 1)
    return struct.pack(">Q", number) + struct.pack("<24I", *words[:24])
