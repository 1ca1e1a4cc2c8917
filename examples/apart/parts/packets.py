"""Packets, as they go over a program's streams: a peer, a length, and so many bytes."""

from __future__ import annotations

import struct
from typing import List, Tuple

# Of a packet: its peer and its length. Peer 0 is the program's own host.
HEAD = struct.Struct(">II")
NUMBER = struct.Struct(">I")
HOST = 0
# No frame of a server is longer, and no line may be.
LONGEST = 65_536

Packet = Tuple[int, bytes]


def spelled(peer: int, data: bytes) -> bytes:
    return HEAD.pack(peer, len(data)) + data


def packets_of(data: bytes) -> tuple[List[Packet], int]:
    """The packets that bytes begin with, and how many bytes these are."""
    found, at = [], 0
    while len(data) - at >= HEAD.size:
        peer, size = HEAD.unpack_from(data, at)
        if len(data) - at - HEAD.size < size:
            break
        found.append((peer, data[at + HEAD.size : at + HEAD.size + size]))
        at += HEAD.size + size
    return found, at


def number_at(data: bytes, at: int) -> int:
    return NUMBER.unpack_from(data, at)[0]


# What a member's host says.


def say(log: int, text: bytes) -> bytes:
    return b"S" + NUMBER.pack(log) + text


def ahead(turns: int) -> bytes:
    return b"A" + NUMBER.pack(turns)


def has(count: int) -> bytes:
    return b"G" + NUMBER.pack(count)


TICK = b"T"
# What a program answers at once, and is as it was: so it has answered all that came before. To a member it is a text on
# a log that nobody has, to a server a frame of no bytes. With each is how its answer begins.
FENCES = {"client": ((HOST, say(0xFFFFFFFF, b"")), (HOST, b"r\xff\xff\xff\xff")),
          "server": ((1, b""), (1, b"\x0c"))}
