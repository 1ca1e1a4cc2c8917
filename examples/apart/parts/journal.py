"""All that a program was given, on disk: each packet and its checksum. Nothing is given before it is here.

A journal begins with whose it is. Each record is a peer, a length, a sum over both and the place in the file, the
bytes, a sum over all, and a last byte. So a record that the end of the file cuts is told from one that was changed.
"""

from __future__ import annotations

import fcntl
import os
import pathlib
import struct
import zlib
from typing import List, NamedTuple

from parts.errors import End, Stop, Wrong
from parts.folder import Owner
from parts.packets import Packet

LETTERS = b"talek j1"
# The letters, the role (1 for a server), the number, the digest, and a sum over these.
OWNER = struct.Struct(">8sII32sI")
ROLES = {"client": 0, "server": 1}
HEAD = struct.Struct(">III")
SUM = struct.Struct(">I")
# How a record ends: with this byte, since a sum may end with zeros, as what a power cut left does.
LAST = b"\xff"
RECORD_SIZE = HEAD.size + SUM.size + 1
# Peers of records that the program isn't given: who spoke for a client, what makes records longer, and that a client
# needs no more, or that a server heard so.
INSTANCE, FILLER, LEFT = 0xFFFFFFFF, 0xFFFFFFFE, 0xFFFFFFFD
LEAST_NOTE = LEFT


def head_of(owner: Owner) -> bytes:
    begin = OWNER.pack(LETTERS, ROLES[owner.role], owner.number, owner.digest, 0)[: -SUM.size]
    return begin + SUM.pack(zlib.crc32(begin))


def recorded(peer: int, data: bytes, at: int) -> bytes:
    """How a packet stands in a journal at a place."""
    begin = struct.pack(">II", peer, len(data))
    head = begin + SUM.pack(zlib.crc32(begin + struct.pack(">Q", at)))
    return head + data + SUM.pack(zlib.crc32(head + data)) + LAST


class BadSum(Exception):
    """Bytes that were changed, and where they begin."""

    def __init__(self, at: int) -> None:
        super().__init__(at)
        self.at = at


class Read(NamedTuple):
    """The records of a journal, and where the last whole one ends."""

    packets: List[Packet]
    end: int


def record_at(data: bytes, at: int) -> Packet | None:
    """The record at a place; None where the file's end cuts it, or nothing but zeros come from some place in it on."""
    rest = len(data) - at
    if rest < HEAD.size:
        return None
    peer, size, head_sum = HEAD.unpack_from(data, at)
    if zlib.crc32(data[at : at + 8] + struct.pack(">Q", at)) != head_sum:
        if len(data[at:].rstrip(b"\0")) < HEAD.size:
            return None
        raise BadSum(at)
    if rest < RECORD_SIZE + size:
        return None
    end = at + HEAD.size + size
    if data[end : end + SUM.size + 1] != SUM.pack(zlib.crc32(data[at:end])) + LAST:
        if len(data[at:].rstrip(b"\0")) < RECORD_SIZE + size:
            return None
        raise BadSum(at)
    return peer, data[at + HEAD.size : end]


def records_of(data: bytes) -> Read:
    """The records of a journal's bytes."""
    packets, at = [], OWNER.size
    while at < len(data):
        packet = record_at(data, at)
        if packet is None:
            break
        packets.append(packet)
        at += RECORD_SIZE + len(packet[1])
    return Read(packets, at)


def given(path: pathlib.Path) -> List[Packet]:
    """The packets that the program of a journal was given."""
    return [it for it in records_of(path.read_bytes()).packets if it[0] < LEAST_NOTE]


def filler(size: int) -> Packet:
    """A record of so many bytes in all, which must be enough for one."""
    return FILLER, bytes(size - RECORD_SIZE)


class Journal:
    """The journal of a folder, which one switch at a time has."""

    def __init__(self, path: pathlib.Path, owner: Owner) -> None:
        self.path = path
        try:
            self.file = open(path, "ab+", buffering=0)
        except OSError as error:
            raise Wrong(f"can't open {path}: {error.strerror}") from error
        if os.fstat(self.file.fileno()).st_mode & 0o077:
            raise Wrong(f"others can read {path}: chmod 600 {path}")
        try:
            fcntl.flock(self.file, fcntl.LOCK_EX | fcntl.LOCK_NB)
        except OSError:
            raise Wrong(f"another switch has {path}") from None
        data = path.read_bytes()
        if len(data) < OWNER.size:
            self.begin(owner, data)
            data = head_of(owner)
        self.check(owner, data)
        self.packets = self.read(data)

    def begin(self, owner: Owner, data: bytes) -> None:
        """A new journal, or one that a power cut left without its head."""
        if data.strip(b"\0") and not head_of(owner).startswith(data.rstrip(b"\0")):
            raise Wrong(f"{self.path} is no journal")
        self.file.truncate(0)
        self.end = 0
        self.write(head_of(owner))
        folder = os.open(self.path.parent, os.O_RDONLY)
        os.fsync(folder)
        os.close(folder)

    def check(self, owner: Owner, data: bytes) -> None:
        """Refuses the journal of another folder."""
        if data[: OWNER.size] == head_of(owner):
            return
        letters, role, number, _, total = OWNER.unpack_from(data)
        if letters != LETTERS or zlib.crc32(data[: OWNER.size - SUM.size]) != total or role not in (0, 1):
            raise Wrong(f"{self.path} is no journal")
        whose = Owner("server" if role else "client", number, b"")
        run = "" if str(whose) != str(owner) else " of another run or another setup"
        raise Wrong(f"{self.path} is the journal of {whose}{run}, and this is the folder of {owner}")

    def read(self, data: bytes) -> List[Packet]:
        """Its records. What a power cut left half written never reached the program, and is cut off."""
        try:
            found = records_of(data)
        except BadSum as bad:
            raise Stop(End.JOURNAL, f"{self.path} was changed at byte {bad.at}, and stays as it is") from None
        self.end = found.end
        if self.end < len(data):
            self.file.truncate(self.end)
            os.fsync(self.file.fileno())
        return found.packets

    def append(self, packets: List[Packet]) -> None:
        """Puts packets last. They are on disk when this returns."""
        data, at = [], self.end
        for peer, packet in packets:
            data.append(recorded(peer, packet, at))
            at += len(data[-1])
        self.write(b"".join(data))

    def write(self, data: bytes) -> None:
        try:
            rest = data
            while rest:
                rest = rest[self.file.write(rest) :]
            os.fdatasync(self.file.fileno())
        except OSError as error:
            self.cut()
            raise Stop(End.JOURNAL, f"can't write {self.path}: {error.strerror}") from error
        self.end += len(data)

    def cut(self) -> None:
        """Takes back what was written of a record."""
        try:
            self.file.truncate(self.end)
        except OSError:
            pass  # the next start cuts it off
