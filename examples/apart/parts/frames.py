"""Frames, as far as the switch looks at them: their kinds, and why a server refuses one.

The causes are those of docs/FORMATS.md, "Refused frames", and are worked out here from the bytes alone.
"""

from __future__ import annotations

import enum
import hashlib
from typing import Dict, Iterable, List, Tuple

from parts.group_file import Shape
from parts.packets import number_at

WRITE, READS, REPLY, EPOCH, REFUSED = 1, (2, 6, 7), 3, 0x0B, 0x0C
# The bytes of a digest of writes.
DIGEST = 16


class Cause(enum.IntEnum):
    """Why a server refuses a frame."""

    KIND = 1
    LENGTH = 2
    VERSION = 3
    OTHER_CLIENT = 4
    OTHER_TURN = 5
    OTHER_EPOCH = 6
    CLIENT = 7
    TURN = 8
    FIRST = 9
    SECOND = 10
    HIT = 11
    EPOCH = 12


def lengths_of(form: int, shape: Shape) -> Dict[int, int]:
    """By kind the length of a frame that a client sends."""
    plain = 14 + shape.buckets // 4
    reads = {2: plain} if form == 1 else {2: plain, 6: 78, 7: 64 + plain}
    return {WRITE: 18 + 4 * shape.hits + shape.block, **reads}


def reply_length(shape: Shape) -> int:
    return 14 + 2 * shape.depth * (16 + shape.block)


def epoch_length(shape: Shape) -> int:
    return 6 + shape.filter // 8


def refusal(cause: int) -> bytes:
    """The frame by which a server tells why it refused one."""
    return bytes([REFUSED, 1, cause])


def first_true(checks: Iterable[Tuple[Cause, bool]]) -> Cause | None:
    """The first cause whose check holds."""
    return next((cause for cause, holds in checks if holds), None)


def write_checks(shape: Shape, client: int, written: int, data: bytes) -> List[Tuple[Cause, bool]]:
    checks = [(Cause.FIRST, number_at(data, 10) >= shape.buckets), (Cause.SECOND, number_at(data, 14) >= shape.buckets)]
    checks += [(Cause.HIT, number_at(data, 18 + 4 * at) >= shape.filter) for at in range(shape.hits)]
    return checks + [(Cause.OTHER_CLIENT, number_at(data, 2) != client),
                     (Cause.OTHER_TURN, number_at(data, 6) != written)]


def read_checks(shape: Shape, client: int, read: int, data: bytes) -> List[Tuple[Cause, bool]]:
    turn, epoch = number_at(data, 6), number_at(data, 10)
    return [(Cause.EPOCH, epoch > shape.phases), (Cause.OTHER_CLIENT, number_at(data, 2) != client),
            (Cause.OTHER_TURN, turn != read), (Cause.OTHER_EPOCH, epoch != turn // shape.ticks)]


def cause_of(form: int, shape: Shape, client: int, done: Tuple[int, int], data: bytes) -> Cause | None:
    """Why a server refuses bytes of a client that wrote and read in so many turns, or None."""
    kind, lengths = data[0] if data else 0, lengths_of(form, shape)
    if kind not in lengths:
        return Cause.KIND
    if len(data) != lengths[kind]:
        return Cause.LENGTH
    if data[1] != 1:
        return Cause.VERSION
    checks = [(Cause.CLIENT, number_at(data, 2) >= shape.clients), (Cause.TURN, number_at(data, 6) >= shape.turns)]
    if kind == WRITE:
        checks += write_checks(shape, client, done[0], data)
    else:
        checks += read_checks(shape, client, done[1], data)
    return first_true(checks)


class Intake:
    """What a server took of one client: how many writes and reads, and a digest of the writes of each phase."""

    def __init__(self, form: int, shape: Shape, client: int) -> None:
        self.form, self.shape, self.client = form, shape, client
        self.written = self.read = 0
        self.digests: List[bytes] = []  # by phase that is over, phase 1 first
        self.open = hashlib.sha256()

    def cause(self, data: bytes) -> Cause | None:
        """Why the program would refuse a frame of this client."""
        return cause_of(self.form, self.shape, self.client, (self.written, self.read), data)

    def take(self, data: bytes) -> None:
        """Takes a frame that has no cause to be refused."""
        if data[0] != WRITE:
            self.read += 1
            return
        self.written += 1
        self.open.update(data)
        if self.written % self.shape.ticks == 0:
            self.digests.append(self.open.digest()[:DIGEST])
            self.open = hashlib.sha256()


def digests_at(intakes: List[Intake], phase: int) -> bytes:
    """The digests of all clients' writes of a phase, which all of them have."""
    return b"".join(it.digests[phase - 1] for it in intakes)


def parted(digests: bytes) -> List[bytes]:
    return [digests[at : at + DIGEST] for at in range(0, len(digests), DIGEST)]


