"""A sealed link to one peer: how it begins, and what goes over it.

Each end begins with a greeting. Then come packets, each as its length and its bytes, and marks, which are no lengths.
"""

from __future__ import annotations

import asyncio
import enum
import errno
import socket
import struct
from typing import NamedTuple, Tuple, Union

from parts.errors import Wrong
from parts.folder import Place
from parts.limits import Limits
from parts.outbox import Outbox
from parts.packets import NUMBER

LETTERS = b"talek\0\0\4"
# These letters, the group file's digest, who speaks (server j or client j - 1), an instance, and how many packets it
# has of the other. A client tells its own instance, a server the last one that it heard of the client.
GREETING = struct.Struct(">8s32sI16sQ")
COUNT = struct.Struct(">Q")
# The bytes of an instance, which each start of a member draws, and what a server says that heard of none.
INSTANCE_SIZE = 16
NO_INSTANCE = bytes(INSTANCE_SIZE)
# How many bytes are passed over of a peer that is told why nothing more is taken of it.
TO_PASS_OVER = 1 << 16


class Mark(enum.IntEnum):
    """What isn't a packet."""

    KEPT = 0xFFFFFFFF  # from a member: how many of the server's packets are on its disk
    SPEAKS = 0xFFFFFFFE  # from a member: from now on this instance speaks
    HEARD = 0xFFFFFFFD  # from a server: it knows that, and has so many packets; or that the member needs no more
    WRITES = 0xFFFFFFFC  # from a server: a phase, and a digest of each client's writes in it
    CLOSED = 0xFFFFFFFB  # from a server: it takes nothing more of this member
    LATE = 0xFFFFFFFA  # from a server: a bit for each client for whom the others wait


class Greeting(NamedTuple):
    """How an end begins."""

    digest: bytes
    peer: int
    instance: bytes
    count: int


Item = Tuple[Union[Mark, None], bytes]


class Link:
    """One end of a sealed link."""

    def __init__(self, place: Place, reader: asyncio.StreamReader, writer: asyncio.StreamWriter,
                 limits: Limits) -> None:
        self.place, self.reader, self.writer = place, reader, writer
        self.other = "client" if place.role == "server" else "server"
        self.said = 0  # how many packets of the peer it heard that the journal has
        self.is_heard = False  # whether the member at its other end was told that it is heard
        self.late = 0  # of whom it was said last that they are late
        keep_alive(writer.get_extra_info("socket"), limits.silence)

    # ---- how it begins

    def greet(self, instance: bytes, count: int) -> None:
        self.writer.write(GREETING.pack(LETTERS, self.place.group.digest, self.place.number, instance, count))

    async def hear_greeting(self) -> Greeting:
        letters, *rest = GREETING.unpack(await self.reader.readexactly(GREETING.size))
        if letters != LETTERS:
            raise Wrong("a peer has another version of the switch, or none")
        return Greeting(*rest)

    def check_digest(self, greeting: Greeting) -> None:
        """Both have the same group file."""
        if greeting.digest != self.place.group.digest:
            raise Wrong("it has another group file than this folder, whose fingerprint begins with "
                        f"{self.place.group.digest.hex()[:8]}: compare what 'group show' says")

    def check_certificate(self, peer: int) -> None:
        """Refuses a link whose other end shows another certificate than the group file has for a peer."""
        group = self.place.group
        if not 1 <= peer <= len(group.clients if self.other == "client" else group.servers):
            raise Wrong("a peer says that it is one who isn't there")
        sealed = self.writer.get_extra_info("ssl_object")
        if sealed is None or sealed.getpeercert(binary_form=True) != group.certificate(self.other, peer):
            raise Wrong("a peer has another certificate than the group file says")

    # ---- what goes over it

    def send(self, data: bytes) -> None:
        self.writer.write(NUMBER.pack(len(data)) + data)

    def send_mark(self, mark: Mark, data: bytes = b"") -> None:
        self.writer.write(NUMBER.pack(mark) + data)

    async def next(self, longest: int) -> Item:
        """The next packet, or the next mark with what belongs to it."""
        (size,) = NUMBER.unpack(await self.reader.readexactly(NUMBER.size))
        if size <= longest:
            return None, await self.reader.readexactly(size)
        sizes = {Mark.KEPT: COUNT.size, Mark.SPEAKS: 0, Mark.HEARD: COUNT.size, Mark.CLOSED: 0, Mark.LATE: COUNT.size,
                 Mark.WRITES: NUMBER.size + 16 * len(self.place.group.clients)}
        if size not in sizes:
            raise Wrong("a peer sends more than any frame has")
        return Mark(size), await self.reader.readexactly(sizes[Mark(size)])

    def close(self) -> None:
        self.writer.transport.abort()

    async def hear_out(self) -> None:
        """Passes over what still comes, up to so much and for a moment, until the other end closes the link: to close
        it with bytes that nobody read could take back what was sent last."""
        try:
            await asyncio.wait_for(self.reader.readexactly(TO_PASS_OVER), 1)
        except (OSError, EOFError, asyncio.TimeoutError):
            pass

    async def part(self) -> None:
        """Closes the link once all is sent."""
        self.writer.close()
        try:
            await asyncio.wait_for(self.writer.wait_closed(), 1)
        except (OSError, asyncio.TimeoutError):
            pass


class Sender:
    """Sends what a peer lacks, from a number on."""

    def __init__(self, link: Link, outbox: Outbox, number: int) -> None:
        self.link, self.outbox, self.number = link, outbox, number

    async def run(self) -> None:
        while True:
            self.outbox.more.clear()
            for data in self.outbox.since(self.number):
                self.before(data)
                self.link.send(data)
                self.number += 1
            self.behind()
            await self.link.writer.drain()
            await self.outbox.more.wait()

    def before(self, data: bytes) -> None:
        """What goes in front of a packet."""

    def behind(self) -> None:
        """What goes behind all packets that are there."""


def keep_alive(sock: socket.socket | None, silence: float) -> None:
    """Asks for a link that breaks where the other end acknowledges nothing for so long."""
    if sock is None:
        raise ConnectionResetError(errno.ECONNRESET, "the link broke at once")
    if sock.family not in (socket.AF_INET, socket.AF_INET6):
        return
    sock.setsockopt(socket.SOL_SOCKET, socket.SO_KEEPALIVE, 1)
    third = max(1, round(silence / 3))
    for name, value in [("TCP_KEEPIDLE", third), ("TCP_KEEPINTVL", third), ("TCP_KEEPCNT", 2),
                        ("TCP_USER_TIMEOUT", round(1000 * silence)), ("TCP_NODELAY", 1)]:
        if hasattr(socket, name):
            sock.setsockopt(socket.IPPROTO_TCP, getattr(socket, name), value)
