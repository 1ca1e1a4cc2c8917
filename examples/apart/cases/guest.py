"""Someone who speaks to a server without a program, and one who waits at its address in its place."""

from __future__ import annotations

import asyncio
import logging
import ssl
from pathlib import Path
from typing import List

import beside
from cases.stage import FAST
from parts.clock import Clock
from parts.errors import Stop, Wrong
from parts.folder import Place
from parts.journal import INSTANCE, records_of
from parts.limits import Limits
from parts.link import Greeting, Link, Mark
from parts.member import Member
from parts.packets import LONGEST
from parts.printer import Complaints

logging.getLogger("asyncio").setLevel(logging.CRITICAL)  # (links are broken on purpose here)
BROKEN = (OSError, ssl.SSLError, asyncio.IncompleteReadError, asyncio.TimeoutError, Wrong)


class Guest:
    """Someone who has a member's folder and goes to server 1."""

    def __init__(self, folder: Path, server: int = 1, newest: ssl.TLSVersion = ssl.TLSVersion.TLSv1_3) -> None:
        self.place, self.server = Place(folder, "client"), server
        self.context = self.place.context()
        self.context.minimum_version, self.context.maximum_version = ssl.TLSVersion.TLSv1_2, newest
        data = (folder / "journal").read_bytes()
        packets = records_of(data).packets
        self.have = sum(peer == server for peer, _ in packets)
        # it speaks as the last instance of the folder, so that the member may go on afterwards
        self.instance = [it for peer, it in packets if peer == INSTANCE][-1]

    async def greet(self) -> Greeting:
        """Goes to the server and hears how it greets."""
        _, host, port = self.place.group.servers[self.server - 1]
        reader, writer = await asyncio.wait_for(asyncio.open_connection(host, port, ssl=self.context), 60)
        self.link = Link(self.place, reader, writer, Limits())
        self.link.greet(self.instance, self.have)
        return await asyncio.wait_for(self.link.hear_greeting(), 60)

    async def speak(self) -> Mark | None:
        """Greets and speaks. Gives the mark that it gets for it."""
        await self.greet()
        return await self.only_speak()

    async def is_heard(self) -> bool:
        """Whether the server, which it greeted, hears it."""
        try:
            return await self.only_speak() is Mark.HEARD
        except BROKEN:
            return False

    async def only_speak(self) -> Mark | None:
        self.link.send_mark(Mark.SPEAKS)
        mark, _ = await asyncio.wait_for(self.link.next(LONGEST), 60)
        return mark

    async def is_let_in(self) -> bool:
        """Whether the server hears it."""
        try:
            return await self.speak() is Mark.HEARD
        except BROKEN:
            return False

    async def is_closed_out(self) -> bool:
        try:
            return await self.speak() is Mark.CLOSED
        except BROKEN:
            return False

    async def sends(self, frames: List[bytes]) -> List[bytes]:
        """Sends frames, and gives what is refused until the link ends."""
        await self.speak()
        answers = []
        try:
            for frame in frames:
                self.link.send(frame)
            while True:
                mark, data = await asyncio.wait_for(self.link.next(LONGEST), 60)
                if mark is None and data[0] == 0x0C:
                    answers.append(data)
        except BROKEN:
            return answers
        finally:
            self.link.close()


async def sent_to(folder: Path, client: Path, host: str) -> bytes:
    """What a member sends to a false server 1, which has another certificate in its folder."""
    place, heard = Place(folder, "server"), []

    async def answer(reader: asyncio.StreamReader, writer: asyncio.StreamWriter) -> None:
        try:
            heard.append(await reader.read(100))
        except OSError:
            pass  # it broke the link
        writer.close()

    (port,) = beside.free_ports(1, host)
    listening = await asyncio.start_server(answer, host, port, ssl=place.context())
    made = Member(Place(client, "client"), lambda line: None, Complaints(lambda line: None, 60), FAST, Clock())
    made.place.group.servers[0] = made.place.group.servers[0]._replace(host=host, port=port)
    try:
        await asyncio.wait_for(made.visit(1, made.place.context()), 20)
    except (*BROKEN, Stop):
        pass
    await asyncio.sleep(0.2)
    listening.close()
    return b"".join(heard)

