"""A server's end of all links."""

from __future__ import annotations

import asyncio
import ssl
import time
from pathlib import Path
from typing import Callable, Dict, List

from parts.awaiting import Awaiting
from parts.carrier import Carrier
from parts.clock import Clock
from parts.door import Door, listening_at
from parts.errors import Wrong
from parts.folder import Place
from parts.frames import EPOCH, Intake, digests_at, refusal
from parts.journal import INSTANCE, LEFT
from parts.limits import Limits
from parts.link import COUNT, NO_INSTANCE, Greeting, Link, Mark, Sender
from parts.outbox import ALL
from parts.packets import HOST, NUMBER, number_at
from parts.printer import Complaints
from parts.tasks import begun, ended

BROKEN = (OSError, asyncio.IncompleteReadError, ssl.SSLError)


class ToMember(Sender):
    """Sends a member what it lacks, and before each epoch what was written in its phase."""

    def __init__(self, server: Server, link: Link, peer: int, number: int) -> None:
        super().__init__(link, server.carrier.outbox(peer), number)
        self.server = server

    def before(self, data: bytes) -> None:
        if data[0] == EPOCH:
            phase = number_at(data, 2)
            self.link.send_mark(Mark.WRITES, NUMBER.pack(phase) + digests_at(self.server.intakes, phase))


class Server:
    """A server's switch."""

    def __init__(self, place: Place, put: Callable[[str], None], complaints: Complaints, limits: Limits,
                 clock: Clock) -> None:
        self.place, self.complaints, self.limits, self.clock = place, complaints, limits, clock
        self.last_came = clock.moment()  # when the program was given something last
        self.awaits = Awaiting(put, "goes on", max(limits.patience, 3 * place.group.tick))
        self.carrier = Carrier(place, limits)
        self.carrier.on_given = self.given
        group = place.group
        self.intakes: List[Intake] = [Intake(group.format, group.shape, it) for it in range(group.shape.clients)]
        self.longest = group.longest_frame()
        self.most_sent = group.shape.turns + group.shape.phases  # packets for one client: replies and epochs
        self.speaks: Dict[int, bytes] = {}  # by client, the last instance that spoke for it
        self.spoke: Dict[int, float] = {}  # by client, when another instance than before began to speak
        self.greeted: Dict[int, Link] = {}  # by client, the link that greeted and doesn't speak yet
        self.links: Dict[int, Link] = {}  # by client, the one that speaks
        self.closed: set[int] = set()  # the clients of whom nothing more is taken

    def given(self, peer: int, data: bytes) -> None:
        if peer != HOST:
            self.intakes[peer - 1].take(data)
        self.last_came = self.clock.moment()
        self.awaits.over()

    async def run(self, program: Path) -> None:
        place = self.place
        context = place.context()
        _, host, port = place.group.servers[place.number - 1]
        listening = listening_at(host, port)
        for kind, note in await self.carrier.start(program):
            if kind == INSTANCE:
                self.speaks[number_at(note, 0)] = note[NUMBER.size :]
            elif kind == LEFT:
                self.carrier.outbox(number_at(note, 0)).is_done = True
        most = place.group.shape.clients + self.limits.strangers
        door = Door(context, most, self.limits.greeting, self.answer, self.complaints.tell)
        tasks = [begun(it, self.carrier.stop) for it in (door.run(listening), self.watch())]
        await self.carrier.over.wait()
        # the last replies are on their way, or a member will fetch them
        while self.carrier.is_done() and not self.carrier.is_delivered() and not self.carrier.is_stopped:
            await asyncio.sleep(0.1)
        await ended(tasks)
        listening.close()
        await asyncio.gather(*(link.part() for link in list(self.links.values())))
        await door.close()
        await self.carrier.close()

    def is_told(self) -> bool:
        """Whether each member needs no more."""
        return self.carrier.is_delivered()

    # ---- who is awaited

    async def watch(self) -> None:
        """Tells who is awaited, where nothing came for long: its keeper, and the members that are there."""
        while True:
            await asyncio.sleep(self.limits.patience / 4)
            is_long = time.monotonic() - self.last_came.even >= self.awaits.patience
            late = self.late() if is_long else []
            self.awaits.tell({self.place.group.clients[it]: self.last_came for it in late})
            self.say_late(sum(1 << it for it in late))

    def say_late(self, bits: int) -> None:
        for link in self.links.values():
            if link.is_heard and link.late != bits:
                link.late = bits
                link.send_mark(Mark.LATE, COUNT.pack(bits))

    def late(self) -> List[int]:
        """The clients for whom the others wait: those who haven't written in all turns of a phase; and once all is
        written, those who may need something yet."""
        ticks, least = self.place.group.shape.ticks, min(it.written for it in self.intakes)
        if least == self.place.group.shape.turns:
            return [it.client for it in self.intakes if not self.carrier.outbox(it.client + 1).is_done]
        return [it.client for it in self.intakes if it.written // ticks == least // ticks]

    # ---- one link

    async def answer(self, reader: asyncio.StreamReader, writer: asyncio.StreamWriter,
                     has_greeted: Callable[[], None]) -> None:
        """A member that comes."""
        link = Link(self.place, reader, writer, self.limits)
        peer = None
        try:
            greeting = await link.hear_greeting()
            has_greeted()
            link.check_certificate(greeting.peer)
            peer = greeting.peer
            link.greet(self.speaks.get(peer, NO_INSTANCE), self.carrier.taken[peer])
            link.check_digest(greeting)
            await self.serve(link, greeting)
        except Wrong as why:
            who = f"{self.place.group.clients[peer - 1]} (client {peer - 1})" if peer else "a stranger"
            self.complaints.tell(f"{who}: {why}")
            await (link.hear_out() if peer in self.closed else link.part())
        except BROKEN:
            pass
        finally:
            for links in (self.greeted, self.links):
                if peer and links.get(peer) is link:
                    del links[peer]
            link.close()

    async def serve(self, link: Link, greeting: Greeting) -> None:
        """What follows a greeting: the member speaks once all servers greeted it, if none greeted since. So none but
        itself spoke since it was told who spoke last."""
        peer, outbox = greeting.peer, self.carrier.outbox(greeting.peer)
        if peer in self.closed:
            link.send_mark(Mark.CLOSED)
            raise Wrong("nothing more is taken of it, since a frame of it was refused")
        if greeting.count < outbox.first:
            raise Wrong("it lost what it had on disk: start this switch anew to give it all again")
        self.replace(self.greeted, peer, link)
        mark, _ = await link.next(0)
        if mark is not Mark.SPEAKS:
            raise Wrong("it sends something before it speaks")
        await asyncio.sleep(self.spoke.get(peer, 0) + self.limits.speaking - asyncio.get_running_loop().time())
        if self.greeted.get(peer) is not link:
            return
        await self.let_speak(peer, link, greeting.instance)
        sending = asyncio.create_task(ToMember(self, link, peer, greeting.count).run())
        try:
            await self.take_all(peer, link)
        finally:
            sending.cancel()

    async def let_speak(self, peer: int, link: Link, instance: bytes) -> None:
        """From now on this link alone speaks for a client. Which instance does is on disk before it is told so."""
        del self.greeted[peer]
        self.replace(self.links, peer, link)
        if self.speaks.get(peer) != instance:
            self.speaks[peer], self.spoke[peer] = instance, asyncio.get_running_loop().time()
            await self.carrier.keep([(INSTANCE, NUMBER.pack(peer) + instance)])
        if self.links.get(peer) is link:
            link.send_mark(Mark.HEARD, COUNT.pack(self.carrier.taken[peer]))
            link.is_heard = True

    def replace(self, links: Dict[int, Link], peer: int, link: Link) -> None:
        before = links.get(peer)
        links[peer] = link
        if before and before is not link:
            before.close()

    async def take_all(self, peer: int, link: Link) -> None:
        """Takes what a member sends, until its link breaks. Of one that sends what no member sends nothing more is
        taken."""
        kept = 0
        while self.links.get(peer) is link:
            try:
                mark, data = await link.next(self.longest)
                if self.links.get(peer) is not link:
                    return
                if mark is Mark.KEPT:
                    kept = self.mark_kept(kept, *COUNT.unpack(data))
                    await self.forget(peer, link, kept)
                elif mark:
                    raise Wrong("it sends a mark that a member doesn't send")
                else:
                    self.take(peer, link, data)
                    await self.carrier.room.wait()
            except Wrong:
                self.closed.add(peer)
                raise

    def mark_kept(self, before: int, count: int) -> int:
        """How many packets a member has on disk, which must be more than before."""
        if count != ALL and not before < count <= self.most_sent:
            raise Wrong("it says that it has more than there is")
        return count

    async def forget(self, peer: int, link: Link, count: int) -> None:
        """A member has so many packets on disk, or needs no more, which is on disk here before it is told so."""
        outbox = self.carrier.outbox(peer)
        if count == ALL:
            if not outbox.is_done:
                await self.carrier.keep([(LEFT, NUMBER.pack(peer))])
            link.send_mark(Mark.HEARD, COUNT.pack(self.carrier.taken[peer]))
        outbox.forget(count)

    def take(self, peer: int, link: Link, data: bytes) -> None:
        """Takes a frame. Where the program would refuse it, it isn't given to it, and nothing more is taken."""
        cause = self.intakes[peer - 1].cause(data)
        if cause is None:
            self.carrier.feed([(peer, data)])
            return
        link.send(refusal(cause))
        raise Wrong(f"a frame of it is refused ({cause.name.lower()}), so nothing more is taken of it")
