"""A member's end of all links, its clock, and what is typed."""

from __future__ import annotations

import asyncio
import os
import random
import secrets
import socket
import ssl
import time
from pathlib import Path
from typing import Callable, Dict, List, Protocol

from parts.awaiting import Awaiting
from parts.carrier import Carrier
from parts.clock import Clock, until_next
from parts.errors import End, Stop, Wrong
from parts.folder import Place
from parts.frames import READS, WRITE
from parts.journal import INSTANCE, LEFT, RECORD_SIZE, filler
from parts.labels import Labels
from parts.limits import Limits
from parts.link import COUNT, INSTANCE_SIZE, NO_INSTANCE, Greeting, Item, Link, Mark, Sender
from parts.outbox import ALL
from parts.packets import HOST, LONGEST, NUMBER, TICK, Packet, ahead, has, number_at, say
from parts.printable import shown
from parts.printer import Complaints
from parts.sentry import Differ, Sentry
from parts.tasks import begun, ended
from parts.texts import Fates, Judge, Text, Waiting, packets_of_texts, read_line

# After how many more packets a member says how many of a server's are on its disk.
SOME = 16
# Why a text isn't said, by the code that the program gives.
CAUSES = {1: "writer", 2: "long", 3: "text"}


class ToServer(Sender):
    """Sends a server what it lacks, and now and then how many of its packets are on disk."""

    def __init__(self, member: Member, link: Link, server: int, number: int) -> None:
        super().__init__(link, member.carrier.outbox(server), number)
        self.member, self.server = member, server

    def behind(self) -> None:
        kept = self.member.carrier.on_disk(self.server)
        if kept >= self.link.said + SOME and self.link.said != ALL:
            self.link.send_mark(Mark.KEPT, COUNT.pack(kept))
            self.link.said = kept


class Lines(Protocol):
    """Where typed lines come from."""

    async def get(self) -> bytes:
        ...

    def rest(self) -> List[bytes]:
        """Those that nobody took."""


class Member:
    """A member's switch."""

    def __init__(self, place: Place, put: Callable[[str], None], complaints: Complaints, limits: Limits,
                 clock: Clock) -> None:
        self.place, self.put, self.complaints, self.limits, self.clock = place, put, complaints, limits, clock
        self.carrier = Carrier(place, limits)
        self.carrier.on_given, self.carrier.on_sent, self.carrier.on_told = self.given, self.sent, self.told
        self.sentry, self.fates, self.labels = Sentry(place.group), Fates(place.group), Labels(place.group.logs)
        self.judge = Judge(place.group, place.number - 1)
        self.waiting: Waiting | None = None
        self.instance = secrets.token_bytes(INSTANCE_SIZE)
        self.own: set[bytes] = {NO_INSTANCE}  # the instances that the journal has
        self.servers = range(1, place.group.shape.servers + 1)
        self.greeted: set[int] = set()  # the servers whose links greeted
        self.links: Dict[int, Link] = {}  # by server, the link over which this instance speaks
        self.may_speak, self.is_heard = asyncio.Event(), asyncio.Event()
        self.away: asyncio.Queue[int] = asyncio.Queue()  # how many turns are to be written ahead
        self.counted: set[int] = set()  # the servers of which the program was told how many packets they have
        self.left: set[int] = set()  # the servers that heard that this member needs no more
        self.pauses = {server: limits.pause for server in self.servers}
        # the servers that don't greet, or don't answer once all greeted, and since when
        self.missing = dict.fromkeys(self.servers, clock.moment())
        self.late: Dict[int, List[str]] = {}  # by server, the members who are late, as it says
        self.last_came = clock.moment()  # when the program was given something last
        self.awaits_link = Awaiting(put, "connected", limits.patience)
        self.awaits_others = Awaiting(put, "goes on", max(limits.patience, 3 * place.group.tick))
        # a tick's records are as long with a text as without one
        self.tick_size = len(say(0, bytes(place.group.shape.longest_text))) + 3 * RECORD_SIZE + len(TICK) + 1

    # ---- what its program is given, sends and tells

    def given(self, peer: int, data: bytes) -> None:
        self.fates.take(peer, data)
        if peer != HOST:
            self.sentry.took(peer, data)
            self.late = {}
        self.last_came = self.clock.moment()
        self.awaits_others.over()

    def sent(self, server: int, frame: bytes) -> None:
        self.sentry.sent(server, frame)
        if server == len(self.servers) and frame[0] == WRITE:
            sent = self.fates.wrote()
            for text, number, turn in sent:
                self.tell("sent", text.log, number, turn, shown(text.words))
            if sent and self.waiting:
                self.waiting.save()  # (not with the tick: it would be seen)
        elif server == len(self.servers) and frame[0] in READS:
            for text, number, turn in self.fates.read(number_at(frame, 6)):
                self.tell("readable", text.log, number, turn)

    def told(self, data: bytes) -> None:
        """The program tells its host something, after it sent the read that brought it and before the next one."""
        log, rest, turn = number_at(data, 1), data[5:], self.sentry.turn_read()
        if data[:1] == b"r":
            self.tell("refused", log, CAUSES.get(rest[0], rest[0]))
        elif data[:1] == b"a":
            self.tell("absent", log, number_at(rest, 0), turn)
        else:
            self.tell("text", log, number_at(rest, 0), turn, shown(rest[4:]))

    def tell(self, word: str, log: int, *rest: object) -> None:
        """Prints a line about a log."""
        self.put(" ".join(map(str, [word, self.labels.of(log), *rest])))

    # ---- its links

    async def visit(self, server: int, context: ssl.SSLContext) -> None:
        """One link to a server, until it breaks."""
        _, host, port = self.place.group.servers[server - 1]
        opening = asyncio.open_connection(host, port, ssl=context, ssl_handshake_timeout=self.limits.greeting)
        reader, writer = await asyncio.wait_for(opening, 2 * self.limits.greeting)
        link = Link(self.place, reader, writer, self.limits)
        try:
            link.check_certificate(server)
            link.greet(self.instance, self.carrier.taken[server])
            greeting = await asyncio.wait_for(link.hear_greeting(), self.limits.greeting)
            self.check_greeting(server, link, greeting)
            count = await self.speak(server, link)
            await self.carry(server, link, count)
        finally:
            self.sentry.forget(server)
            if self.links.get(server) is link:
                del self.links[server]
            self.missing.setdefault(server, self.clock.moment())
            if not self.may_speak.is_set():
                self.greeted.discard(server)
            link.close()

    def check_greeting(self, server: int, link: Link, greeting: Greeting) -> None:
        """Judges what a server says before anything of it is kept."""
        link.check_digest(greeting)
        if greeting.peer != server:
            raise Wrong(f"at its address there is server {greeting.peer}")
        if greeting.instance not in self.own:
            raise Stop(End.COPIED, f"{self.name_of(server)} heard another start of this member, of which this folder "
                                   "knows nothing: this is a copy, or older than what ran last, or the server lies")
        self.check_count(server, greeting.count)

    def check_count(self, server: int, count: int) -> None:
        sent = self.carrier.outbox(server).count
        if count > sent:
            raise Stop(End.OLDER, f"{self.name_of(server)} says that it has {count} packets of this member, which sent "
                                  f"{sent}: this folder is older than what ran last, or the server lies")

    async def speak(self, server: int, link: Link) -> int:
        """Speaks for this member once all servers greeted it: each of them then hears this instance alone. Gives how
        many packets the server has, of which none more comes by an older link."""
        self.greeted.add(server)
        self.missing.pop(server, None)
        if len(self.greeted) == len(self.servers) or self.carrier.is_done():
            self.may_speak.set()
        mark, data = await self.answer_to_speaking(server, link)
        if mark is Mark.CLOSED:
            raise Wrong("it takes nothing more of this member, since it refused a frame of it")
        if mark is not Mark.HEARD:
            raise Wrong("it sends something before it heard who speaks")
        (count,) = COUNT.unpack(data)
        self.check_count(server, count)
        if server not in self.counted:
            self.counted.add(server)
            self.carrier.feed([(HOST, has(count))])
        self.links[server], self.pauses[server] = link, self.limits.pause
        self.missing.pop(server, None)
        if len(self.links) == len(self.servers):
            self.tell_connected()
        return count

    def tell_connected(self) -> None:
        """Tells that all servers are there, for the first time or after one was awaited."""
        if not self.is_heard.is_set():
            self.is_heard.set()
            self.put("connected")
            self.awaits_link.told.clear()
        self.awaits_link.over()

    async def answer_to_speaking(self, server: int, link: Link) -> Item:
        """Says that this instance speaks, once it may. Gives what comes for that, or what came before."""
        answer, allowed = asyncio.create_task(link.next(0)), asyncio.create_task(self.may_speak.wait())
        try:
            await asyncio.wait([answer, allowed], return_when=asyncio.FIRST_COMPLETED)
            if not answer.done():
                self.missing[server] = self.clock.moment()
                link.send_mark(Mark.SPEAKS)
            return await asyncio.wait_for(answer, self.limits.hearing)
        finally:
            answer.cancel()
            allowed.cancel()

    async def carry(self, server: int, link: Link, count: int) -> None:
        """Sends what the server lacks and takes what it sends, until the link breaks. Before all servers heard who
        speaks nothing is taken, since the program might write or read then."""
        sending = asyncio.create_task(ToServer(self, link, server, count).run())
        try:
            await self.carrier.first_of(self.is_heard, self.carrier.over)
            while True:
                mark, data = await link.next(LONGEST)
                if mark is Mark.WRITES:
                    self.sentry.hear_digests(server, number_at(data, 0), data[NUMBER.size :])
                elif mark is Mark.LATE:
                    self.late[server] = self.names_of(*COUNT.unpack(data))
                elif mark is Mark.HEARD and self.carrier.is_done():
                    await self.heard_leaving(server)
                elif mark:
                    raise Wrong("it sends a mark that no server sends")
                else:
                    self.carrier.feed(self.sentry.judge(server, data))
                    await self.carrier.room.wait()
        finally:
            sending.cancel()

    async def heard_leaving(self, server: int) -> None:
        """A server heard that this member needs no more. That is kept: the server may be gone at the next start."""
        if server not in self.left:
            await self.carrier.keep([(LEFT, NUMBER.pack(server))])
            self.left.add(server)

    async def keep_link(self, server: int, context: ssl.SSLContext) -> None:
        """A link to a server, again and again. The waits grow, and are mixed, so that a group doesn't come at once."""
        while True:
            try:
                await self.visit(server, context)
            except asyncio.IncompleteReadError:
                pass  # it was closed, as when the server is started anew
            except Stop as stop:
                self.carrier.stop(stop.end, str(stop))
                return
            except Differ as why:
                self.complaints.tell(str(why))
                self.pauses = {it: self.limits.longest_pause for it in self.servers}
            except Wrong as why:
                self.complaints.tell(f"{self.name_of(server)}: {why}")
                self.pauses[server] = max(self.pauses[server], 4 * self.limits.pause)
            except (OSError, asyncio.TimeoutError) as why:
                self.complaints.tell(f"{self.name_of(server)}: {cause_of(why)}")
            pause = self.pauses[server]
            self.pauses[server] = min(2 * pause, self.limits.longest_pause)
            await asyncio.sleep(pause * random.uniform(0.5, 1.5))

    # ---- its clock

    async def tick(self) -> None:
        """Gives ticks, where the last one's write is out and all servers are there: at most one waits, and one that
        can't be given is left out."""
        await self.is_heard.wait()
        is_first, seconds = True, self.place.group.tick
        while True:
            await self.clock.wait(until_next(self.clock.now(), seconds, is_first))
            is_first = False
            if self.may_act() and self.fates.is_quiet() and self.fates.turns_left():
                self.carrier.feed(self.tick_packets(self.waiting.take(min(1, self.fates.turns_for_texts()))))

    def may_act(self) -> bool:
        return len(self.links) == len(self.servers) and not self.carrier.over.is_set()

    def tick_packets(self, texts: List[Text]) -> List[Packet]:
        packets = [*packets_of_texts(texts), (HOST, TICK)]
        size = sum(RECORD_SIZE + len(data) for _, data in packets)
        return [*packets, filler(self.tick_size - size)]

    # ---- who is awaited

    def name_of(self, server: int) -> str:
        return self.place.group.server_called(server)

    def keeper_of(self, server: int) -> str:
        return f"the server of {self.place.group.servers[server - 1].name}"

    def names_of(self, late: int) -> List[str]:
        """The names of the other members who are late, as a server says by a bit for each."""
        clients = self.place.group.clients
        if late >> len(clients):
            raise Wrong("it says that somebody is late who isn't there")
        return [name for at, name in enumerate(clients) if late >> at & 1 and at != self.place.number - 1]

    async def watch(self) -> None:
        """Tells who is awaited, where nothing came for long."""
        while True:
            await asyncio.sleep(self.limits.patience / 4)
            self.awaits_link.tell({self.keeper_of(server): since for server, since in self.missing.items()})
            if len(self.links) == len(self.servers):
                self.awaits_others.tell(dict.fromkeys(self.awaited(), self.last_came))

    def awaited(self) -> List[str]:
        """From whom something is to come, though all servers are there."""
        kept_back = self.sentry.awaited()
        if time.monotonic() - self.last_came.even >= self.awaits_others.patience:
            for why in kept_back.values():
                self.complaints.tell(why)
        late = {name for names in self.late.values() for name in names}
        return [*map(self.keeper_of, kept_back), *sorted(late)]

    # ---- what is typed

    def take_line(self, line: bytes) -> None:
        """Takes a line that was typed."""
        said = read_line(line, self.labels)
        if said is None:
            self.put("want 'say LOG TEXT' or 'away N'")
        elif said.text is None:
            self.away.put_nowait(said.turns)
        else:
            self.say(said.text)

    def say(self, text: Text) -> None:
        cause = self.judge.refuses(text)
        if cause is None and len(self.waiting.texts) >= self.fates.turns_for_texts():
            cause = "over"
        if cause is None and not self.waiting.has_room(text):
            cause = "full"
        if cause:
            self.tell("refused", text.log, cause)
        else:
            self.waiting.put(text)

    async def leave(self) -> None:
        """Writes turns ahead, once all servers are there, with the texts that wait: as many as there are."""
        while True:
            turns = await self.away.get()
            while not self.may_act():
                await asyncio.sleep(0.1)
            count = min(turns, self.fates.turns_left())
            texts = self.waiting.take(min(count, self.fates.turns_for_texts()))
            self.carrier.feed([*packets_of_texts(texts), (HOST, ahead(count))])
            self.put(f"away {count}")
            if count < turns:
                self.complaints.tell(f"away {turns}: only {count} turns were left")
            self.give_up(self.waiting.take(max(0, len(self.waiting.texts) - self.fates.turns_for_texts())))

    def give_up(self, texts: List[Text]) -> None:
        for text in texts:
            self.tell("unsent", text.log, shown(text.words))

    # ---- its run

    async def run(self, program: Path, lines: Lines) -> None:
        context = self.place.context()
        notes = await self.carrier.start(program)
        self.own |= {data for peer, data in notes if peer == INSTANCE}
        self.left |= {number_at(data, 0) for peer, data in notes if peer == LEFT}
        given = sum(self.fates.counts.values()) + len(self.fates.given)
        self.waiting = Waiting(self.place.folder / "typed", given)
        self.give_up(self.waiting.left)
        try:
            await self.carrier.keep([(INSTANCE, self.instance)])
            self.own.add(self.instance)
            await self.work(context, lines)
        except Stop as stop:
            self.carrier.stop(stop.end, str(stop))
        await self.carrier.close()
        self.tell_rest(lines)

    async def work(self, context: ssl.SSLContext, lines: Lines) -> None:
        """What goes on until the run is over."""
        works = [self.keep_link(server, context) for server in self.servers]
        works += [self.tick(), self.watch(), self.leave(), self.listen(lines)]
        tasks = [begun(work, self.carrier.stop) for work in works]
        await self.carrier.over.wait()
        if self.carrier.is_done():
            await self.take_leave()
        await asyncio.gather(*(link.part() for link in self.links.values()))
        await ended(tasks)

    def tell_rest(self, lines: Lines) -> None:
        """Tells what becomes of the texts that have no fate yet."""
        self.give_up(self.waiting.take(len(self.waiting.texts)))
        typed = [read_line(line, self.labels) for line in lines.rest()]
        self.give_up([said.text for said in typed if said and said.text])
        self.waiting.close()
        for text in [] if self.carrier.is_done() else self.fates.on_the_way():
            self.tell("waits", text.log, shown(text.words))

    def is_told(self) -> bool:
        """Whether each server heard that this member needs no more."""
        return len(self.left) == len(self.servers)

    async def listen(self, lines: Lines) -> None:
        while True:
            self.take_line(await lines.get())

    async def take_leave(self) -> None:
        """Says to each server that all has come, so that it may end, if it is there yet."""
        end = asyncio.get_running_loop().time() + self.limits.farewell
        while not self.is_told() and asyncio.get_running_loop().time() < end:
            await asyncio.sleep(0.05)


def cause_of(why: Exception) -> str:
    """Why there is no link."""
    if isinstance(why, asyncio.TimeoutError) and not str(why):
        return "it doesn't answer"
    if isinstance(why, ssl.SSLError):
        return f"no TLS: {why.reason or why}"
    if isinstance(why, OSError) and why.errno and not isinstance(why, socket.gaierror):
        return os.strerror(why.errno)
    return str(why) or type(why).__name__
