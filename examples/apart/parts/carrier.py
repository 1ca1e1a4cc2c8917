"""A program with its journal, and what it has for each peer."""

from __future__ import annotations

import asyncio
import pathlib
from collections import Counter
from typing import Callable, Dict, List, Tuple

from parts.errors import ENDS, End, Stop
from parts.folder import Place
from parts.journal import LEAST_NOTE, Journal
from parts.limits import Limits
from parts.outbox import ALL, Outbox
from parts.packets import FENCES, HEAD, HOST, Packet, spelled
from parts.tasks import begun, ended


class Carrier:
    """Gives a program what it is to be given, once that is in the journal, and takes what it sends."""

    def __init__(self, place: Place, limits: Limits) -> None:
        self.place, self.limits = place, limits
        # called for each packet that the program is given, for each that it sends, and for what it tells its host
        self.on_given: Callable[[int, bytes], None] = lambda peer, data: None
        self.on_sent: Callable[[int, bytes], None] = lambda peer, data: None
        self.on_told: Callable[[bytes], None] = lambda data: None
        self.outboxes: Dict[int, Outbox] = {}
        self.taken: Counter[int] = Counter()  # by peer: how many packets came
        self.kept: Counter[int] = Counter()  # by peer: how many of them are in the journal
        self.waiting: List[Packet] = []
        self.fed, self.room, self.answered = asyncio.Event(), asyncio.Event(), asyncio.Event()
        self.count_fed = self.count_kept = 0
        self.keeping: List[Tuple[int, asyncio.Future]] = []  # who waits until so many are kept
        self.over, self.end, self.why = asyncio.Event(), None, ""
        self.is_stopped = False  # by hand
        self.tasks: List[asyncio.Task] = []
        self.room.set()
        self.fence, self.echo = FENCES[place.role]

    # ---- its beginning and its end

    async def start(self, program: pathlib.Path) -> List[Packet]:
        """Starts the program, gives it again what it was given before, waits until it has answered that, and gives the
        notes of the journal."""
        self.journal = Journal(self.place.folder / "journal", self.place.owner)
        self.child = await asyncio.create_subprocess_exec(program, stdin=asyncio.subprocess.PIPE,
                                                          stdout=asyncio.subprocess.PIPE)
        packets = [it for it in self.journal.packets if it[0] < LEAST_NOTE]
        notes = [it for it in self.journal.packets if it[0] >= LEAST_NOTE]
        self.journal.packets = []
        self.tasks = [begun(self.hear_program(), self.stop)]
        await self.give_again(packets)
        self.tasks.append(begun(self.feed_program(), self.stop))
        if not packets:
            await self.keep([(HOST, self.place.setup)])
        self.child.stdin.write(spelled(*self.fence))
        await self.first_of(self.answered, self.over)
        return notes

    async def give_again(self, packets: List[Packet]) -> None:
        for peer, data in packets:
            self.taken[peer] += 1
            self.kept[peer] += 1
            self.on_given(peer, data)
            self.child.stdin.write(spelled(peer, data))
            try:
                await self.child.stdin.drain()
            except ConnectionError:
                return  # the program has ended

    def stop(self, end: End, why: str = "") -> None:
        """Goes on no further. The first cause is the one that is told."""
        if self.end is None:
            self.end, self.why = end, why
        self.is_stopped = self.is_stopped or end is End.STOPPED
        self.over.set()
        self.tell_kept()
        for outbox in self.outboxes.values():
            outbox.more.set()

    async def close(self) -> None:
        await ended(self.tasks)
        if self.child.returncode is None:
            self.child.kill()
            await self.child.wait()

    async def first_of(self, *events: asyncio.Event) -> None:
        """Waits until one of these is set."""
        tasks = [asyncio.create_task(it.wait()) for it in events]
        try:
            await asyncio.wait(tasks, return_when=asyncio.FIRST_COMPLETED)
        finally:
            for task in tasks:
                task.cancel()

    # ---- what it is given

    def feed(self, packets: List[Packet]) -> None:
        """Takes packets and notes for the journal, and packets for the program."""
        for peer, data in packets:
            if peer < LEAST_NOTE:
                self.taken[peer] += 1
                self.on_given(peer, data)
        self.waiting += packets
        self.count_fed += len(packets)
        self.fed.set()
        if len(self.waiting) > self.limits.waiting:
            self.room.clear()

    async def keep(self, packets: List[Packet]) -> None:
        """The same, and waits until they are on disk, which they won't be where the switch ends before."""
        self.feed(packets)
        kept = asyncio.get_running_loop().create_future()
        self.keeping.append((self.count_fed, kept))
        self.tell_kept()
        if not await kept:
            raise Stop(self.end, self.why)

    def tell_kept(self) -> None:
        """Wakes who waits for packets that are on disk now, or won't be."""
        is_over = self.over.is_set() and not self.is_done()
        for due, kept in self.keeping:
            if (due <= self.count_kept or is_over) and not kept.done():
                kept.set_result(due <= self.count_kept)
        self.keeping = [it for it in self.keeping if not it[1].done()]

    async def feed_program(self) -> None:
        """Gives the program what was taken, once it is in the journal."""
        try:
            while True:
                await self.fed.wait()
                self.fed.clear()
                packets, self.waiting = self.waiting, []
                self.room.set()
                await asyncio.get_running_loop().run_in_executor(None, self.journal.append, packets)
                await self.give(packets)
        except Stop as stop:
            self.stop(stop.end, str(stop))

    async def give(self, packets: List[Packet]) -> None:
        """Gives the program packets that are in the journal."""
        for peer, data in packets:
            if peer < LEAST_NOTE:
                self.kept[peer] += 1
                self.child.stdin.write(spelled(peer, data))
        for peer in {peer for peer, _ in packets if HOST < peer < LEAST_NOTE}:
            self.outbox(peer).more.set()
        self.count_kept += len(packets)
        self.tell_kept()
        try:
            await self.child.stdin.drain()
        except ConnectionError:
            pass  # the program has ended

    # ---- what it sends

    def outbox(self, peer: int) -> Outbox:
        return self.outboxes.setdefault(peer, Outbox())

    async def hear_program(self) -> None:
        """Takes what the program sends, until it ends."""
        try:
            while True:
                peer, size = HEAD.unpack(await self.child.stdout.readexactly(HEAD.size))
                data = await self.child.stdout.readexactly(size)
                if peer == self.echo[0] and data.startswith(self.echo[1]) and not self.answered.is_set():
                    self.answered.set()
                elif peer != HOST:
                    self.outbox(peer).put(data)
                    self.on_sent(peer, data)
                else:
                    self.on_told(data)
        except asyncio.IncompleteReadError:
            pass
        status = await self.child.wait()
        how = f"by signal {-status}" if status < 0 else f"with {status}"
        self.stop(ENDS.get(status, End.BROKEN), "" if status in ENDS else f"the program ended {how}")

    def is_done(self) -> bool:
        return self.end is End.DONE

    def on_disk(self, peer: int) -> int:
        """How many packets of a peer are in the journal, or that no more are needed."""
        return ALL if self.is_done() else self.kept[peer]

    def is_delivered(self) -> bool:
        """Whether each peer said that it needs no more."""
        return all(it.is_done for it in self.outboxes.values())
