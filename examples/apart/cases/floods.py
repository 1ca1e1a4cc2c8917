"""Strangers who say nothing, members that send too much, and terminals that nobody reads."""

from __future__ import annotations

import asyncio
import secrets
import socket
import time
from collections import Counter
from dataclasses import replace
from pathlib import Path
from typing import Tuple

from cases.guest import BROKEN, Guest
from cases.stage import FAST, Stage, demand
from parts import journal
from parts.journal import FILLER, RECORD_SIZE
from parts.link import COUNT, Mark
from parts.packets import HOST, LONGEST, TICK

SILENT = 300


def silent_links(stage: Stage) -> None:
    """Strangers open links and say nothing. The server has few of them at once, and the group goes on."""
    stage.make(15, 4)
    server, address = stage.servers[0], stage.addresses[0]
    server.start(limits=replace(FAST, greeting=60))  # (so that not time makes them few)
    stage.servers[1].start(limits=replace(FAST, greeting=3))
    for member in stage.members:
        member.start()
    stage.say(1)
    stage.wrote(0, 1)
    most = stage.shape.clients + 32
    links = [socket.create_connection(address, 30) for _ in range(SILENT)]
    asyncio.run(come(stage.members[0].folder))
    stage.until(lambda: open_files(server.process.pid) <= most + 30, f"few open files beside {SILENT} silent links", 4)
    before = stage.written(0)
    stage.wrote(0, before + 3)
    stage.members[0].restart()
    stage.members[1].restart()
    stage.wrote(1, before + 5)
    for link in links:
        link.close()
    asyncio.run(late_ones(stage))
    stage.end_all()
    stage.compare()
    stage.pads()


async def come(folder: Path) -> None:
    """Somebody comes, so that all came in who came before."""
    guest = Guest(folder)
    await guest.greet()
    guest.link.close()


async def late_ones(stage: Stage) -> None:
    """Who says nothing, or nothing after the handshake, is let go in time."""
    guest, began = Guest(stage.members[0].folder, 2), time.monotonic()
    _, host, port = guest.place.group.servers[1]
    silent = await asyncio.open_connection(host, port)
    sealed = await asyncio.open_connection(host, port, ssl=guest.place.context())
    for reader, writer in (silent, sealed):
        try:
            demand(not await asyncio.wait_for(reader.read(), 60), "a server says something to a stranger")
        except OSError:
            pass
        writer.transport.abort()
    seconds = time.monotonic() - began
    demand(2 < seconds < 9, f"silent ones were let go after {seconds:.1f} s")


def answers(address: Tuple[str, int]) -> bool:
    """Whether anybody waits at an address."""
    try:
        socket.create_connection(address, 30).close()
    except OSError:
        return False
    return True


def open_files(process: int) -> int:
    return len(list(Path(f"/proc/{process}/fd").iterdir()))


def flooding_member(stage: Stage) -> None:
    """A member that has written in all turns floods server 1 with bad frames, over one link after another. Nothing of
    it gets into the journal, few lines of error tell of it, and the others go on to their ends."""
    stage.make(4, 4)
    client, server, seldom = stage.members[2], stage.servers[0], replace(FAST, same_error=2)
    for end in [*stage.servers, *stage.members]:
        end.start(limits=seldom if end is server else FAST)
    stage.say(1)
    client.type("away 1000")
    stage.wrote(2, stage.shape.turns)
    client.kill()
    own = server.count(3, *range(256))
    before, began = server.complaints(), time.monotonic()
    sent = asyncio.run(flood(client.folder, 4, stage.rng.randbytes(200)))
    stage.notes.append(f"{sent} bad frames")
    demand(server.count(3, *range(256)) == own, "bad frames are in the journal")
    lines = server.complaints().removeprefix(before).splitlines()
    most = (time.monotonic() - began) / seldom.same_error + 2
    counts = Counter(it.partition(" (and ")[0] for it in lines)
    demand(len(counts) <= 4 and max(counts.values()) <= most, f"a flood wrote these lines of error: {counts}")
    for member in stage.members[:2]:
        stage.until(member.is_over, "the end of the others")
        demand(member.ended() == "ended done", f"beside a flood a member ended {member.ended()!r}")
    server.restart()
    stage.until(lambda: answers(stage.addresses[0]), "a server that was started")
    asyncio.run(say_too_much(client.folder))
    demand(asyncio.run(Guest(client.folder).is_closed_out()), "who says that it has more than there is got in")
    server.restart()
    client.start()
    stage.end_all()
    stage.compare()
    stage.pads()


async def say_too_much(folder: Path) -> None:
    """Says that there are more packets on disk than a server has."""
    guest = Guest(folder)
    await guest.speak()
    guest.link.send_mark(Mark.KEPT, COUNT.pack(1 << 40))
    try:
        while True:
            await asyncio.wait_for(guest.link.next(LONGEST), 60)
    except BROKEN:
        guest.link.close()


async def flood(folder: Path, seconds: float, frame: bytes) -> int:
    """Sends bad frames for so long, and gives how many. Between them come greetings with other group files."""
    end, sent = time.monotonic() + seconds, 0
    while time.monotonic() < end:
        other, guest = Guest(folder), Guest(folder)
        other.place.group.digest = secrets.token_bytes(32)
        try:
            await other.greet()
            other.link.close()
            await guest.speak()
            for _ in range(1000):
                guest.link.send(frame)
                sent += 1
            await guest.link.writer.drain()
        except BROKEN:
            pass
        finally:
            if hasattr(guest, "link"):
                guest.link.close()
    return sent


def unread_terminal(stage: Stage) -> None:
    """Nobody reads what a member prints, and much is to be printed. It goes on, and so does the group."""
    stage.make(4, 4)
    for end in [*stage.servers, *stage.members[1:]]:
        end.start()
    unread = stage.members[0].start(reads_output=False)
    for number in range(4000):
        unread.process.stdin.write(b"say 1 not mine\nno line\n")
        if number % 400 == 0:
            unread.process.stdin.flush()
    unread.process.stdin.flush()
    unread.type("say 0 unread")
    stage.say(1)
    for member in stage.members[1:]:
        stage.until(member.is_over, "the end of members beside an unread one")
    stage.until(unread.is_over, "the end of an unread member")
    demand(unread.process.poll() == 0, f"an unread member ended with {unread.process.returncode}")
    unread.files.clear()
    unread.start()
    stage.until(unread.is_over, "what an unread member has to tell")
    # (of the many lines that were typed nothing is left but those that the journal has)
    unread.typed = [f"say {line.split(' ', 2)[1]} {text}" for line, text in said_in(unread)]
    stage.end_all()
    stage.compare()
    for member in stage.members:
        even_ticks(member.folder / "journal")


def said_in(member) -> list:
    """The texts that a journal has, each with its log."""
    return [(f"say {int.from_bytes(data[1:5], 'big')} ", data[5:].decode())
            for peer, data in member.journal()[1:] if peer == HOST and data[:1] == b"S"]


def even_ticks(path: Path) -> None:
    """Each tick's records are as long, with a text or without one."""
    sizes, size, packets = set(), 0, journal.records_of(path.read_bytes()).packets
    for at, (peer, data) in enumerate(packets):
        is_tick = peer == HOST and data == TICK
        demand(not is_tick or packets[at + 1][0] == FILLER, "a tick has no filling")
        if is_tick or peer == FILLER or (peer == HOST and data[:1] == b"S"):
            size += RECORD_SIZE + len(data)
        if peer == FILLER:
            sizes.add(size)
            size = 0
        elif peer != HOST:
            size = 0
    demand(len(sizes) <= 1, f"ticks have records of {sizes} bytes")
