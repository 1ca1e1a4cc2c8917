"""Starts a switch by its words, and ends it."""

from __future__ import annotations

import argparse
import asyncio
import logging
import os
import select
import signal
import sys
import threading
from collections import deque
from pathlib import Path
from typing import Any, Deque, Dict, List, Tuple

from parts.clock import Clock
from parts.errors import End, Stop, Wrong
from parts.folder import Place
from parts.limits import Limits
from parts.member import Member
from parts.packets import LONGEST
from parts.printable import shown
from parts.printer import Complaints, Printer
from parts.server import Server


# How many lines may wait to be taken, and for how many seconds at most what was just typed is waited for.
ROOM, LAST = 1_000, 0.5


class Typed:
    """The lines of standard input, by a thread of its own."""

    def __init__(self, loop: asyncio.AbstractEventLoop, printer: Printer, most: int) -> None:
        self.loop, self.printer, self.most = loop, printer, most
        self.lines: Deque[bytes] = deque()
        self.came = asyncio.Event()
        self.room = threading.Semaphore(ROOM)
        self.ending, self.end = os.pipe()  # (something is written to it when no more is to be waited for)
        self.thread = threading.Thread(target=self.work, daemon=True)

    def start(self) -> None:
        self.thread.start()

    def read(self) -> bytes:
        """What is typed next; nothing at the end, or where no more is to be waited for."""
        ready, _, _ = select.select([0, self.ending], [], [])
        return os.read(0, LONGEST) if 0 in ready else b""

    def work(self) -> None:
        rest, skips = b"", False  # what follows a line that is too long is skipped up to its end
        try:
            while data := self.read():
                *lines, rest = (rest + data).split(b"\n")
                for line in lines:
                    self.put(b"" if skips else line.removesuffix(b"\r"))
                    skips = False
                if len(rest) > LONGEST:
                    rest, skips = b"", True
        except (OSError, RuntimeError):
            pass  # there is no standard input, or the run is over

    def put(self, line: bytes) -> None:
        self.room.acquire()
        self.lines.append(line)
        self.loop.call_soon_threadsafe(self.came.set)

    async def get(self) -> bytes:
        """The next line, once what was printed for earlier ones finds its way."""
        while self.printer.waiting() > self.most:
            await asyncio.sleep(0.1)
        while not self.lines:
            self.came.clear()
            await self.came.wait()
        self.room.release()
        return self.lines.popleft()

    def rest(self) -> List[bytes]:
        """The lines that nobody took, with those that were just typed."""
        os.write(self.end, b"\0")
        self.room.release(ROOM)
        self.thread.join(LAST)
        return list(self.lines)


class Running:
    """A switch with its terminal."""

    def __init__(self, form: str, place: Place, limits: Limits, clock: Clock) -> None:
        self.form, self.place, self.limits, self.clock = form, place, limits, clock
        self.output, self.errors = Printer(1), Printer(2)
        self.complaints = Complaints(self.errors.put, limits.same_error)

    def put(self, line: str) -> None:
        self.output.put(line.encode())

    async def run(self, program: Path, keeps: bool) -> End:
        loop = asyncio.get_running_loop()
        loop.set_exception_handler(self.tell_unexpected)
        logging.getLogger("asyncio").setLevel(logging.CRITICAL)
        if self.form == "serve":
            made = Server(self.place, self.put, self.complaints, self.limits, self.clock)
            work = made.run(program)
        else:
            made = Member(self.place, self.put, self.complaints, self.limits, self.clock)
            typed = Typed(loop, self.output, self.limits.lines)
            typed.start()
            work = made.run(program, typed)
        for number in (signal.SIGINT, signal.SIGTERM):
            loop.add_signal_handler(number, made.carrier.stop, End.STOPPED)
        await work
        self.clear(made, keeps)
        if made.carrier.why:
            self.complaints.tell(made.carrier.why)
        return made.carrier.end

    def tell_unexpected(self, _: asyncio.AbstractEventLoop, context: Dict[str, Any]) -> None:
        """Tells what nobody waits for; not that a link broke."""
        why = context.get("exception")
        if why and not isinstance(why, (OSError, EOFError)):
            self.complaints.tell(f"unexpected: {type(why).__name__}: {why}")

    def clear(self, made: Server | Member, keeps: bool) -> None:
        """Deletes what a run leaves that is over for all who need it from here."""
        if keeps or not made.carrier.is_done():
            return
        if made.is_told():
            self.place.clear()
        else:
            self.complaints.tell("the journal stays, since not every server answered that it heard that this member "
                                 "needs no more: start this once more, or delete the folder if all servers have ended")

    def end(self, end: End) -> None:
        self.put(f"ended {end.word}")
        self.output.finish(self.limits.last_lines)
        self.errors.finish(self.limits.last_lines)
        os._exit(end.status)  # a thread may still wait for a terminal


def words_of(about: str, words: List[str]) -> argparse.Namespace:
    parser = argparse.ArgumentParser(description=about, formatter_class=argparse.RawDescriptionHelpFormatter,
                                     usage="switch serve|join FOLDER [--program PATH] [--keep]")
    parser.add_argument("form", choices=["serve", "join"])
    parser.add_argument("folder")
    parser.add_argument("--program")
    parser.add_argument("--keep", action="store_true")
    return parser.parse_args(words)


def prepared(words: argparse.Namespace) -> Tuple[Place, Path]:
    place = Place(words.folder, "server" if words.form == "serve" else "client")
    return place, place.program(words.program)


def fill_streams() -> None:
    """Opens standard streams that are closed on nothing, so that no file of the switch gets their numbers."""
    while (number := os.open(os.devnull, os.O_RDWR)) <= 2:
        pass
    os.close(number)


def main(about: str, words: List[str], limits: Limits = Limits(), clock: Clock = Clock()) -> None:
    fill_streams()
    words = words_of(about, words)
    os.umask(0o077)
    try:
        place, program = prepared(words)
    except (Wrong, OSError) as why:
        print(f"switch: {shown(str(why))}", file=sys.stderr)
        sys.exit(End.BROKEN.status)
    running = Running(words.form, place, limits, clock)
    try:
        end = asyncio.run(running.run(program, words.keep))
    except Stop as stop:
        running.complaints.tell(str(stop))
        end = stop.end
    except Wrong as why:
        running.complaints.tell(str(why))
        end = End.BROKEN
    running.end(end)
