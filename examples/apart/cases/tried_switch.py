"""A switch as `trial` starts it: with shorter times, a clock that can be set, a lie that it tells, or measured.

usage: tried_switch.py OPTIONS serve|join FOLDER ..
"""

import json
import pathlib
import secrets
import sys
import time

sys.dont_write_bytecode = True
sys.path.insert(0, str(pathlib.Path(__file__).resolve().parent.parent))

from parts import journal, member, server
from parts.clock import Clock
from parts.frames import EPOCH, REFUSED, REPLY, WRITE
from parts.limits import Limits
from parts.link import COUNT, Link, Mark
from parts.outbox import ALL
from parts.packets import number_at
from parts.running import main


class SetClock(Clock):
    """A clock that is wrong by so many seconds as a file says, while there is one."""

    def __init__(self, path):
        self.path = pathlib.Path(path)

    def now(self):
        try:
            return time.time() + float(self.path.read_text())
        except (OSError, ValueError):
            return time.time()


# ---- lies of a server: each is about one of three calls of its links

HONEST = Link.greet, Link.send, Link.send_mark


def greets(change):
    """Greets with another instance and another count."""

    def greet(self, instance, count):
        HONEST[0](self, *change(instance, count))

    Link.greet = greet


def sends(change):
    """Sends other bytes for a packet."""

    def send(self, data):
        for it in change(data):
            HONEST[1](self, it)

    Link.send = send


def marks(change):
    """Sends other bytes with a mark."""

    def send_mark(self, mark, data=b""):
        HONEST[2](self, mark, change(mark, data))

    Link.send_mark = send_mark


def skips(which):
    """Doesn't send marks of one kind."""

    def send_mark(self, mark, data=b""):
        if mark is not which:
            HONEST[2](self, mark, data)

    Link.send_mark = send_mark


def flipped(data, at):
    return data[:at] + bytes([data[at] ^ 1]) + data[at + 1 :]


def says_long(self, data):
    self.writer.write(b"\x7f\xff\xff\xff" + data)


def says_nothing(self, instance, count):
    pass


def marks_kept(self, data):
    HONEST[2](self, Mark.KEPT, COUNT.pack(1 << 40))
    HONEST[1](self, data)


def marks_late(self, data):
    HONEST[2](self, Mark.LATE, COUNT.pack(1 << 40))
    HONEST[1](self, data)


def of_kind(kind, change):
    """Another packet for those of one kind."""
    return lambda data: change(data) if data[0] == kind else [data]


LIES = {
    "count": lambda: greets(lambda instance, count: (instance, count + (1 << 31))),
    "huge count": lambda: greets(lambda instance, count: (instance, 1 << 40)),
    "greatest count": lambda: greets(lambda instance, count: (instance, (1 << 64) - 1)),
    "instance": lambda: greets(lambda instance, count: (secrets.token_bytes(16), count)),
    "heard": lambda: marks(lambda mark, data: COUNT.pack(1 << 40) if mark is Mark.HEARD else data),
    "writes": lambda: marks(lambda mark, data: flipped(data, 5) if mark is Mark.WRITES else data),
    "phase": lambda: marks(lambda mark, data: flipped(data, 1) if mark is Mark.WRITES else data),
    "epoch": lambda: sends(of_kind(EPOCH, lambda data: [flipped(data, len(data) - 1)])),
    "other epoch": lambda: sends(of_kind(EPOCH, lambda data: [flipped(data, 4)])),
    "no digests": lambda: skips(Mark.WRITES),
    "no epoch": lambda: sends(of_kind(EPOCH, lambda data: [])),
    "reply": lambda: sends(of_kind(REPLY, lambda data: [flipped(data, 8)])),
    "short reply": lambda: sends(of_kind(REPLY, lambda data: [data[:-1]])),
    "two replies": lambda: sends(of_kind(REPLY, lambda data: [data, data])),
    "refused": lambda: sends(lambda data: [bytes([REFUSED, 1, 5])]),
    "empty": lambda: sends(lambda data: [b"", data]),
    "kind": lambda: sends(lambda data: [b"\x01" + data[1:]]),
    "long": lambda: setattr(Link, "send", says_long),
    "mark": lambda: setattr(Link, "send", marks_kept),
    "late": lambda: setattr(Link, "send", marks_late),
    "silence": lambda: setattr(Link, "greet", says_nothing),
}


def forgets_leaving():
    """Doesn't hear that a member needs no more."""
    honest = server.Server.forget

    async def forget(self, peer, link, count):
        if count != ALL:
            await honest(self, peer, link, count)

    server.Server.forget = forget


LIES["deaf"] = forgets_leaving

# ---- lies of a member


def writes_differently(at):
    """Sends server 2 other writes than server 1."""
    honest = member.Member.sent

    def sent(self, server, frame):
        if server == 2 and frame[0] == WRITE:
            packets = self.carrier.outbox(server).packets
            packets[-1] = flipped(packets[-1], at)
        honest(self, server, frame)

    member.Member.sent = sent


LIES["block"] = lambda: writes_differently(-1 % 122)
LIES["filter position"] = lambda: writes_differently(21)


# ---- what is measured


def tell_times(path):
    """A server writes the client, the turn and the time of each write that it takes."""
    file, honest = open(path, "a", buffering=1), server.Server.take

    def take(self, peer, link, data):
        if data[0] == WRITE:
            file.write(f"{peer - 1} {number_at(data, 6)} {time.time():.6f}\n")
        honest(self, peer, link, data)

    server.Server.take = take


def slow_disk(seconds):
    """A disk that takes longer."""
    honest = journal.Journal.write

    def write(self, data):
        honest(self, data)
        time.sleep(seconds)

    journal.Journal.write = write


def start(options, words):
    """Starts a switch with these."""
    if options["lie"]:
        LIES[options["lie"]]()
    if options["times"]:
        tell_times(options["times"])
    if options["slow"]:
        slow_disk(options["slow"])
    clock = SetClock(options["clock"]) if options["clock"] else Clock()
    main("a switch of a trial", words, Limits(**options["limits"]), clock)


if __name__ == "__main__":
    start(json.loads(sys.argv[1]), sys.argv[2:])
