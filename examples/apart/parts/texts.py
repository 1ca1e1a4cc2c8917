"""The fate of each text that is typed: it waits, is given to the program with the tick that may send it, and is sent.

A text is sent in the turn that the program writes next when its turn comes. `Pace` says when a member writes, as it is
defined (`crates/tk_member/specs/Acting.antt`); it depends on ticks, on turns ahead and on epochs alone.
"""

from __future__ import annotations

import os
import pathlib
import struct
import zlib
from collections import Counter, deque
from concurrent.futures import ThreadPoolExecutor
from dataclasses import dataclass
from typing import Deque, List, NamedTuple

from parts.errors import End, Stop
from parts.frames import EPOCH
from parts.group_file import Group
from parts.labels import Labels
from parts.packets import HOST, LONGEST, NUMBER, TICK, Packet, number_at, say

# How many bytes of texts may wait.
ROOM = 1 << 16


class Text(NamedTuple):
    """A text on a log."""

    log: int
    words: bytes


class Sent(NamedTuple):
    """A text with its number on the log, and the turn in which it is written."""

    text: Text
    number: int
    turn: int


class Pace:
    """In how many turns a member wrote, after the packets that it was given."""

    def __init__(self, group: Group) -> None:
        self.shape = group.shape
        self.written = self.ticks = self.ahead = 0
        self.told = [0] * self.shape.servers

    def take(self, peer: int, data: bytes) -> int:
        """How many writes a packet brings about."""
        turns = self.shape.turns
        if peer == HOST and data == TICK:
            self.ticks = min(turns, self.ticks + 1)
        elif peer == HOST and data[:1] == b"A":
            self.ahead = min(turns, self.ahead + number_at(data, 1))
        elif peer != HOST and data[0] == EPOCH:
            self.told[peer - 1] += 1
        ahead = min(self.ahead, turns - self.written)
        self.ahead -= ahead
        known = min(turns, (min(self.told) + 1) * self.shape.ticks)
        due = min(self.ticks, max(0, known - self.written - ahead))
        self.ticks -= due
        self.written += ahead + due
        return ahead + due


class Fates:
    """The texts that the program was given, up to their writes."""

    def __init__(self, group: Group) -> None:
        self.pace = Pace(group)
        self.given: Deque[Text] = deque()
        self.planned: Deque[Sent] = deque()  # the turn is known, and the write isn't out yet
        self.counts: Counter[int] = Counter()  # by log, how many texts have a number
        self.out = 0  # how many writes came out
        self.unread: Deque[Sent] = deque()  # what was sent in a phase whose epoch isn't read yet

    def take(self, peer: int, data: bytes) -> None:
        """The program is given a packet."""
        first = self.pace.written
        if peer == HOST and data[:1] == b"S":
            self.given.append(Text(number_at(data, 1), data[5:]))
        for turn in range(first, first + self.pace.take(peer, data)):
            if self.given:
                text = self.given.popleft()
                self.planned.append(Sent(text, self.counts[text.log], turn))
                self.counts[text.log] += 1

    def wrote(self) -> List[Sent]:
        """A write came out of the program. Gives the text that it has, if it has one."""
        self.out += 1
        sent = []
        while self.planned and self.planned[0].turn < self.out:
            sent.append(self.planned.popleft())
        self.unread += sent
        return sent

    def read(self, turn: int) -> List[Sent]:
        """The read of a turn came out, so all members' writes of the phases before are there. Gives the texts that were
        sent in these, each with the turn from which on its followers read it."""
        ticks, found = self.pace.shape.ticks, []
        while self.unread and self.unread[0].turn // ticks < turn // ticks:
            sent = self.unread.popleft()
            found.append(sent._replace(turn=(sent.turn // ticks + 1) * ticks))
        return found

    def is_quiet(self) -> bool:
        """Whether no tick waits and each write is out."""
        return not self.pace.ticks and self.out == self.pace.written

    def turns_left(self) -> int:
        """How many turns no tick was given for."""
        return self.pace.shape.turns - self.pace.written - self.pace.ticks

    def turns_for_texts(self) -> int:
        """How many of them texts may go in: what is written in the last phase nobody reads."""
        return max(0, self.turns_left() - self.pace.shape.ticks)

    def on_the_way(self) -> List[Text]:
        """The texts that are in the journal and not out yet."""
        return [*(it.text for it in self.planned), *self.given]


@dataclass(frozen=True)
class Judge:
    """Why a text can't be said by a client, as the program judges it."""

    group: Group
    client: int

    def refuses(self, text: Text) -> str | None:
        logs, name = self.group.logs, self.group.clients[self.client]
        if text.log >= len(logs) or logs[text.log].writer != name:
            return "writer"
        if len(text.words) > self.group.shape.longest_text:
            return "long"
        return None if is_allowed(text.words) else "text"


def is_allowed(words: bytes) -> bool:
    """UTF-8 without bytes below 20 and without 7f."""
    try:
        words.decode()
    except UnicodeDecodeError:
        return False
    return all(byte >= 0x20 and byte != 0x7F for byte in words)


class Waiting:
    """The texts that were typed and not given yet. The file `typed` has them too, so that a switch that was killed
    tells them. It never grows and isn't synced: what is typed moves no other file's way to the disk."""

    HEAD = struct.Struct(">IIII")  # how many texts were given before, how many and how many bytes wait, and a sum

    def __init__(self, path: pathlib.Path, given: int) -> None:
        """Of a member to whose program so many texts were given."""
        self.texts: Deque[Text] = deque()
        self.size, self.given = 0, given
        self.writer = ThreadPoolExecutor(1)
        try:
            self.file = os.open(path, os.O_RDWR | os.O_CREAT, 0o600)
            self.left: List[Text] = self.found()  # what an earlier start left
            missing = self.HEAD.size + ROOM - os.fstat(self.file).st_size
            if missing > 0:
                os.pwrite(self.file, bytes(missing), os.fstat(self.file).st_size)
            self.write(self.state())
            os.fsync(self.file)
        except OSError as error:
            raise Stop(End.JOURNAL, f"can't write {path}: {error.strerror}") from error

    def found(self) -> List[Text]:
        head = os.pread(self.file, self.HEAD.size, 0)
        if len(head) < self.HEAD.size:
            return []
        first, count, size, total = self.HEAD.unpack(head)
        data = os.pread(self.file, min(size, ROOM), self.HEAD.size)
        if len(data) != size or zlib.crc32(data) != total:
            return []
        texts, at = [], 0
        for _ in range(count):
            log, length = number_at(data, at), number_at(data, at + 4)
            texts.append(Text(log, data[at + 8 : at + 8 + length]))
            at += 8 + length
        # those that are in the journal wait no more
        return texts[max(0, self.given - first) :]

    def has_room(self, text: Text) -> bool:
        return self.size + 8 + len(text.words) <= ROOM

    def put(self, text: Text) -> None:
        self.texts.append(text)
        self.size += 8 + len(text.words)
        self.save()

    def take(self, count: int) -> List[Text]:
        """Takes up to so many, the oldest first."""
        taken = [self.texts.popleft() for _ in range(min(count, len(self.texts)))]
        self.size -= sum(8 + len(it.words) for it in taken)
        self.given += len(taken)
        return taken

    def save(self) -> None:
        """Writes the file, without waiting for it."""
        self.writer.submit(self.write, self.state())

    def state(self) -> bytes:
        data = b"".join(NUMBER.pack(it.log) + NUMBER.pack(len(it.words)) + it.words for it in self.texts)
        return self.HEAD.pack(self.given, len(self.texts), len(data), zlib.crc32(data)) + data

    def write(self, data: bytes) -> None:
        try:
            os.pwrite(self.file, data, 0)
        except OSError:
            pass  # it keeps an older state, of which those texts are left out that are in the journal

    def close(self) -> None:
        self.save()
        self.writer.shutdown()


def packets_of_texts(texts: List[Text]) -> List[Packet]:
    return [(HOST, say(*it)) for it in texts]


class Line(NamedTuple):
    """What a typed line asks for: a text, or so many turns ahead."""

    text: Text | None
    turns: int = 0


def read_line(line: bytes, labels: Labels) -> Line | None:
    """What a line says; None where it is none."""
    word, _, rest = line.partition(b" ")
    first, _, words = rest.partition(b" ")
    if len(line) > LONGEST:
        return None
    if word == b"say":
        log = labels.log(first.decode("ascii", "replace"))
        return None if log is None else Line(Text(log, words))
    is_number = first.isdigit() and len(first) <= 10 and int(first) < 1 << 32
    return Line(None, int(first)) if word == b"away" and is_number and first == rest else None
