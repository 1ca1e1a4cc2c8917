"""The group file: the shape, the logs, who is there and where. No secret is in it.

Whoever made it may be nobody's friend, so nothing is taken of it but what has its one form.
"""

from __future__ import annotations

import base64
import binascii
import hashlib
import re
from dataclasses import dataclass, field
from typing import Callable, Dict, List, NamedTuple

from parts.errors import Wrong
from parts.printable import short

FIRST_LINE = "talek group 1"
# The most bytes of a group file.
MOST = 1 << 20
NAME = re.compile(r"[A-Za-z0-9_]{1,40}", re.ASCII)
HOST = re.compile(r"[A-Za-z0-9]([A-Za-z0-9.-]{0,251}[A-Za-z0-9])?|\[[0-9A-Fa-f:.]{2,45}\]", re.ASCII)
WHOLE = re.compile(r"0|[1-9][0-9]{0,9}", re.ASCII)
SECONDS = re.compile(r"[0-9]{1,6}(\.[0-9]{1,6})?", re.ASCII)
SHORTEST_TICK, LONGEST_TICK = 0.01, 604_800
# The least and the greatest of each of the twelve numbers.
RANGES = {"servers": (2, 8), "buckets": (8, 4096), "depth": (1, 8), "retained": (1, 32768), "block": (24, 1024),
          "filter": (64, 65536), "hits": (1, 4), "ahead": (0, 8), "clients": (1, 64), "phases": (1, 256),
          "ticks": (1, 64), "logs": (1, 256)}


class Shape(NamedTuple):
    """The twelve numbers."""

    servers: int
    buckets: int
    depth: int
    retained: int
    block: int
    filter: int
    hits: int
    ahead: int
    clients: int
    phases: int
    ticks: int
    logs: int

    @property
    def turns(self) -> int:
        return self.phases * self.ticks

    @property
    def longest_text(self) -> int:
        return self.block - 18


class Keeper(NamedTuple):
    """Who keeps a server, and where the others reach it."""

    name: str
    host: str
    port: int


class Log(NamedTuple):
    """A log, by who writes it and who follows it."""

    writer: str
    followers: List[str]

    @property
    def holders(self) -> set[str]:
        return {self.writer, *self.followers}


# ---- words


def name_in(word: str) -> str:
    if not NAME.fullmatch(word):
        raise Wrong(f"{short(word)} is no name: use letters without accents, digits and _")
    return word


def number_in(word: str, least: int, most: int) -> int:
    if not WHOLE.fullmatch(word) or not least <= int(word) <= most:
        raise Wrong(f"{short(word)} is no number from {least} to {most}")
    return int(word)


def seconds_in(word: str) -> float:
    if not SECONDS.fullmatch(word) or not SHORTEST_TICK <= float(word) <= LONGEST_TICK:
        raise Wrong(f"{short(word)} is no number of seconds from {SHORTEST_TICK} to {LONGEST_TICK}")
    return float(word)


def address_in(word: str) -> tuple[str, int]:
    host, _, port = word.rpartition(":")
    if not HOST.fullmatch(host):
        raise Wrong(f"{short(host)} is no host: use letters, digits, points and -, or an address in [ ]")
    return host.strip("[]"), number_in(port, 1, 65535)


def certificate_in(word: str) -> bytes:
    try:
        found = base64.b64decode(word, validate=True)
    except (binascii.Error, ValueError):
        found = b""
    if not found or base64.b64encode(found).decode() != word:
        raise Wrong(f"{short(word)} is no certificate in base64")
    return found


def identity_in(line: str) -> tuple[str, bytes]:
    """The name and the certificate of a line that is an identity."""
    word, _, rest = line.partition(" ")
    name, _, certificate = rest.partition(" ")
    if word != "identity":
        raise Wrong(f"{short(line)} is no identity")
    return name_in(name), certificate_in(certificate)


def lines_of(data: bytes, what: str) -> List[str]:
    """The lines of a file, which has printable characters without accents alone."""
    if len(data) > MOST:
        raise Wrong(f"{what} has more than {MOST} bytes")
    lines = data.split(b"\n")
    for at, line in enumerate(lines, 1):
        if any(not 0x20 <= byte < 0x7F for byte in line):
            raise Wrong(f"line {at} of {what} has other bytes than printable ASCII: {short(line)}")
    if lines[-1]:
        raise Wrong(f"the last line of {what} has no end")
    return [line.decode("ascii") for line in lines[:-1]]


# ---- the file


@dataclass
class Group:
    """What a group file says."""

    digest: bytes
    run: int = 1
    format: int = 1
    tick: float = 10.0
    shape: Shape | None = None
    anew: List[int] = field(default_factory=list)  # the logs whose roots are drawn anew for this run
    identities: Dict[str, bytes] = field(default_factory=dict)  # by name: the certificate
    servers: List[Keeper] = field(default_factory=list)  # server 1 first
    clients: List[str] = field(default_factory=list)  # client 0 first
    logs: List[Log] = field(default_factory=list)  # log 0 first

    def longest_frame(self) -> int:
        """The most bytes of a frame that a client sends."""
        read = 14 if self.format == 1 else 78
        return max(18 + 4 * self.shape.hits + self.shape.block, read + self.shape.buckets // 4)

    def certificate(self, role: str, number: int) -> bytes:
        """The certificate of server `number`, or of client `number - 1`."""
        return self.identities[self.name_of(role, number)]

    def server_called(self, number: int) -> str:
        """A server by its number and who keeps it."""
        return f"server {number} ({self.servers[number - 1].name})"

    def name_of(self, role: str, number: int) -> str:
        return self.servers[number - 1].name if role == "server" else self.clients[number - 1]


class Reader:
    """Takes the lines of a group file."""

    def __init__(self, data: bytes) -> None:
        self.group = Group(hashlib.sha256(data).digest())
        self.seen: set[str] = set()  # the words that may stand in one line alone
        self.takers: Dict[str, Callable[..., None]] = {
            "run": self.take_run, "format": self.take_format, "shape": self.take_shape, "tick": self.take_tick,
            "anew": self.take_anew, "identity": self.take_identity, "server": self.take_server,
            "client": self.take_client, "log": self.take_log}

    def take(self, text: str) -> None:
        word, *rest = text.split(" ")
        if word not in self.takers:
            raise Wrong(f"there is no such line: {short(text)}")
        if word in ("run", "format", "shape", "tick", "anew"):
            if word in self.seen:
                raise Wrong(f"{word} stands twice")
            self.seen.add(word)
        try:
            self.takers[word](*rest)
        except TypeError:
            raise Wrong(f"this has too few words or too many: {short(text)}") from None

    def take_run(self, number: str) -> None:
        self.group.run = number_in(number, 1, 0xFFFFFFFF)

    def take_format(self, number: str) -> None:
        self.group.format = number_in(number, 1, 2)

    def take_shape(self, *numbers: str) -> None:
        if len(numbers) != len(RANGES):
            raise Wrong("a shape has twelve numbers")
        found = []
        for word, (what, (least, most)) in zip(numbers, RANGES.items()):
            try:
                found.append(number_in(word, least, most))
            except Wrong as why:
                raise Wrong(f"{what} of the shape: {why}") from None
        self.group.shape = Shape(*found)

    def take_tick(self, seconds: str) -> None:
        self.group.tick = seconds_in(seconds)

    def take_anew(self, *logs: str) -> None:
        self.group.anew = [number_in(log, 0, 255) for log in logs]

    def take_identity(self, name: str, certificate: str) -> None:
        name, found = identity_in(f"identity {name} {certificate}")
        if name in self.group.identities:
            raise Wrong(f"{name} has two identities")
        if found in self.group.identities.values():
            raise Wrong(f"{name} has the certificate of somebody else")
        self.group.identities[name] = found

    def take_server(self, name: str, address: str) -> None:
        keeper = Keeper(name_in(name), *address_in(address))
        if any(it.name == keeper.name for it in self.group.servers):
            raise Wrong(f"{keeper.name} keeps two servers, which must have two keepers")
        if any((it.host, it.port) == (keeper.host, keeper.port) for it in self.group.servers):
            raise Wrong(f"two servers have the address {short(address)}")
        self.group.servers.append(keeper)

    def take_client(self, name: str) -> None:
        if name_in(name) in self.group.clients:
            raise Wrong(f"{name} is two clients")
        self.group.clients.append(name)

    def take_log(self, writer: str, *followers: str) -> None:
        log = Log(name_in(writer), [name_in(it) for it in followers])
        if len(set(log.followers)) != len(log.followers):
            raise Wrong(f"a log of {writer} has a follower twice")
        self.group.logs.append(log)

    def check(self) -> None:
        """Refuses parts that don't fit together."""
        group, shape = self.group, self.group.shape
        if shape is None:
            raise Wrong("it has no shape")
        counts = {"servers": len(group.servers), "clients": len(group.clients), "logs": len(group.logs)}
        for what, count in counts.items():
            if count != getattr(shape, what):
                raise Wrong(f"it has {count} {what}, and its shape says {getattr(shape, what)}")
        for name in [*(it.name for it in group.servers), *group.clients]:
            if name not in group.identities:
                raise Wrong(f"it has no identity of {name}")
        for number, log in enumerate(group.logs):
            for name in sorted(log.holders - set(group.clients)):
                raise Wrong(f"log {number} is of {name}, who is no client")
        if any(log >= shape.logs for log in group.anew):
            raise Wrong("it wants a new root of a log that isn't there")


def parse(data: bytes) -> Group:
    """The group of a group file."""
    lines = lines_of(data, "the group file")
    if lines[:1] != [FIRST_LINE]:
        raise Wrong(f"this is no group file: its first line isn't '{FIRST_LINE}'")
    reader = Reader(data)
    for at, line in enumerate(lines[1:], 2):
        try:
            reader.take(line)
        except Wrong as why:
            raise Wrong(f"line {at} of the group file: {why}") from None
    try:
        reader.check()
    except Wrong as why:
        raise Wrong(f"the group file: {why}") from None
    return reader.group
