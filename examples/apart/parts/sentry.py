"""Judges what servers send to a member before anything of it is kept: a lie is told, and taken back with its link.

A member's program ends for good at a frame that no server may send. So it is given only what is as it should be: the
reply to the read that is open, and the next epoch once all servers told the same of it.
"""

from __future__ import annotations

from dataclasses import dataclass, field
from typing import Dict, List

from parts.errors import Wrong
from parts.frames import EPOCH, READS, REFUSED, REPLY, Cause, epoch_length, parted, reply_length
from parts.group_file import Group
from parts.packets import Packet, number_at


@dataclass
class Told:
    """What one server told."""

    reads: List[bytes] = field(default_factory=list)  # of each read that went to it, its client, turn and epoch
    replies: int = 0
    epochs: int = 0
    digests: bytes | None = None  # of the writes of the next epoch's phase
    held: bytes | None = None  # the frame of the next epoch, which waits for the other servers'
    last: bytes | None = None  # the frame of the last epoch that was taken


class Sentry:
    """What all servers told of one member's run."""

    def __init__(self, group: Group) -> None:
        self.group, self.shape = group, group.shape
        self.told: Dict[int, Told] = {number: Told() for number in range(1, self.shape.servers + 1)}

    def sent(self, server: int, frame: bytes) -> None:
        """A frame went to a server."""
        if frame[0] in READS:
            self.told[server].reads.append(frame[2:14])

    def took(self, server: int, frame: bytes) -> None:
        """A frame of a server is taken."""
        told = self.told[server]
        if frame[0] == REPLY:
            told.replies += 1
        else:
            told.epochs += 1
            told.digests = told.held = None
            told.last = frame

    def forget(self, server: int) -> None:
        """What was held of a server is gone with its link, and comes again."""
        self.told[server].digests = self.told[server].held = None

    def hear_digests(self, server: int, phase: int, digests: bytes) -> None:
        """A server tells digests of all clients' writes in a phase."""
        told = self.told[server]
        if phase != told.epochs + 1 or told.digests is not None:
            raise Wrong("it tells what was written in a phase that isn't the next one")
        told.digests = digests

    def judge(self, server: int, frame: bytes) -> List[Packet]:
        """The packets that are good now that a frame came."""
        kind, told = frame[0] if frame else 0, self.told[server]
        if kind == REFUSED:
            raise Wrong(f"it refuses a frame of this member: {cause_in(frame)}")
        if told.held is not None:
            raise Wrong("it goes on before an epoch is known")
        if kind == REPLY:
            self.check_reply(told, frame)
            return [(server, frame)]
        if kind == EPOCH:
            self.check_epoch(told, frame)
            told.held = frame
            return self.released()
        raise Wrong("it sends a frame of no server")

    def check_reply(self, told: Told, frame: bytes) -> None:
        if told.replies == len(told.reads):
            raise Wrong("it replies to a read that wasn't sent")
        if len(frame) != reply_length(self.shape) or frame[1] != 1 or frame[2:14] != told.reads[told.replies]:
            raise Wrong("its reply isn't one to the read that is open")

    def check_epoch(self, told: Told, frame: bytes) -> None:
        if len(frame) != epoch_length(self.shape) or frame[1] != 1 or number_at(frame, 2) != told.epochs + 1:
            raise Wrong("it tells another epoch than the next one")
        if told.epochs >= self.shape.phases:
            raise Wrong("it tells an epoch after the last one")
        if told.digests is None:
            raise Wrong("it tells an epoch, and not what was written in its phase")

    def released(self) -> List[Packet]:
        """The frames of the next epoch, once all servers told the same of it."""
        least = min(told.epochs for told in self.told.values())
        behind = {server: told for server, told in sorted(self.told.items()) if told.epochs == least}
        if any(told.held is None for told in behind.values()):
            return []
        self.compare_writes(least + 1, {server: parted(told.digests) for server, told in behind.items()})
        # (a power cut may have left the journal with the frame of one server, and without that of another)
        frames = {server: behind[server].held if server in behind else told.last for server, told in self.told.items()}
        if len(set(frames.values())) > 1:
            raise Differ(f"servers have the same writes of phase {least + 1} and tell different filters of epoch "
                         f"{least + 1}: one of them lies")
        return [(server, told.held) for server, told in behind.items()]

    def compare_writes(self, phase: int, parts: Dict[int, List[bytes]]) -> None:
        """Names each client of whom servers have different writes."""
        wrong = []
        for client, name in enumerate(self.group.clients):
            by_server = {server: digests[client].hex()[:8] for server, digests in parts.items()}
            if len(set(by_server.values())) > 1:
                sides = ", ".join(f"{self.group.server_called(server)} has {it}" for server, it in by_server.items())
                wrong.append(f"{name} (client {client}): {sides}")
        if wrong:
            raise Differ(f"in phase {phase} servers have different writes of {'; of '.join(wrong)}")

    def turn_read(self) -> int:
        """The turn of the last read that went to all servers."""
        return len(self.told[self.shape.servers].reads) - 1

    def awaited(self) -> Dict[int, str]:
        """By server that keeps something back, what that is."""
        found, least = {}, min(told.epochs for told in self.told.values())
        has_next = [it for it, told in self.told.items() if told.held or told.epochs > least]
        for server, told in self.told.items():
            who = self.group.server_called(server)
            if told.replies < len(told.reads):
                found[server] = f"{who} hasn't answered the read of turn {number_at(told.reads[-1], 4)}"
            elif has_next and server not in has_next:
                other = self.group.server_called(has_next[0])
                found[server] = f"{who} hasn't told epoch {least + 1}, which {other} has told"
        return found


class Differ(Wrong):
    """Servers don't tell the same."""


def cause_in(frame: bytes) -> str:
    """What a refused frame says."""
    if len(frame) == 3 and frame[2] in set(Cause):
        return Cause(frame[2]).name.lower().replace("_", " ")
    return "for no cause that there is"
