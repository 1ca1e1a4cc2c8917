"""Servers and members that lie. What they say ends nobody for good, and is told."""

from __future__ import annotations

from cases.stage import End, Stage, demand
from cases.tried_switch import LIES

OF_MEMBERS = ["block", "filter position"]
OF_SERVERS = [lie for lie in LIES if lie not in [*OF_MEMBERS, "deaf"]]  # (nobody is told that a server is deaf)
# How many lies of a server a trial takes.
SOME = 5


def lying_server(stage: Stage) -> None:
    """A server lies, one lie after another. Members tell of it, and end or wait; once it is honest they go on, and what
    came is as defined."""
    stage.make(8, 4)
    stage.start()
    stage.say(2)
    stage.wrote(0, 1)
    lies = stage.rng.sample(OF_SERVERS, SOME)
    stage.notes.append(", ".join(lies))
    for number, lie in enumerate(lies):
        lie_for_a_while(stage, lie)
        stage.until(lambda: go_on(stage, 2 + 2 * number), "the group to go on after a lie")
    stage.end_all()
    stage.compare()
    stage.pads()


def lie_for_a_while(stage: Stage, lie: str) -> None:
    """Server 1 tells a lie until all members told of it or ended for it."""
    liar = stage.servers[0]
    for member in stage.members:
        member.restart()
    before = {member: len(member.complaints()) for member in stage.members}
    liar.restart(lie=lie)
    stage.until(lambda: any(noticed(it, before[it]) for it in stage.members), f"a word about the lie {lie}")
    for member in stage.members:
        if member.is_over():
            demand(member.ended() in ("ended older", "ended copied"),
                   f"at the lie {lie} a member ended {member.ended()!r}: {member.complaints()}")
    liar.restart()


def go_on(stage: Stage, turns: int) -> bool:
    """Starts members that a lie ended, and says whether client 0 wrote in so many turns."""
    for member in stage.members:
        if member.is_over() and member.ended() in ("ended older", "ended copied"):
            member.start()
    return stage.written(0) >= turns


def noticed(member: End, before: int) -> bool:
    """Whether a member told of a lie, or ended."""
    words = [it for it in member.complaints()[before:].split("\n") if it and "Connection" not in it]
    return member.is_over() or bool(words)


def different_writes(stage: Stage) -> None:
    """A member sends the servers different writes. The others name it and the servers, and don't end."""
    stage.make(3, 2)
    liar = stage.members[2]
    for end in [*stage.servers, *stage.members]:
        end.start(lie=stage.rng.choice(OF_MEMBERS) if end is liar else "")
    stage.say(1)
    for member in stage.members[:2]:
        stage.until(lambda: "different writes of cem (client 2): server 1 (ann) has" in member.complaints()
                    and ", server 2 (ben) has" in member.complaints(), "the name of who writes differently")
    for member in stage.members[:2]:
        demand(not member.is_over(), "a member ended since another one wrote differently")
        member.stop()
        demand(member.ended() == "ended stopped", f"a member ended {member.ended()!r}")
        demand(all(data[:1] != b"\x0b" for peer, data in member.journal() if peer), "an epoch that differs was taken")
