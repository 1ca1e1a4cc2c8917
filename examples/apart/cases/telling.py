"""What members are told while a group is alive: who is awaited and since when, and that it goes on."""

from __future__ import annotations

import time
from dataclasses import replace
from typing import List

from cases.stage import FAST, End, Stage, demand
from parts.packets import HOST


def telling(stage: Stage) -> None:
    """A server comes late, a member goes and comes again. Whoever is there is told of it by name and with the time;
    what was typed is told once, by the name of its log or by its number."""
    stage.make(6, 3)
    ann, ben, cem = stage.members
    began = time.time()
    stage.servers[0].start()
    for member in stage.members:  # (which have time to find the server that is there)
        member.start(limits=replace(FAST, patience=5))
    for member in stage.members:
        awaited(stage, member, "the server of ben", began)
        demand(not lines_about(member, "the server of ann"), "a server is awaited that is there")
        demand(not member.lines("connected"), "a member without a server told that it is connected")
    stage.servers[1].start()
    for member in stage.members:
        stage.until(lambda: member.lines("connected"), "a word that a member is connected")
    type_by_names(stage, ann)
    stage.wrote(0, 2)
    went = time.time()
    cem.kill()
    for number in range(2 * stage.shape.ticks):  # (so many that one goes with the tick whose write waits for cem)
        ann.type(f"say ann goes later {number}")
    for end in [ann, ben, *stage.servers]:
        awaited(stage, end, "cem", went)
    for client, member in enumerate([ann, ben]):
        waiting = member.ticks() - stage.written(client)
        demand(waiting <= 1, f"{waiting} ticks were given while a member was away")
    wait_in_journal(stage, ann)
    awaited(stage, ann, "cem", went)
    demand(not ann.lines("refused"), "a refusal was told once more")
    cem.start()
    for end in [ann, ben, *stage.servers]:
        stage.until(lambda: "goes on" in after_awaiting(end), "a word that it goes on")
    stage.end_all()
    for member in stage.members:
        demand(len(member.lines("connected")) == 1, f"a member told {member.told()}")
    stage.compare()


def type_by_names(stage: Stage, ann: End) -> None:
    """A log is meant by its label or its number, and of each text that can't be said it is told once."""
    ann.type("say ann by a name")
    ann.type("say 0 by a number")
    ann.type("say ben not mine")
    ann.type("say 7 nobody's")
    stage.until(lambda: len(ann.lines("refused")) == 2, "two refusals")
    demand(ann.lines("refused") == ["refused ben writer", "refused 7 writer"], f"refused were {ann.lines('refused')}")
    ann.type("say dan nobody's")
    stage.until(lambda: ann.lines("want"), "a word about a log that isn't there")
    ann.typed.remove("say dan nobody's")


def wait_in_journal(stage: Stage, ann: End) -> None:
    """Who stops is told of each text that is in the journal and not sent that it goes later. There is one, as a rule,
    with the tick whose write waits for somebody else."""
    ann.stop()
    given = sum(peer == HOST and data[:1] == b"S" for peer, data in ann.journal()[1:])
    late = given - len(ann.lines("sent"))
    stage.notes.append(f"{late} in the journal")
    demand(len(ann.lines("waits")) == late, f"with {late} texts in the journal a stopped member told {ann.told()}")
    ann.start()


def awaited(stage: Stage, end: End, who: str, since: float) -> None:
    """It is told that somebody is awaited since a moment that came after another one, or at most a moment before."""
    stage.until(lambda: any(since - 2 <= it <= time.time() for it in lines_about(end, who)),
                f"{end.folder} to await {who} since {time.ctime(since)}")


def lines_about(end: End, who: str) -> List[float]:
    """Since when somebody is awaited, by each line about it."""
    begin = f"awaits {who} since "
    lines = [it.removeprefix(begin) for it in end.lines("awaits") if it.startswith(begin)]
    return [time.mktime(time.strptime(it, "%Y-%m-%d %H:%M:%S")) for it in lines]


def after_awaiting(end: End) -> List[str]:
    """The lines after the last one about somebody who is awaited."""
    told = end.told()
    return told[max(at for at, it in enumerate(told) if it.startswith("awaits ")) + 1 :]
