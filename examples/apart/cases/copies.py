"""A member's folder that is there twice, or is an older one: no pad is used for two texts."""

from __future__ import annotations

import asyncio
import shutil
import time
from dataclasses import replace
from pathlib import Path
from typing import List, Tuple

from cases.guest import Guest
from cases.stage import FAST, End, Stage, demand
from meeting import WRITE
from parts.link import Mark

# For how many seconds a server doesn't hear another start of a member.
SPEAKING = 3


def copied_folder(stage: Stage) -> None:
    """While the group stands still a member's folder is copied, and the copy is started beside it. The copy speaks from
    then on, and the other one ends before it ticks again. The run goes on with the copy."""
    stage.make(8, 3)
    stage.start()
    stage.say(2)
    stage.wrote(1, 2)
    stage.members[2].kill()
    turns, first = stand_still(stage), stage.members[1]
    stage.wrote(1, turns)
    stage.until(lambda: first.ticks() > turns, "a tick that waits")
    ticks, copy = start_copy(stage)
    if copy.is_over():  # (it wasn't quite still, so that none of the two may go on)
        stage.notes.append("both ended")
        return stage.pads()
    demand(first.ended() == "ended copied", f"beside a copy the first one ended with {first.ended()!r}")
    demand(set(first.lines("unsent")) == {"unsent ben said by the first"}, "a text was lost beside a copy")
    demand(first.ticks() == ticks, "the first one ticked beside a copy")
    # (of what waited when the folder was copied, the copy says too that it wasn't sent)
    waited = len([it for it in copy.lines("unsent") if it == "unsent ben said by the first"])
    copy.typed += [it for it in first.typed if it != "say 1 said by the first"] + ["say 1 said by the first"] * waited
    stage.members[1] = copy
    stage.members[2].start()
    stage.end_all()
    stage.compare()
    return stage.pads()


def start_copy(stage: Stage) -> Tuple[int, End]:
    """Copies the folder of client 1 and starts the copy, until one of them isn't older. Gives it, and how many ticks
    the first one had then."""
    first = stage.members[1]
    for number in range(10):
        folder = stage.folder / f"copy-{number}"
        shutil.copytree(first.folder, folder)
        ticks = first.ticks()
        # both have something to say in the turn that comes
        first.type("say 1 said by the first")
        copy = stage.end(folder, "join").start()
        copy.type("say 1 said by the copy")
        stage.until(lambda: first.is_over() or copy.is_over(), "the end of one of two")
        if first.is_over():
            break
    stage.until(lambda: copy.is_over() or copy.lines("connected"), "a copy to end or to speak")
    return ticks, copy


def stand_still(stage: Stage) -> int:
    """The turn up to which all can write while client 2 is away: that of its phase's end."""
    written = max(it.count(3, WRITE) for it in stage.servers)
    return min((written // stage.shape.ticks + 1) * stage.shape.ticks, stage.shape.turns)


def two_at_once(stage: Stage) -> None:
    """A member's folder is copied while it runs, and each copy is started beside it at once. At most one of them goes
    on, and none says another thing in a turn in which one said something."""
    stage.make(4, 5)
    stage.start(limits=replace(FAST, speaking=SPEAKING))
    stage.say(2)
    stage.wrote(1, 1)
    first, copies = stage.members[1], []
    first.restart()
    stage.until(lambda: first.lines("connected"), "a member that is connected")
    began = time.monotonic()
    first.kill()
    both, when = asyncio.run(greet_both(first.folder))
    demand(both == [False, True] or when - began > SPEAKING, f"of two that greeted {both} are heard")
    first.start()
    for number in range(3):
        folder = stage.folder / f"copy-{number}"
        shutil.copytree(first.folder, folder)
        copies.append(stage.end(folder, "join").start())
        copies[-1].type(f"say 1 said by copy {number}")
        if not first.is_over():
            first.type(f"say 1 said by the first beside {number}")
        stage.until(lambda: first.is_over() or copies[-1].is_over(), "the end of one of two")
        stage.pads()
        if first.is_over():
            break
    if first.ended() == "ended done" and not copies[-1].is_over():
        copies.pop().kill()  # (it came too late to be heard by any server)
    for end in [first, *copies]:
        demand(not end.is_over() or end.ended() in ("ended copied", "ended older", "ended done"),
               f"beside others a member ended {end.ended()!r}")
    left = [it for it in [first, *copies] if not it.is_over() or it.ended() == "ended done"]
    demand(len(left) <= 1, "two speak for one member")
    if left == [first]:  # (or it ends too, where a server heard the last copy before that one ended)
        stage.until(first.is_over, "the end of a member of which there were copies")
        demand(first.ended() in ("ended copied", "ended done"), f"beside others a member ended {first.ended()!r}")
        left = [first] if first.ended() == "ended done" else []
    stage.notes.append("one went on" if left else "none went on")
    if left == [first]:
        stage.end_all()
        stage.compare()
    stage.pads()


async def greet_both(folder: Path) -> Tuple[List[bool], float]:
    """Two greet a server, and the first one speaks before the second one greets, so soon after another start that it
    has to wait. Gives which of them are heard, and when the second one greeted."""
    one, other = Guest(folder), Guest(folder)
    await one.greet()
    one.link.send_mark(Mark.SPEAKS)
    await other.greet()
    when = time.monotonic()
    heard = [await it.is_heard() for it in (other, one)]
    for it in (one, other):
        it.link.close()
    return heard[::-1], when


def restored_folder(stage: Stage) -> None:
    """A member's folder is copied, and put back after it went on. It ends before any tick; and with the newer folder
    the run goes on."""
    stage.make(5, 3)
    stage.start()
    stage.say(2)
    stage.wrote(0, 2)
    member, old, new = stage.members[0], stage.folder / "old", stage.folder / "new"
    member.stop()
    demand(member.ended() == "ended stopped", f"a member that was stopped ended {member.ended()!r}")
    shutil.copytree(member.folder, old)
    member.start()
    stage.wrote(0, 4)
    member.kill()
    for server in stage.servers:  # (which know from their journals who spoke last)
        server.restart()
    member.folder.rename(new)
    shutil.copytree(old, member.folder)
    ticks = member.ticks()
    member.start()
    stage.until(member.is_over, "the end of a restored member")
    demand(member.ended() == "ended copied", f"a restored member ended {member.ended()!r}")
    demand(member.ticks() == ticks, "a restored member ticked")
    shutil.rmtree(member.folder)
    new.rename(member.folder)
    member.start()
    stage.end_all()
    stage.compare()
    stage.pads()
