"""Who leaves and who comes, keys that were used, and what a run leaves on disk."""

from __future__ import annotations

import asyncio
import shutil
from dataclasses import replace

from cases.guest import Guest
from cases.stage import FAST, NAMES, Stage, demand
from parts.group_file import parse
from parts.labels import Labels


def leaving(stage: Stage) -> None:
    """After a run its journals and setups are gone. Then cem leaves and dan comes: the next group file says whose roots
    are drawn anew, and folders aren't made with roots that cem has. In the next run cem gets in nowhere."""
    stage.make(2, 2)
    deaf = stage.servers[1]
    for end in [*stage.servers, *stage.members]:
        end.start(keeps=False, limits=replace(FAST, farewell=8), lie="deaf" if end is deaf else "")
    for member in stage.members:
        stage.until(member.is_over, "the end of a member that a server doesn't hear")
        demand(member.ended() == "ended done" and "not every server answered" in member.complaints()
               and (member.folder / "journal").exists(), "a member that a server didn't hear deleted its journal")
    deaf.restart(keeps=False)
    for member in stage.members:
        member.start(keeps=False, limits=replace(FAST, farewell=60))
    stage.end_all()
    for end in [*stage.servers, *stage.members]:
        left = sorted(it.name for it in end.folder.iterdir())
        demand(left == ["cert.pem", "group", "key.pem", "over", "role"], f"a run left {left}")
        (end.folder / "journal").write_bytes(b"what a power cut left")
        end.start()
        stage.until(end.is_over, "the end of a switch whose run is over")
        demand(not (end.folder / "journal").exists(), "what a power cut left of a run wasn't deleted")
        demand("is over" in end.complaints(), f"a run that is over: {end.complaints()!r}")
    change(stage)


def change(stage: Stage) -> None:
    """The next run has dan in the place of cem."""
    plan = (stage.folder / "plan").read_text().replace("cem", "dan")
    (stage.folder / "next-plan").write_text(plan)
    made = stage.try_tool("change", "group", "next-plan", "dan.identity")
    duties = made.stderr.decode().splitlines()
    demand(made.returncode == 0 and duties == [
        "log 0: ann draws a new root, since cem had it, and gives it to ben, dan",
        "log 1: ben draws a new root, since cem had it, and gives it to ann, dan",
        "log 2: dan draws a new root, since cem had it, and gives it to ann, ben"], f"a change: {duties}")
    (stage.folder / "next").write_bytes(made.stdout)
    made_group = parse(made.stdout)
    demand(made_group.run == 2 and made_group.anew == [0, 1, 2] and "cem" not in made_group.identities
           and made_group.clients == ["ann", "ben", "dan"], f"the change: {made.stdout.decode()}")
    stage.labels = Labels(made_group.logs)
    refuse_used(stage)
    names = [*NAMES[:2], "dan"]
    for log, writer in enumerate(names):
        stage.tool("root", writer, log, "anew")
        for other in names:
            if other != writer:
                shutil.copy(stage.folder / writer / f"root-{log}", stage.folder / other)
    for name in names:
        stage.tool("folder", "next", name)
    stage.servers = [stage.end(stage.place(NAMES[j], f"server-{j + 1}", 2), "serve") for j in range(2)]
    stage.members = [stage.end(stage.place(name, f"client-{c}", 2), "join") for c, name in enumerate(names)]
    stage.start()
    stage.say(2)
    stage.wrote(2, 1)
    left = stage.folder / "cem-again"
    shutil.copytree(stage.members[2].folder, left)
    for file in ("key.pem", "cert.pem"):
        shutil.copy(stage.folder / "cem" / file, left)
    demand(not asyncio.run(Guest(left).is_let_in()), "who left got in")
    stage.end_all()
    stage.compare()


def refuse_used(stage: Stage) -> None:
    """No folder is made of a run that was there, or with a root that somebody has who left."""
    for name in NAMES[:2]:
        again = stage.try_tool("folder", "group", name)
        demand(again.returncode == 1 and b"used once" in again.stderr, f"a run was made twice: {again.stderr!r}")
        used = stage.try_tool("folder", "next", name)
        demand(used.returncode == 1 and b"was used by an earlier run" in used.stderr, f"a used root: {used.stderr!r}")
    (stage.folder / "anew").write_bytes(stage.tool("new", "plan", *(f"{name}.identity" for name in NAMES)))
    made = stage.try_tool("folder", "anew", "ann")
    demand(made.returncode == 1 and b"used once" in made.stderr, "a new group file with run 1 was taken")
    there = stage.try_tool("root", "ann", 0)
    demand(there.returncode == 1 and b"anew" in there.stderr, "a root was drawn over another")
