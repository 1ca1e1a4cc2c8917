"""A whole run, in which members and servers are killed at random moments, and strangers knock."""

from __future__ import annotations

import asyncio
import shutil
import ssl
import time

from bad_frames import cause_of, kinds_of
from cases.guest import Guest, sent_to
from cases.stage import TICK_SECONDS, Failed, Stage, demand
from meeting import WRITE
from parts import journal
from parts.frames import refusal

# Of these shapes a run takes one.
SHAPES = [
    (1, [2, 8, 8, 36, 96, 1024, 2, 4, 3], 6, 5),
    (1, [2, 16, 4, 64, 200, 64, 1, 0, 3], 4, 7),
    (2, [2, 32, 8, 48, 64, 512, 3, 2, 3], 7, 4),
]


def whole_run(stage: Stage) -> None:
    """Members and servers are killed and start again, a server loses its journal, a member is away, one is started with
    an older journal, strangers knock, and bad frames are refused."""
    form, base, phases, ticks = stage.rng.choice(SHAPES)
    stage.make(phases, ticks, form, base, seconds=2 * TICK_SECONDS)
    stage.start()
    stage.say(3)
    for client in range(3):
        stage.wrote(client, 1)
    knock(stage)
    old = (stage.members[0].folder / "journal").read_bytes()
    kill_some(stage)
    lose_journal(stage)
    stage.say(2)
    leave(stage, 2, 3)
    start_older(stage, old)
    refuse_bad_frames(stage)
    stage.end_all()
    stage.compare()
    stage.pads()


def kill_some(stage: Stage) -> None:
    """Ends are killed at random moments, one of them within a record of its journal."""
    for _ in range(6):
        end = stage.rng.choice([*stage.servers, *stage.members])
        time.sleep(stage.rng.random())
        end.kill()
        if stage.rng.random() < 0.5:
            path = end.folder / "journal"
            data = path.read_bytes()
            # (what an earlier kill tore off isn't cut off yet where the switch was killed before it came to that)
            whole = data[: journal.records_of(data).end]
            record = journal.recorded(1, bytes(20), len(whole))
            path.write_bytes(whole + record[: stage.rng.randint(1, len(record) - 1)])
        time.sleep(stage.rng.random() / 2)
        end.start()


def lose_journal(stage: Stage) -> None:
    """A server loses its journal and is rebuilt by its clients."""
    stage.wrote(0, 4)
    stage.servers[0].kill()
    (stage.servers[0].folder / "journal").unlink()
    stage.servers[0].start()


def leave(stage: Stage, client: int, turns: int) -> None:
    """A member writes turns ahead, and is away while the others go on."""
    member, before = stage.members[client], stage.written(client)
    member.type(f"away {turns}")
    stage.until(lambda: member.lines("away") or member.is_over(), f"client {client} to go away")
    stage.wrote(client, before + turns)
    member.kill()
    stage.wrote(0, before + 2)
    member.start()


def start_older(stage: Stage, old: bytes) -> None:
    """A member that is started with an older journal ends, before it writes or reads anything anew."""
    stage.members[0].kill()
    folder = stage.folder / "older"
    shutil.copytree(stage.members[0].folder, folder)
    (folder / "journal").write_bytes(old)
    older = stage.end(folder, "join").start()
    stage.until(older.is_over, "the end of the older member")
    demand(older.ended() in ("ended older", "ended copied"), f"an older journal ended with {older.ended()!r}")
    demand("this member" in older.complaints(), "an older journal ended without a word")
    demand(older.ticks() == sum(it == (0, b"T") for it in journal.records_of(old).packets), "an older member ticked")
    stage.members[0].start()


def knock(stage: Stage) -> None:
    """Nobody gets in without a certificate of the group, its group file, and the own number; and a member sends nothing
    to anyone else at a server's address."""
    for name in ("stranger", "other", "false"):
        shutil.copytree(stage.members[2].folder, stage.folder / name)
    for file in ("key.pem", "cert.pem"):
        shutil.copy(stage.folder / "dan" / file, stage.folder / "stranger")
    group = stage.folder / "other" / "group"
    group.write_text(group.read_text().replace("run 1\n", "run 2\n"))
    (stage.folder / "false" / "role").write_text("client 1\n")
    for name in ("stranger", "other", "false"):
        demand(not asyncio.run(Guest(stage.folder / name).is_let_in()), f"a server let a {name} peer in")
    demand(not asyncio.run(Guest(stage.members[2].folder, newest=ssl.TLSVersion.TLSv1_2).is_let_in()),
           "a server takes TLS 1.2")
    for name in ("dan", "cem"):
        false = stage.folder / f"{name}-as-ann"
        shutil.copytree(stage.servers[0].folder, false)
        for file in ("key.pem", "cert.pem"):
            shutil.copy(stage.folder / name / file, false)
        if asyncio.run(sent_to(false, stage.members[1].folder, stage.host)):
            raise Failed(f"a member sent something to {name} in the place of server 1")


def refuse_bad_frames(stage: Stage) -> None:
    """A member wrote in all turns and is killed. Server 1 refuses a bad frame that comes as from it, by its cause, and
    takes nothing more of it; nothing of that is in its journal. Started anew, it takes the member again."""
    client, server = 2, stage.servers[0]
    stage.members[client].type("away 1000")
    stage.wrote(client, stage.shape.turns)
    stage.members[client].kill()
    own = [data for peer, data in server.journal() if peer == client + 1]
    others = [data for peer, data in server.journal()[1:] if peer != client + 1]
    kinds = kinds_of(stage.shape, stage.rng, own, others) if any(it[0] != WRITE for it in own) else {"empty": b""}
    reads = sum(it[0] != WRITE for it in own)
    causes = {name: cause_of(stage.shape, client, stage.shape.turns, reads, data) for name, data in kinds.items()}
    name = stage.rng.choice([name for name, cause in causes.items() if cause])
    guest = Guest(stage.members[client].folder)
    answers = asyncio.run(guest.sends([kinds[name]] * 5))
    demand(answers == [refusal(causes[name])], f"a bad frame, {name}, got {answers} and not cause {causes[name]}")
    demand(asyncio.run(Guest(stage.members[client].folder).is_closed_out()), "a client whose frame was refused got in")
    word = f"a frame of it is refused ({causes[name].name.lower()})"
    stage.until(lambda: word in server.complaints(), "a word of a bad frame")
    demand([data for peer, data in server.journal() if peer == client + 1] == own, "a bad frame got into the journal")
    server.restart()
    stage.members[client].start()
