"""Journals that are cut, changed, exchanged, or for which there is no room."""

from __future__ import annotations

import shutil
from pathlib import Path

from cases.stage import End, Stage, demand
from parts import journal


def journals(stage: Stage) -> None:
    """A journal of another folder, or with a changed byte, is refused and stays as it is; only a torn end is cut off.
    With their own journals all go on."""
    stage.make(3, 3, stage.rng.choice([1, 2]))
    stage.start()
    stage.say(2)
    stage.wrote(0, 3)
    for end in [*stage.servers, *stage.members]:
        end.kill()
    (stage.folder / "next").write_bytes(stage.tool("next", "group"))
    for name in ("ann", "ben"):
        stage.tool("folder", "next", name)
    exchange(stage)
    own_one_alone(stage, stage.rng.choice([*stage.servers, *stage.members]))
    for end in [stage.rng.choice(stage.servers), stage.rng.choice(stage.members)]:
        for _ in range(3):
            change(stage, end)
        move(stage, end)
        for _ in range(3):
            cut(stage, end)
    lose_streams(stage)
    stage.end_all()
    stage.compare()
    stage.pads()


def lose_streams(stage: Stage) -> None:
    """A switch whose standard streams are closed writes into no file of its own in their place."""
    for end in [*stage.servers, *stage.members]:
        end.start(closes_streams=end in stage.servers)
    stage.wrote(0, 5)
    for end in stage.servers:
        end.stop()
        end.start()


def own_one_alone(stage: Stage, end: End) -> None:
    """A journal belongs to the setup with which it was begun, and to one switch at a time."""
    path, journal_before = end.folder / "setup", (end.folder / "journal").read_bytes()
    setup = path.read_bytes()
    path.write_bytes(setup[:-6] + bytes([setup[-6] ^ 1]) + setup[-5:])
    refused(stage, end, journal_before, "ended broken", "another setup")
    path.write_bytes(setup)
    held = journal.Journal(end.folder / "journal", owner_of(end, end.folder))
    refused(stage, end, journal_before, "ended broken", "another switch has")
    held.file.close()


def exchange(stage: Stage) -> None:
    """Journals of other numbers, of another role and of another run."""
    server, other, member, second = *stage.servers, *stage.members[:2]
    later = stage.end(stage.place("ann", "server-1", 2), "serve")
    later_member = stage.end(stage.place("ann", "client-0", 2), "join")
    for of, into, word in [(server, other, "server 1"), (member, second, "client 0"), (server, member, "server 1"),
                           (member, other, "client 0"), (server, later, "another run"),
                           (member, later_member, "another run")]:
        refused(stage, into, (of.folder / "journal").read_bytes(), "ended broken", word)


def refused(stage: Stage, end: End, data: bytes, word: str, why: str) -> None:
    """A switch with these bytes for a journal ends so, and leaves them as they are."""
    path = end.folder / "journal"
    own = path.read_bytes() if path.exists() else None
    path.write_bytes(data)
    path.chmod(0o600)
    end.start()
    stage.until(end.is_over, f"the end of {end.folder} with a wrong journal")
    demand(end.ended() == word and why in end.complaints(), f"with a wrong journal: {end.ended()!r}, and "
                                                             f"{end.complaints()!r} without {why!r}")
    demand(path.read_bytes() == data, "a journal that was refused didn't stay as it was")
    if own is None:
        path.unlink()
    else:
        path.write_bytes(own)


def change(stage: Stage, end: End) -> None:
    """A byte of a journal is changed anywhere behind its head."""
    data = (end.folder / "journal").read_bytes()
    at = stage.rng.randrange(journal.OWNER.size, len(data))
    changed = data[:at] + bytes([data[at] ^ 1 << stage.rng.randrange(8)]) + data[at + 1 :]
    refused(stage, end, changed, "ended journal", "was changed at byte")


def move(stage: Stage, end: End) -> None:
    """A record is left out, or stands twice: each sum is right, but not where it stands."""
    data = (end.folder / "journal").read_bytes()
    sizes = [journal.RECORD_SIZE + len(packet) for _, packet in journal.records_of(data).packets]
    number = stage.rng.randrange(len(sizes) - 1)
    first = journal.OWNER.size + sum(sizes[:number])
    last = first + sizes[number]
    for changed in (data[:first] + data[last:], data[:last] + data[first:last] + data[last:]):
        refused(stage, end, changed, "ended journal", "was changed at byte")


def cut(stage: Stage, end: End) -> None:
    """A journal's last record is torn, or zeros are behind it; then only that is cut off, and the program is given the
    rest. It isn't let go on: the group has seen more of a member."""
    path = end.folder / "journal"
    data, copy = path.read_bytes(), Path(f"{end.folder}.cut")
    last = torn_record(data)
    torn = data + last[: stage.rng.randrange(1, len(last))]
    if stage.rng.random() < 0.5:
        torn += bytes(stage.rng.randrange(1, 5000))
    shutil.copytree(end.folder, copy)
    (copy / "journal").write_bytes(torn)
    found = journal.Journal(copy / "journal", owner_of(end, copy))
    demand(found.packets == journal.records_of(data).packets, "a torn journal lost a record")
    demand((copy / "journal").read_bytes() == data, "a torn journal wasn't cut where its last record ends")
    found.file.close()
    shutil.rmtree(copy)


def torn_record(data: bytes) -> bytes:
    return journal.recorded(1, b"\x01" * 40, len(data))


def owner_of(end: End, folder: Path) -> journal.Owner:
    from parts.folder import Place

    return Place(folder, "server" if end.form == "serve" else "client").owner


def full_disk(stage: Stage) -> None:
    """There is no more room for a journal. The switch says so and ends; with room it goes on."""
    stage.make(3, 5, 1, [2, 8, 8, 36, 600, 1024, 2, 4, 3])
    stage.servers[0].start()
    stage.servers[1].start(most_bytes=stage.rng.randint(3_000, 12_000))
    stage.members[0].start(most_bytes=stage.rng.randint(90_000, 130_000))
    stage.members[1].start()
    stage.members[2].start()
    stage.say(2)
    for end in (stage.servers[1], stage.members[0]):
        stage.until(end.is_over, f"{end.folder} to be full")
        demand(end.ended() == "ended journal", f"with a full disk it ended {end.ended()!r}")
        demand("can't write" in end.complaints() and "File too large" in end.complaints(), end.complaints())
        end.start()
    stage.end_all()
    stage.compare()
    stage.pads()
