"""Files and texts that someone made who is nobody's friend: what they have is refused, or shown as it is."""

from __future__ import annotations

from typing import List, Tuple

from cases.stage import Stage, demand

# Lines of a group file that are put in the place of another one, and what is said about them.
BAD_LINES: List[Tuple[str, bytes, str]] = [
    ("tick ", b"tick nan", "is no number of seconds"),
    ("tick ", b"tick inf", "is no number of seconds"),
    ("tick ", b"tick 0", "is no number of seconds"),
    ("tick ", b"tick -1", "is no number of seconds"),
    ("tick ", b"tick 1\ntick 2", "stands twice"),
    ("format ", b"format 7", "is no number from 1 to 2"),
    ("format ", "format ٢".encode(), "other bytes than printable"),
    ("run ", b"run 0", "is no number from 1"),
    ("run ", b"run 1\nrun 1", "stands twice"),
    ("run ", b"run 1\nfoot 3", "there is no such line"),
    ("shape ", b"shape 2 8 8 36 96 1024 2 4 3 4 6", "a shape has twelve numbers"),
    ("shape ", b"shape 2 8 8 36 96 1024 2 4 3 4 6 999", "logs of the shape"),
    ("client ann", b"client \x1b[2Kann", "other bytes than printable"),
    ("client ann", b"client an'n", "is no name"),
    ("client ann", b"client ben", "is two clients"),
    ("client ann", b"client eve", "it has no identity of eve"),
    ("identity ann", b"identity ann !!!!", "is no certificate"),
    ("server ben", b"server ann 127.0.0.1:9", "two servers"),
    ("server ben", b"server ben 127.0.0.1:0", "is no number from 1 to 65535"),
    ("server ben", b"server ben 127.0.0.1;id:7", "is no host"),
    ("server ben", b"server ben -x:7", "is no host"),
    ("log ann", b"log ann ben ben", "a follower twice"),
    ("log ann", b"log ann dan", "who is no client"),
    ("log ann", b"log  ann", "is no name"),
]


def names_and_files(stage: Stage) -> None:
    """Bad lines in group files, identities with more lines, keys that others can read; and a stale group file."""
    stage.make(2, 3)
    group = (stage.folder / "group").read_bytes()
    for start, line, why in BAD_LINES:
        refuse(stage, replaced(group, start.encode(), line), why)
    lines = group.decode().splitlines()
    ben = next(line for line in lines if line.startswith("identity ben ")).split(" ")[2]
    refuse(stage, replaced(group, b"identity ann", f"identity ann {ben}".encode()), "the certificate of somebody else")
    identities_and_plans(stage)
    private_keys(stage)
    stale_group_file(stage)
    stage.end_all()
    stage.compare()


def replaced(group: bytes, start: bytes, line: bytes) -> bytes:
    lines = group.split(b"\n")
    (at,) = [at for at, it in enumerate(lines) if it.startswith(start)]
    return b"\n".join([*lines[:at], line, *lines[at + 1 :]])


def refuse(stage: Stage, data: bytes, why: str) -> None:
    """A group file is refused by `group show`, which writes nothing but why, in printable characters."""
    (stage.folder / "bad").write_bytes(data)
    made = stage.try_tool("show", "bad")
    said = made.stderr.decode()
    demand(made.returncode == 1 and not made.stdout, f"a bad group file passed: {why}")
    demand(why in said and said.rstrip("\n").isprintable(), f"a bad group file was refused by {said!r}, not by {why!r}")


def identities_and_plans(stage: Stage) -> None:
    identity = stage.folder / "ben.identity"
    genuine = identity.read_text()
    for data, why in [(genuine + "tick 1\n", "has 2 lines"), ("tick 1\n", "is no identity"),
                      (genuine.rstrip("\n"), "has no end"), (genuine.replace("ben", "b\x9ben"), "printable")]:
        identity.write_text(data)
        made = stage.try_tool("new", "plan", "ann.identity", "ben.identity", "cem.identity")
        said = made.stderr.decode()
        demand(made.returncode == 1 and why in said, f"an identity: {said!r}, not {why!r}")
    identity.write_text(genuine)
    for name in ("../eve", "e ve", "é", ""):
        made = stage.try_tool("identity", name)
        demand(made.returncode == 1 and b"is no name" in made.stderr, f"the name {name!r} was taken")
    plan = (stage.folder / "plan").read_text()
    for line, why in [("tick nan", "seconds"), ("format 7", "1 to 2"), ("shape logs many", "number"),
                      ("shape wings 2", "no wings"), ("client \x1b]0;x\x07", "printable")]:
        (stage.folder / "bad-plan").write_text(plan + line + "\n")
        made = stage.try_tool("new", "bad-plan", "ann.identity", "ben.identity", "cem.identity")
        demand(made.returncode == 1 and why in made.stderr.decode(), f"a plan: {made.stderr.decode()!r}, not {why!r}")


def private_keys(stage: Stage) -> None:
    """Keys that others can read are refused."""
    for member, file in [(stage.members[0], "key.pem"), (stage.members[1], "setup")]:
        path = member.folder / file
        path.chmod(0o644)
        member.start()
        stage.until(member.is_over, "the end of a switch with an open key")
        demand("others can read" in member.complaints() and "chmod 600" in member.complaints(), member.complaints())
        path.chmod(0o600)
    (stage.folder / "ann" / "root-0").chmod(0o640)
    (stage.folder / "again").write_bytes(stage.tool("next", "group"))
    made = stage.try_tool("folder", "again", "ann")
    demand(made.returncode == 1 and b"others can read" in made.stderr, "an open root was taken")
    (stage.folder / "ann" / "root-0").chmod(0o600)


def stale_group_file(stage: Stage) -> None:
    """Whoever has another group file is told, at both ends; with the right one the run goes on."""
    for end in [*stage.servers, *stage.members[:2]]:
        end.start()
    stale = stage.members[2]
    genuine = (stale.folder / "group").read_bytes()
    (stale.folder / "group").write_bytes(genuine.replace(b"tick 0.25", b"tick 0.26"))
    stale.start()
    stage.until(lambda: "server 1 (ann): it has another group file" in stale.complaints(),
                "a word about a stale group file")
    stage.until(lambda: "cem (client 2): it has another group file" in stage.servers[0].complaints(),
                "a server's word about a stale group file")
    stale.kill()
    (stale.folder / "group").write_bytes(genuine)
    (stale.folder / "journal").unlink()
    stale.start()

