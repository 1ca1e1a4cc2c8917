"""Makes group files: of a plan, and of the group file of an earlier run."""

from __future__ import annotations

import sys
from pathlib import Path
from types import SimpleNamespace
from typing import Dict, Iterator, List, Tuple

from parts.errors import Wrong
from parts.folder import HERE, read
from parts.group_file import FIRST_LINE, RANGES, Group, identity_in, lines_of, number_in, parse
from parts.printable import short

# How many phases a run has at most.
MOST_PHASES = 256


class Plan:
    """What the lines of a plan say."""

    def __init__(self, data: bytes) -> None:
        self.servers: List[List[str]] = []
        self.clients: List[List[str]] = []
        self.logs: List[List[str]] = []
        self.format, self.tick = "1", "10"
        self.shape: Dict[str, int] = {}
        for line, text in enumerate(lines_of(data, "the plan"), 1):
            words = text.split()
            if words and not words[0].startswith("#"):
                self.take(line, *words)

    def take(self, line: int, word: str, *rest: str) -> None:
        """Takes one line."""
        counts = {"server": 2, "client": 1, "tick": 1, "format": 1, "shape": 2}
        if word not in (*counts, "log") or len(rest) != counts.get(word, max(len(rest), 1)):
            raise Wrong(f"line {line} of the plan: {short(' '.join([word, *rest]))}")
        if word == "shape":
            if rest[0] not in RANGES:
                raise Wrong(f"line {line} of the plan: a shape has no {short(rest[0])}")
            self.shape[rest[0]] = number_in(rest[1], *RANGES[rest[0]])
        elif word in ("server", "client", "log"):
            getattr(self, word + "s").append(list(rest))
        else:
            setattr(self, word, rest[0])


def chosen_shape(plan: Plan) -> List[int]:
    """The twelve numbers: those that the plan says, and a choice for the others."""
    sys.path.insert(0, str(HERE.parent))
    try:
        import shape
        import tool
    except ImportError:
        raise Wrong("the shape is chosen by examples/shape.py: make the group file in a clone") from None
    given = {"servers": len(plan.servers), "clients": len(plan.clients), "logs": len(plan.logs), "ticks": 2,
             "block": 256, **plan.shape}
    given.setdefault("phases", min(MOST_PHASES, 65_000 // max(1, given["clients"] * given["ticks"])))
    group = SimpleNamespace(clients=given["clients"], roles=[None] * given["logs"], texts=[], longest=0)
    try:
        made = shape.completed(given, group, given["ticks"], kept=2)
    except tool.Wrong as why:
        raise Wrong(str(why)) from None
    return [made[field] for field in RANGES]


def identity_line(path: Path) -> str:
    """The one line of someone's identity."""
    lines = lines_of(read(path), str(path))
    if len(lines) != 1:
        raise Wrong(f"{path} has {len(lines)} lines, and an identity has one")
    try:
        identity_in(lines[0])
    except Wrong as why:
        raise Wrong(f"{path}: {why}") from None
    return lines[0]


def lines_of_group(plan: Plan, run: int, anew: List[int], identities: List[str]) -> Iterator[str]:
    """The lines of a group file."""
    yield FIRST_LINE
    yield f"run {run}"
    yield f"format {plan.format}"
    yield "shape " + " ".join(map(str, chosen_shape(plan)))
    yield f"tick {plan.tick}"
    if anew:
        yield "anew " + " ".join(map(str, anew))
    yield from identities
    for word, rows in [("server", plan.servers), ("client", plan.clients), ("log", plan.logs)]:
        for row in rows:
            yield " ".join([word, *row])


def checked(lines: List[str]) -> List[str]:
    """The same lines, which are a group file."""
    parse("".join(f"{line}\n" for line in lines).encode())
    return lines


def new(plan: str, *identities: str) -> List[str]:
    """The lines of the group file of a plan."""
    rows = [identity_line(Path(path)) for path in identities]
    return checked(list(lines_of_group(Plan(read(Path(plan))), 1, [], rows)))


def with_run(path: str) -> List[str]:
    """The lines of a group file with the next run's number."""
    data = read(Path(path))
    group = parse(data)
    lines = lines_of(data, "the group file")
    if f"run {group.run}" not in lines:
        lines.insert(1, f"run {group.run}")
    # (no root is to be drawn anew for a run in which nobody leaves)
    return checked([f"run {group.run + 1}" if line == f"run {group.run}" else line
                    for line in lines if not line.startswith("anew ")])


def change(path: str, plan: str, *identities: str) -> Tuple[List[str], List[str]]:
    """The lines of the group file of the next run, of another plan, and what is to be done for it. Who keeps their
    identity needs none here."""
    old, made = parse(read(Path(path))), Plan(read(Path(plan)))
    rows = {identity_in(row)[0]: row for row in map(identity_line, map(Path, identities))}
    lines = {line.split(" ")[1]: line for line in lines_of(read(Path(path)), "the group file")
             if line.startswith("identity ")}
    names = dict.fromkeys([row[0] for row in made.servers] + [row[0] for row in made.clients])
    identity_rows = [rows.get(name, lines.get(name)) for name in names]
    missing = [name for name, row in zip(names, identity_rows) if row is None]
    if missing:
        raise Wrong(f"there is no identity of {', '.join(map(short, missing))}")
    logs = [(row[0], row[1:]) for row in made.logs]
    anew = [at for at, log in enumerate(logs) if needs_root(old, at, *log)]
    found = checked(list(lines_of_group(made, old.run + 1, anew, identity_rows)))
    return found, list(duties(old, logs, anew))


def needs_root(old: Group, at: int, writer: str, followers: List[str]) -> bool:
    """Whether a log can't go on with the root that it had: there was none, or somebody has it who isn't to read it."""
    if at >= len(old.logs) or old.logs[at].writer != writer:
        return True
    return not old.logs[at].holders <= {writer, *followers}


def duties(old: Group, logs: List[Tuple[str, List[str]]], anew: List[int]) -> Iterator[str]:
    """What each has to do before the next run, a line each."""
    for at, (writer, followers) in enumerate(logs):
        if at in anew:
            had = old.logs[at].holders - {writer, *followers} if at < len(old.logs) else set()
            why = f", since {', '.join(sorted(had))} had it" if had else ""
            yield f"log {at}: {writer} draws a new root{why}, and gives it to {', '.join(followers) or 'nobody'}"
        else:
            others = [it for it in followers if it not in old.logs[at].holders]
            if others:
                yield f"log {at}: {writer} gives its root to {', '.join(others)}"
