"""A group on the loopback that a case plays with: its folders, its processes, and what is compared at the end."""

from __future__ import annotations

import base64
import json
import os
import random
import resource
import secrets
import shutil
import signal
import subprocess
import sys
import tempfile
import time
import zlib
from dataclasses import asdict, dataclass
from pathlib import Path
from typing import Any, Callable, Dict, List, Sequence, Tuple

import beside
from cases import tried_switch
from cases.child import Child
from driven import Driven
from meeting import CAME, REPLY, WRITE, CameAbout, Shape, differences, line_of, plain_line, texts_said
from parts import errors, home, journal
from parts.group_file import parse
from parts.keys import KEY
from parts.labels import Labels
from parts.limits import Limits
from parts.packets import HOST, TICK, Packet
from parts.printable import shown
from parts.texts import Waiting

group = beside.tool("group")
LOGS = [(0, [1, 2]), (1, [0, 2]), (2, [0, 1])]
NAMES = ["ann", "ben", "cem"]
WORDS = ["Friday", "café", "map", "→", "back\\slash", "in", "town", "?", "\u202eback", "\x9b31m", "\u2066iso"]
TICK_SECONDS = 0.25
# How long anything may take, in seconds.
PATIENCE = 150
# Two servers, three clients, three logs; phases and ticks follow.
SMALL = [2, 8, 8, 36, 96, 1024, 2, 4, 3]
FAST = Limits(pause=0.1, longest_pause=0.8, same_error=0.2, silence=6, last_lines=2, patience=2,
              speaking=0.05)


class Failed(Exception):
    """What didn't come about."""


class LeftOut(Exception):
    """What can't be tried here."""


def demand(holds: Any, what: str) -> None:
    if not holds:
        raise Failed(what)


@dataclass
class Options:
    """How a switch is started for a trial."""

    limits: Limits = FAST
    clock: str = ""  # the path of a file with seconds by which its clock is wrong
    lie: str = ""  # what it lies about
    keeps: bool = True
    most_bytes: int = 0  # of any file
    reads_output: bool = True
    namespace: str = ""
    closes_streams: bool = False
    times: str = ""  # where a server writes when it took writes
    slow: float = 0  # how many seconds a disk takes more

    def for_switch(self) -> Dict[str, Any]:
        """What the tried switch is told of these."""
        return {"limits": asdict(self.limits), "clock": self.clock, "lie": self.lie, "times": self.times,
                "slow": self.slow}

    def begin(self, words: List[str], out: int, err: int) -> Child | subprocess.Popen:
        """A switch in a process of its own."""
        if self.namespace:
            before = ["ip", "netns", "exec", self.namespace, sys.executable]
            tried = [str(beside.HERE / "cases" / "tried_switch.py"), json.dumps(self.for_switch())]
            return subprocess.Popen([*before, *tried, *words], stdin=subprocess.PIPE, stdout=out, stderr=err)

        def work() -> None:
            if self.most_bytes:
                resource.setrlimit(resource.RLIMIT_FSIZE, (self.most_bytes, self.most_bytes))
            if self.closes_streams:
                os.closerange(0, 3)
            tried_switch.start(self.for_switch(), words)

        return Child(work, out, err)


class End:
    """A switch with its program: a server's or a member's."""

    def __init__(self, stage: Stage, folder: Path, form: str, program: str) -> None:
        self.stage, self.folder, self.form, self.program = stage, folder, form, program
        stage.ends.append(self)
        self.typed: List[str] = []
        self.starts = 0
        self.files: List[Tuple[Path, Path]] = []
        self.process: Child | subprocess.Popen | None = None

    def start(self, **changes: Any) -> End:
        options = Options(**changes)
        self.starts += 1
        out, err = (Path(f"{self.folder}.{self.starts}.{it}") for it in ("out", "err"))
        self.files.append((out, err))
        words = [self.form, str(self.folder), "--program", self.program]
        words += ["--keep"] if options.keeps else []
        with open(out, "wb") as told, open(err, "wb") as complaints:
            if options.reads_output:
                self.process = options.begin(words, told.fileno(), complaints.fileno())
            else:
                # (nobody reads from these pipes, but they have a reader)
                self.unread = [*os.pipe(), *os.pipe()]
                self.process = options.begin(words, self.unread[1], self.unread[3])
        self.stage.started.append(self.process)
        return self

    def kill(self) -> None:
        """At once, but when what was typed came to the switch: what is on its way there nobody can tell of."""
        end = time.monotonic() + 20
        while not self.is_over() and time.monotonic() < end and not self.has_come():
            time.sleep(0.05)
        self.process.kill()
        self.process.wait()

    def has_come(self) -> bool:
        """Whether each text that was typed is in a file of the folder, or has been told of. (They are counted: a short
        one may stand anywhere by chance.)"""
        told = sum(len(self.lines(word, start)) for word in ("refused", "unsent") for start in range(len(self.files)))
        given = sum(peer == HOST and data[:1] == b"S" for peer, data in self.journal()[1:])
        return told + given + self.waiting(given) >= len(self.typed)

    def waiting(self, given: int) -> int:
        """How many texts wait in the file for them, of which the program wasn't given so many."""
        path = self.folder / "typed"
        data = path.read_bytes() if path.exists() else b""
        if len(data) < Waiting.HEAD.size:
            return 0
        before, count, size, total = Waiting.HEAD.unpack_from(data)
        is_whole = zlib.crc32(data[Waiting.HEAD.size :][:size]) == total
        return max(0, count - max(0, given - before)) if is_whole else 0

    def stop(self) -> None:
        self.process.send_signal(signal.SIGTERM)
        self.process.wait(PATIENCE)

    def restart(self, **changes: Any) -> None:
        self.kill()
        self.start(**changes)

    def type(self, line: str) -> None:
        """Types a line, where the run isn't over yet."""
        try:
            self.process.stdin.write(line.encode() + b"\n")
            self.process.stdin.flush()
        except BrokenPipeError:
            self.process.wait(PATIENCE)
            return
        if line.startswith("say "):
            self.typed.append(line)

    def journal(self) -> List[Packet]:
        """What the program was given."""
        path = self.folder / "journal"
        return journal.given(path) if path.exists() else []

    def count(self, peer: int, *kinds: int) -> int:
        """How many packets of these kinds it was given by a peer."""
        return sum(1 for it, data in self.journal() if it == peer and data[:1] and data[0] in kinds)

    def ticks(self) -> int:
        return sum(it == (HOST, TICK) for it in self.journal())

    def is_over(self) -> bool:
        return self.process.poll() is not None

    def ended(self) -> str:
        """How it ended, if it has."""
        return self.told()[-1] if self.is_over() and self.told() else ""

    def told(self, start: int = -1) -> List[str]:
        """The lines that a start wrote."""
        return self.files[start][0].read_bytes().decode().split("\n")[:-1]

    def lines(self, word: str, start: int = -1) -> List[str]:
        return [it for it in self.told(start) if it.split(" ")[0] == word]

    def complaints(self) -> str:
        """What the last start complained about."""
        return self.files[-1][1].read_text(errors="replace")


def make_homes(folder: Path) -> None:
    """The key pairs and the roots of all, which each group takes copies of."""
    folder.mkdir(parents=True)
    for name in [*NAMES, "dan"]:
        made = folder / name
        made.mkdir()
        home.certified(made, name)
        certificate = base64.b64encode(home.certificate_of(made)).decode()
        (folder / f"{name}.identity").write_text(f"identity {name} {certificate}\n")
    for log in range(len(NAMES)):
        digits = secrets.token_hex(KEY) + "\n"
        for name in NAMES:
            path = folder / name / f"root-{log}"
            path.write_text(digits)
            path.chmod(0o600)


@dataclass
class Programs:
    serve: str
    member: str
    talek: str


class Stage:
    """A group in a folder, which is played with."""

    def __init__(self, programs: Programs, homes: Path, folder: Path, seed: int) -> None:
        self.programs, self.homes, self.folder = programs, homes, folder
        self.rng = random.Random(f"{seed} {folder.name}")
        self.started: List[Child | subprocess.Popen] = []
        self.host = f"127.{self.rng.randint(10, 250)}.{self.rng.randint(1, 250)}.{self.rng.randint(1, 250)}"
        self.notes: List[str] = []
        self.ends: List[End] = []

    # ---- the group

    def make(self, phases: int, ticks: int, form: int = 1, base: Sequence[int] = SMALL, host: str = "",
             seconds: float = TICK_SECONDS) -> None:
        """Makes the folders of all as three people would, each on the own machine."""
        self.shape = Shape(form, [*base, phases, ticks, 3])
        for name in [*NAMES, "dan"]:
            shutil.copytree(self.homes / name, self.folder / name)
            shutil.copy(self.homes / f"{name}.identity", self.folder)
        host = host or self.host
        ports = beside.free_ports(2, host if host.startswith("127.") else "127.0.0.1")
        self.addresses = [(host, port) for port in ports]
        plan = [f"server {name} {host}:{port}" for name, port in zip(NAMES, ports)]
        plan += [f"client {name}" for name in NAMES]
        plan += [" ".join(["log", NAMES[w], *(NAMES[it] for it in followers)]) for w, followers in LOGS]
        plan += [f"format {form}", f"tick {seconds}"]
        plan += [f"shape {field} {value}" for field, value in zip(beside.FIELDS, self.shape.numbers)]
        (self.folder / "plan").write_text("\n".join(plan) + "\n")
        lines = self.tool("new", "plan", *(f"{name}.identity" for name in NAMES))
        (self.folder / "group").write_bytes(lines)
        self.labels = Labels(parse(lines).logs)
        for name in NAMES:
            self.tool("folder", "group", name)
        self.servers = [self.end(self.place(NAMES[j], f"server-{j + 1}"), "serve") for j in range(2)]
        self.members = [self.end(self.place(NAMES[c], f"client-{c}"), "join") for c in range(3)]

    def tool(self, *words: Any) -> bytes:
        """What `group` writes."""
        made = self.try_tool(*words)
        demand(made.returncode == 0, f"group {' '.join(map(str, words))}: {made.stderr.decode()}")
        return made.stdout

    def try_tool(self, *words: Any) -> subprocess.CompletedProcess:
        """How `group` ends, and what it writes."""

        def work() -> None:
            os.chdir(self.folder)
            sys.exit(group.run(list(map(str, words))))

        with tempfile.TemporaryFile() as out, tempfile.TemporaryFile() as err:
            child = Child(work, out.fileno(), err.fileno())
            child.stdin.close()
            code = child.wait()
            for file in (out, err):
                file.seek(0)
            return subprocess.CompletedProcess(words, code, out.read(), err.read())

    def place(self, name: str, role: str, run: int = 1) -> Path:
        return self.folder / name / f"run-{run}-{role}"

    def end(self, folder: Path, form: str) -> End:
        program = self.programs.serve if form == "serve" else self.programs.member
        return End(self, folder, form, program)

    def start(self, **changes: Any) -> None:
        for end in [*self.servers, *self.members]:
            end.start(**changes)

    # ---- what happens

    def until(self, holds: Callable[[], Any], what: str, seconds: float = PATIENCE) -> None:
        """Waits until something holds, as long as no switch breaks."""
        end = time.monotonic() + seconds
        alive = [it for it in self.ends if it.process and not it.is_over()]
        while not holds():
            broken = [it for it in alive if it.process.poll() in (1, errors.End.BROKEN.status)]
            if broken and not holds():
                raise Failed(f"{broken[0].folder} broke: {broken[0].complaints()[-1000:]}")
            if time.monotonic() > end:
                raise Failed(f"waited in vain for {what}")
            time.sleep(0.1)

    def say(self, count: int) -> None:
        """Each says some texts."""
        for client, member in enumerate(self.members):
            for _ in range(self.rng.randint(1, count)):
                self.say_one(client, member)

    def say_one(self, client: int, member: End | None = None) -> None:
        words = " ".join(self.rng.choices(WORDS, k=self.rng.randint(0, 7)))
        (member or self.members[client]).type(f"say {client} {words}")

    def wrote(self, client: int, turns: int) -> None:
        """Waits until both servers have so many writes of a client."""
        turns = min(turns, self.shape.turns)
        self.until(lambda: self.written(client) >= turns, f"{turns} writes of {client}")

    def written(self, client: int) -> int:
        return min(it.count(client + 1, WRITE) for it in self.servers)

    def end_all(self) -> None:
        for end in self.members + self.servers:
            self.until(end.is_over, f"the end of {end.folder}: {end.complaints()[-300:]}")
            demand(end.ended() == "ended done", f"{end.folder} ended with {end.ended()}: {end.complaints()[-300:]}")

    def kill_all(self) -> None:
        for it in self.started:
            if it.poll() is None:
                it.kill()
                it.wait()

    # ---- what is compared

    def compare(self) -> None:
        """What came about is what is defined, and each text has its fate."""
        setups = [(it.folder / "setup").read_bytes() for it in self.members]
        served, journals = ([it.journal() for it in ends] for ends in (self.servers, self.members))
        told = [[plain_line(line, self.labels) for line in it.told()[:-1]] for it in self.members]
        wrong = list(differences(self.programs, CameAbout(self.shape, setups, journals, served, told)))
        demand(not wrong, "; ".join(wrong)[:2000])
        for end in [*self.members, *self.servers]:
            words = "".join([*end.told(), *end.complaints().split("\n")])
            demand(words.isprintable(), f"{end.folder} told {words!r}, which isn't printable")
        for client in range(len(self.members)):
            self.compare_fates(client, journals[client])
            self.compare_turns(client, journals[client])

    def compare_fates(self, client: int, packets: List[Packet]) -> None:
        """Each text that was typed was sent as it was told, or refused, or told as unsent, and one of these alone."""
        member = self.members[client]
        said = list(texts_said(self.programs.member, client, packets, self.shape.turns))
        counts: Dict[int, int] = {}
        sent, readable, last = [], [], -1
        for turn, _, log, text in said:
            turn = last = max(turn, last + 1)  # each turn takes one text
            number, label = counts.get(log, 0), self.labels.of(log)
            counts[log] = number + 1
            sent.append(f"sent {label} {number} {turn} {shown(text)}")
            # others read it from the next phase on, so it must be written before the last one
            readable.append(f"readable {label} {number} {(turn // self.shape.ticks + 1) * self.shape.ticks}")
            demand(turn < self.shape.turns - self.shape.ticks, f"client {client} sent in turn {turn} what nobody reads")
        for word, due in [("sent", sent), ("readable", readable)]:
            demand(member.lines(word) == due, f"client {client} told {member.lines(word)}, and not {due}")
        typed = sorted(it.split(" ", 2)[2] for it in member.typed)
        starts = range(len(member.files))
        unsent = [it.split(" ", 2)[2] for start in starts for it in member.lines("unsent", start)]
        refused = sum(len(member.lines("refused", start)) for start in starts)
        fates = sorted([*unsent, *(shown(text) for _, _, _, text in said)])
        rest = list(map(shown, typed))
        for words in fates:
            demand(words in rest, f"client {client} told a fate of {words!r}, which wasn't typed")
            rest.remove(words)
        demand(len(rest) == refused, f"of client {client} {rest} have no fate, and {refused} were refused")

    def compare_turns(self, client: int, packets: List[Packet]) -> None:
        """What came is told with the turn of the read that brought it: the one whose replies were given last."""
        program, due = Driven(self.programs.member, packets[0][1], client=True), []
        replies = dict.fromkeys(range(1, len(self.servers) + 1), 0)
        for peer, data in packets[1:]:
            if peer and data[0] == REPLY:
                replies[peer] += 1
            for to, told in program.give(peer, data):
                if to == HOST and told[:1] != b"r":
                    word, log, *rest = line_of(told).split(" ", 3)
                    turn = min(replies.values()) - 1
                    due.append(" ".join([word, self.labels.of(int(log)), rest[0], str(turn), *rest[1:]]))
        program.close()
        told = [line for line in self.members[client].told() if line.split(" ")[0] in CAME]
        demand(told == due, f"client {client} told {told}, and not {due}")
        self.check_order(client)

    def check_order(self, client: int) -> None:
        """That a text can be read from a turn on is told when that turn's read goes out: between what came by the reads
        before and what comes by it."""
        lines = [line.split(" ") for line in self.members[client].told()]
        turns = [(int(line[3]), line[0] != "readable") for line in lines if line[0] in ("readable", *CAME)]
        demand(turns == sorted(turns), f"client {client} told out of order: {self.members[client].told()}")

    def pads(self) -> None:
        """No two writes of one client and turn differ, wherever they went."""
        found: Dict[Tuple[int, bytes], bytes] = {}
        for server in self.servers:
            for peer, data in server.journal()[1:]:
                if data[0] == WRITE:
                    before = found.setdefault((peer, data[6:10]), data)
                    demand(before == data, f"client {peer - 1} used a pad twice")
