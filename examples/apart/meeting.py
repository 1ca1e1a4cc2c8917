"""What a group does by definition: compares what came about among programs with `talek serial` and `talek view J`.

The run of a group is the serial run of one script: each text stands in the turn that its writer wrote next when it was
said, and the keys are those of all members.
"""

import argparse
import os
import subprocess
from typing import NamedTuple

import beside
import tool
from parts import packets
from parts.frames import EPOCH, READS, REPLY, WRITE
from parts.packets import number_at, packets_of
from parts.errors import Wrong
from parts.printable import shown

MARK, RECORD = 4, 5
# The words of lines that tell what came; the others are about what is said.
CAME = ("text", "absent")
REFUSALS = {1: "writer", 2: "long", 3: "text"}


def program(name, path):
    """The path of a program: the one that is given, or the one that the repository's launcher starts."""
    if path is None:
        path = run([beside.TOP / name, "--path"], b"").decode().strip()
    if not (os.path.isfile(path) and os.access(path, os.X_OK)):
        raise Wrong(f"{shown(path)} is no program")
    return os.path.abspath(path)


def run(words, data):
    """What a program writes of some input. It must end well."""
    return subprocess.run(words, input=data, stdout=subprocess.PIPE, check=True).stdout


def spelled(given):
    return b"".join(packets.spelled(*it) for it in given)


class Shape:
    """The twelve numbers by name."""

    def __init__(self, form, numbers):
        self.format, self.numbers = form, list(numbers)
        (self.servers, self.buckets, self.depth, self.retained, self.block, self.filter, self.hits, self.ahead,
         self.clients, self.phases, self.ticks, self.logs) = numbers
        self.turns = self.phases * self.ticks


NAMES = ["serve", "member", "talek"]


def parser(about):
    """Takes the words of a tool, among them where the three programs are."""
    made = argparse.ArgumentParser(description=about, formatter_class=argparse.RawDescriptionHelpFormatter)
    for name in NAMES:
        made.add_argument(f"--{name}", metavar="PATH")
    return made


def run_tool(name, about, main):
    """Runs a tool by its words: `main` gets them, and `about` is what --help prints."""

    def work(words):
        try:
            main(words)
        except Wrong as why:
            raise tool.Wrong(str(why)) from why

    tool.run_freely(name, about, work)


def programs_of(words):
    """The three programs by name."""
    return argparse.Namespace(**{name: program(name, getattr(words, name)) for name in NAMES})


# What was said when, from what members were given.


def texts_said(member, client, journal, turns):
    """Each text that a member was given and took: the turn that it wrote next, the client, the log and the text."""
    for at, (peer, data) in enumerate(journal):
        if peer == 0 and at > 0 and data[:1] == b"S":
            before = packets_of(run([member], spelled(journal[:at])))[0]
            after = packets_of(run([member], spelled(journal[: at + 1])))[0]
            turn = sum(1 for to, it in before if to == 1 and it[0] == WRITE)
            refused = any(to == 0 and it[:1] == b"r" for to, it in after[len(before) :])
            if not refused and turn < turns:
                yield turn, client, number_at(data, 1), data[5:]


def keys_of_all(setups):
    """The lines of a script with the keys of all members, from their setup packets: where one has zeros, another's."""
    scripts = [setup[4:].removesuffix(b"end\n").split(b"\n")[:-1] for setup in setups]
    for lines in zip(*scripts):
        yield max(lines, key=lambda line: line.rpartition(b" ")[2].strip(b"0") != b"")


def script_of(member, shape, setups, journals):
    """The script that came about."""
    said = [it for client, journal in enumerate(journals) for it in texts_said(member, client, journal, shape.turns)]
    said.sort(key=lambda it: it[:2])
    lines = list(keys_of_all(setups))
    for turn, _, log, text in said:
        lines.append(b"say %d %d %d %s" % (turn // shape.ticks + 1, turn % shape.ticks + 1, log, text))
    return b"".join(line + b"\n" for line in [*lines, b"end"])


# What members tell, as the report has it: a word, a log's number, and a number on the log or a cause.


def line_of(data):
    """The line of a packet that a member's program has for its host."""
    log, rest = number_at(data, 1), data[5:]
    if data[:1] == b"r":
        return f"refused {log} {REFUSALS[rest[0]]}"
    if data[:1] == b"a":
        return f"absent {log} {number_at(rest, 0)}"
    return f"text {log} {number_at(rest, 0)} {shown(rest[4:])}"


def plain_line(line, labels):
    """The line of the report that a switch prints with a log's label and the turn of the read; the others are as they
    are."""
    if line.split(" ")[0] not in CAME:
        return line
    word, label, number, _, *text = line.split(" ", 4)
    return " ".join([word, str(labels.all.index(label)), number, *text])


# What is defined of a script.


def told_by_report(report, clients):
    """By client and log, the lines that a member tells: those of the report of the serial run."""
    told, lines = [{} for _ in range(clients)], None
    for line in report.split(b"\n"):
        word, _, rest = line.partition(b" ")
        if word == b"log":
            log, client, _ = (int(it) for it in rest.split())
            lines = told[client][log] = []
        elif word in (b"text", b"absent"):
            number, *text = rest.split(b" ", 1)
            lines.append(" ".join([word.decode(), str(log), number.decode(), *map(shown, text)]))
    return told


def history_of(report):
    """The history section of a report."""
    lines = [line for line in report.split(b"\n") if line.startswith((b"order ", b"reads "))]
    return b"".join(line + b"\n" for line in [b"history", *lines, b"end"])


class View:
    """What one server sees by `talek view`: each client's writes and reads, and the frame that tells each epoch."""

    def __init__(self, talek, shape, data, server):
        shown = run([talek, "view", str(server)], data).split()
        frames = [bytes.fromhex(line.decode()) for line in shown]
        self.writes = [[] for _ in range(shape.clients)]
        self.reads = [[] for _ in range(shape.clients)]
        for frame in frames:
            if frame[0] == RECORD:
                self.writes[number_at(frame, 10)].append(bytes([WRITE, 1]) + frame[10:])
            elif frame[0] in READS:
                self.reads[number_at(frame, 2)].append(frame)
        self.epochs = list(epochs_of(shape, frames))


def epochs_of(shape, frames):
    """The epoch frame of each mark: the filter positions of the latest writes that are retained."""
    hits = []
    for frame in frames:
        if frame[0] == RECORD:
            hits.append([number_at(frame, 26 + 4 * at) for at in range(shape.hits)])
        elif frame[0] == MARK:
            marks = bytearray(shape.filter // 8)
            for position in (it for write in hits[-shape.retained :] for it in write):
                marks[position // 8] |= 1 << position % 8
            yield bytes([EPOCH, 1]) + frame[10:14] + bytes(marks)


# The comparison.


class CameAbout(NamedTuple):
    """What came about among programs: the setup packets of the members, the packets that each member and each server
    was given, and the lines that each member told."""

    shape: Shape
    setups: list
    journals: list
    served: list
    told: list


def differences(programs, came):
    """What isn't as defined, a line each."""
    shape = came.shape
    script = script_of(programs.member, shape, came.setups, came.journals)
    report = run([programs.talek, "serial"], script)
    due = told_by_report(report, shape.clients)
    for client in range(shape.clients):
        by_log = {log: [] for log in due[client]}
        for line in came.told[client]:
            if line.split(" ")[0] in CAME:
                by_log.setdefault(int(line.split()[1]), []).append(line)
        if by_log != due[client]:
            yield f"client {client} told {by_log}, and the report has {due[client]}"
    for server in range(1, shape.servers + 1):
        yield from wrong_at(server, came, View(programs.talek, shape, script + history_of(report), server))


def wrong_at(server, came, view):
    """What a server was given or told that isn't as its view says."""
    shape = came.shape
    for client in range(shape.clients):
        given = [data for peer, data in came.served[server - 1][1:] if peer == client + 1]
        if [it for it in given if it[0] == WRITE] != view.writes[client]:
            yield f"server {server} was given other writes of client {client} than its view has"
        if [it for it in given if it[0] in READS] != view.reads[client]:
            yield f"server {server} was given other reads of client {client} than its view has"
        got = [data for peer, data in came.journals[client] if peer == server]
        epochs = [it for it in got if it[0] == EPOCH]
        # (nobody reads the last one, and a member may end before it comes)
        if epochs != view.epochs[: len(epochs)] or len(epochs) < shape.phases - 1:
            yield f"server {server} told client {client} other epochs than the records of its view make"
        if sum(it[0] == REPLY for it in got) != shape.turns:
            yield f"server {server} gave client {client} another number of replies than turns"
