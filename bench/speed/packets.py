"""What one server and one member of a group apart are given, packet by packet, where its run is that of a keyed
script."""
import os
import struct
import sys
from itertools import islice

sys.path.append(os.path.realpath(os.path.join(os.path.dirname(__file__), "..", "..", "examples", "apart")))

from meeting import Shape, View, history_of, run, spelled
from parts.packets import HOST, TICK, packets_of, say


def shape_of(script):
    return Shape(1, [int(number) for number in script.split(b"\n", 2)[1].split()[1:]])


def given_to_servers(talek, script):
    """The packets of each server: how it is set up, and turn by turn all writes and then all reads."""
    shape = shape_of(script)
    whole = script + history_of(run([talek, "serial"], script))
    for server in range(1, shape.servers + 1):
        view = View(talek, shape, whole, server)
        packets = [(HOST, struct.pack(">13I", 1, *shape.numbers))]
        for turn in range(shape.turns):
            for frames in (view.writes, view.reads):
                packets += [(client + 1, frames[client][turn]) for client in range(shape.clients)]
        yield spelled(packets)


def said_by_first(shape, lines):
    """What client 0 says, by turns: logs and texts."""
    writers = [line.split()[1] for line in lines if line.startswith(b"log ")]
    said = [[] for _ in range(shape.turns)]
    for line in lines:
        if line.startswith(b"say "):
            phase, tick, log, text = line.rstrip(b"\n").split(b" ", 4)[1:]
            if writers[int(log)] == b"0":
                said[(int(phase) - 1) * shape.ticks + int(tick) - 1].append((int(log), text))
    return said


def given_to_member(talek, serve, script):
    """The packets of client 0: how it is set up, and turn by turn its texts, a tick, and what the servers have for it."""
    shape, lines = shape_of(script), script.splitlines(keepends=True)
    setup = b"".join(line for line in lines if not line.startswith(b"say "))
    packets = [(HOST, bytes(4) + setup)]
    answers = [packets_of(run([serve], given))[0] for given in given_to_servers(talek, script)]
    frames = zip(*([frame for peer, frame in answer if peer == 1] for answer in answers))
    for turn, says in enumerate(said_by_first(shape, lines)):
        packets += [*((HOST, say(*it)) for it in says), (HOST, TICK)]
        # (after the replies the filters of an epoch, where one closes)
        for told in islice(frames, 2 if (turn + 1) % shape.ticks == 0 else 1):
            packets += [(server + 1, frame) for server, frame in enumerate(told)]
    return spelled(packets)
