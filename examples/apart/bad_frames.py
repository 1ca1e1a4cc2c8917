"""Frames that a server refuses, of some hundred kinds."""

import struct

from parts import frames
from parts.frames import READS, WRITE, Cause
from parts.packets import number_at

LAST_CAUSE = max(Cause)
# Kinds of frames that aren't a client's, and what is no kind.
STRANGE_KINDS = [0, 3, 4, 5, 8, 9, 10, 11, 12, 13, 0x41, 0x53, 0x7F, 0x80, 0xFE, 0xFF]


def lengths_of(shape):
    """By kind the length of a frame that a client sends."""
    return frames.lengths_of(shape.format, shape)


def longest(shape):
    """The most bytes of a packet that a server takes."""
    return max(lengths_of(shape).values())


def cause_of(shape, client, written, read, data):
    """Why a server refuses bytes of a client that wrote and read in so many turns, or None. The switch of a server asks
    the same, and `fuzz` compares it with the program."""
    return frames.cause_of(shape.format, shape, client, (written, read), data)


def with_number(data, at, value):
    """The bytes with another number at a place."""
    return data[:at] + struct.pack(">I", value % (1 << 32)) + data[at + 4 :]


def broken_fields(shape, name, frame):
    """Frames with one number changed, by what was changed."""
    fields = [("client", 2, shape.clients), ("turn", 6, shape.turns)]
    if frame[0] == WRITE:
        fields += [("first bucket", 10, shape.buckets), ("second bucket", 14, shape.buckets)]
        fields += [(f"filter position {at}", 18 + 4 * at, shape.filter) for at in range(shape.hits)]
    else:
        fields.append(("epoch", 10, shape.phases + 1))
    for field, at, limit in fields:
        now = number_at(frame, at)
        values = {"limit": limit, "most": -1, "high bit": now | 1 << 31, "more": now + 1, "less": now - 1}
        for what, value in values.items():
            yield f"{name}: {field} {what}", with_number(frame, at, value)


def broken_whole(shape, rng, name, frame):
    """Frames cut, lengthened and with another head."""
    size = len(frame)
    cuts = {"one byte": 1, "two bytes": 2, "head alone": 14, "half": size // 2, "last byte less": size - 1}
    for what, length in cuts.items():
        yield f"{name}: {what}", frame[:length]
    longer = {"a byte more": 1, "some bytes more": rng.randint(2, 40), "as long as may be": longest(shape) - size}
    for what, more in longer.items():
        yield f"{name}: {what}", frame + rng.randbytes(max(more, 0))
    yield f"{name}: twice", frame + frame
    for version in (0, 2, 0xFF):
        yield f"{name}: version {version}", frame[:1] + bytes([version]) + frame[2:]
    for kind in STRANGE_KINDS + [1, 2, 6, 7]:
        yield f"{name}: kind {kind}", bytes([kind]) + frame[1:]


def kinds_of(shape, rng, own, others):
    """Bytes that a client might send, by the name of what is wrong; some may be right by chance. `own` are the frames
    that it sends in this run, each with its place, and `others` those of the other clients."""
    found = {"empty": b"", "one zero": b"\0"}
    for name, of_kind in [("write", (WRITE,)), ("read", READS)]:
        frames = [it for it in own if it[0] in of_kind]
        frame = rng.choice(frames)
        found.update(broken_fields(shape, name, frame))
        found.update(broken_whole(shape, rng, name, frame))
        found[f"{name}: of another turn"] = rng.choice(frames)
        found[f"{name}: first turn"], found[f"{name}: last turn"] = frames[0], frames[-1]
        of_others = [it for it in others if it[0] in of_kind]
        if of_others:
            found[f"{name}: another client's"] = rng.choice(of_others)
    for kind, length in {**lengths_of(shape), 6: 78, 7: 78 + shape.buckets // 4}.items():
        found[f"noise as kind {kind}"] = bytes([kind, 1]) + rng.randbytes(length - 2)
        found[f"zeros as kind {kind}"] = bytes([kind, 1]) + bytes(length - 2)
    found["short noise"] = rng.randbytes(rng.randint(1, 20))
    found["noise"] = rng.randbytes(rng.randint(1, longest(shape)))
    return {name: data for name, data in found.items() if len(data) <= longest(shape)}
