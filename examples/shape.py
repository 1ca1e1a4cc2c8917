"""The limits of a shape, and the choice of one in which all texts of a group come."""

import math

from foresight import missing
from script import FIELDS, turns_sent
from tool import Wrong

# The least and the greatest value of each number; the greatest of `retained` depends on others.
LIMITS = {"servers": (2, 8), "buckets": (8, 4096), "depth": (1, 8), "retained": (1, 32768), "block": (24, 1024),
          "filter": (64, 65536), "hits": (1, 4), "ahead": (0, 8), "clients": (1, 64), "phases": (1, 256),
          "ticks": (1, 64), "logs": (1, 256)}
POWERS_OF_TWO = ["buckets", "filter"]


def power_of_two(least):
    """The least power of two that isn't below a number."""
    return 1 << max(least - 1, 0).bit_length()


def check_field(field, value):
    least, most = LIMITS[field]
    if not least <= value <= most:
        raise Wrong(f"the shape has {field} {value}, and it may be {least} to {most}")
    if field in POWERS_OF_TWO and value != power_of_two(value):
        raise Wrong(f"the shape has {field} {value}, and it must be a power of two")


def check_shape(shape):
    """Refuses a shape that the program would refuse."""
    for field in FIELDS:
        check_field(field, shape[field])
    slots = shape["buckets"] * shape["depth"]
    schedule = shape["clients"] * shape["phases"] * shape["ticks"]
    table = slots * (16 + shape["block"])
    for what, value, most in [
        ("retained", shape["retained"], slots),
        ("clients * phases * ticks", schedule, 65_000),
        ("buckets * depth * (16 + block)", table, 4_194_304),
        ("clients * phases * ticks * servers * that", schedule * shape["servers"] * table, 34_359_738_368),
    ]:
        if value > most:
            raise Wrong(f"the shape has {what} = {value}, and it may be {most} at most")


def completed(given, group, ticks, kept):
    """The shape with so many ticks, where texts are kept for so many phases: what is given of it, and for the rest a
    choice."""
    shape = {**given, "clients": group.clients, "logs": len(group.roles)}
    shape.setdefault("ticks", ticks)
    shape.setdefault("servers", 3)
    shape.setdefault("phases", min(256, last_phase(shape, group) + kept))
    shape.setdefault("block", min(1024, max(96, group.longest + 18)))
    shape.setdefault("retained", kept * shape["clients"] * shape["ticks"])
    shape.setdefault("depth", 8)
    shape.setdefault("buckets", max(8, power_of_two(-(-2 * shape["retained"] // max(1, shape["depth"])))))
    shape.setdefault("hits", 4)
    shape.setdefault("ahead", 4)
    shape.setdefault("filter", min(65536, max(64, power_of_two(16 * shape["hits"] * shape["retained"]))))
    check_shape(shape)
    return shape


def last_phase(shape, group):
    """The phase in which the last text is sent, if there is time for it."""
    turns = turns_sent(shape, group.roles, group.texts)
    return max(turns, default=0) // max(1, shape["ticks"]) + 1


def reads_in_vain(shape, group):
    """About how many reads of a phase a client that follows the most logs spends on numbers that the filter shows by
    chance."""
    marked = 1 - math.exp(-shape["hits"] * shape["retained"] / shape["filter"])
    followed = max(sum(client in it for _, it in group.roles) for client in range(group.clients))
    return followed * shape["ahead"] * marked ** shape["hits"]


def spare_reads(shape, group):
    """How many reads of a phase are left for those in vain."""
    if shape["ahead"] == 0:
        return 0
    return min(shape["ticks"], 1 + round(3 * reads_in_vain(shape, group)))


def comes_at_once(shape, group):
    """Whether each text is sent in the phase in which it is said, and comes to each follower in the next."""
    ticks = shape["ticks"]
    turns = turns_sent(shape, group.roles, group.texts)
    if any(turn // ticks + 1 > text[0] for turn, text in zip(turns, group.texts)):
        return False
    one_phase = min(shape["retained"], shape["clients"] * ticks)
    return comes({**shape, "retained": one_phase}, group)


def comes(shape, group):
    """Whether each text comes to each follower, with reads to spare."""
    return not any(missing(shape, group.roles, group.texts, spare_reads(shape, group)))


def candidates(given, group):
    """Shapes with fewer and with more ticks, and then some that keep texts for longer; an error at the first that
    breaks a limit."""
    least = max((tick for _, tick, _ in group.texts), default=1)
    every = [given["ticks"]] if "ticks" in given else range(max(2, least), 65)
    for ticks in every:
        yield completed(given, group, ticks, kept=2)
    for kept in range(3, 9):
        yield completed(given, group, every[-1], kept)


def fewest_losses(shapes, group):
    """The shape with which the fewest texts are lost, of some of these: to try all would take minutes."""
    some = shapes[:: max(1, len(shapes) // 8)]
    return min(some, key=lambda it: sum(1 for _ in missing(it, group.roles, group.texts)))


def chosen(given, group):
    """The first candidate with which all texts come at once, or at all, or else one with few losses; and the limit
    that stands in the way of further candidates, if one does."""
    for field, value in given.items():
        check_field(field, value)
    shapes, limit = [], None
    try:
        for shape in candidates(given, group):
            if comes_at_once(shape, group):
                return shape, None
            shapes.append(shape)
    except Wrong as why:
        limit = why
    if not shapes:
        raise limit
    return next((it for it in shapes if comes(it, group)), None) or fewest_losses(shapes, group), limit
