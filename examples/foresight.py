"""Which texts of a group come to whom in a serial run, and why the others don't.

Two things that chance decides aren't foreseen: a write that is displaced, and a read that is spent on a number which
the filter shows by chance. For the second a reader can be given fewer reads than it has.
"""

from script import turns_sent


class Log:
    """A log with the index of each of its texts, and the place of each among all writes."""

    def __init__(self):
        self.texts, self.places = [], []

    def add(self, text, place):
        self.texts.append(text)
        self.places.append(place)


class Follow:
    """A log that a reader follows, and the number that it wants next."""

    def __init__(self, log):
        self.log, self.next, self.came = log, 0, set()

    def wanted(self, ahead, kept):
        """How far ahead the least kept number is of those at which the reader looks; without reading ahead 0."""
        if ahead == 0:
            return 0
        places = self.log.places[self.next : self.next + ahead]
        return next((at for at, place in enumerate(places) if place in kept), None)

    def read(self, far, kept):
        """Reads the number that is so far ahead."""
        number = self.next + far
        if number < len(self.log.places) and self.log.places[number] in kept:
            self.came.add(self.log.texts[number])
            self.next = number + 1


def read_phase(follows, cursor, reads, ahead, kept):
    """Spends a reader's reads of a phase, in turns over its logs from the cursor on. Gives the cursor after them."""
    for _ in range(reads):
        for step in range(len(follows)):
            at = (cursor + step) % len(follows)
            far = follows[at].wanted(ahead, kept)
            if far is not None:
                follows[at].read(far, kept)
                cursor = (at + 1) % len(follows)
                break
        else:
            break
    return cursor


def kept_after(shape, phase):
    """The places of the writes that are retained at the end of a phase."""
    end = shape["clients"] * shape["ticks"] * phase
    return range(max(0, end - shape["retained"]), end)


def logs_of(shape, roles, texts, turns):
    """Each log with those of its texts that are sent before the end. A text is its phase, its tick and its log."""
    logs = [Log() for _ in roles]
    for text, turn in enumerate(turns):
        if turn < shape["ticks"] * shape["phases"]:
            log = texts[text][2]
            logs[log].add(text, turn * shape["clients"] + roles[log][0])
    return logs


def came_to(shape, logs, spare):
    """The texts that come to one who follows these logs and spares so many reads of each phase."""
    follows = [Follow(log) for log in logs]
    cursor = 0
    for phase in range(shape["phases"]):
        reads = shape["ticks"] - spare
        cursor = read_phase(follows, cursor, reads, shape["ahead"], kept_after(shape, phase))
    return set().union(*(follow.came for follow in follows))


def why_missing(shape, writer, turn):
    """Why a text that is sent in a turn doesn't come: 'unsent', 'last', 'retained' or 'reads'."""
    phase = turn // shape["ticks"] + 1
    if phase > shape["phases"]:
        return "unsent"
    if phase == shape["phases"]:
        return "last"
    return "reads" if turn * shape["clients"] + writer in kept_after(shape, phase) else "retained"


def missing(shape, roles, texts, spare=0):
    """Each text that doesn't come to a follower: its index, the follower, and why."""
    turns = turns_sent(shape, roles, texts)
    logs = logs_of(shape, roles, texts, turns)
    for client in range(shape["clients"]):
        followed = {log for log, (_, followers) in enumerate(roles) if client in followers}
        came = came_to(shape, [logs[log] for log in sorted(followed)], spare)
        for text, (_, _, log) in enumerate(texts):
            if log in followed and text not in came:
                yield text, client, why_missing(shape, roles[log][0], turns[text])
