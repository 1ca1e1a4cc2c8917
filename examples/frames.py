"""The frames that one server sees of a run, as `talek view` prints them."""

from tool import Wrong, short

KINDS = {4: "mark", 2: "read", 5: "record", 7: "read"}
# Kinds of read: what tells the vectors by seeds alone, and how many bytes of seeds stand before shown vectors.
SEEDED, SEEDS = 6, {2: 0, 7: 64}
# The fewest bytes of each.
LEAST = {"mark": 14, "read": 16, "record": 54}


class Frame:
    """One frame: its kind and its fields."""

    def __init__(self, line, text):
        try:
            self.data = bytes.fromhex(text)
        except ValueError as error:
            raise Wrong(f"line {line}: {short(text)} isn't hexadecimal") from error
        if self.data[:2] == bytes([SEEDED, 1]):
            raise Wrong(f"line {line}: a read of format 2 that tells its buckets by seeds: only the last server is told them")
        if len(self.data) < 2 or self.data[0] not in KINDS or self.data[1] != 1:
            raise Wrong(f"line {line}: {short(text)} is no record, mark or read of version 1")
        self.kind = KINDS[self.data[0]]
        self.check_length(line)
        if self.kind == "read":
            self.client, self.turn, self.epoch = (self.number(at) for at in (2, 6, 10))
            vectors = self.data[14 + SEEDS[self.data[0]] :]
            half = len(vectors) // 2
            self.vectors = [vectors[:half], vectors[half:]]
        else:
            self.position = self.number(2, 8)
        if self.kind == "mark":
            self.epoch = self.number(10)
        if self.kind == "record":
            self.client, self.turn, *self.pair = (self.number(at) for at in (10, 14, 18, 22))
            self.carried = self.data[26:]

    def check_length(self, line):
        count, least = len(self.data), LEAST[self.kind] + SEEDS.get(self.data[0], 0)
        if count < least or (self.kind == "mark" and count > least) or (self.kind == "read" and count % 2):
            raise Wrong(f"line {line}: {count} bytes are no {self.kind}")

    def number(self, at, width=4):
        return int.from_bytes(self.data[at : at + width], "big")


class Turn:
    """The frames of one turn: its entries in their order, and then its reads."""

    def __init__(self):
        self.entries, self.reads = [], []

    def number(self):
        return next((it.turn for it in self.entries + self.reads if it.kind != "mark"), 0)

    def rows(self):
        """For each write its record and its client's read; a mark stands alone, in its place."""
        reads = {it.client: it for it in self.reads}
        for it in self.entries:
            yield it, None if it.kind == "mark" else reads.pop(it.client, None)
        for it in reads.values():
            yield None, it


class View:
    """What one server sees, turn by turn."""

    def __init__(self, lines):
        self.frames = [Frame(line, text) for line, text in enumerate(lines, 1) if text]
        if not self.frames:
            raise Wrong("there are no frames")
        self.turns = [Turn()]
        for it in self.frames:
            self.take(it)
        reads = [it for it in self.frames if it.kind == "read"]
        records = [it for it in self.frames if it.kind == "record"]
        self.buckets = 8 * len(reads[0].vectors[0]) if reads else 8
        if any(8 * len(it.vectors[0]) != self.buckets for it in reads):
            raise Wrong("the reads have vectors of several lengths, so they aren't of one run")
        if any(max(it.pair) >= self.buckets for it in records):
            raise Wrong(f"a record names a bucket that isn't below {self.buckets}, so the frames aren't of one run")
        self.bytes = max((len(it.carried) for it in records), default=28)
        self.clients = len({it.client for it in reads + records})
        self.ticks = next((turn.number() + 1 for turn in self.turns for it in turn.entries if it.kind == "mark"), None)

    def take(self, frame):
        if frame.kind == "read":
            self.turns[-1].reads.append(frame)
            return
        if self.turns[-1].reads:
            self.turns.append(Turn())
        self.turns[-1].entries.append(frame)

    def name_of(self, turn):
        """A turn's phase and tick, as scripts name it."""
        if not self.ticks:
            return f"turn {turn.number()}"
        phase, tick = divmod(turn.number(), self.ticks)
        return f"{phase + 1} {tick + 1}"

    def rows(self):
        """Each row of the turns: the turn, an entry or None, and a read or None."""
        return [(turn, entry, read) for turn in self.turns for entry, read in turn.rows()]
