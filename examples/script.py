"""A script as the tools of this folder see it, and when its texts are sent."""

from tool import Wrong, number_of, short

FIELDS = ["servers", "buckets", "depth", "retained", "block", "filter", "hits", "ahead",
          "clients", "phases", "ticks", "logs"]


class Script:
    """The lines of a script up to its first 'end'. What the program refuses may pass here."""

    def __init__(self, lines):
        if not lines[0].startswith("talek "):
            raise Wrong(f"this is no script: its first line is {short(lines[0])}")
        self.shape = {}
        self.roles = []  # of each log its writer and its followers
        self.handles, self.seeds = [], []  # (line, digits)
        self.texts = []  # (line, phase, tick, log, text)
        takers = {"shape": self.take_shape, "log": self.take_log, "handle": self.take_handle, "seed": self.take_seed,
                  "say": self.take_text}
        for line, text in enumerate(lines[1:], 2):
            word, _, rest = text.partition(" ")
            if word == "end":
                break
            if word in takers:
                takers[word](line, rest)
        self.check()

    def take_shape(self, line, rest):
        words = rest.split(" ")
        if len(words) < len(FIELDS):
            raise Wrong(f"line {line}: a shape has {len(FIELDS)} numbers, and this one has {len(words)}")
        self.shape = {field: number_of(line, field, word) for field, word in zip(FIELDS, words)}

    def take_log(self, line, rest):
        writer, *followers = [number_of(line, "client", word) for word in rest.split(" ")]
        self.roles.append((writer, followers))

    def take_handle(self, line, rest):
        self.handles.append((line, rest.lower()))

    def take_seed(self, line, rest):
        self.seeds.append((line, rest.lower()))

    def take_text(self, line, rest):
        words = rest.split(" ", 3)
        if len(words) < 4:
            raise Wrong(f"line {line}: want 'say PHASE TICK LOG TEXT'")
        numbers = [number_of(line, what, word) for what, word in zip(("phase", "tick", "log"), words)]
        self.texts.append((line, *numbers, words[3]))

    def check(self):
        if not self.shape:
            raise Wrong("this is no script: it has no line 'shape'")
        for line, _, _, log, _ in self.texts:
            if log >= len(self.roles):
                raise Wrong(f"line {line}: there is no log {log}")


def turns_sent(shape, roles, texts):
    """For each text, in the order of time, the turn in which it is sent: its own or the first later one in which its
    writer has nothing older to send. It may lie after the last turn."""
    last, turns = {}, []
    for phase, tick, log in texts:
        writer = roles[log][0]
        last[writer] = max((phase - 1) * shape["ticks"] + tick - 1, last.get(writer, -1) + 1)
        turns.append(last[writer])
    return turns


def standing_twice(keys):
    """The lines of two keys that are the same, for each that stood before. A key is its line and its digits."""
    first = {}
    for line, digits in keys:
        if digits in first:
            yield first[digits], line
        first.setdefault(digits, line)


def without_identifier(handles):
    """The keys in handles: all but the first 16 digits of each."""
    return [(line, digits[16:]) for line, digits in handles]
