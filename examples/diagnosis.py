"""Finds what is wrong in the line of an input that the program refused."""

import re
from typing import NamedTuple

from script import FIELDS
from shape import LIMITS, POWERS_OF_TWO, power_of_two
from tool import Wrong

# All commands, each with the sections of its input behind the first script, or with None where it reads nothing. A tape
# comes where the script is drawn.
COMMANDS = {"serial": [], "run": [], "resume": [], "lift": [], "relay": [], "view": ["history"],
            "mirror": ["talek", "history"], "wrong": ["talek", "history", "replies"],
            "handle": None, "make": None, "tally": None}
WITHOUT_KEYS = ("mirror", "wrong")
# The lines that stand between a section's first one and its `end`.
INSIDE = {"history": ["order", "reads"], "replies": ["reply"], "tape": ["x", "fill"]}
# The numbers at the front of each kind of line, and what comes behind them.
NUMBERS = {"say": ["phase", "tick", "log"], "order": ["phase", "tick"], "reads": ["phase", "tick"],
           "reply": ["turn", "client", "server"]}
MOST = 0xFFFFFFFF


class Found(NamedTuple):
    """A mistake by its name in the table, the field that has it, and what stands there."""

    mistake: str
    field: str
    what: str = ""


class Progress:
    """What is due in an input, line by line: the lines before are those that the program took."""

    def __init__(self, command):
        self.command = command  # its word, or None where nobody said it
        self.behind = list(COMMANDS.get(command) or [])
        self.section, self.step, self.scripts = "script", "talek", 0
        self.shape, self.shapes, self.is_drawn, self.counts = {}, [], False, {}

    def take(self, line):
        """Goes on by a line that was taken."""
        word, *fields = line.split(b" ")
        word = word.decode("latin-1")
        if word == "end" and self.step in ("say", "inside"):
            self.end_section()
        elif self.step == "between":
            self.begin_section(word)
        elif self.step == "shape":
            numbers = [int(it) for it in fields if it.isdigit()]
            self.shape = dict(zip(FIELDS, numbers))
            self.shapes.append(self.shape)
            self.step = "keys"
        elif self.step == "talek":
            self.step = "shape"
        elif self.step == "keys":
            self.is_drawn, self.counts, self.step = word == "drawn", {"log": 0, "handle": 0, "seed": 0}, "log"
        elif self.step in self.counts:
            self.counts[self.step] += 1
        self.skip_full()

    def wanted(self, kind):
        """How many lines of a kind the head has."""
        if kind != "log" and self.is_drawn:
            return 0
        return self.shape.get("clients" if kind == "seed" else "logs", 0)

    def skip_full(self):
        """Goes on where all lines of a kind are there."""
        for kind, after in ("log", "handle"), ("handle", "seed"), ("seed", "say"):
            if self.step == kind and self.counts[kind] >= self.wanted(kind):
                self.step = after

    def begin_section(self, word):
        if self.behind and word == self.behind[0]:
            self.behind.pop(0)
        self.section = "script" if word == "talek" else word
        self.step = "shape" if word == "talek" else "inside"

    def end_section(self):
        self.scripts += self.section == "script"
        self.step = "over" if self.section == "tape" else "between"

    def due(self):
        """The words that may begin the next line."""
        if self.step == "talek" or self.step == "shape" or self.step in self.counts:
            return [self.step]
        if self.step == "keys":
            return {"mirror": ["drawn"], "wrong": ["drawn"], "relay": ["keyed"]}.get(self.command, ["keyed", "drawn"])
        if self.step == "say":
            return ["say", "end"]
        if self.step == "inside":
            return [*INSIDE[self.section], "end"]
        if self.step == "between" and self.command is None:
            return ["talek", "history", "replies", "tape"]
        if self.step == "between":
            return self.behind[:1] or (["tape"] if self.is_drawn else [])
        return []


class Examination:
    """An input with its line that is refused."""

    def __init__(self, data, number, command):
        lines = data.split(b"\n")
        if lines[-1] == b"":
            lines.pop()
        if not 1 <= number <= len(lines) + 1:
            raise Wrong(f"the input has {len(lines)} lines, so it isn't the one that was refused")
        self.data, self.number = data, number
        self.is_missing = number == len(lines) + 1
        self.line = b"" if self.is_missing else lines[number - 1]
        self.at = Progress(command)
        for line in lines[: number - 1]:
            self.at.take(line)
        self.word, *self.fields = self.line.split(b" ")
        self.word = self.word.decode("latin-1")

    def found(self, cause, value):
        """The mistake for a cause of the program's, told with a value or without one."""
        if self.is_missing != (cause == "early"):
            raise Wrong(f"line {self.number} of the input {'is not there' if self.is_missing else 'is there'}, so it "
                        f"isn't the one that was refused")
        return getattr(self, "find_" + cause)(value) or Found(cause, "the whole line", quoted(self.line))

    # A line may not stand in its place.

    def find_form(self, _):
        found = self.looks_foreign() or self.begins_wrongly() or self.wrong_field()
        if not found and self.at.step == "between":
            return Found("section", "the first word", f"`{self.word}`, which this command doesn't read here")
        if not found:
            raise Wrong(f"line {self.number} of the input may stand there, so it isn't the one that was refused")
        return found

    def looks_foreign(self):
        """What is wrong with the line as bytes, whichever line is due."""
        line = self.line
        if self.number == 1 and line[:3] == b"\xef\xbb\xbf":
            return Found("mark", "the first three bytes", "a byte order mark")
        if self.number == 1 and b"\0" in line[:8]:
            return Found("utf-16", "the whole file", "a zero byte beside each letter")
        if self.number == 1 and b"\r" in line[:-1]:
            return Found("carriage", "the ends of lines", "no line feeds")
        if line.endswith(b"\r"):
            return Found("crlf", "the end of the line", "a carriage return")
        if not line.strip():
            return Found("blank", "the whole line", "nothing" if not line else "spaces")
        if re.match(rb"[ \t]*(#|//|;|--)", line):
            return Found("remark", "the whole line", quoted(line))
        if line[:1] == b"\t" or "\t" in self.word:
            return Found("tab", f"the space behind {self.word.split(chr(9))[0] or 'the beginning'}", "a tab")
        if line[:1] == b" ":
            return Found("spaces", "the beginning of the line", "a space")
        return None

    def begins_wrongly(self):
        """What is wrong where the line's first word isn't due."""
        due, word, at = self.at.due(), self.word, self.at
        if self.is_unfit_for_command():
            return Found(word, "the whole line", quoted(self.line))
        if word in due:
            return None
        if at.step == "talek":
            return Found("no-script", "the whole line", quoted(self.line))
        if at.step == "keys":
            return Found("keys", "the whole line", quoted(self.line))
        if word in ("log", "handle", "seed", "say", "end") and at.step in at.counts:
            there = at.counts[at.step]
            return Found("count", "the first word", f"`{word}`, where {at.step} {there} is due of {at.wanted(at.step)}")
        if word in ("log", "handle", "seed") and at.step == "say":
            return Found("count", "the first word", f"one more `{word}` than the shape has: {at.wanted(word)}")
        if at.step == "between" or word in ("talek", "history", "replies", "tape", "order", "reads", "x", "fill"):
            return Found("section", "the first word", f"{quoted(word.encode())}, where {either(due)} is due")
        return Found("word", "the first word", f"{quoted(word.encode('latin-1'))}, where {either(due)} is due")

    def is_unfit_for_command(self):
        """Whether words come from keys or a tape, and the command wants the other."""
        if self.at.step != "keys" or self.line not in (b"keyed", b"drawn"):
            return False
        return self.at.command is None or self.word not in self.at.due()

    def wrong_field(self):
        """What is wrong in the fields of a line whose first word is due."""
        word, fields = self.word, self.fields
        if word == "say":
            return self.wrong_number(NUMBERS[word], fields[:3]) or (
                Found("text-space", "the text", "no space behind the log") if len(fields) < 4 else None)
        for place, field in enumerate(fields, 1):
            if not field:
                return Found("spaces", f"the space before field {place + 1}" if place < len(fields) else
                             "the end of the line", "a space too many")
            if b"\t" in field:
                return Found("tab", f"field {place + 1}", quoted(field))
        wrong = {"talek": self.wrong_format, "shape": self.wrong_shape, "log": self.wrong_log,
                 "handle": self.wrong_key, "seed": self.wrong_key, "order": self.wrong_turn, "reads": self.wrong_turn,
                 "reply": self.wrong_reply, "x": self.wrong_piece, "fill": self.wrong_fill}.get(word)
        if wrong:
            return wrong()
        return Found("fields", "the fields behind the first word", quoted(b" ".join(fields))) if fields else None

    def wrong_number(self, names, fields):
        """The first of these fields that is no plain number, or that isn't there."""
        for name, field in zip(names, [*fields, *[None] * len(names)]):
            if field is None:
                return Found("fields", f"the {name}", "nothing")
            if b"\t" in field:
                return Found("tab", f"the {name}", quoted(field))
            if not field:
                return Found("spaces", f"the space before the {name}", "two of them")
            if not re.fullmatch(rb"0|[1-9][0-9]*", field):
                return Found("decimal", f"the {name}", quoted(field))
            if int(field) > MOST:
                return Found("large", f"the {name}", quoted(field))
        return None

    def wrong_format(self):
        if len(self.fields) != 1:
            return Found("fields", "the format", f"{len(self.fields)} fields")
        return Found("format", "the format", quoted(self.fields[0]))

    def wrong_shape(self):
        if len(self.fields) != len(FIELDS):
            return Found("shape-count", "the twelve numbers", f"{len(self.fields)} numbers")
        return self.wrong_number(FIELDS, self.fields)

    def wrong_log(self):
        names = ["writer", *(f"follower {place}" for place in range(1, len(self.fields)))]
        return self.wrong_number(names, self.fields)

    def wrong_key(self):
        want = {"handle": 208, "seed": 64}[self.word]
        if len(self.fields) != 1:
            return Found("fields", f"the {self.word}", f"{len(self.fields)} fields")
        return wrong_digits(self.fields[0], f"the {self.word}") or (
            Found("digits", f"the {self.word}", f"{len(self.fields[0])} digits, where {want} are due")
            if len(self.fields[0]) != want else None)

    def wrong_turn(self):
        inside = [it for it in self.fields[2:] if it != b"mark" or self.word == "reads"]
        name = "client" if self.word == "order" else "epoch"
        names = ["phase", "tick", *(f"{name} in place {place}" for place in range(1, max(2, len(inside) + 1)))]
        if self.fields[2:] and not inside:
            names.pop()
        return self.wrong_number(names, [*self.fields[:2], *inside])

    def wrong_reply(self):
        found = self.wrong_number(NUMBERS["reply"], self.fields[:3])
        if found or len(self.fields) != 4:
            return found or Found("fields", "the sums", f"{len(self.fields)} fields")
        width = self.at.shapes[0].get("depth", 0) * (16 + self.at.shapes[0].get("block", 0))
        return wrong_digits(self.fields[3], "the sums") or (
            Found("sums", "the sums", f"{len(self.fields[3])} digits, where {4 * width} are due")
            if len(self.fields[3]) != 4 * width else None)

    def wrong_piece(self):
        if len(self.fields) != 1:
            return Found("fields", "the piece", f"{len(self.fields)} fields")
        count = len(self.fields[0])
        return wrong_digits(self.fields[0], "the piece") or (
            Found("pieces", "the piece", f"{count} digits") if count % 2 or count > 4096 else None)

    def wrong_fill(self):
        if len(self.fields) != 2:
            return Found("fields", "the byte and how often it stands", f"{len(self.fields)} fields")
        if len(self.fields[0]) != 2:
            return Found("pieces", "the byte", quoted(self.fields[0]))
        return wrong_digits(self.fields[0], "the byte") or self.wrong_number(["number of bytes"], self.fields[1:])

    # A line may stand there, and says what can't be.

    def find_number(self, value):
        """The field that has a number out of range."""
        names = NUMBERS.get(self.word, [])
        if self.word == "log":
            names = ["writer", *(f"follower {place}" for place in range(1, len(self.fields)))]
        for name, field in zip(names, self.fields):
            if field == value.encode() and self.is_out_of_range(name, int(value)):
                mistake = "reply" if self.word == "reply" else "client" if self.word == "log" else name
                return Found(mistake, f"the {name}", f"{value}, where {self.range_of(name)} is due")
        return Found("fill", "the number of bytes", value) if self.word == "fill" else None

    def range_of(self, name):
        least, most = self.bounds(name)
        return f"{least} to {most}"

    def bounds(self, name):
        shape = self.at.shapes[0] if self.word == "reply" else self.at.shape
        if name in ("phase", "tick", "server"):
            return 1, shape.get(name + "s", 0)
        if name == "turn":
            return 0, shape.get("phases", 0) * shape.get("ticks", 0) - 1
        return 0, shape.get("logs" if name == "log" else "clients", 0) - 1

    def is_out_of_range(self, name, value):
        least, most = self.bounds(name)
        return not least <= value <= most

    def find_order(self, _):
        if self.word == "log":
            clients = [int(it) for it in self.fields[1:]]
            for place, (before, it) in enumerate(zip(clients, clients[1:]), 2):
                if it <= before:
                    return Found("followers", f"follower {place}", f"{it}, behind {before}")
        if self.word == "reply":
            return Found("replies", "the turn, the client and the server", quoted(b" ".join(self.fields[:3])))
        return Found("times", "the phase and the tick", quoted(b" ".join(self.fields[:2])))

    def find_room(self, value):
        text = self.line.split(b" ", 4)[-1]
        letters = len(text.decode("utf-8", "replace"))
        more = f" of {letters} letters" if letters != len(text) else ""
        return Found("room", "the text", f"{len(text)} bytes{more}, where {value} are allowed")

    def find_text(self, value):
        text = self.line.split(b" ", 4)[-1]
        byte = text[int(value) : int(value) + 1]
        field = f"the text, behind {quoted(text[: int(value)])}"
        if byte == b"\r" and text.endswith(byte):
            return Found("crlf", "the end of the text", "a carriage return")
        if byte < b"\x20" or byte == b"\x7f":
            return Found("control", field, "a tab" if byte == b"\t" else f"the byte {byte.hex()}")
        return Found("utf-8", field, f"the byte {byte.hex()}")

    # A line is due and isn't there, or the other way round.

    def find_early(self, _):
        due, at = self.at.due(), self.at
        if self.number == 1:
            return Found("empty", "the whole input", "no line at all")
        if at.step in ("say", "inside"):
            return Found("cut", "the line behind the last one", f"nothing, where {either(due)} is due")
        if at.step != "between":
            return Found("head", "the line behind the last one", f"nothing, where `{due[0]}` is due")
        if at.command is None:
            due = ["tape"] if at.is_drawn and at.section == "history" else ["history"]
            due = ["tape"] if at.is_drawn and at.section == "script" and at.scripts == 1 else due
        mistake = {"talek": "no-second", "replies": "no-replies"}.get(due[0], f"no-{due[0]}")
        return Found(mistake, "the section behind the last one", f"nothing, where `{due[0]}` is due")

    def find_after(self, _):
        if not self.line:
            return Found("last-line", "the whole line", "nothing")
        return Found("after", "the whole line", quoted(self.line))


def mistake_in_shape(name, number):
    """The mistake in the number of a shape that is told by its name."""
    if name == "tape":
        return Found("long-tape", "the shape in line 2, for the tape that it wants", f"{number} bytes")
    if name in ("schedule", "table", "work"):
        return Found(name, f"the product `{name}` of the shape's numbers", number)
    field = f"`{name}`, number {FIELDS.index(name) + 1} of the twelve"
    if name == "retained":
        return Found("retained", field, number)
    least, most = LIMITS[name]
    if name in POWERS_OF_TWO and least <= int(number) != power_of_two(int(number)) <= 4 * most:
        return Found("power", field, number)
    return Found("range", field, f"{number}, where {least} to {most} is due")


def wrong_digits(field, name):
    """Where a field has another character than hexadecimal digits."""
    bad = re.search(rb"[^0-9a-fA-F]", field)
    return Found("hexadecimal", f"{name}, character {bad.start() + 1}", quoted(bad[0])) if bad else None


def either(words):
    return " or ".join(f"`{word}`" for word in words) or "nothing"


def quoted(data):
    """Bytes as a text between signs that show where it begins and ends, and what can't be seen."""
    text = data.decode("utf-8", "surrogateescape")
    return repr(text if len(text) <= 40 else text[:37] + "...")
