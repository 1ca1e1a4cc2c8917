"""Typical mistakes, each with the fault line that it gets, its name in the table of examples/explain, and the field."""

import pathlib
import re
from typing import NamedTuple

TOP = pathlib.Path(__file__).resolve().parent.parent
FRIENDS = (TOP / "examples/friends.talek").read_bytes()
HI = (TOP / "examples/hi.talek").read_bytes()
# A drawn script of one text, its tape, and the history of its serial run.
SAID, TAPE = HI[: HI.index(b"tape")], HI[HI.index(b"tape") :]
HISTORY = b"history\norder 1 1 0 1 mark\nreads 1 1 0 0\nend\n"
REPLIES = b"replies\nend\n"
SUM = b"0" * 320
# What the table has and nobody can make here: what the shell and the launcher say, and how a group apart ends.
NOT_MADE = ["shell", "build", "packet-cut", "packet-long", "setup", "peer", "differ", "refused", "older", "copied",
            "journal"]


class Case(NamedTuple):
    """A mistake: the words of the command, the input, and what is due of the answer."""

    name: str
    words: list
    data: bytes
    fault: str
    mistake: str
    field: str = ""
    is_mended: bool = False  # whether the cure is a command that mends the input
    output: str = "/dev/null"
    source: str = ""  # what is read in place of the input
    memory: int = 0  # how many bytes the program may have


def line(number, text, data=FRIENDS):
    """An input with another line in the place of this one."""
    lines = data.split(b"\n")
    lines[number - 1] = text
    return b"\n".join(lines)


def before(number, text, data=FRIENDS):
    """An input with one more line in front of this one."""
    lines = data.split(b"\n")
    return b"\n".join([*lines[: number - 1], text, *lines[number - 1 :]])


def without(number, data=FRIENDS):
    lines = data.split(b"\n")
    return b"\n".join([*lines[: number - 1], *lines[number:]])


def changed(number, old, new, data=FRIENDS):
    """An input with something else in a line."""
    return line(number, data.split(b"\n")[number - 1].replace(old, new, 1), data)


def shaped(field, value, data=FRIENDS):
    """An input whose shape has another number in this place, counted from 1."""
    numbers = data.split(b"\n")[1].split(b" ")
    numbers[field] = b"%d" % value
    return line(2, b" ".join(numbers), data)


SERIAL = ["serial"]
LINE_MISTAKES = [
    Case("lines end with CRLF", SERIAL, FRIENDS.replace(b"\n", b"\r\n"), "line 1: form", "crlf", "end of the line",
         True),
    Case("a byte order mark", SERIAL, b"\xef\xbb\xbf" + FRIENDS, "line 1: form", "mark", "first three bytes", True),
    Case("UTF-16", SERIAL, FRIENDS.decode().encode("utf-16"), "line 1: form", "utf-16", "whole file", True),
    Case("lines end with CR", SERIAL, FRIENDS.replace(b"\n", b"\r"), "line 1: form", "carriage", "ends of lines", True),
    Case("format 3", SERIAL, line(1, b"talek 3"), "line 1: form", "format", "the format"),
    Case("no format", SERIAL, line(1, b"talek"), "line 1: form", "fields", "the format"),
    Case("a capital letter", SERIAL, line(1, b"Talek 1"), "line 1: form", "no-script"),
    Case("no first line", SERIAL, without(1), "line 1: form", "no-script"),
    Case("a plan in place of a script", SERIAL, (TOP / "examples/four.plan").read_bytes(), "line 1: form", "remark"),
    Case("a report in place of a script", SERIAL, b"report\norder 1 1 0\n", "line 1: form", "no-script"),
    Case("a blank line in front", SERIAL, b"\n" + FRIENDS, "line 1: form", "blank", "", True),
    Case("a shape of eleven numbers", SERIAL, changed(2, b" 3 4 2 3", b" 3 4 2"), "line 2: form", "shape-count",
         "twelve numbers"),
    Case("a shape of thirteen numbers", SERIAL, changed(2, b"shape", b"shape 3"), "line 2: form", "shape-count",
         "twelve numbers"),
    Case("a zero in front", SERIAL, changed(2, b"shape 3 8", b"shape 3 08"), "line 2: form", "decimal", "buckets"),
    Case("a number with commas", SERIAL, changed(2, b" 64 ", b" 65,536 "), "line 2: form", "decimal", "filter"),
    Case("a number with a sign", SERIAL, changed(2, b" 64 1 0 ", b" 64 1 -1 "), "line 2: form", "decimal", "ahead"),
    Case("a huge number", SERIAL, changed(2, b" 96 ", b" 5000000000 "), "line 2: form", "large", "block"),
    Case("shapes for shape", SERIAL, changed(2, b"shape", b"shapes"), "line 2: form", "word", "first word"),
    Case("key for keyed", SERIAL, line(3, b"key"), "line 3: form", "keys", "whole line"),
    Case("neither keyed nor drawn", SERIAL, without(3), "line 3: form", "keys"),
    Case("keyed for mirror", ["mirror", "1"], FRIENDS, "line 3: form", "keyed", "whole line"),
    Case("a second keyed script for mirror", ["mirror", "1"], SAID + FRIENDS, "line 9: form", "keyed", "whole line"),
    Case("drawn for relay", ["relay"], HI, "line 3: form", "drawn", "whole line"),
    Case("a log too few", SERIAL, without(4), "line 6: form", "count", "first word"),
    Case("a log too many", SERIAL, before(7, b"log 0 1"), "line 7: form", "count", "first word"),
    Case("a handle too few", SERIAL, without(8), "line 9: form", "count", "first word"),
    Case("a handle too many", SERIAL, before(10, b"handle " + b"0" * 208), "line 10: form", "count", "first word"),
    Case("a seed too few", SERIAL, without(12), "line 12: form", "count", "first word"),
    Case("a seed too many", SERIAL, before(13, b"seed " + b"d" * 64), "line 13: form", "count", "first word"),
    Case("a handle of 207 digits", SERIAL, changed(7, b"0000 ", b"0000"[:-1]).replace(b"handle 0", b"handle ", 1),
         "line 7: form", "digits", "the handle"),
    Case("a seed of 63 digits", SERIAL, changed(10, b"aa", b"a"), "line 10: form", "digits", "the seed"),
    Case("a handle with 0x", SERIAL, changed(7, b"handle 00", b"handle 0x"), "line 7: form", "hexadecimal",
         "the handle, character 2"),
    Case("a letter O in a seed", SERIAL, changed(11, b"bbb", b"bOb"), "line 11: form", "hexadecimal",
         "the seed, character 2"),
    Case("an empty line among texts", SERIAL, before(14, b""), "line 14: form", "blank", "whole line", True),
    Case("a remark among texts", SERIAL, before(13, b"# what we say"), "line 13: form", "remark", "whole line", True),
    Case("a tab behind say", SERIAL, changed(13, b"say ", b"say\t"), "line 13: form", "tab", "say", True),
    Case("a tab in a log", SERIAL, changed(4, b"log ", b"log\t"), "line 4: form", "tab", "log", True),
    Case("two spaces in a log", SERIAL, changed(4, b"0 1", b"0  1"), "line 4: form", "spaces", "field 3", True),
    Case("a space at the end of a log", SERIAL, changed(5, b"0 2", b"0 2 "), "line 5: form", "spaces",
         "end of the line", True),
    Case("an indented line", SERIAL, changed(6, b"log", b"  log"), "line 6: form", "spaces", "beginning", True),
    Case("two spaces behind say", SERIAL, changed(13, b"say 1", b"say  1"), "line 13: form", "spaces",
         "before the phase"),
    Case("a text without a log", SERIAL, line(13, b"say 1 1 Shall we meet?"), "line 13: form", "decimal", "the log"),
    Case("a tick that is no number", SERIAL, changed(13, b"1 1", b"1 x"), "line 13: form", "decimal", "the tick"),
    Case("a log by its name", SERIAL, changed(13, b"1 0 ", b"1 diary "), "line 13: form", "decimal", "the log"),
    Case("clients by their names", SERIAL, line(4, b"log ann ben cem"), "line 4: form", "decimal", "the writer"),
    Case("followers with commas", SERIAL, line(4, b"log 0 1,2"), "line 4: form", "decimal", "follower 1"),
    Case("no writer", SERIAL, line(4, b"log"), "line 4: form", "fields", "the writer"),
    Case("a text with no tick", SERIAL, line(13, b"say 1"), "line 13: form", "fields", "the tick"),
    Case("no space behind the log", SERIAL, line(13, b"say 1 1 0"), "line 13: form", "text-space", "the text"),
    Case("Say for say", SERIAL, changed(13, b"say", b"Say"), "line 13: form", "word", "first word"),
    Case("a word behind end", SERIAL, line(20, b"end of it"), "line 20: form", "fields", "behind the first word"),
    Case("a history that serial doesn't read", SERIAL, SAID + HISTORY + TAPE, "line 7: form", "section", "first word"),
    Case("a tape without a history for view", ["view", "1"], HI, "line 7: form", "section", "first word"),
    Case("an odd number of digits of a tape", SERIAL, changed(11, b"0d", b"d", HI), "line 11: form", "pieces",
         "the piece"),
    Case("a space in a piece", SERIAL, changed(11, b"00a0", b"00 a0", HI), "line 11: form", "fields", "the piece"),
    Case("a fill without a number", SERIAL, changed(8, b" 36", b"", HI), "line 8: form", "fields", "the byte"),
    Case("a reply of too few digits", ["wrong", "1"], SAID + SAID + HISTORY + b"replies\nreply 0 0 2 00\nend\n" + TAPE,
         "line 18: form", "sums", "the sums"),
    Case("no mark but a name in an order", ["view", "1"], SAID + HISTORY.replace(b"mark", b"Mark") + TAPE,
         "line 8: form", "decimal", "client in place 3"),
    Case("no input", SERIAL, b"", "line 1: early", "empty", "whole input"),
    Case("no end", SERIAL, FRIENDS[:-4], "line 20: early", "cut", "behind the last one", True),
    Case("half a head", SERIAL, b"\n".join(FRIENDS.split(b"\n")[:6]), "line 7: early", "head", "behind the last one"),
    Case("view without a history", ["view", "1"], FRIENDS, "line 21: early", "no-history", "section"),
    Case("a drawn script without its tape", SERIAL, SAID, "line 7: early", "no-tape", "section"),
    Case("mirror without a second script", ["mirror", "1"], SAID, "line 7: early", "no-second", "section"),
    Case("mirror without a history", ["mirror", "1"], SAID + SAID, "line 13: early", "no-history", "section"),
    Case("wrong without replies", ["wrong", "1"], SAID + SAID + HISTORY, "line 17: early", "no-replies", "section"),
    Case("a tape without its end", SERIAL, HI[:-4], "line 13: early", "cut", "behind the last one", True),
    Case("clients from 1 on", SERIAL, line(4, b"log 1 2 3"), "line 4: number 3", "client", "follower 2"),
    Case("a writer that isn't there", SERIAL, line(4, b"log 7 1 2"), "line 4: number 7", "client", "writer"),
    Case("phases from 0 on", SERIAL, changed(13, b"say 1", b"say 0"), "line 13: number 0", "phase", "phase"),
    Case("a phase too many", SERIAL, changed(19, b"say 4", b"say 5"), "line 19: number 5", "phase", "phase"),
    Case("ticks from 0 on", SERIAL, changed(13, b"1 1", b"1 0"), "line 13: number 0", "tick", "tick"),
    Case("a tick too many", SERIAL, changed(14, b"1 2", b"1 3"), "line 14: number 3", "tick", "tick"),
    Case("logs from 1 on", SERIAL, changed(14, b"1 2 2", b"1 2 3"), "line 14: number 3", "log", "log"),
    Case("a fill of nothing", SERIAL, changed(8, b"36", b"0", HI), "line 8: number 0", "fill", "number of bytes"),
    Case("a reply of server 0", ["wrong", "1"],
         SAID + SAID + HISTORY + b"replies\nreply 0 0 0 " + SUM * 2 + b"\nend\n" + TAPE, "line 18: number 0", "reply",
         "server"),
    Case("followers that descend", SERIAL, line(4, b"log 0 2 1"), "line 4: order", "followers", "follower 2"),
    Case("a follower twice", SERIAL, line(4, b"log 0 1 1"), "line 4: order", "followers", "follower 2"),
    Case("texts out of order", SERIAL, without(13, before(20, FRIENDS.split(b"\n")[12])), "line 19: order", "times",
         "phase and the tick"),
    Case("replies out of order", ["wrong", "1"], SAID + SAID + HISTORY + b"replies\nreply 0 1 2 " + SUM * 2
         + b"\nreply 0 0 2 " + SUM * 2 + b"\nend\n" + TAPE, "line 19: order", "replies", "turn, the client"),
    Case("a long text", SERIAL, changed(13, b"Friday?", b"Friday, " * 9), "line 13: room 78", "room", "the text"),
    Case("a text of 40 letters in 80 bytes", SERIAL, line(13, "say 1 1 0 {}".format("é" * 40).encode()),
         "line 13: room 78", "room", "the text"),
    Case("a tab in a text", SERIAL, changed(14, b"am ", b"am\t"), "line 14: text 4", "control", "behind 'I am'"),
    Case("one line with CRLF", SERIAL, changed(14, b"town.", b"town.\r"), "line 14: text 18", "crlf", "end of the text",
         True),
    Case("a text in Latin-1", SERIAL, FRIENDS.decode().encode("latin-1"), "line 17: text 10", "utf-8", "'At the caf'",
         True),
    Case("an empty line at the end", SERIAL, FRIENDS + b"\n", "line 21: after", "last-line", "whole line", True),
    Case("two scripts", SERIAL, FRIENDS + FRIENDS, "line 21: after", "after", "whole line"),
    Case("a tape behind a keyed script", SERIAL, FRIENDS + TAPE, "line 21: after", "after", "whole line"),
]
SHAPE_MISTAKES = [
    Case("one server", SERIAL, shaped(1, 1), "line 2: shape servers 1", "range", "servers"),
    Case("ten buckets", SERIAL, shaped(2, 10), "line 2: shape buckets 10", "power", "buckets"),
    Case("8,192 buckets in format 1", SERIAL, shaped(2, 8192), "line 2: shape buckets 8192", "range", "buckets"),
    Case("more retained than slots", SERIAL, shaped(4, 65), "line 2: shape retained 65", "retained", "retained"),
    Case("a block of 16 bytes", SERIAL, shaped(5, 16), "line 2: shape block 16", "range", "block"),
    Case("a filter of 100 bits", SERIAL, shaped(6, 100), "line 2: shape filter 100", "power", "filter"),
    Case("no hits", SERIAL, shaped(7, 0), "line 2: shape hits 0", "range", "hits"),
    Case("a long run", SERIAL, line(2, b"shape 3 8 8 8 96 64 1 0 64 256 4 3"), "line 2: shape schedule 65536",
         "schedule", "schedule"),
    Case("a large table", SERIAL, line(2, b"shape 3 4096 8 8 1024 64 1 0 3 4 2 3"), "line 2: shape table 34078720",
         "table", "table"),
    Case("all at once", SERIAL, line(2, b"shape 8 512 8 8 1000 64 1 0 64 64 8 3"), "line 2: shape work", "work",
         "work"),
    Case("a long tape", SERIAL, line(2, b"shape 3 1024 1 8 96 64 1 0 64 64 8 1", HI), "line 3: shape tape", "long-tape",
         "shape"),
]
OTHER_MISTAKES = [
    Case("the wrong file", SERIAL, FRIENDS + b"x" * 8388608, "input over 8388608 bytes", "long"),
    Case("a client that doesn't write", ["view", "1"], SAID + HISTORY.replace(b"0 1 m", b"0 m") + TAPE,
         "history line 8", "history", "history"),
    Case("no mark in a history", ["view", "1"], SAID + HISTORY.replace(b" mark", b"") + TAPE, "history line 8",
         "history", "history"),
    Case("an epoch that isn't there", ["view", "1"], SAID + HISTORY.replace(b"1 0 0", b"1 0 2") + TAPE,
         "history line 9", "history", "history"),
    Case("two shapes", ["mirror", "1"], SAID + shaped(3, 8, SAID) + HISTORY + TAPE, "shapes depth 4 8", "shapes",
         "depth"),
    Case("two formats", ["mirror", "1"], SAID + line(1, b"talek 2", SAID) + HISTORY + TAPE, "shapes format 1 2",
         "shapes", "format"),
    Case("a short tape", SERIAL, changed(12, b"36", b"35", HI), "tape 132 131", "tape", "length"),
    Case("a long piece", SERIAL, changed(12, b"36", b"99", HI), "tape 132 195", "tape", "length"),
    Case("a tape that is too long for format 2", ["lift"],
         b"talek 1\nshape 2 8 1 1 24 64 1 0 64 10 64 1\ndrawn\nlog 0\nend\ntape\nfill 00 1907200\nend\n",
         "tape over 4528640", "wide", "length"),
    Case("server 0", ["view", "0"], SAID + HISTORY + TAPE, "server 0 of 3", "server", "server"),
    Case("server 4 of 3", ["mirror", "4"], SAID + SAID + HISTORY + TAPE, "server 4 of 3", "server", "server"),
    Case("an epoch behind the last one", ["resume", "9"], FRIENDS, "phase 9 of 4", "epoch", "epoch"),
    Case("a folder for a file", SERIAL, b"", "read", "folder", source="/"),
    Case("a full disk", SERIAL, FRIENDS, "write", "write", output="/dev/full"),
    Case("no memory", SERIAL, line(2, b"shape 8 4096 8 8 96 64 1 0 3 4 2 3"), "memory", "memory", memory=12_000_000),
    Case("a file as an argument", ["serial", "examples/hi.talek"], b"", "usage", "file", "argument 2"),
    Case("a file alone", ["friends.talek"], b"", "usage", "file", "argument 1"),
    Case("no arguments", [], b"", "usage", "command", "command"),
    Case("an option", ["--serial"], b"", "usage", "command", "command"),
    Case("a command in capitals", ["Serial"], b"", "usage", "command", "command"),
    Case("view of no server", ["view"], b"", "usage", "argument", "`view`"),
    Case("view 01", ["view", "01"], b"", "usage", "argument", "`view`"),
    Case("run with no workers", ["run", "0"], b"", "usage", "argument", "`run`"),
    Case("run with 65 workers", ["run", "65"], b"", "usage", "argument", "`run`"),
    Case("make of no number", ["make"], b"", "usage", "argument", "`make`"),
    Case("two words in one", ["run 2"], b"", "usage", "quoted", "argument 1"),
    Case("a short root", ["handle", "0", "abcd"], b"", "usage", "root", "`handle`"),
    Case("a handle's name for its number", ["handle", "ann", "0" * 64], b"", "usage", "root", "`handle`"),
]
CASES = [*LINE_MISTAKES, *SHAPE_MISTAKES, *OTHER_MISTAKES]
