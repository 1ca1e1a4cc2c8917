"""What fault lines mean and how inputs are mended: the table that `explain` answers from, and that docs/GUIDE.md shows
under "Mending"."""

from typing import NamedTuple


class Row(NamedTuple):
    """A mistake: the fault line that it gets, what was due, what stands there instead, and how it is mended."""

    fault: str
    due: str
    wrong: str
    mend: str


# The clauses that several rows share.
COUNT = "lines `log` and `handle` by the 12th number, `seed` by the 9th"

# By the name of the mistake; those that are most often met come first in each kind.
ROWS = {
    "crlf": Row("`line N: form`, `text`", "line feeds at ends of lines", "CRLF, as some editors write",
                r"`sed 's/\r$//' FILE`"),
    "mark": Row("`line 1: form`", "`talek 1` or `talek 2`", "a byte order mark before it",
                r"`sed '1s/^\xef\xbb\xbf//' FILE`"),
    "utf-16": Row("`line 1: form`", "UTF-8", "UTF-16", "`iconv -f utf-16 -t utf-8 FILE`"),
    "carriage": Row("`line 1: form`", "line feeds at ends of lines", "carriage returns alone",
                    r"`tr '\r' '\n' < FILE`"),
    "no-script": Row("`line 1: form`", "`talek 1` or `talek 2`", "no script, or none with a first line",
                     "give another file, or write the line"),
    "format": Row("`line 1: form`", "`talek 1` or `talek 2`", "another number", "write one of the two"),
    "shape-count": Row("`line 2: form`", "`shape` and twelve numbers", "more or fewer",
                       "`sed -n 2p FILE \\| wc -w` says 13"),
    "keys": Row("`line 3: form`", "`keyed` or `drawn`", "another word", "write one of the two"),
    "keyed": Row("`line N: form`", "`drawn`, for `mirror` and `wrong`", "`keyed`: keys have no tape to mirror",
                 "give a drawn script"),
    "drawn": Row("`line 3: form`", "`keyed`, for `relay`", "`drawn`: no seeds to make pads from",
                 "give a keyed script"),
    "count": Row("`line N: form` in the head", COUNT, "a line too few or too many before it",
                 "add or drop lines, or change the shape"),
    "digits": Row("`line N: form` in the head", "208 digits of a handle, 64 of a seed", "more or fewer",
                  "copy it again: `awk 'NR == N { print length($2) }' FILE`"),
    "hexadecimal": Row("`line N: form`", "digits 0 to 9, a to f", "another character", "copy them again"),
    "blank": Row("`line N: form`", "a line of the section, or `end`", "an empty line", "`sed '/^$/d' FILE`"),
    "remark": Row("`line N: form`", "a line of the section, or `end`", "a remark", "`sed '/^#/d' FILE`"),
    "tab": Row("`line N: form`", "one space between fields", "a tab", r"`sed 's/\t/ /g' FILE`"),
    "spaces": Row("`line N: form`", "one space between fields", "two, or one in front or behind",
                  "`sed '/^say/!{s/^ *//;s/  */ /g;s/ $//}' FILE`; a `say` by hand"),
    "word": Row("`line N: form`", "the word that is due, in small letters", "another word", "write that word"),
    "section": Row("`line N: form`", "the next section", "another one", "put it in its place, or drop it"),
    "decimal": Row("`line N: form`", "a number of digits alone", "a name, a sign, a comma, a zero in front, or none",
                   "write the number"),
    "large": Row("`line N: form`", "at most 4,294,967,295", "a larger number", "write a smaller one"),
    "fields": Row("`line N: form`", "the fields of this line", "one too few or too many", "add or drop it"),
    "text-space": Row("`line N: form`", "a space behind the log, and a text", "no space, where the text is empty",
                      "put it there"),
    "pieces": Row("`line N: form`", "2 to 4,096 digits of `x`, an even number", "more, or an odd number",
                  "divide the line, or add a digit"),
    "sums": Row("`line N: form`", "`4 * width` digits of a `reply`", "more or fewer", "write two sums"),
    "range": Row("`line 2: shape NAME VALUE`", "NAME in its range", "VALUE isn't", "choose one in it"),
    "power": Row("`line 2: shape NAME VALUE`", "a power of two", "VALUE is none", "choose the next one"),
    "retained": Row("`line 2: shape retained VALUE`", "1 to `buckets * depth`", "more than slots",
                    "retain less, or take more buckets"),
    "schedule": Row("`line 2: shape schedule VALUE`", "`clients * phases * ticks`, at most 65,000", "a run too long",
                    "fewer phases or ticks"),
    "table": Row("`line 2: shape table VALUE`", "`buckets * depth * (16 + block)`, at most 4,194,304",
                 "a table too large", "fewer buckets, less depth, or shorter blocks"),
    "work": Row("`line 2: shape work VALUE`", "schedule, servers, table multiplied: at most 34,359,738,368",
                "all at once too much", "less of what matters least"),
    "long-tape": Row("`line 3: shape tape VALUE`", "a tape of at most 2,097,152 bytes", "VALUE bytes",
                     "a smaller shape, or keys"),
    "empty": Row("`line 1: early`", "a script", "no input", "`talek serial < FILE`"),
    "cut": Row("`line N: early`", "the section's `end`", "the input is cut off", "`sed '$a end' FILE`"),
    "head": Row("`line N: early`", COUNT, "the head is cut off", "add the lines"),
    "no-history": Row("`line N: early`", "a history, for `view`, `mirror`, `wrong`", "none",
                      "put in a report's lines `order` and `reads`"),
    "no-tape": Row("`line N: early`", "a drawn script's tape", "none", "put it last"),
    "no-second": Row("`line N: early`", "a second script, for `mirror`, `wrong`", "none", "put it behind the first"),
    "no-replies": Row("`line N: early`", "replies, for `wrong`", "none", "put in `replies` and `end`"),
    "client": Row("`line N: number VALUE`", "a client, 0 to `clients - 1`", "VALUE",
                  "count from 0, or change the shape"),
    "log": Row("`line N: number VALUE`", "a log, 0 to `logs - 1`", "VALUE", "count from 0, or change the shape"),
    "phase": Row("`line N: number VALUE`", "a phase, 1 to `phases`", "VALUE", "count from 1, or change the shape"),
    "tick": Row("`line N: number VALUE`", "a tick, 1 to `ticks`", "VALUE", "count from 1, or change the shape"),
    "reply": Row("`line N: number VALUE`", "a turn and a client from 0, a server from 1", "VALUE, beyond the shape",
                 "change it"),
    "fill": Row("`line N: number VALUE`", "a `fill` of 1 to 2,097,152", "VALUE", "change it, or drop the line"),
    "followers": Row("`line N: order`", "followers that ascend", "one that doesn't", "sort them, each once"),
    "times": Row("`line N: order`", "texts by phase and tick", "an earlier one",
                 "`sort -s -k 2,2n -k 3,3n`, lines `say` alone"),
    "replies": Row("`line N: order`", "replies by turn, client, server", "an earlier one, or the same",
                   "`sort -k 2,2n -k 3,3n -k 4,4n`, lines `reply` alone"),
    "room": Row("`line N: room ROOM`", "a text of at most ROOM bytes", "more; `é` has two",
                "shorten it, or make `block` its bytes and 18"),
    "control": Row("`line N: text AT`", "no control characters", "one behind AT bytes, as a tab", "write a space"),
    "utf-8": Row("`line N: text AT`", "UTF-8", "other bytes behind AT, as in Latin-1",
                 "`iconv -f latin1 -t utf-8 FILE`"),
    "last-line": Row("`line N: after`", "nothing behind the last `end`", "an empty line", "`sed '${/^$/d}' FILE`"),
    "after": Row("`line N: after`", "nothing behind the last `end`", "something", "drop it, or give another command"),
    "long": Row("`input over 8388608 bytes`", "at most so many", "the wrong file, or a long tape",
                "split the script, or `fill` for `x`"),
    "history": Row("`history line AT`", "the next line of a legal history",
                   "a client twice or missing, no `mark` at a phase's end, no such epoch",
                   "copy a report's lines `order` and `reads`"),
    "shapes": Row("`shapes NAME A B`", "two scripts of one shape and format", "NAME is A and B", "change one"),
    "tape": Row("`tape WANT GOT`", "WANT bytes", "GOT bytes", "change an `x` or a `fill`"),
    "wide": Row("`tape over WANT`", "at most 2,097,152 bytes", "WANT bytes in format 2", "a smaller shape, or keys"),
    "server": Row("`server GOT of SERVERS`", "1 to SERVERS", "GOT", "count from 1"),
    "epoch": Row("`phase GOT of PHASES`", "0 to PHASES, for `resume`", "GOT", "an epoch that a phase makes"),
    "file": Row("`usage`", "no file as an argument", "a file: they come by `<`", "`talek serial < FILE`"),
    "quoted": Row("`usage`", "a word an argument", "several words in one", "leave the quotes off: `talek run 2`"),
    "root": Row("`usage`", "`handle`, a number, 64 hexadecimal digits", "others, or more or fewer",
                "`talek handle 0 \"$(openssl rand -hex 32)\"`"),
    "argument": Row("`usage`", "the command's numbers, as `view 1`, `run 4 16`",
                    "none, too many, a zero in front, or for `run` not 1 to 64", "see `talek --help`"),
    "command": Row("`usage`", "a command, in small letters", "none, or another word", "see `talek --help`"),
    "folder": Row("`read`", "an input", "a folder", "give a file"),
    "write": Row("`write`", "an output", "a full disk, or a pipe that nobody reads", "make space, or read the pipe"),
    "memory": Row("`memory`", "memory", "none is left", "a smaller shape"),
    "shell": Row("the shell's own line, code 1", "a file behind `<`", "none, or none to be read", "`ls -l FILE`"),
    "build": Row("the launcher's own line, code 70", "a program, or the kit to build it",
                 "no `rt` on the path, a wrong source, or no folder to write to", "what the line says"),
    "packet-cut": Row("`serve: cut`, `member: cut`", "whole packets", "the end of the input within one",
                      "start the switch again"),
    "packet-long": Row("`long`", "packets", "another stream", "start it by the switch"),
    "setup": Row("`setup`", "the host's first packet", "another one", "make the folder again: `group folder`"),
    "peer": Row("`peer`", "packets that this peer may send", "others", "start it by the switch"),
    "differ": Row("`member: differ`", "one filter of an epoch", "servers tell two: one lies",
                  "the next run, without the one that lies"),
    "refused": Row("`member: refused`", "frames and replies that are taken", "a server refused one, or lied",
                   "the next run, without the one that lies"),
    "older": Row("`member: older`", "a journal with all that was sent", "an older one",
                 "take the newest one, or the next run"),
    "copied": Row("`ended copied`", "one folder of a member", "a copy of it that spoke since",
                  "go on with the copy, or the next run"),
    "journal": Row("`ended journal`", "the journal as it was left", "a changed one, or another folder's",
                   "the one that it was; or make a server's folder again, a member's in the next run"),
}

# What stands above the columns of the table.
HEAD = Row("fault line", "what was due", "what is there", "how to mend it")


def table():
    """The lines of the table in Markdown. A fault that stands in the row above isn't repeated."""
    above = None
    yield f"| {' | '.join(HEAD)} |"
    yield "|---" * len(HEAD) + "|"
    for row in ROWS.values():
        fault = "" if row.fault == above else row.fault
        yield f"| {fault} | {row.due} | {row.wrong} | {row.mend} |"
        above = row.fault
