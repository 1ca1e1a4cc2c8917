"""What the tools of this repository share: how they read, write, answer --help and --version, and end without a
traceback."""

import os
import signal
import subprocess
import sys
import traceback

from apart.parts.version import version_of

# The most bytes that are read of one file.
LIMIT = 1 << 28


class Wrong(Exception):
    """Why a tool can't do what it was asked for."""


class Usage(Exception):
    """Why the words are none that a tool takes."""


def bytes_of(file):
    """The bytes of a file, or of standard input where it is None."""
    name = "standard input" if file is None else file
    try:
        with open(0 if file is None else file, "rb", closefd=file is not None) as opened:
            data = opened.read(LIMIT + 1)
    except OSError as error:
        raise Wrong(f"can't read {name}: {error.strerror}") from error
    if len(data) > LIMIT:
        raise Wrong(f"{name} has more than {LIMIT} bytes")
    return data


def lines_of(file):
    """The lines of a file, or of standard input where it is None, without their ends and without a byte order mark."""
    try:
        text = bytes_of(file).decode("utf-8-sig")
    except UnicodeDecodeError as error:
        raise Wrong(f"{'standard input' if file is None else file} isn't UTF-8 at byte {error.start}") from error
    return [line.removesuffix("\r") for line in text.removesuffix("\n").split("\n")]


def number_of(line, what, word, least=0, most=0xFFFFFFFF):
    """The number that a word spells, in a range."""
    if not (word.isascii() and word.isdigit() and len(word) <= 10 and least <= int(word) <= most):
        raise Wrong(f"line {line}: the {what} is {short(word)}, and should be a number from {least} to {most}")
    return int(word)


def short(text):
    """The beginning of a text, quoted, with what can't be printed escaped."""
    return repr(text if len(text) <= 40 else text[:37] + "...")


def program(word):
    """The path of a program that is given by its name."""
    if not (os.path.isfile(word) and os.access(word, os.X_OK)):
        raise Wrong(f"{short(word)} is no program")
    return os.path.realpath(word)


def program_path(launcher):
    """Where the program is that a launcher of this repository starts. It builds it where there is none."""
    return subprocess.run([launcher, "--path"], check=True, stdout=subprocess.PIPE, text=True).stdout.strip()


def put(where, text):
    """Writes to standard output (1) or standard error (2) at once, so that nothing is left to be written at the end."""
    data = text.encode(errors="backslashreplace")
    while data:
        data = data[os.write(where, data):]


def write_out(text):
    """Writes to standard output. Where nobody reads any more, the tool ends."""
    try:
        put(1, text)
    except BrokenPipeError:
        raise
    except OSError as error:
        raise Wrong(f"can't write: {error.strerror}") from error


def tell(line):
    """Writes a line to standard error, if anyone can get it."""
    try:
        put(2, line + "\n")
    except OSError:
        pass


def run(name, about, work, options=()):
    """Runs a tool: `work` gets the words and gives the lines of the output; `about` is what --help prints. Of words
    that begin with - only these options are taken."""
    for it in (signal.SIGPIPE, signal.SIGINT):
        signal.signal(it, signal.SIG_DFL)

    def work_and_write(words):
        refuse_options(words, options)
        write_out("".join(f"{line}\n" for line in work(words)))

    run_freely(name, about, work_and_write)


def refuse_options(words, known=()):
    """Refuses words that look like options and are none of the known ones, each of which has a value."""
    for before, word in zip(["", *words], words):
        if word.startswith("-") and word not in ("-", "--", *known) and before not in known:
            raise Usage(f"there is no option {short(word)}")


def no_words(words):
    """Refuses all words."""
    if words:
        raise Usage(f"takes no words, and got {short(' '.join(words))}")


def run_freely(name, about, work):
    """Runs a tool whose work, which gets the words, writes by itself, and clears up when it is interrupted."""
    words = sys.argv[1:]
    try:
        if {"-h", "--help"} & set(words):
            write_out(about.strip() + "\n")
        elif "--version" in words:
            write_out(version_of(name) + "\n")
        else:
            work(words)
            if sys.stdout:
                sys.stdout.flush()
    except KeyboardInterrupt:
        sys.exit(128 + signal.SIGINT)
    except Exception as why:
        end(name, why)


def end(name, why):
    """Ends with status 2 where words are wrong and else with 1, and says why."""
    status, what = 1, str(why)
    if isinstance(why, Usage):
        status, what = 2, f"{why}: see {name} --help"
    elif isinstance(why, BrokenPipeError):
        what = ""  # nobody reads, so nobody is told
    elif isinstance(why, subprocess.CalledProcessError):
        what = f"{shown(why.cmd)} ended with {why.returncode}"
    elif isinstance(why, OSError):
        what = f"{why.strerror}: {why.filename}" if why.filename else str(why.strerror or why)
    elif isinstance(why, MemoryError):
        what = "out of memory"
    elif not isinstance(why, Wrong):
        at = traceback.extract_tb(why.__traceback__)[-1]
        what = f"unexpected, at line {at.lineno} of {os.path.basename(at.filename)}: {type(why).__name__}: {why}"
    if what:
        tell(f"{name}: {what}")
    forget_output()
    sys.exit(status)


def shown(words):
    """A command, as a text."""
    return words if isinstance(words, str) else " ".join(map(str, words))


def forget_output():
    """What couldn't be written isn't tried again at the end."""
    try:
        os.dup2(os.open(os.devnull, os.O_WRONLY), 1)
    except OSError:
        pass
