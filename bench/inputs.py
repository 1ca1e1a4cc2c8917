"""The inputs over which programs are measured, the same bytes each time."""
import hashlib
import random


def seed(client):
    return hashlib.sha256(b"s%d" % client).hexdigest()


def handle(log):
    return f"{log:016x}" + "".join(hashlib.sha256(b"h%d.%d" % (log, part)).hexdigest() for part in range(3))


def script(shape, roles, says, form=1):
    """A keyed script of a shape, a writer with followers for each log, and what is said."""
    lines = [f"talek {form}", "shape " + " ".join(map(str, shape)), "keyed"]
    lines += [f"log {writer} " + " ".join(map(str, followers)) for writer, followers in roles]
    lines += ["handle " + handle(log) for log in range(shape[11])]
    lines += ["seed " + seed(client) for client in range(shape[8])]
    lines += ["say %d %d %d %s" % say for say in says]
    return "\n".join(lines + ["end", ""]).encode()


def turns(shape):
    return [(phase, tick) for phase in range(1, shape[9] + 1) for tick in range(1, shape[10] + 1)]


def ring(shape, said, form=1):
    """Each client writes the log of its number, which the next two follow, and says a text on it in each turn for which
    `said` holds."""
    clients = shape[8]
    roles = [(c, sorted({(c + step) % clients for step in (1, 2)})) for c in range(clients)]
    says = [(p, t, c, f"text {p} {t} of {c}") for p, t in turns(shape) for c in range(clients) if said(p, t, c)]
    return script(shape, roles, says, form)


def wide(shape=(2, 4096, 4, 8192, 240, 65536, 3, 4, 64, 8, 4, 16), form=1):
    """All read 17 GB of a table of 4 MiB."""
    clients, logs = shape[8], shape[11]
    roles = [(log * clients // logs, [c for c in range(clients) if c != log * clients // logs]) for log in range(logs)]
    says = [(p, t, log, f"hello {p} {t} {log}") for p, t in turns(shape) for log in range(logs)]
    return script(shape, roles, says, form)


def buckets():
    """The same of as many buckets as there may be, in format 2."""
    return wide((2, 16384, 4, 32768, 48, 65536, 3, 4, 64, 8, 4, 16), 2)


def deep(shape=(2, 256, 4, 512, 40, 4096, 3, 8, 63, 256, 4, 63)):
    """64,512 writes, two of three with a text, over many epochs; readers read ahead."""
    clients = shape[8]
    roles = [(c, sorted([(c + 1) % clients, (c + 7) % clients])) for c in range(clients)]
    says = [(p, t, c, f"d{p}.{t}.{c}") for p, t in turns(shape) for c in range(clients) if (p * 4 + t + c) % 3]
    return script(shape, roles, says)


def chains(shape=(2, 1024, 4, 4096, 24, 65536, 2, 4, 50, 256, 5, 8)):
    """A table kept full: of 64,000 writes nearly each after the first 4,096 needs a long search."""
    roles = [(log, [log + 8]) for log in range(shape[11])]
    says = [(p, 1, log, f"c{p}") for p in range(1, shape[9] + 1) for log in range(shape[11])]
    return script(shape, roles, says)


def ahead(shape=(2, 8, 1, 8, 24, 65536, 4, 8, 64, 4, 16, 256)):
    """Every client follows every log and looks at eight numbers of each; few are read."""
    clients = shape[8]
    return script(shape, [(log % clients, range(clients)) for log in range(shape[11])], [])


def parse(shape=(2, 64, 4, 64, 218, 1024, 2, 4, 16, 16, 16, 32), size=8388608):
    """Texts, so many that the script has nearly so many bytes."""
    clients, logs = shape[8], shape[11]
    roles = [(log % clients, [(log + 1) % clients]) for log in range(logs)]
    texts, left = [], size - len(script(shape, roles, [])) - 63
    while left > 0:
        n = len(texts) + 1
        mixed = hashlib.sha256(b"%d" % n).hexdigest()
        texts.append((mixed[: n % 61] + " café " + mixed)[: n % 90])
        left -= len(f"say 16 16 31 {texts[-1]}\n".encode())
    texts.pop()
    when = turns(shape)
    says = [(*when[i * len(when) // len(texts)], (i + 1) % logs, text) for i, text in enumerate(texts)]
    return script(shape, roles, says)



# Of three servers, with 64 clients over 256 turns.
HIDDEN = (3, 64, 2, 128, 40, 256, 2, 2, 64, 64, 4, 16)


def drawn(said):
    """A drawn script in which client 4g writes log g, which the next three follow, and says a text on it in each second
    turn, or nothing."""
    yield from ("talek 1", "shape " + " ".join(map(str, HIDDEN)), "drawn")
    for log in range(16):
        yield f"log {4 * log} {4 * log + 1} {4 * log + 2} {4 * log + 3}"
    for at, (phase, tick) in enumerate(turns(HIDDEN) if said else []):
        yield from (f"say {phase} {tick} {log} hi" for log in range(16) if (at + log) % 2 == 0)
    yield "end"


def history():
    """The history of a serial run of it."""
    yield "history"
    for phase, tick in turns(HIDDEN):
        yield f"order {phase} {tick} " + " ".join(map(str, range(64))) + " mark" * (tick == 4)
        if tick == 4:
            yield f"reads {phase} {tick}" + f" {phase - 1}" * 64
    yield "end"


def hidden(section=()):
    """2,048 texts and none, that history, a section that stands between, and a tape of random bytes."""
    cell, read = 16 + 40, 8 + 2 * 2 * 8
    tape = random.Random(1).randbytes(256 * (64 * (cell + read) + 16 * cell))
    lines = [f"x {tape[at : at + 2048].hex()}" for at in range(0, len(tape), 2048)]
    return "\n".join([*drawn(True), *drawn(False), *history(), *section, "tape", *lines, "end", ""]).encode()


def honest():
    """The same where servers reply as the protocol says."""
    return hidden(["replies", "end"])


def lies():
    """The same where server 2 replies what it likes to each fourth read."""
    rng, width = random.Random(2), 2 * 2 * (16 + 40)
    lines = [f"reply {read // 64} {read % 64} 2 {rng.randbytes(width).hex()}" for read in range(0, 256 * 64, 4)]
    return hidden(["replies", *lines, "end"])
