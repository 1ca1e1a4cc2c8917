"""What each makes on the own machine: a key pair, the roots of logs, and the folders of a run."""

from __future__ import annotations

import base64
import datetime
import hashlib
import secrets
import struct
import subprocess
import tempfile
from pathlib import Path
from typing import Iterator, List, Tuple

from parts.errors import Wrong
from parts.files import write_new, write_over
from parts.folder import read, read_secret
from parts.group_file import Group, lines_of, name_in, number_in, parse
from parts.keys import HANDLE, KEY, handle_of

# What `openssl ca` wants to know, which signs a certificate with the dates that it is told.
CA = """[ca]
default_ca = own
[own]
database = index
serial = serial
new_certs_dir = .
default_md = sha256
policy = any
x509_extensions = none
[any]
commonName = supplied
[none]
basicConstraints = critical,CA:TRUE
[req]
distinguished_name = any_name
[any_name]
"""
YEARS = 10


def fingerprint(data: bytes) -> str:
    return hashlib.sha256(data).hexdigest()


def show(path: str) -> Iterator[str]:
    """The fingerprint of a group file, and what it says, with fingerprints for certificates."""
    data = read(Path(path))
    group = parse(data)
    yield f"group {fingerprint(data)}"
    for line in lines_of(data, "the group file")[1:]:
        word, _, rest = line.partition(" ")
        name = rest.partition(" ")[0]
        yield f"identity {name} {fingerprint(group.identities[name])}" if word == "identity" else line


# ---- a key pair


def certified(folder: Path, name: str) -> None:
    """Makes key.pem and cert.pem. The certificate is good from yesterday on, since clocks differ."""
    with tempfile.TemporaryDirectory() as scratch:
        (Path(scratch) / "config").write_text(CA)
        (Path(scratch) / "index").touch()
        (Path(scratch) / "serial").write_text(secrets.token_hex(8) + "\n")
        now = datetime.datetime.now(datetime.timezone.utc)
        first, last = now - datetime.timedelta(days=1), now + datetime.timedelta(days=365 * YEARS)
        key, made = folder.resolve() / "key.pem", folder.resolve() / "cert.pem"
        dates = ["-startdate", first.strftime("%Y%m%d%H%M%SZ"), "-enddate", last.strftime("%Y%m%d%H%M%SZ")]
        for words in [
            ["req", "-new", "-newkey", "ec", "-pkeyopt", "ec_paramgen_curve:P-256", "-nodes", "-config", "config",
             "-subj", f"/CN={name}", "-keyout", key, "-out", "request"],
            ["ca", "-selfsign", "-config", "config", "-in", "request", "-keyfile", key, "-batch", "-notext",
             "-preserveDN", *dates, "-out", made],
        ]:
            openssl(scratch, words)
    key.chmod(0o600)


def openssl(folder: str, words: List[object]) -> None:
    try:
        subprocess.run(["openssl", *map(str, words)], cwd=folder, check=True, capture_output=True)
    except OSError as error:
        raise Wrong(f"can't start openssl: {error.strerror}") from error
    except subprocess.CalledProcessError as error:
        last = error.stderr.decode("utf-8", "replace").strip().splitlines()[-1:]
        raise Wrong(f"openssl made no certificate: {' '.join(last)}") from error


def identity(name: str) -> Iterator[str]:
    """Makes a key pair and its certificate."""
    folder = Path(name_in(name))
    try:
        folder.mkdir()
    except OSError as error:
        raise Wrong(f"can't make the folder {name}: {error.strerror}") from error
    certified(folder, name)
    certificate = certificate_of(folder)
    line = f"identity {name} {base64.b64encode(certificate).decode()}\n"
    write_new(Path(f"{name}.identity"), line.encode())
    yield f"identity {name} {fingerprint(certificate)}"


def certificate_of(folder: Path) -> bytes:
    """The certificate of a folder, without its wrapping."""
    try:
        inside = read(folder / "cert.pem").decode("ascii").split("-----")[2]
        return base64.b64decode("".join(inside.split()))
    except (IndexError, ValueError):
        raise Wrong(f"{folder / 'cert.pem'} is no certificate") from None


# ---- the roots of logs


def root(name: str, log: str, anew: str = "") -> Iterator[str]:
    """Draws a log's root; anew, in the place of the one that was there."""
    if anew not in ("", "anew"):
        raise Wrong("after the number of a log comes nothing, or 'anew'")
    number = number_in(log, 0, 255)
    path = Path(name_in(name)) / f"root-{number}"
    if path.exists() and not anew:
        raise Wrong(f"{path} is there: 'group root {name} {number} anew' draws another one in its place")
    digits = secrets.token_hex(KEY).encode() + b"\n"
    (write_over if anew else write_new)(path, digits)
    yield f"{path} is for those alone who follow log {number}"


def root_in(folder: Path, log: int) -> bytes:
    """A log's root, which someone who writes or follows it must have."""
    path = folder / f"root-{log}"
    digits = read_secret(path).decode("ascii", "replace").strip()
    try:
        key = bytes.fromhex(digits)
    except ValueError:
        key = b""
    if len(key) != KEY:
        raise Wrong(f"{path} hasn't {2 * KEY} hexadecimal digits")
    return key


# ---- the folders of a run


def member_setup(group: Group, folder: Path, number: int) -> bytes:
    """The setup packet of a member: a script that says nothing, with zeros for the keys that the member lacks."""
    name = group.clients[number]
    seeds = [secrets.token_bytes(KEY) if client == number else bytes(KEY) for client in range(len(group.clients))]
    handles = [handle_of(group.run, root_in(folder, at)) if name in log.holders else bytes(HANDLE)
               for at, log in enumerate(group.logs)]
    return struct.pack(">I", number) + script_of(group, handles, seeds).encode() + b"end\n"


def script_of(group: Group, handles: List[bytes], seeds: List[bytes]) -> str:
    """The lines of a keyed script, but the last."""
    number = {name: at for at, name in enumerate(group.clients)}
    lines = [f"talek {group.format}", "shape " + " ".join(map(str, group.shape)), "keyed"]
    for writer, followers in group.logs:
        lines.append(" ".join(map(str, ["log", number[writer], *sorted(number[it] for it in followers)])))
    lines += [f"handle {it.hex()}" for it in handles] + [f"seed {it.hex()}" for it in seeds]
    return "".join(f"{line}\n" for line in lines)


def server_setup(group: Group) -> bytes:
    """The setup packet of a server: the format and the twelve numbers."""
    return struct.pack(">13I", group.format, *group.shape)


def roles_of(group: Group, name: str) -> Iterator[Tuple[str, int, str]]:
    """What someone has in a group: the word and the number of each role, the command that starts it."""
    for number, keeper in enumerate(group.servers, 1):
        if keeper.name == name:
            yield "server", number, "serve"
    for number, client in enumerate(group.clients):
        if client == name:
            yield "client", number, "join"


class Used:
    """Which runs someone made folders for, and with which roots: the keys of a run are used once. It is a file of
    lines: a run alone, and then a run and a digest for each root."""

    def __init__(self, home: Path) -> None:
        self.path = home / "used"
        lines = lines_of(read(self.path), str(self.path)) if self.path.exists() else []
        self.rows = [line.split(" ") for line in lines]
        if (home / "last-run").exists():  # (as it was kept before)
            self.rows.append([read(home / "last-run").decode("ascii").strip()])

    def check(self, group: Group, roots: dict[int, bytes]) -> None:
        """Refuses a run that was there, and a root that is to be a new one and was used."""
        last = max((int(row[0]) for row in self.rows), default=0)
        if last >= group.run:
            raise Wrong(f"{self.path.parent} has had run {last}, and this is run {group.run}: the keys of a run are "
                        "used once. 'group next' and 'group change' make the next run's group file")
        digests = {row[1] for row in self.rows if len(row) > 1}
        for log, key in roots.items():
            if log in group.anew and fingerprint(key) in digests:
                raise Wrong(f"{self.path.parent}/root-{log} was used by an earlier run, and somebody has it who left: "
                            f"whoever writes log {log} draws a new one by 'group root NAME {log} anew'")

    def add(self, group: Group, roots: dict[int, bytes]) -> None:
        self.rows += [[str(group.run)], *([str(group.run), fingerprint(key)] for key in roots.values())]
        write_over(self.path, "".join(" ".join(row) + "\n" for row in self.rows).encode())


def folder(path: str, name: str) -> List[str]:
    """Makes the folders of a run for all that someone has in the group."""
    data, home = read(Path(path)), Path(name_in(name))
    group = parse(data)
    if group.identities.get(name) != certificate_of(home):
        raise Wrong(f"the group file has no identity {name} with the certificate of {home}")
    roles = list(roles_of(group, name))
    if not roles:
        raise Wrong(f"{name} has no part in this group")
    roots = {at: root_in(home, at) for at, log in enumerate(group.logs) if name in log.holders}
    used = Used(home)
    used.check(group, roots)
    setups = [server_setup(group) if word == "server" else member_setup(group, home, number)
              for word, number, _ in roles]
    key, certificate = read_secret(home / "key.pem"), read(home / "cert.pem")
    used.add(group, roots)
    lines = []
    for (word, number, form), setup in zip(roles, setups):
        made = home / f"run-{group.run}-{word}-{number}"
        try:
            made.mkdir()
        except OSError as error:
            raise Wrong(f"can't make the folder {made}: {error.strerror}") from error
        for file, content in [("group", data), ("role", f"{word} {number}\n".encode()), ("setup", setup),
                              ("key.pem", key), ("cert.pem", certificate)]:
            write_new(made / file, content)
        lines.append(f"switch {form} {made}")
    return lines
