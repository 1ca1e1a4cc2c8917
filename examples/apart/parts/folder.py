"""A folder of `group folder`: a group file, whose folder it is, the setup packet, and a key pair."""

from __future__ import annotations

import hashlib
import os
import pathlib
import ssl
from dataclasses import dataclass

from parts.errors import Wrong
from parts.group_file import Group, parse
from parts.printable import shown

HERE = pathlib.Path(__file__).resolve().parent.parent
# The most bytes of any of its files but the journal.
MOST = 1 << 24
# What says that the run of this folder is over.
OVER = "over"


def read(path: pathlib.Path) -> bytes:
    try:
        with open(path, "rb") as file:
            data = file.read(MOST + 1)
    except OSError as error:
        raise Wrong(f"can't read {path}: {error.strerror}") from error
    if len(data) > MOST:
        raise Wrong(f"{path} has more than {MOST} bytes")
    return data


def read_secret(path: pathlib.Path) -> bytes:
    """The bytes of a file that nobody else can read."""
    try:
        mode = os.stat(path).st_mode
    except OSError as error:
        raise Wrong(f"can't read {path}: {error.strerror}") from error
    if mode & 0o077:
        raise Wrong(f"others can read {path}: chmod 600 {path}")
    return read(path)


@dataclass(frozen=True)
class Owner:
    """Whose folder this is, and a digest of what it is for."""

    role: str  # server or client
    number: int  # as peers are numbered: server j is j, and client c is c + 1
    digest: bytes

    def __str__(self) -> str:
        return f"server {self.number}" if self.role == "server" else f"client {self.number - 1}"


class Place:
    """A folder of one run, for a role."""

    def __init__(self, folder: str | pathlib.Path, role: str) -> None:
        self.folder, self.role = pathlib.Path(folder), role
        if (self.folder / OVER).exists():
            self.clear()  # (a power cut may have left something)
            raise Wrong(f"the run of {shown(str(folder))} is over")
        self.group: Group = parse(read(self.folder / "group"))
        word, _, number = read(self.folder / "role").decode("ascii", "replace").strip().partition(" ")
        if word != role:
            raise Wrong(f"{folder} is no folder of a {role}")
        count = len(self.group.servers) if role == "server" else len(self.group.clients)
        least = 1 if role == "server" else 0
        if not number.isdigit() or not least <= int(number) < count + least:
            raise Wrong(f"{folder} is of a {role} that isn't in its group file")
        self.number = int(number) + (role == "client")
        self.setup = read_secret(self.folder / "setup")
        read_secret(self.folder / "key.pem")

    @property
    def owner(self) -> Owner:
        """A run of the same setup has another group file, and so another owner."""
        known = self.group.digest + f"{self.role} {self.number} ".encode() + self.setup
        return Owner(self.role, self.number, hashlib.sha256(known).digest())

    def context(self) -> ssl.SSLContext:
        """What a link is sealed by: TLS 1.3, with the certificates of the group alone."""
        serves = self.role == "server"
        made = ssl.SSLContext(ssl.PROTOCOL_TLS_SERVER if serves else ssl.PROTOCOL_TLS_CLIENT)
        made.minimum_version = ssl.TLSVersion.TLSv1_3
        made.check_hostname, made.verify_mode = False, ssl.CERT_REQUIRED
        if serves:
            made.num_tickets = 0  # (nobody resumes a link)
        try:
            made.load_cert_chain(self.folder / "cert.pem", self.folder / "key.pem")
            for certificate in self.group.identities.values():
                made.load_verify_locations(cadata=certificate)
        except (ssl.SSLError, OSError) as error:
            raise Wrong(f"{self.folder}: no key pair and certificates for TLS: {error.strerror}") from error
        return made

    def program(self, path: str | None) -> pathlib.Path:
        """The program's path: the one that is given, or else the one of its name at one of three places."""
        name = "serve" if self.role == "server" else "member"
        tries = [pathlib.Path(path)] if path else [it / name for it in (self.folder, HERE, HERE.parent.parent)]
        for it in tries:
            if os.access(it, os.X_OK) and it.is_file():
                return it.resolve()
        raise Wrong("there is no program " + " or ".join(map(str, tries)))

    def clear(self) -> None:
        """Deletes what a run that is over leaves: what was said and asked in it can't be told from this folder then."""
        (self.folder / OVER).touch()
        for name in ("setup", "journal", "typed"):
            (self.folder / name).unlink(missing_ok=True)
