"""How much and how long the switch bears. A trial takes shorter times."""

from __future__ import annotations

from dataclasses import dataclass


@dataclass(frozen=True)
class Limits:
    """Times are in seconds."""

    # for the handshake and the greeting of a link together
    greeting: float = 5
    # for a server to hear who speaks
    hearing: float = 60
    # between two starts of a member that a server hears, each of which grows its journal
    speaking: float = 1
    # how many links beyond the clients' may be there that haven't greeted
    strangers: int = 32
    # until a link breaks whose other end acknowledges nothing
    silence: float = 30
    # before a link is tried again at first, and at most
    pause: float = 0.5
    longest_pause: float = 15
    # between two lines of one error
    same_error: float = 60
    # until it is told who is awaited
    patience: float = 10
    # how long a member tries to say that it needs no more
    farewell: float = 10
    # how long the last lines wait for someone to read them
    last_lines: float = 5
    # how many packets may wait for the journal before links are read no further
    waiting: int = 4096
    # how many lines may wait to be printed before no more are taken of what is typed
    lines: int = 10_000
