"""Lets links in at a server's address: only so many at once that haven't greeted, each for a short time.

Where there are more, the oldest one goes of the address that has most. So a flood from one address shuts out nobody who
comes from another.
"""

from __future__ import annotations

import asyncio
import gc
import socket
import ssl
from collections import Counter
from typing import Awaitable, Callable, Dict

from parts.errors import Stop, Wrong
from parts.tasks import ended

# After how many handshakes memory is looked for.
SOME = 64
Answer = Callable[[asyncio.StreamReader, asyncio.StreamWriter, Callable[[], None]], Awaitable[None]]


def listening_at(host: str, port: int) -> socket.socket:
    """Where a server waits: at the loopback if that is its address, and else at all addresses of its machine."""
    try:
        if host.startswith("127.") or host == "localhost":
            made = socket.create_server((host, port), backlog=512)
        elif host == "::1":
            made = socket.create_server((host, port), family=socket.AF_INET6, backlog=512)
        elif socket.has_dualstack_ipv6():
            made = socket.create_server(("", port), family=socket.AF_INET6, dualstack_ipv6=True, backlog=512)
        else:
            made = socket.create_server(("", port), backlog=512)
    except OSError as error:
        raise Wrong(f"can't wait for members at port {port}: {error.strerror}") from error
    made.setblocking(False)
    return made


async def first_bytes(sock: socket.socket) -> None:
    """Waits until something came. Who says nothing costs no more than that."""
    loop = asyncio.get_running_loop()
    came = loop.create_future()
    loop.add_reader(sock, lambda: came.done() or came.set_result(None))
    try:
        await came
    except asyncio.CancelledError:
        loop.remove_reader(sock)
        sock.close()
        raise
    loop.remove_reader(sock)


class Door:
    """The links that came in, and among them those that haven't greeted."""

    def __init__(self, context: ssl.SSLContext, most: int, seconds: float, answer: Answer,
                 tell: Callable[[str], None]) -> None:
        self.context, self.most, self.seconds, self.answer, self.tell = context, most, seconds, answer, tell
        self.strangers: Dict[asyncio.Task, str] = {}  # by task its address, the oldest first
        self.tasks: set[asyncio.Task] = set()
        self.handshakes = 0

    async def run(self, listening: socket.socket) -> None:
        loop = asyncio.get_running_loop()
        while True:
            try:
                sock, address = await loop.sock_accept(listening)
            except OSError:
                await asyncio.sleep(0.1)  # there are too many files, or it was gone at once
                continue
            if len(self.strangers) >= self.most:
                self.turn_away()
            task = loop.create_task(self.admit(sock))
            self.strangers[task] = address[0]
            self.tasks.add(task)
            task.add_done_callback(self.forget)
            await asyncio.sleep(0)  # those that were turned away go first

    def turn_away(self) -> None:
        """Lets the oldest one go of the address that has most."""
        ((most, _),) = Counter(self.strangers.values()).most_common(1)
        oldest = next(task for task, address in self.strangers.items() if address == most)
        del self.strangers[oldest]
        oldest.cancel()

    def forget(self, task: asyncio.Task) -> None:
        self.strangers.pop(task, None)
        self.tasks.discard(task)
        why = None if task.cancelled() else task.exception()
        if isinstance(why, ssl.SSLError):
            self.tell(f"a stranger: {why.reason or 'no TLS'}")
        elif why and not isinstance(why, (OSError, EOFError, Stop)):
            self.tell(f"unexpected: {type(why).__name__}: {why}")

    async def admit(self, sock: socket.socket) -> None:
        """One link, from its handshake on. It must have greeted in time."""
        task, loop = asyncio.current_task(), asyncio.get_running_loop()
        late = loop.call_later(self.seconds, task.cancel)

        def has_greeted() -> None:
            late.cancel()
            self.strangers.pop(task, None)

        try:
            reader, writer = await self.shake_hands(sock)
            await self.answer(reader, writer, has_greeted)
        finally:
            late.cancel()

    async def shake_hands(self, sock: socket.socket) -> tuple[asyncio.StreamReader, asyncio.StreamWriter]:
        """The streams of a link whose other end has a certificate of the group."""
        loop = asyncio.get_running_loop()
        sock.setblocking(False)
        await first_bytes(sock)
        self.handshakes += 1
        if self.handshakes % SOME == 0:
            gc.collect()  # links that broke within their handshake hold each other, and much memory
        reader = asyncio.StreamReader()
        protocol = asyncio.StreamReaderProtocol(reader)
        transport, _ = await loop.connect_accepted_socket(lambda: protocol, sock, ssl=self.context,
                                                          ssl_handshake_timeout=self.seconds)
        return reader, asyncio.StreamWriter(transport, protocol, reader, loop)

    async def close(self) -> None:
        await ended(self.tasks)
