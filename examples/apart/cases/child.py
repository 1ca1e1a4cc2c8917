"""Processes that are forked, and so begin at once: nothing is read and compiled once more."""

from __future__ import annotations

import os
import signal
import sys
import time
import traceback
from typing import Callable


class Child:
    """A process that does some work, with a pipe for its standard input. It is used as one of `subprocess`."""

    def __init__(self, work: Callable[[], None], out: int, err: int) -> None:
        source, sink = os.pipe()
        self.returncode: int | None = None
        self.pid = os.fork()
        if not self.pid:
            run(work, source, out, err)
        os.close(source)
        self.stdin = os.fdopen(sink, "wb")

    def poll(self) -> int | None:
        if self.returncode is None:
            self.take(os.waitpid(self.pid, os.WNOHANG))
        return self.returncode

    def take(self, waited: tuple) -> None:
        pid, status = waited
        if pid:
            self.returncode = os.waitstatus_to_exitcode(status)

    def send_signal(self, number: int) -> None:
        if self.poll() is None:
            os.kill(self.pid, number)

    def kill(self) -> None:
        self.send_signal(signal.SIGKILL)

    def wait(self, seconds: float = 600) -> int:
        end = time.monotonic() + seconds
        while self.poll() is None:
            if time.monotonic() > end:
                raise TimeoutError(f"process {self.pid} doesn't end")
            time.sleep(0.02)
        return self.returncode


def run(work: Callable[[], None], source: int, out: int, err: int) -> None:
    """Does the work in the child, and ends it."""
    code = 1
    try:
        for number in (signal.SIGINT, signal.SIGTERM):
            signal.signal(number, signal.SIG_DFL)
        for at, it in enumerate((source, out, err)):
            os.dup2(it, at)
        os.closerange(3, 4096)
        work()
        code = 0
    except SystemExit as end:
        code = end.code if isinstance(end.code, int) else 1
    except BaseException:
        traceback.print_exc()
    finally:
        for stream in (sys.stdout, sys.stderr):
            try:
                stream.flush()
            except OSError:
                pass
        os._exit(code)
