"""Begins and ends tasks."""

from __future__ import annotations

import asyncio
from typing import Callable, Coroutine, Iterable

from parts.errors import End


def begun(work: Coroutine, stop: Callable[[End, str], None]) -> asyncio.Task:
    """A task without which nothing goes on: where it fails, that is told, and all ends."""

    def tell(task: asyncio.Task) -> None:
        why = None if task.cancelled() else task.exception()
        if why:
            stop(End.BROKEN, f"unexpected: {type(why).__name__}: {why}")

    task = asyncio.create_task(work)
    task.add_done_callback(tell)
    return task


async def ended(tasks: Iterable[asyncio.Task]) -> None:
    """Cancels tasks until they have ended: what waits with a time limit may miss a cancellation."""
    left = {task for task in tasks if not task.done()}
    while left:
        for task in left:
            task.cancel()
        _, left = await asyncio.wait(left, timeout=0.5)
