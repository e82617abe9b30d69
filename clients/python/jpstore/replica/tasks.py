"""The ends of tasks, and how long they are waited for."""
import asyncio
import concurrent.futures
import threading
from typing import Any, Awaitable, Callable, Iterable, TypeVar

__all__ = ["apart", "end_tasks", "started", "within"]

T = TypeVar("T")

_AGAIN = 0.2


async def end_tasks(tasks: "Iterable[asyncio.Future[Any]]") -> None:
    """Cancels tasks until all have ended. If it is cancelled itself, it is so after that."""
    left = {task for task in tasks if not task.done()}
    cancelled = False
    while left:
        for task in left:
            task.cancel()
        try:
            await asyncio.wait(left, timeout=_AGAIN)
        except asyncio.CancelledError:
            cancelled = True
        left = {task for task in left if not task.done()}
    if cancelled:
        raise asyncio.CancelledError


def started(work: Awaitable[T]) -> "asyncio.Future[T]":
    """A task whose exception need not be taken, since the one who waits for it may be cancelled."""
    task = asyncio.ensure_future(work)
    task.add_done_callback(lambda _: task.cancelled() or task.exception())
    return task


async def within(seconds: float, work: Awaitable[T]) -> T:
    """The result of some work; `asyncio.TimeoutError` after this many seconds.

    `wait_for` isn't used: before Python 3.12 it swallows a cancellation if the work ends at the same moment.
    """
    doing = started(work)
    try:
        await asyncio.wait([doing], timeout=seconds)
        if not doing.done():
            raise asyncio.TimeoutError
        return doing.result()
    finally:
        await end_tasks([doing])


async def apart(call: Callable[[], T]) -> T:
    """What a call returns or raises that may block. Its thread holds up no end, as one of the loop's own would."""
    done: "concurrent.futures.Future[T]" = concurrent.futures.Future()
    done.set_running_or_notify_cancel()

    def run() -> None:
        try:
            done.set_result(call())
        except Exception as error:  # Whatever it is, the one who waits gets it.
            done.set_exception(error)
    threading.Thread(target=run, daemon=True).start()
    return await asyncio.wrap_future(done)
