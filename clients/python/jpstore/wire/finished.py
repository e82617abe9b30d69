"""Coroutines that never wait, since all that they await is done when it returns: code for threads and for asyncio."""
from typing import Any, AsyncGenerator, Awaitable, Coroutine, Generator, TypeVar, cast

__all__ = ["each_finished", "finished"]

T = TypeVar("T")


def finished(call: Awaitable[T]) -> T:
    """The result of a coroutine that never waits."""
    steps = cast("Coroutine[Any, Any, T]", call)
    try:
        steps.send(None)
    except StopIteration as over:
        result: T = over.value
        return result
    steps.close()
    raise AssertionError("this coroutine waits for an event loop")


def each_finished(values: AsyncGenerator[T, None]) -> Generator[T, None, None]:
    """The values of an asynchronous generator that never waits."""
    try:
        while True:
            yield finished(values.__anext__())
    except StopAsyncIteration:
        pass
    finally:
        finished(values.aclose())
