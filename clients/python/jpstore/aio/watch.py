"""The changes of a hub's store as they are made, as an iterator for asyncio."""
import asyncio
from typing import Any, AsyncIterator, Optional, TypeVar

from ..watch import Change, Progress, Watcher
from ..wire.session import PAUSE
from .reader import AsyncReader

__all__ = ["AsyncWatch"]

A = TypeVar("A", bound="AsyncWatch")


class AsyncWatch(Watcher[AsyncReader], AsyncIterator[Change]):
    """As `Watch`, for asyncio. It connects at its first step."""

    @property
    def since(self) -> Optional[int]:
        """The number of the last change that came, or after which the first one is to come; None if not known yet."""
        return self._progress.since

    async def __aenter__(self: A) -> A:
        return self

    async def __aexit__(self, *_: Any) -> None:
        self.close()

    def __aiter__(self: A) -> A:
        return self

    async def __anext__(self) -> Change:
        change = await self._next()
        if change is None:
            raise StopAsyncIteration
        return change

    async def begin(self) -> None:
        """Connects, and waits until the hub says from which number it goes on; `Gone` if it cannot."""
        await self._begun()

    async def _connected(self, progress: Progress) -> AsyncReader:
        return await AsyncReader.begun(progress.path, progress.asked())

    async def _line(self, connection: AsyncReader) -> bytes:
        return await connection.next_line()

    async def _pause(self) -> None:
        await asyncio.sleep(PAUSE)

    def _end(self, connection: AsyncReader) -> None:
        connection.close()
