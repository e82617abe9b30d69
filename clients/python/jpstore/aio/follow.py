"""One document of a hub's store, as it is now and after each change of it, as an iterator for asyncio."""
from typing import Any, AsyncGenerator, AsyncIterator, Optional, TypeVar

from ..follow import Latest

__all__ = ["AsyncFollowing"]

A = TypeVar("A", bound="AsyncFollowing")


class AsyncFollowing(AsyncIterator[Optional[Latest]]):
    """As `Following`, for asyncio."""

    def __init__(self, values: AsyncGenerator[Optional[Latest], None]) -> None:
        self._values = values

    async def __aenter__(self: A) -> A:
        return self

    async def __aexit__(self, *_: Any) -> None:
        await self.aclose()

    def __aiter__(self: A) -> A:
        return self

    async def __anext__(self) -> Optional[Latest]:
        return await self._values.__anext__()

    async def aclose(self) -> None:
        """Ends it."""
        await self._values.aclose()
