"""All documents of a store as they are at one moment, for asyncio."""
import contextlib
from dataclasses import dataclass
from typing import TYPE_CHECKING, AsyncIterator

from ..errors import JpstoreError
from ..moment import CHANGED, EXPORT, Document, document_in, record_in
from ..wire.requests import all_of
from .reader import AsyncReader

if TYPE_CHECKING:
    from .client import AsyncStore

__all__ = ["AsyncMoment", "async_moment_of"]


@dataclass(frozen=True)
class AsyncMoment:
    """As `Moment`, for `async for`."""

    seq: int
    count: int
    documents: AsyncIterator[Document]

    def __aiter__(self) -> AsyncIterator[Document]:
        return self.documents


@contextlib.asynccontextmanager
async def async_moment_of(store: "AsyncStore") -> AsyncIterator[AsyncMoment]:
    """All documents of a store at one moment: of a hub's, or of one that is open here and nobody else can change."""
    if store.hub is None:
        names, before = await store.names(), (await store.status()).seq
        yield AsyncMoment(before, len(names), (Document(name, *await store._do(all_of(name))) for name in names))
        if (await store.status()).seq != before:
            raise JpstoreError(CHANGED)
        return
    reader = await AsyncReader.begun(store.hub, EXPORT, store.timeout)
    try:
        begin = record_in(await reader.next_line())
        yield AsyncMoment(begin["seq"], begin["documents"], _documents(reader))
    finally:
        reader.close()


async def _documents(reader: AsyncReader) -> AsyncIterator[Document]:
    while True:
        document = document_in(await reader.next_line())
        if document is None:
            return
        yield document
