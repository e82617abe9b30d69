"""A store over asyncio: the calls of `Store`, as coroutines."""
import asyncio
import os
from typing import (
    Any, AsyncContextManager, Callable, Dict, Iterable, List, Literal, Optional, Sequence, Tuple, Type,
    TypeVar, overload,
)

from .. import calls
from ..calls import ATTEMPTS
from ..errors import Invalid, JpstoreError
from ..follow import followed
from ..once import Once
from ..results import Changes, Mark, Node, Pumped, Status
from ..watch import watched
from ..wire import requests
from ..wire.commands import AskedMark, Command
from ..wire.limits import MOST_TOLD_BYTES
from ..wire.program import BATCH, Path, find_program, serve_words
from ..wire.requests import Outcome, Request
from ..wire.session import give_back_if_dropped
from .channel import AsyncChannel, AsyncConnection, AsyncProgram, connect
from .follow import AsyncFollowing
from .moment import AsyncMoment, async_moment_of
from .session import AsyncSession
from .watch import AsyncWatch

__all__ = ["AsyncStore"]

T = TypeVar("T")
S = TypeVar("S", bound="AsyncStore")


class AsyncStore:
    """The store in a file, served by a program of its own, or the store of a hub, for programs that use asyncio.

        async with AsyncStore.connect("inventory.socket") as store:
            print(await store.get("shelf-1"))

    Each call is that of `Store` with the same name, and is awaited. Several tasks may call at once: what they call at
    the same time goes out together, and its changes share a sync of the disk. The store does it in the order of the
    calls. If a call is cancelled, the others and the store go on: what it had sent is done, and its answer is dropped;
    what it had not sent is not done.
    """

    def __init__(self, file: Path, *, program: Optional[Path] = None, batch: int = BATCH, pump: int = 0,
                 wait: float = 0, timeout: Optional[float] = None, hub: bool = False, reconnect: bool = True) -> None:
        """As `Store`; the store is opened by `async with` or `open`."""
        #: The file, or the socket.
        self.path = path = os.fspath(file)
        #: As `Store.hub`.
        self.hub = path if hub else None
        #: As `Store.timeout`.
        self.timeout = timeout
        self._gathers = batch > 1 and not hub

        async def connected() -> AsyncChannel:
            return AsyncConnection(path, await connect(path, timeout), timeout)

        async def started() -> AsyncChannel:
            return AsyncProgram(serve_words(find_program(program), path, batch, pump), timeout)
        self._session = AsyncSession(connected if hub else started, wait, hub and reconnect, self._gathers, hub)
        give_back_if_dropped(self, path, self._session.give_back)

    @classmethod
    def connect(cls: Type[S], path: Path, *, timeout: Optional[float] = None, wait: float = 0,
                reconnect: bool = True) -> S:
        """As `Store.connect`; the connection is made by `async with` or `open`."""
        return cls(path, hub=True, timeout=timeout, wait=wait, reconnect=reconnect)

    async def open(self: S) -> S:
        """Opens the store, and returns it."""
        await self._session.open()
        return self

    async def __aenter__(self: S) -> S:
        return await self.open()

    async def __aexit__(self, kind: Optional[Type[BaseException]], *_: Any) -> None:
        await calls.leave(_Steps(self), kind is not None)

    @property
    def pid(self) -> Optional[int]:
        """The process of the program; None for a hub's store, and when the store is closed."""
        channel = self._session.channel
        return channel.pid if isinstance(channel, AsyncProgram) else None

    @property
    def closed(self) -> bool:
        """Whether the session is over: not open yet, closed, ended, or broken off before a reply came."""
        return self._session.over

    async def close(self) -> None:
        """As `Store.close`."""
        await self._session.close()

    async def create(self, name: str, doc: Any, schema: Any = True) -> int:
        """As `Store.create`."""
        return await self._do(requests.change(requests.create(name, doc, schema)))

    async def patch(self, name: str, ops: List[Command], if_rev: Optional[int] = None) -> int:
        """As `Store.patch`."""
        return await self._do(requests.change(requests.patch(name, ops, if_rev)))

    async def merge_patch(self, name: str, patch: Any, if_rev: Optional[int] = None, *, attempts: int = ATTEMPTS,
                          pause: float = 0) -> int:
        """As `Store.merge_patch`."""
        return await calls.merge_patch(_Steps(self), name, patch, if_rev, attempts, pause)

    async def update(self, name: str, change: Callable[[Any], List[Command]], *, attempts: int = ATTEMPTS,
                     pause: float = 0) -> int:
        """As `Store.update`; `change` is a plain function."""
        return await calls.update(_Steps(self), name, change, attempts, pause)

    async def put(self, name: str, doc: Any, schema: Any = None, if_rev: Optional[int] = None, *,
                  attempts: int = ATTEMPTS, pause: float = 0) -> int:
        """As `Store.put`."""
        replacing, making = requests.put(name, doc, schema, if_rev)
        return await calls.put(_Steps(self), replacing, making, attempts, pause)

    async def set_schema(self, name: str, schema: Any, if_rev: Optional[int] = None) -> int:
        """As `Store.set_schema`."""
        return await self._do(requests.change(requests.set_schema(name, schema), if_rev))

    async def delete(self, name: str, if_rev: Optional[int] = None) -> int:
        """As `Store.delete`."""
        return await self._do(requests.change(requests.delete(name), if_rev))

    async def transaction(self, changes: Iterable[Command], *, mark: Optional[Tuple[str, str]] = None,
                          if_mark: AskedMark = False) -> int:
        """As `Store.transaction`."""
        return await self._do(requests.transaction(list(changes), mark, if_mark))

    async def once(self, key: str, changes: Iterable[Command], *, by: Optional[str] = None, attempts: int = ATTEMPTS,
                   pause: float = 0) -> int:
        """As `Store.once`."""
        return await calls.once(_Steps(self), Once(key, list(changes), by), attempts, pause)

    async def noted(self, key: str, by: Optional[str] = None) -> Optional[int]:
        """As `Store.noted`."""
        return await calls.noted(_Steps(self), key, by)

    async def mark(self, key: str) -> Optional[Mark]:
        """As `Store.mark`."""
        return await self._do(requests.mark(key))

    @overload
    async def group(self, changes: Iterable[Command], *, check: Literal[True] = True) -> List[int]: ...

    @overload
    async def group(self, changes: Iterable[Command], *, check: bool) -> Sequence[Outcome]: ...

    async def group(self, changes: Iterable[Command], *, check: bool = True) -> Sequence[Outcome]:
        """As `Store.group`."""
        outcomes = await self.group_lines(requests.lines_of_group(list(changes)))
        return await calls.judged(_Steps(self), outcomes, check)

    async def group_lines(self, lines: List[bytes]) -> List[Outcome]:
        """As `Store.group_lines`."""
        return await calls.group_lines(_Steps(self), lines)

    async def get(self, name: str, path: str = "") -> Any:
        """As `Store.get`."""
        return await self._do(requests.get(name, path))

    async def rev(self, name: str) -> int:
        """As `Store.rev`."""
        return await self._do(requests.rev(name))

    async def schema(self, name: str) -> Any:
        """As `Store.schema`."""
        return await self._do(requests.schema(name))

    async def query(self, name: str, path: str) -> List[Node]:
        """As `Store.query`."""
        return await calls.query(_Steps(self), name, path)

    async def query_all(self, path: str, prefix: str = "") -> Dict[str, List[Node]]:
        """As `Store.query_all`."""
        return await calls.query_all(_Steps(self), path, prefix)

    async def names(self, prefix: str = "") -> List[str]:
        """As `Store.names`."""
        return await self._do(requests.names(prefix))

    async def changes(self, since: int, max_bytes: int = MOST_TOLD_BYTES) -> Changes:
        """As `Store.changes`."""
        return await self._do(requests.changes(since, max_bytes))

    async def status(self) -> Status:
        """As `Store.status`."""
        return await self._do(requests.status())

    async def snapshot(self) -> int:
        """As `Store.snapshot`."""
        return await self._do(requests.snapshot())

    async def grow(self, sectors: int) -> Status:
        """As `Store.grow`."""
        return await self._do(requests.grow(sectors, self.hub))

    async def pump(self, most: int) -> Pumped:
        """As `Store.pump`."""
        return await self._do(requests.pump(most))

    async def texts(self, name: str) -> Tuple[bytes, bytes]:
        """As `Store.texts`."""
        return await self._do(requests.texts(name))

    def export(self) -> AsyncContextManager[AsyncMoment]:
        """As `Store.export`, for `async with` and `async for`."""
        return async_moment_of(self)

    def watch(self, since: Optional[int] = None, *, history: Optional[str] = None, follow: bool = True,
              wait: Optional[float] = None) -> AsyncWatch:
        """As `Store.watch`, for `async for`; it connects at its first step."""
        return AsyncWatch(watched(self.hub), since, history=history, follow=follow, wait=wait)

    def follow(self, name: str, path: str = "") -> AsyncFollowing:
        """As `Store.follow`, for `async for` and `async with`."""
        hub = watched(self.hub)
        return AsyncFollowing(followed(lambda wait: AsyncWatch(hub, wait=wait), _Steps(self), name, path))

    #: Another name of `names`.
    list = names

    async def _do(self, request: Request[T]) -> T:
        # A change by itself would wait for others if the program gathers them.
        replies = await self._session.exchange(request.lines, self._gathers and request.changes, request.changes)
        try:
            return request.read(replies)
        except Invalid as refused:
            await self._explain(refused)
            raise

    async def _explain(self, refused: Invalid) -> None:
        """Reads what `why` needs, since `why` itself cannot wait."""
        name = refused.document
        if name is not None and refused.asks_the_store:
            try:
                pair = await self._do(requests.doc_and_schema(name))
            except JpstoreError:
                return
            refused.read = lambda: pair


class _Steps(calls.Steps):
    """The steps of a store, which are awaited."""

    _store: AsyncStore

    async def ask(self, request: Request[T]) -> T:
        return await self._store._do(request)

    async def change(self, lines: List[bytes]) -> List[bytes]:
        return await self._store._session.exchange(lines, True, True)

    async def explain(self, refused: Invalid) -> None:
        await self._store._explain(refused)

    async def pause(self, seconds: float) -> None:
        await asyncio.sleep(seconds)

    async def close(self) -> None:
        await self._store.close()
