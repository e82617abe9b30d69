"""The changes of a hub's store as they are made, as an iterator.

Each accepted change comes once, in order; those of a transaction one by one, when all are on the disk. If the
connection is lost, the next step connects again and goes on after the last change that came, so a hub may be ended or
killed and started anew meanwhile.
"""
import contextlib
import errno
import json
import os
import time
from dataclasses import dataclass, field
from typing import Any, Callable, Dict, Generic, Iterator, Optional, Type, TypeVar

from .errors import AccessError, Ended, Gone, JpstoreError, accessing, refusal_of
from .wire.connection import Connection
from .wire.finished import finished
from .wire.forks import check_process, in_each_child
from .wire.program import Path
from .wire.session import PAUSE, may_come

__all__ = ["Change", "Gone", "Progress", "UNWATCHED", "Watch", "Watcher", "watched"]

C = TypeVar("C")
S = TypeVar("S", bound="Watch")

#: What is said to those who would watch a store without a hub.
UNWATCHED = "only the store of a hub can be watched: serve the file by a hub, and connect to its socket"


def watched(hub: Optional[str]) -> str:
    """The socket of a store's hub; an error if it has none."""
    if hub is None:
        raise JpstoreError(UNWATCHED)
    return hub


@dataclass(frozen=True)
class Change:
    """An accepted change: its number, and the command as the store keeps it."""

    seq: int
    command: Dict[str, Any]
    #: The numbers of the first and the last change of its transaction, if that has several.
    first: Optional[int] = None
    last: Optional[int] = None
    #: The name of the history up to this change: with `seq`, it is what a watcher keeps to go on later.
    # Each start of a hub makes another name for the same.
    history: Optional[str] = field(default=None, compare=False)

    def record(self) -> Dict[str, Any]:
        """What a hub tells of it: `change`, `history` and `seq`, and of a transaction `first` and `last`."""
        members = {"change": self.command, "first": self.first, "history": self.history, "last": self.last}
        return {**{name: value for name, value in members.items() if value is not None}, "seq": self.seq}


class Progress:
    """How far a watcher is: what it asks for on each connection, and what the lines mean that it gets."""

    def __init__(self, path: Path, since: Optional[int], history: Optional[str], follow: bool,
                 wait: Optional[float]) -> None:
        self.path = os.fspath(path)
        #: The number after which the next change is to come; None before the first connection if none was given.
        self.since = since
        #: The name of the history up to that number.
        self.history = history
        self._last: Optional[int] = None
        self._follow, self._wait = follow, wait
        self._until: Optional[float] = None
        #: Called when a connection that had begun is lost.
        self.tell_lost: Callable[[], None] = lambda: None

    def asked(self) -> bytes:
        """The line that a connection begins with."""
        return json.dumps(self._command()).encode() + b"\n"

    def _command(self) -> Dict[str, Any]:
        asked: Dict[str, Any] = {"cmd": "watch"}
        if self.since is not None:
            asked["from"] = self.since
            if self.history is not None:
                asked["history"] = self.history
        return asked

    def take(self, line: bytes) -> Optional[Change]:
        """The meaning of a line: a change, or how the hub begins, which is None."""
        record = json.loads(line)
        self._until = None
        if "change" in record:
            # A node of a replicated store has one for all changes, which its answer names.
            self.since, self.history = record["seq"], record.get("history", self.history)
            return Change(record["seq"], record["change"], record.get("first"), record.get("last"), self.history)
        if record["ok"]:
            self.since, self.history = record["from"], record["history"]
            self._last = record["seq"] if self._last is None else self._last
            return None
        if record["error"] == "gone":
            raise Gone(self.since, record["from"])
        raise refusal_of(record, self._command())

    @property
    def begun(self) -> bool:
        """Whether a hub has said where it begins."""
        return self._last is not None

    @property
    def done(self) -> bool:
        """Whether all changes came that were wanted."""
        return not self._follow and self._last is not None and self.since is not None and self.since >= self._last

    def lost(self, error: Optional[JpstoreError] = None) -> None:
        """A connection was lost, or could not be made: raises the error, unless another one will be tried."""
        if self._until is None:
            wait = self._wait if self._wait is not None else (float("inf") if self.begun else 0)
            self._until = time.monotonic() + wait
            if self.begun:
                self.tell_lost()
        over = time.monotonic() >= self._until
        if error is not None and (over or not may_come(error)):
            raise error
        if over:
            raise AccessError(errno.ECONNRESET, "the hub closed the connection", self.path)


class Watcher(Generic[C]):
    """A watch of either kind, and its connection, which is made again if it is lost."""

    def __init__(self, path: Path, since: Optional[int] = None, *, history: Optional[str] = None, follow: bool = True,
                 wait: Optional[float] = None) -> None:
        self._progress = Progress(path, since, history, follow, wait)
        self._connection: Optional[C] = None
        self._closed = False
        in_each_child(self)

    @property
    def history(self) -> Optional[str]:
        """The name of the history up to the last change that came, which no store that takes its place has."""
        return self._progress.history

    def tell_lost(self, call: Callable[[], None]) -> None:
        """Calls this each time that the hub goes away, before it is waited for."""
        self._progress.tell_lost = call

    def close(self) -> None:
        """Ends it; a step that waits ends too."""
        self._closed = True
        self._drop()

    def let_go(self) -> None:
        """Forgets the connection, in a child made by fork: the next step makes one of its own."""
        self._connection = None

    async def _begun(self) -> None:
        """Connects, and waits until the hub says from which number it goes on; `Gone` if it cannot."""
        while not self._progress.begun:
            await self._step()

    async def _next(self) -> Optional[Change]:
        """The next change; None at the end."""
        while not self._closed and not self._progress.done:
            change = await self._step()
            if change is not None:
                return change
        self.close()
        return None

    async def _step(self) -> Optional[Change]:
        """Reads a line, or connects if there is no connection."""
        check_process()
        try:
            if self._connection is None:
                self._connection = await self._connected(self._progress)
        except JpstoreError as error:
            self._progress.lost(error)
            await self._pause()
            return None
        # None if another thread closed it.
        connection = self._connection
        with contextlib.suppress(Ended):
            return self._take(await self._line(connection)) if connection is not None else None
        self._drop()
        if not self._closed:
            self._progress.lost()
            await self._pause()
        return None

    def _take(self, line: bytes) -> Optional[Change]:
        try:
            return self._progress.take(line)
        except BaseException:
            self.close()
            raise

    def _drop(self) -> None:
        # Another thread may do this too.
        connection, self._connection = self._connection, None
        if connection is not None:
            self._end(connection)

    async def _connected(self, progress: Progress) -> C:
        """A connection that was asked for the changes."""
        raise NotImplementedError

    async def _line(self, connection: C) -> bytes:
        """The next line; `Ended` if none comes."""
        raise NotImplementedError

    async def _pause(self) -> None:
        """Waits before the next try."""
        raise NotImplementedError

    def _end(self, connection: C) -> None:
        """Ends a connection."""
        raise NotImplementedError


class Watch(Watcher[Connection], Iterator[Change]):
    """The changes of the hub's store at `path`, after number `since`; without it, those that are made from now on.

    It waits for further changes; with `follow=False` it ends with the last change that was made when it began. A lost
    connection is made again: forever, or for `wait` seconds at most. The first connection is waited for only with
    `wait`. `Gone` is raised if the hub doesn't know all changes after `since`, and in format 2 after each start of the
    hub. To go on later, keep `seq` and `history` of the last change, and hand both in, as `since` and `history`.
    """

    def __init__(self, path: Path, since: Optional[int] = None, *, history: Optional[str] = None, follow: bool = True,
                 wait: Optional[float] = None) -> None:
        super().__init__(path, since, history=history, follow=follow, wait=wait)
        finished(self._begun())

    @property
    def since(self) -> int:
        """The number of the last change that came, or after which the first one is to come."""
        return self._progress.since or 0

    def __enter__(self: S) -> S:
        return self

    def __exit__(self, kind: Optional[Type[BaseException]], *_: Any) -> None:
        self.close()

    def __iter__(self: S) -> S:
        return self

    def __next__(self) -> Change:
        change = finished(self._next())
        if change is None:
            raise StopIteration
        return change

    async def _connected(self, progress: Progress) -> Connection:
        connection = Connection(progress.path)
        with accessing(progress.path):
            connection.send(progress.asked())
        return connection

    async def _line(self, connection: Connection) -> bytes:
        return connection.next_line()

    async def _pause(self) -> None:
        time.sleep(PAUSE)

    def _end(self, connection: Connection) -> None:
        # The thread that waits for a line closes it, or else the last that drops it.
        connection.shut_down()
