"""The changes of clients on their way into the log, and who waits for their replies."""
import asyncio
import time
from collections import deque
from typing import Deque, Dict, Iterable, List, NamedTuple, Optional, Sequence

from ..errors import JpstoreError
from ..refusals import NO_MAJORITY
from ..wire.limits import MOST_CHANGES
from ..wire.replies import refusal
from ..wire.standard_streams import complain
from .applying import Applier
from .capacity import FULL
from .changes import LINES_OF_ENTRY, length_of_frames
from .engine import NoSpace, Rejected
from .line_reader import MOST_TEXT
from .log import EntryKind, Log, Unknown
from .tasks import started

__all__ = ["Appending", "Lost"]

# The bytes of changes that wait to be appended, beyond which no more are taken.
_MOST_WAITING = 1 << 24

# How long it waits before it tries again to begin, in seconds, and how often it writes its version into the log.
_PAUSE = 0.25
_TRIES = 1000


class Lost(Exception):
    """It is not known whether the change is made: its connection is closed without a reply."""


class _Waiting(NamedTuple):
    """A change: its text, how many bytes and changes it has in a file, who waits, and since when."""

    text: bytes
    cost: int
    changes: int
    answer: "asyncio.Future[bytes]"
    since: float


class Appending:
    """Appends an entry at a time. What comes meanwhile shares the next one."""

    def __init__(self, node: str, applier: Applier) -> None:
        self._node, self._room, self._applier = node, applier.room, applier
        self._waiting: Deque[_Waiting] = deque()
        self._flying: Dict[str, List[_Waiting]] = {}
        self._more, self._space = asyncio.Event(), asyncio.Event()
        self._held = self._count = 0
        self._refusing = False

    async def change(self, text: bytes, changes: int) -> "asyncio.Future[bytes]":
        """Lets a change wait to be appended; its reply comes when it is made here."""
        answer: "asyncio.Future[bytes]" = started(asyncio.get_running_loop().create_future())
        cost = length_of_frames(len(text), changes)
        if cost > self._room.changes:
            answer.set_result(refusal(FULL))
            return answer
        while self._held and self._held + len(text) > _MOST_WAITING:
            self._space.clear()
            await self._space.wait()
        self._held += len(text)
        self._waiting.append(_Waiting(text, cost, changes, answer, time.monotonic()))
        self._more.set()
        return answer

    def done(self, id: str, answers: Sequence[Optional[bytes]]) -> None:
        """Hands on what the lines of an entry were answered, if it is one of this start."""
        for waiting, reply in zip(self._flying.pop(id, []), answers):
            if reply is not None and not waiting.answer.done():
                waiting.answer.set_result(reply)

    def refuse_old(self, before: float) -> None:
        """Refuses what waits since before this time; what is on its way may be made, so its reply is lost."""
        while self._waiting and self._waiting[0].since < before:
            self._answer([self._taken()], refusal(NO_MAJORITY))
        for some in self._flying.values():
            self._lose(waiting for waiting in some if waiting.since < before)

    async def run(self, log: Log) -> None:
        """Appends what waits, as long as it comes."""
        name = await self._registered(log)
        if self._applier.place.version != self._applier.version:
            await self._append_version(log, name)
        while True:
            some = self._next()
            if not some:
                self._more.clear()
                await self._more.wait()
                continue
            self._count += 1
            id = f"{self._node}.{name}.{self._count}"
            self._flying[id] = some
            try:
                await log.append(id, [waiting.text for waiting in some])
                self._refusing = False
            except Unknown:
                self._lose(self._flying.pop(id, []))
            except Rejected as error:
                self._refuse(self._flying.pop(id), error)

    async def _registered(self, log: Log) -> str:
        """The name of this start. As long as etcd has no space for it, changes are refused."""
        while True:
            try:
                return await log.register(self._node)
            except NoSpace as error:
                self._refuse(self._next(), error)
            await asyncio.sleep(_PAUSE)

    async def _append_version(self, log: Log, name: str) -> None:
        """Tells the log of this version of the program. The store must have done all that is for the one before."""
        tries = 0
        while tries < _TRIES:
            n = self._applier.place.n
            if self._applier.place.version == self._applier.version:
                return
            try:
                if await log.append(f"{self._node}.{name}.v{n}", [], EntryKind.VERSION, self._applier.version, n):
                    return
                tries += 1
            except NoSpace as error:
                self._refuse(self._next(), error)
            except Unknown:
                pass
            await asyncio.sleep(_PAUSE)
        raise JpstoreError("the log goes on all the time for another version of the program: stop its nodes first")

    def _next(self) -> List[_Waiting]:
        """The changes of the next entry."""
        some: List[_Waiting] = []
        size = changes = 0
        while self._waiting and len(some) < LINES_OF_ENTRY:
            size += self._waiting[0].cost
            changes += self._waiting[0].changes
            if some and (size > min(MOST_TEXT, self._room.changes) or changes > MOST_CHANGES):
                break
            some.append(self._taken())
        return some

    def _taken(self) -> _Waiting:
        """Takes the oldest change that waits."""
        waiting = self._waiting.popleft()
        self._held -= len(waiting.text)
        self._space.set()
        return waiting

    def _refuse(self, some: List[_Waiting], error: Rejected) -> None:
        """Answers changes that etcd refuses to take."""
        if not self._refusing:
            complain(f"changes are refused: {error}")
        self._refusing = True
        self._answer(some, refusal(FULL if isinstance(error, NoSpace) else NO_MAJORITY))

    def _lose(self, some: Iterable[_Waiting]) -> None:
        """Breaks off the connections of changes of which nothing is known."""
        for waiting in some:
            if not waiting.answer.done():
                waiting.answer.set_exception(Lost())

    def _answer(self, some: List[_Waiting], reply: bytes) -> None:
        for waiting in some:
            if not waiting.answer.done():
                waiting.answer.set_result(reply)
