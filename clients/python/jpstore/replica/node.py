"""A node: one store, kept at the state of the log, and what its clients ask for."""
import asyncio
import contextlib
import time
from collections import deque
from functools import partial
from typing import IO, Any, Awaitable, Callable, Collection, Deque, Dict, List, NamedTuple, Optional, Sequence, TypeVar

from ..errors import JpstoreError
from .answers import as_asked, as_told
from .appending import Appending
from .applying import Applier, Done, OtherVersion
from .comparing import VOTES, Comparing
from .copying import Copy, copy_of
from .digest import Digesting
from .engine import Member, NoAnswer, NoSpace, Rejected, Trimmed, end_of_certificates
from .export import export
from .log import PATIENCE, PLACES, Entry, EntryKind, Head, Log
from .questions import Asking
from .reach import Reach
from .store import Faulty, ReplicaStore
from .tasks import apart, end_tasks, started
from .trial import MOST_UNTRIED, is_tried, lacks_memory

__all__ = ["Node", "Settings"]

T = TypeVar("T")

# How many entries wait to be done at most, and how many bytes of them.
_MOST_ENTRIES, _MOST_BYTES = 1024, 1 << 26

# How often a node writes its place, and looks what waits for too long, in seconds.
_TELL, _TICK = 1.0, 0.25

# How long a member may show no new entries though there are some, before another one is watched.
_SILENCE = 0.7


class Settings(NamedTuple):
    """What a node serves: a file, a log, and the sockets of its clients; its name, how long clients wait, how often
    nodes are compared, and who says whether etcd can be reached."""

    node: str
    file: str
    members: Sequence[Member]
    log: str
    socket: str
    local: Optional[str] = None
    program: Optional[str] = None
    pump: int = 0
    wait: float = 0
    first: int = 0
    patience: float = 10.0
    compare: float = 60.0
    reach: Optional[Reach] = None

    def new_log(self) -> Log:
        """The log, for one more task."""
        return Log(self.members, self.log, self.first, self.reach)


class Node:
    """The tasks of a node. They run until one of them fails, or the node is stopped."""

    def __init__(self, settings: Settings, store: ReplicaStore, applier: Applier) -> None:
        self._settings, self._store, self._applier, self._logs = settings, store, applier, settings.new_log
        #: The changes that the node has made since it started.
        self.history = applier.history
        self._woken, self._space = asyncio.Event(), asyncio.Event()
        self._entries: Deque[Entry] = deque()
        self._jobs: Deque[Callable[[], Awaitable[None]]] = deque()
        #: Changes and questions on their way.
        self.appending = Appending(settings.node, applier)
        self.asking = Asking(Head(applier.place.n, applier.place.r), self._woken.set)
        self._comparing, self._digesting = Comparing(settings.node, settings.compare, self._logs), Digesting(store)
        applier.before = lambda names: self._digesting.before(names, self._answer_due)
        self._watched = self._logs().watch()
        self._received = Head(applier.place.n, applier.place.r)
        self._held = 0
        # When the store had all that a majority had, and since when the watch shows nothing new.
        self._current: Optional[float] = None
        self._missing: Optional[float] = None

    # What clients ask for.

    async def local(self, text: bytes) -> bytes:
        """The reply to a line that changes the file of this node alone."""
        reply, = await self._between(lambda: self._store.ask([text]))
        return reply

    async def lacks_memory(self, text: bytes, names: Collection[str]) -> bool:
        """Whether this node has no memory for a change, by its compact text and the documents that are there for it."""
        is_due = is_tried(text)
        if not is_due and self._applier.length(names) <= MOST_UNTRIED:
            return False

        async def lacks() -> bool:
            if not is_due and await self._applier.length_now(names) <= MOST_UNTRIED:
                return False
            return await lacks_memory(text, self._store)
        return await self._between(lacks)

    async def export(self) -> IO[bytes]:
        """All documents of one moment."""
        return await self._between(lambda: export(self._store, self._answer_due))

    async def copy(self) -> Copy:
        """The committed bytes of the file, between two changes."""
        return await self._between(lambda: apart(partial(copy_of, self._store.file, self._applier.place.text)))

    async def _between(self, do: Callable[[], Awaitable[T]]) -> T:
        """Does something while no change is made."""
        answer: "asyncio.Future[T]" = asyncio.get_running_loop().create_future()

        async def job() -> None:
            try:
                result = await do()
                if not answer.cancelled():
                    answer.set_result(result)
            except (OSError, JpstoreError) as error:
                if not answer.cancelled():
                    answer.set_exception(error)
                if isinstance(error, Faulty):
                    raise
        self._jobs.append(job)
        self._woken.set()
        return await answer

    def told(self) -> Dict[str, Any]:
        """The status of the node; `age` is for how many seconds it may have missed changes."""
        age = None if self._current is None else round(time.monotonic() - self._current, 3)
        return {"age": age, "applied": self._applier.place.n, "head": self.asking.head.n, "name": self._settings.node,
                "seq": self._applier.seq}

    # The tasks.

    async def run(self, begun: Callable[[], Awaitable[None]]) -> None:
        """Runs until it is cancelled, or fails. `begun` is called when clients may ask."""
        # The log is kept for this node from here on, before anything is asked of it. If etcd has no space, it is kept
        # from the place on that the node wrote before.
        with contextlib.closing(self._logs()) as log, contextlib.suppress(NoSpace):
            await self._publish(log)
        asking = self.asking.run(self._logs(), lambda: self._received, self._seen)
        tasks = [started(task) for task in (
            self._work(), self._follow(), self._tell(), self._tick(), self.appending.run(self._logs()), asking,
            self._comparing.run())]
        try:
            await begun()
            done, _ = await asyncio.wait(tasks, return_when=asyncio.FIRST_COMPLETED)
            for task in done:
                task.result()
        finally:
            await end_tasks(tasks)

    async def _work(self) -> None:
        """Does the log, and answers what is due, one thing after another."""
        while True:
            self._woken.clear()
            if self._entries:
                for done in await self._applied():
                    await self._finish(done)
                self._space.set()
            await self._answer_due()
            self._comparing.check()
            if self._jobs:
                await self._jobs.popleft()()
            elif self._digesting.is_reading:
                await self._read()
            elif not self._entries and not self.asking.is_due(self._applier.place.n):
                await self._woken.wait()

    async def _applied(self) -> List[Done]:
        """Does some entries."""
        try:
            return await self._applier.apply(self._entries)
        except OtherVersion:
            # Of what was refused nothing is stored, and the other version must not judge it again.
            with contextlib.closing(self._logs()) as log, contextlib.suppress(NoAnswer, Rejected):
                await self._publish(log, PATIENCE)
            raise

    async def _finish(self, done: Done) -> None:
        self._held -= sum(map(len, done.entry.lines))
        self.appending.done(done.entry.id, done.answers)
        if done.entry.n >= self.asking.head.n:
            self._current = max(self._current or 0.0, self.asking.asked_at)
        if done.entry.kind is EntryKind.COMPARE:
            self._comparing.seen()
            if self._is_waited_for():
                await self._digesting.begin(done.entry.n, self._applier.seq, self._applier.place.chain)

    def _is_waited_for(self) -> bool:
        """Whether others wait for what this node has now: it had all a moment ago, and no later comparison waits."""
        is_current = self._current is not None and time.monotonic() - self._current < VOTES
        return is_current and all(entry.kind is not EntryKind.COMPARE for entry in self._entries)

    async def _read(self) -> None:
        """Reads a piece of the documents that are compared."""
        digest = await self._digesting.read()
        if digest is not None:
            self._comparing.compare(digest, self._woken.set)

    async def _answer_due(self) -> None:
        """Answers the questions whose entries are done."""
        due = self.asking.due(self._applier.place.n)
        if due:
            replies = await self._store.exchange([as_asked(question.text) for question in due])
            for question, reply in zip(due, replies):
                if not question.answer.done():
                    question.answer.set_result(as_told(question.text, reply, self.history))

    async def _follow(self) -> None:
        """Takes the entries of the log as they come."""
        try:
            await self._take_entries()
        except Trimmed:
            # The log need not be kept for a store that can't go on.
            with contextlib.closing(self._logs()) as log:
                await log.forget(self._settings.node)
            raise

    async def _take_entries(self) -> None:
        place = self._applier.place
        async for entry in self._watched.entries(place.n, place.r, place.digest):
            while len(self._entries) >= _MOST_ENTRIES or self._held > _MOST_BYTES:
                self._space.clear()
                await self._space.wait()
            self._received = Head(entry.n, entry.r)
            self._held += sum(map(len, entry.lines))
            self._entries.append(entry)
            self._woken.set()

    def _seen(self, n: int) -> None:
        """The log has entry n: watches at another member if the present one shows it too late."""
        if self._applier.place.n >= n:
            self._current = self.asking.asked_at
        if self._received.n >= n or self._entries:
            self._missing = None
        elif self._missing is None:
            self._missing = self.asking.asked_at
        elif self.asking.asked_at - self._missing > _SILENCE:
            self._watched.kick()
            self._missing = None

    async def _tick(self) -> None:
        """Answers those who wait for too long."""
        while True:
            await asyncio.sleep(_TICK)
            before = time.monotonic() - self._settings.patience
            self.asking.refuse_old(before)
            self.appending.refuse_old(before)

    async def _tell(self) -> None:
        """Tells the place of this node, up to which the log may be trimmed, and how it is."""
        log = self._logs()
        while True:
            await asyncio.sleep(_TELL)
            with contextlib.suppress(Rejected):
                await self._publish(log)

    async def _publish(self, log: Log, patience: Optional[float] = None) -> None:
        status = self._store.status
        await log.tell(PLACES, self._settings.node, {
            **self._applier.told(), "version": self._applier.version, "time": int(time.time()), "used": status["used"],
            "capacity": status["capacity"], "documents": status["documents"],
            "certificate": end_of_certificates(self._settings.members)}, patience)
