"""A session with a store over asyncio: the rules of `session`, for calls of many tasks that are under way at once.

Calls that are made at the same time go out together. Where changes are gathered, what is made while others are under
way waits, and goes out together too: so it shares a sync of the disk.
"""
import asyncio
from collections import deque
from typing import Awaitable, Callable, Deque, List, Optional, Sequence, Set

from ..errors import AccessError, Ended, JpstoreError, TimedOut
from ..wire.commands import STATUS
from ..wire.forks import check_process, not_here
from ..wire.session import CLOSED, PAUSE, Held, may_come
from ..wire.stream import StreamEnded
from .channel import AsyncCall, AsyncChannel

__all__ = ["AsyncSession"]

_NOT_OPEN = "the store is not open: use `async with`, or `await store.open()`"
_OTHER_LOOP = "this store was opened by another event loop: open it in each"


class AsyncSession(Held[AsyncChannel]):
    """A channel that tasks use together, and that is opened again if it was lost and that is wanted.

    A task that is cancelled goes away, and nothing else ends: what it sent is answered, and nobody gets the answer.
    """

    def __init__(self, start: Callable[[], Awaitable[AsyncChannel]], wait: float, reconnect: bool,
                 gathers: bool = False, hub: bool = True) -> None:
        super().__init__(wait, reconnect, hub)
        self._start, self._gathers = start, gathers
        self._closed = True
        self._begin_anew()

    def _begin_anew(self) -> None:
        self._loop: Optional[asyncio.AbstractEventLoop] = None
        # Calls that are not yet sent, and whether they are about to be.
        self._waiting: Deque[AsyncCall] = deque()
        self._sending = False
        # How the channel ended, if no call got that error.
        self._untold: Optional[Ended] = None
        self._opening: "Optional[asyncio.Task[None]]" = None
        self._ending: "Set[asyncio.Task[None]]" = set()

    def let_go(self) -> None:
        """Forgets the channel and the calls, which are the parent's, in a child."""
        super().let_go()
        self._begin_anew()

    async def open(self) -> None:
        """Begins the session."""
        check_process()
        self._begin_anew()
        self._channel, self._inherited, self._unopened = None, False, False
        self._loop = asyncio.get_running_loop()
        self._take(await self._opened())
        self._closed = False

    async def close(self) -> None:
        """Ends the session, after the calls that are waited for; `Ended` as by `Session.close`."""
        check_process()
        self._closed = True
        if self._opening is not None:
            self._opening.cancel()
        while self._calls() or self._ending:
            waited: "List[asyncio.Future[None]]" = [*self._calls(), *self._ending]
            await asyncio.wait(waited)
        channel, self._channel = self._channel, None
        untold, self._untold = self._untold, None
        if channel is not None:
            await channel.close()
        elif untold is not None and untold.status:
            raise untold

    async def exchange(self, lines: Sequence[bytes], gathered: bool, changes: bool) -> List[bytes]:
        """Sends lines, and returns the replies; with `gathered` one line more, if the program may wait for others.

        If the connection is lost, questions are sent again over a new one: once, and more often for `wait` seconds.
        Changes are sent again only if no byte of them was sent before.
        """
        self._check()
        call = AsyncCall(lines, changes, gathered, self.wait)
        self._waiting.append(call)
        self._send_soon()
        try:
            await call.answered
        finally:
            if not call.sent and call in self._waiting:
                self._waiting.remove(call)
        return call.replies

    def _check(self) -> None:
        """An error if no call can be made."""
        check_process()
        if self._inherited:
            raise not_here()
        if self._loop is None and not self._unopened:
            raise JpstoreError(_NOT_OPEN)
        if self.over and not (self._ending and not self._closed):
            untold, self._untold = self._untold, None
            raise untold or JpstoreError(CLOSED)
        self._loop = self._loop or asyncio.get_running_loop()
        if self._loop is not asyncio.get_running_loop():
            raise JpstoreError(_OTHER_LOOP)

    def _calls(self) -> "List[asyncio.Future[None]]":
        """What the tasks wait for whose calls are not yet answered."""
        under_way = self._channel.under_way if self._channel is not None else []
        return [call.answered for call in (*under_way, *self._waiting) if not call.answered.done()]

    def _send_soon(self) -> None:
        """Sends what waits, once the tasks that are about to run have made their calls."""
        if not self._sending:
            self._sending = True
            asyncio.get_running_loop().call_soon(self._send)

    def _send(self) -> None:
        self._sending = False
        if not self._waiting or self._ending:
            return
        if self._channel is None:
            if self.over:
                # A call may come just after the end was known, and before it could be told to one.
                untold, self._untold = self._untold, None
                self._tell_waiting(untold or JpstoreError(CLOSED))
            elif self._opening is None:
                self._opening = asyncio.ensure_future(self._open_again())
            return
        if self._gathers and self._channel.busy and any(call.gathered for call in self._waiting):
            return
        calls, self._waiting = list(self._waiting), deque()
        self._channel.send(calls)

    def _take(self, channel: AsyncChannel) -> None:
        """Uses a channel from now on, until it ends."""
        self._channel = channel
        self._unopened = False
        channel.told = self._send
        channel.end.add_done_callback(lambda end: self._over(channel, end.result()))

    def _over(self, channel: AsyncChannel, ended: StreamEnded) -> None:
        """The channel has ended by itself."""
        if channel is self._channel:
            self._channel = None
            ending = asyncio.ensure_future(self._tell_end(channel, ended))
            self._ending.add(ending)
            ending.add_done_callback(self._ended)

    async def _tell_end(self, channel: AsyncChannel, ended: StreamEnded) -> None:
        """Tells the calls that were under way, but those that may be sent again."""
        try:
            lost = await channel.ended(ended)
        except (JpstoreError, OSError) as error:
            lost = Ended(str(error))
        calls = channel.under_way
        again = [call for call in calls if self._may_be_sent_again(call, lost)]
        for call in calls:
            if call not in again:
                call.tell(call.broken_off(lost))
        if self.over:
            calls += self._waiting
            while self._waiting:
                call = self._waiting.popleft()
                call.tell(call.broken_off(lost))
        if not calls:
            self._untold = lost
        for call in again:
            call.lost, call.replies, call.sent = call.broken_off(lost), [], False
        self._waiting.extendleft(reversed(again))

    def _may_be_sent_again(self, call: AsyncCall, lost: Ended) -> bool:
        return (self._reconnect and not self._closed and not isinstance(lost, TimedOut)
                and not (call.sent and call.changes) and call.trying.again())

    def _ended(self, ending: "asyncio.Task[None]") -> None:
        self._ending.discard(ending)
        self._send()

    async def _open_again(self) -> None:
        """Opens a channel for the calls that wait, or gives them the error why there is none."""
        try:
            # A connection may be lost as soon as it is made.
            await asyncio.sleep(max((call.trying.pause for call in self._waiting), default=0.0))
            self._take(await self._opened())
        except JpstoreError as error:
            self._tell_waiting(error)
        except BaseException:
            self._tell_waiting(JpstoreError(CLOSED))
            raise
        finally:
            self._opening = None
        self._send()

    def _tell_waiting(self, error: JpstoreError) -> None:
        while self._waiting:
            call = self._waiting.popleft()
            told: Exception = error
            if isinstance(error, AccessError) and call.lost is not None:
                told, told.__cause__ = call.lost, error
            call.tell(told)

    async def _opened(self) -> AsyncChannel:
        loop = asyncio.get_running_loop()
        until = loop.time() + self.wait
        while True:
            try:
                return await self._tried()
            except JpstoreError as error:
                if not may_come(error) or loop.time() >= until:
                    raise
                await asyncio.sleep(PAUSE)

    async def _tried(self) -> AsyncChannel:
        channel = await self._start()
        try:
            # The first reply comes when the store is open.
            first = AsyncCall([STATUS])
            channel.send([first])
            channel.end.add_done_callback(lambda _: first.tell())
            await first.answered
            if not first.done:
                raise await channel.ended(channel.end.result())
        except Ended:
            raise
        except BaseException:
            await channel.abandon()
            raise
        return channel
