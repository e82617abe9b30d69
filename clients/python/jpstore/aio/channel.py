"""A channel over asyncio: the program, or the connection to a hub. Calls go out together, and are answered in
order as their replies come."""
import asyncio
import contextlib
import errno
import os
import threading
from collections import deque
from typing import Any, Callable, Deque, List, Optional, Sequence, Tuple, TypeVar, Union

from ..errors import AccessError, Ended
from ..wire.connection import check_socket, doubled, ended_connection, new_socket, reaching, socket_of
from ..wire.conversation import Call, Conversation
from ..wire.forks import Descriptor
from ..wire.program import Started
from ..wire.session import Trying
from ..wire.stream import StreamEnded, StreamSilent, read_piece, write_piece

__all__ = ["AsyncCall", "AsyncChannel", "AsyncConnection", "AsyncProgram", "in_thread"]

T = TypeVar("T")

# How long it waits before it tries again to connect to a hub that many others connect to, in seconds.
_PAUSE = 0.01


async def in_thread(call: Callable[[], T]) -> T:
    """What a call returns that blocks. It has a thread of its own, which does not keep the process from ending."""
    loop = asyncio.get_running_loop()
    returned: "asyncio.Future[T]" = loop.create_future()

    def tell(set_it: Callable[[Any], None], what: Any) -> None:
        if not returned.done():
            set_it(what)

    def run() -> None:
        told: Tuple[Callable[[Any], None], Any]
        try:
            told = returned.set_result, call()
        except Exception as error:
            told = returned.set_exception, error
        # Nobody waits any more if the loop is closed.
        with contextlib.suppress(RuntimeError):
            loop.call_soon_threadsafe(tell, *told)
    threading.Thread(target=run, daemon=True).start()
    return await returned


class AsyncCall(Call):
    """A call that a task waits for, by `answered`."""

    def __init__(self, lines: Sequence[bytes], changes: bool = False, gathered: bool = False, wait: float = 0) -> None:
        super().__init__(lines, changes, gathered)
        self.answered: "asyncio.Future[None]" = asyncio.get_running_loop().create_future()
        #: How the connection ended over which it was sent first.
        self.lost: Optional[Ended] = None
        #: How long it is sent again then.
        self.trying = Trying(wait)

    def tell(self, error: Optional[Exception] = None) -> None:
        """Lets the task go on, if it still waits: with the replies, or with this error."""
        if self.answered.done():
            return
        if error is None:
            self.answered.set_result(None)
        else:
            self.answered.set_exception(error)


class AsyncLines:
    """Two descriptors of an event loop: calls are sent as they are taken, and notified when they are answered.

    Nothing of asyncio's own holds the descriptors: in a child made by fork, that would change what the loop of the
    parent waits for.
    """

    def __init__(self, reading: Descriptor, writing: Descriptor, timeout: Optional[float]) -> None:
        self._loop = asyncio.get_running_loop()
        self._reading, self._writing, self._timeout = reading, writing, timeout
        self._unsent: Deque[memoryview] = deque()
        self._finishing = False
        self._late: Optional[asyncio.TimerHandle] = None
        self._conversation = Conversation()
        #: Done once nothing more comes.
        self.end: "asyncio.Future[StreamEnded]" = self._loop.create_future()
        #: Called after calls were answered.
        self.told: Callable[[], None] = lambda: None
        os.set_blocking(reading.number, False)
        os.set_blocking(writing.number, False)
        self._loop.add_reader(reading.number, self._readable)

    @property
    def busy(self) -> bool:
        """Whether a call is not yet answered."""
        return bool(self._conversation.under_way)

    @property
    def under_way(self) -> List[AsyncCall]:
        """The calls of tasks that are not yet answered, the oldest first."""
        return [call for call in self._conversation.under_way
                if isinstance(call, AsyncCall) and not call.answered.done()]

    def send(self, calls: Sequence[Call]) -> None:
        """Sends calls, together."""
        quiet = not self._conversation.under_way
        sent = memoryview(self._conversation.send(calls))
        if quiet:
            self._wait_anew()
        taken = self._write(sent) if not self._unsent else 0
        for call in calls if taken >= 0 else ():
            # Of what waits for the other side to read, all counts as sent.
            call.sent = True
        if 0 <= taken < len(sent):
            if not self._unsent:
                self._loop.add_writer(self._writing.number, self._writable)
            self._unsent.append(sent[taken:])

    def close_both(self) -> None:
        """Closes both descriptors."""
        self._unsent.clear()
        self._close_writing()
        if not self._reading.closed:
            self._loop.remove_reader(self._reading.number)
            self._reading.close()
        if self._late is not None:
            self._late.cancel()

    def give_back(self) -> None:
        """Ends the channel, from any thread."""
        if self._loop.is_closed():
            self._reading.close()
            self._writing.close()
        else:
            with contextlib.suppress(RuntimeError):
                self._loop.call_soon_threadsafe(self.close_both)

    def _close_writing(self) -> None:
        if not self._writing.closed:
            self._loop.remove_writer(self._writing.number)
            self._writing.close()

    def _write(self, unsent: memoryview) -> int:
        """How many bytes were taken; -1 if none will be taken any more: then what was answered is still to be read."""
        taken = 0
        while taken < len(unsent):
            count = write_piece(self._writing, unsent[taken:])
            if count <= 0:
                return taken if taken or count == 0 else -1
            taken += count
        return taken

    def _writable(self) -> None:
        while self._unsent:
            taken = self._write(self._unsent[0])
            if taken < 0:
                self._unsent.clear()
                break
            if taken < len(self._unsent[0]):
                self._unsent[0] = self._unsent[0][taken:]
                # It is slow, but it reads.
                self._wait_anew()
                return
            self._unsent.popleft()
        self._loop.remove_writer(self._writing.number)
        self._wait_anew()
        if self._finishing:
            self._close_writing()

    def _readable(self) -> None:
        piece = read_piece(self._reading)
        if piece is None:
            return
        if not piece:
            self._end(StreamEnded())
            return
        done = self._conversation.take(piece)
        self._wait_anew()
        for call in done:
            if isinstance(call, AsyncCall):
                call.tell()
        if done:
            self.told()

    def _wait_anew(self) -> None:
        """Begins to wait for a sign of the other side, if calls are under way."""
        if self._timeout is None:
            return
        if self._late is not None:
            self._late.cancel()
        self._late = None
        if self._conversation.under_way:
            self._late = self._loop.call_later(self._timeout, self._end, StreamSilent())

    def _end(self, ended: StreamEnded) -> None:
        if not self._reading.closed:
            self._loop.remove_reader(self._reading.number)
        if self._late is not None:
            self._late.cancel()
        if not self.end.done():
            self.end.set_result(ended)


class AsyncConnection(AsyncLines):
    """The Unix socket of a hub."""

    def __init__(self, path: str, connected: Descriptor, timeout: Optional[float]) -> None:
        super().__init__(connected, doubled(connected), timeout)
        self._path = path

    async def ended(self, ended: StreamEnded) -> Ended:
        """Closes the connection, and returns the error that says how it ended."""
        self.close_both()
        return ended_connection(self._path, ended, self._timeout)

    async def close(self) -> None:
        """Closes the connection; the hub goes on."""
        self.close_both()

    #: The same, for one whose replies are not wanted any more.
    abandon = close


class AsyncProgram(AsyncLines):
    """A program that answers lines."""

    def __init__(self, words: Sequence[str], timeout: Optional[float]) -> None:
        self._started = Started(words)
        super().__init__(self._started.output, self._started.input, timeout)

    @property
    def pid(self) -> int:
        """The number of the process."""
        return self._started.pid

    async def ended(self, ended: StreamEnded) -> Ended:
        """Waits for the end of the program, and returns the error that says how it ended."""
        self.close_both()
        return await in_thread(lambda: self._started.ended(ended, self._timeout))

    async def close(self) -> None:
        """Ends the input, and waits for the program's end; `Ended` if its status is not 0."""
        self._finishing = True
        if not self._unsent:
            self._close_writing()
        # It may have replies left that nobody reads.
        await asyncio.shield(self.end)
        ended = await self.ended(self.end.result())
        if ended.status:
            raise ended

    async def abandon(self) -> None:
        """Kills the program, which loses nothing that was answered."""
        self._started.kill()
        self.close_both()
        await in_thread(self._started.ended)

    def give_back(self) -> None:
        """Kills the program, from any thread."""
        self._started.kill()
        self._started.ended()
        super().give_back()


async def connect(path: str, timeout: Optional[float]) -> Descriptor:
    """A connection to the hub at a path."""
    check_socket(path)
    descriptor = new_socket()
    until = None if timeout is None else asyncio.get_running_loop().time() + timeout
    try:
        with reaching(path), socket_of(descriptor) as connecting:
            connecting.setblocking(False)
            while True:
                try:
                    connecting.connect(path)
                    return descriptor
                except BlockingIOError:
                    # So many wait to be let in that there is no place in the queue.
                    if until is not None and asyncio.get_running_loop().time() >= until:
                        raise AccessError(errno.ETIMEDOUT, os.strerror(errno.ETIMEDOUT), path) from None
                await asyncio.sleep(_PAUSE)
    except BaseException:
        descriptor.close()
        raise


AsyncChannel = Union[AsyncProgram, AsyncConnection]
