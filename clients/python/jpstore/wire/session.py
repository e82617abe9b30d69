"""A session with a store: lines out and replies in, and new connections after a hub's was lost."""
import errno
import threading
import time
import warnings
import weakref
from typing import Any, Callable, Generic, List, Optional, Sequence, TypeVar, Union

from ..embedded import Embedded, Over
from ..errors import AccessError, Ended, JpstoreError, TimedOut
from .commands import STATUS, Command, line_of
from .connection import Connection
from .conversation import Call
from .forks import check_process, in_each_child, not_here
from .program import Program
from .stream import StreamEnded

__all__ = ["CLOSED", "PAUSE", "Channel", "Held", "Session", "Trying", "give_back_if_dropped", "may_come"]

C = TypeVar("C")

#: What is said by a session that is over.
CLOSED = "the store is closed"

#: How long a client waits before it tries again whether a file is free or a hub is there, in seconds.
PAUSE = 0.05

#: What answers lines.
Channel = Union[Program, Connection, Embedded]


def may_come(error: JpstoreError) -> bool:
    """Whether a store that could not be opened may be opened later: its file is in use, or its hub is not there yet."""
    if isinstance(error, Ended):
        return error.name == "in-use" or (type(error) is Ended and error.status is None)
    return isinstance(error, AccessError) and error.errno in (errno.ENOENT, errno.ECONNREFUSED)


def give_back_if_dropped(store: Any, path: str, give_back: Callable[[], bool]) -> None:
    """Calls `give_back` once the store is dropped, and warns if it says that there was something to give back."""
    def dropped() -> None:
        if give_back():
            warnings.warn(f"the store {path} was dropped without `close`", ResourceWarning, stacklevel=2)
    # What is left at the end of the process is closed by the system.
    weakref.finalize(store, dropped).atexit = False


class Trying:
    """How long a call is tried again after its connection was lost: once at once, and then until the time is over."""

    def __init__(self, wait: float) -> None:
        self._wait = wait
        #: When that is; None as long as no connection was lost.
        self.until: Optional[float] = None
        #: How long to wait before the next try, in seconds.
        self.pause = 0.0

    def again(self) -> bool:
        """Whether it is tried again, after a connection was lost."""
        now = time.monotonic()
        if self.until is None:
            self.until = now + self._wait
            return True
        self.pause = PAUSE
        return now < self.until


class Held(Generic[C]):
    """A channel that is opened again if it was lost and that is wanted: what both kinds of session have.

    In a child made by fork the channel is the parent's. One to a hub is made anew there; any other is over.
    """

    def __init__(self, wait: float, reconnect: bool, hub: bool) -> None:
        #: How long a lost connection is made again, in seconds.
        self.wait = wait
        self._reconnect, self._hub = reconnect, hub
        self._closed = False
        # Whether it is that of the process which forked this one, and whether a first channel is still to be opened.
        self._inherited = self._unopened = False
        self._channel: Optional[C] = None
        in_each_child(self)

    def let_go(self) -> None:
        """Forgets the channel, in a child."""
        over, self._channel = self.over, None
        self._unopened, self._inherited = not over and self._hub, not over and not self._hub

    @property
    def channel(self) -> Optional[C]:
        """The channel; None if it was closed or lost."""
        check_process()
        return self._channel

    @property
    def over(self) -> bool:
        """Whether no further line can be sent."""
        check_process()
        return self._closed or (self._channel is None and not self._reconnect and not self._unopened)

    def give_back(self) -> bool:
        """Ends the session of a store that was dropped; whether that was still to be done."""
        check_process()
        channel: Any
        channel, self._channel = self._channel, None
        if channel is not None:
            channel.give_back()
        return channel is not None


class Session(Held[Channel]):
    """A channel that is used by one thread at a time."""

    def __init__(self, start: Callable[[], Channel], wait: float, reconnect: bool, hub: bool = False) -> None:
        self._start = start
        self._lock = threading.RLock()
        super().__init__(wait, reconnect, hub)
        self._channel = self._opened(Trying(wait))

    def let_go(self) -> None:
        """Forgets the channel, in a child."""
        # Another thread, which is not here, may have held it.
        self._lock = threading.RLock()
        if isinstance(self._channel, Embedded):
            self._channel.let_go()
        super().let_go()

    def close(self) -> None:
        """Ends the session; `Ended` if the program ends with another status than 0."""
        check_process()
        with self._lock:
            self._closed = True
            channel, self._channel = self._channel, None
            if channel is not None:
                channel.close()

    def exchange(self, lines: Sequence[bytes], gathered: bool, changes: bool) -> List[bytes]:
        """Sends lines, and returns the replies; with `gathered` one line more, if the program may wait for others.

        If the connection is lost, questions are sent again over a new one: once, and more often for `wait` seconds.
        Changes are sent again only if no byte of them was sent before.
        """
        check_process()
        trying = Trying(self.wait)
        lost: Optional[Ended] = None
        with self._lock:
            while True:
                call = Call(lines, changes, gathered)
                try:
                    return self._exchange(call, trying)
                except StreamEnded as ended:
                    lost = self._lost(ended, call)
                    may = self._reconnect and not isinstance(lost, TimedOut) and not (call.sent and changes)
                    if not may or not trying.again():
                        raise lost from None
                except AccessError as error:
                    if lost is None:
                        raise
                    raise lost from error
                time.sleep(trying.pause)

    def value(self, name: str, path: str) -> Any:
        """The value at a place of a document of an embedded store; NotImplemented if a general line has to be sent."""
        channel = self.channel
        if type(channel) is not Embedded:
            return NotImplemented
        with self._lock:
            try:
                return channel.get(name, path)
            except StreamEnded as ended:
                raise self._lost(ended, Call([])) from None

    def change(self, command: Command) -> Any:
        """What a change of an embedded store is answered: its number, or its refusal as a reply.

        NotImplemented if a general line has to be sent.
        """
        channel = self.channel
        if type(channel) is not Embedded:
            return NotImplemented
        with self._lock:
            try:
                return channel.change(command)
            except Over as over:
                call = Call([line_of(command)], True)
                call.sent, call.replies = True, over.error.replies
                raise self._lost(over, call) from None

    def _exchange(self, call: Call, trying: Trying) -> List[bytes]:
        if self._inherited:
            raise not_here()
        if self.over:
            raise JpstoreError(CLOSED)
        if self._channel is None:
            self._channel = self._opened(trying)
            self._unopened = False
        channel = self._channel
        try:
            channel.exchange(call)
        except StreamEnded:
            raise
        except BaseException:
            # What was sent may still be answered, so this channel cannot go on.
            if channel is self._channel:
                self._channel = None
                channel.give_back()
            raise
        return call.replies

    def _lost(self, ended: StreamEnded, call: Call) -> Ended:
        channel, self._channel = self._channel, None
        if channel is None:
            # This process was made by a fork in the midst of the call.
            raise not_here()
        return call.broken_off(channel.ended(ended))

    def _opened(self, trying: Trying) -> Channel:
        until = trying.until or time.monotonic() + self.wait
        while True:
            try:
                return self._tried()
            except JpstoreError as error:
                if not may_come(error) or time.monotonic() >= until:
                    raise
                time.sleep(PAUSE)

    def _tried(self) -> Channel:
        channel = self._start()
        try:
            # The first reply comes when the store is open.
            channel.exchange(Call([STATUS]))
        except StreamEnded as ended:
            raise channel.ended(ended) from None
        except BaseException:
            channel.give_back()
            raise
        return channel
