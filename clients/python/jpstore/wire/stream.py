"""Lines out and lines in at once, so that neither side waits forever for the other's full pipe."""
import os
import select
from collections import deque
from typing import Deque, List, Optional

from .conversation import Call, Conversation, LineBuffer
from .forks import Descriptor

__all__ = ["PIECE", "Lines", "StreamEnded", "StreamSilent", "read_piece", "write_piece"]

#: How many bytes are read or written at once.
PIECE = 1 << 16


class StreamEnded(Exception):
    """The other side ended before it had answered every line."""


class StreamSilent(StreamEnded):
    """The other side neither took nor sent a byte for too long."""


def read_piece(reading: Descriptor) -> Optional[bytes]:
    """What there is to read; None if there is nothing now, and no bytes if nothing comes any more."""
    try:
        return os.read(reading.open_number(), PIECE)
    except BlockingIOError:
        return None
    except ConnectionResetError:
        return b""


def write_piece(writing: Descriptor, unsent: memoryview) -> int:
    """How many of these bytes were taken; -1 if none will be taken any more."""
    try:
        return os.write(writing.open_number(), unsent[:PIECE])
    except BlockingIOError:
        return 0
    except (BrokenPipeError, ConnectionResetError):
        return -1


class Lines:
    """Two descriptors, one to read reply lines from and one to write lines to; both are this object's to close."""

    def __init__(self, reading: Descriptor, writing: Descriptor, timeout: Optional[float] = None) -> None:
        self._reading, self._writing, self._timeout = reading, writing, timeout
        self._conversation = Conversation()
        self._buffer = LineBuffer()
        self._read_lines: Deque[bytes] = deque()
        os.set_blocking(reading.number, False)
        os.set_blocking(writing.number, False)

    def exchange(self, call: Call) -> None:
        """Sends the lines of a call, and takes the replies to them; `StreamEnded` if the other side ends before."""
        unsent = self._write(memoryview(self._conversation.send([call])), call)
        while unsent:
            ready = self._ready(self._writing)
            if self._writing in ready:
                unsent = self._write(unsent, call)
            if self._reading in ready:
                self._conversation.take(self._read())
        while not call.done:
            self._ready()
            self._conversation.take(self._read())

    def send(self, line: bytes) -> None:
        """Sends a line of a few bytes, whose replies `next_line` returns."""
        unsent, call = memoryview(line), Call([])
        while unsent:
            self._ready(self._writing)
            unsent = self._write(unsent, call)

    def next_line(self) -> bytes:
        """The next line that the other side sends, without its LF; `StreamEnded` if none comes."""
        while not self._read_lines:
            self._ready()
            self._read_lines += self._buffer.take(self._read())
        return self._read_lines.popleft()

    def close_both(self) -> None:
        """Closes both."""
        self._writing.close()
        self._reading.close()

    def _ready(self, *more: Descriptor) -> List[Descriptor]:
        """Which of them can go on: the one to read from, and more."""
        asked = {each.open_number(): each for each in (self._reading, *more)}
        # A poll has nothing in the system that a child made by fork would share.
        poll = select.poll()
        for number, each in asked.items():
            poll.register(number, select.POLLIN if each is self._reading else select.POLLOUT)
        ready = [asked[number] for number, _ in poll.poll(None if self._timeout is None else 1000 * self._timeout)]
        if not ready:
            raise StreamSilent
        return ready

    def _write(self, unsent: memoryview, call: Call) -> memoryview:
        count = write_piece(self._writing, unsent)
        if count < 0:
            # It reads no more; what it answered before is still to be read.
            return unsent[len(unsent):]
        call.sent = call.sent or count > 0
        return unsent[count:]

    def _read(self) -> bytes:
        piece = read_piece(self._reading)
        if piece == b"":
            raise StreamEnded
        return piece or b""
