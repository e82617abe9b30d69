"""A connection to a hub whose lines are read as they are asked for, over asyncio."""
import asyncio
from collections import deque
from typing import Deque, Optional

from ..wire.connection import ended_connection
from ..wire.conversation import LineBuffer
from ..wire.forks import Descriptor
from ..wire.stream import StreamEnded, StreamSilent, read_piece, write_piece
from .channel import connect

__all__ = ["AsyncReader"]


class AsyncReader:
    """The connection: one line is sent at its begin, and any number of lines comes."""

    def __init__(self, path: str, descriptor: Descriptor, timeout: Optional[float]) -> None:
        self._path, self._descriptor, self._timeout = path, descriptor, timeout
        self._loop = asyncio.get_running_loop()
        self._buffer = LineBuffer()
        self._lines: Deque[bytes] = deque()
        self._woken: "Optional[asyncio.Future[bool]]" = None

    @classmethod
    async def begun(cls, path: str, line: bytes, timeout: Optional[float] = None) -> "AsyncReader":
        """Connects, and sends a line, which is short: an empty socket takes it at once."""
        reader = cls(path, await connect(path, timeout), timeout)
        write_piece(reader._descriptor, memoryview(line))
        return reader

    async def next_line(self) -> bytes:
        """The next line, without its LF; the error that says how the connection ended if none comes."""
        while not self._lines:
            heard = await self._wait()
            # It may have been closed meanwhile.
            piece = b"" if self._descriptor.closed else read_piece(self._descriptor)
            if not heard or piece == b"":
                self.close()
                ended = StreamEnded() if heard else StreamSilent()
                raise ended_connection(self._path, ended, self._timeout)
            self._lines += self._buffer.take(piece or b"")
        return self._lines.popleft()

    async def _wait(self) -> bool:
        """Whether there is something to read, or the connection was closed, before it was silent for too long."""
        if self._descriptor.closed:
            return True
        woken: "asyncio.Future[bool]" = self._loop.create_future()
        self._woken = woken
        self._loop.add_reader(self._descriptor.number, self._wake, True)
        late = None if self._timeout is None else self._loop.call_later(self._timeout, self._wake, False)
        try:
            return await woken
        finally:
            if late is not None:
                late.cancel()
            if not self._descriptor.closed:
                self._loop.remove_reader(self._descriptor.number)

    def _wake(self, heard: bool) -> None:
        if self._woken is not None and not self._woken.done():
            self._woken.set_result(heard)

    def close(self) -> None:
        """Closes the connection; one who waits for a line of it gets the error."""
        if not self._descriptor.closed:
            self._loop.remove_reader(self._descriptor.number)
            self._descriptor.close()
        self._wake(True)
