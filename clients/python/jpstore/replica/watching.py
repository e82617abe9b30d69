"""The newest changes of a store, in memory alone, and what a node answers by them to `watch` and to `changes`."""
import asyncio
import contextlib
import select
from collections import deque
from itertools import islice
from typing import Any, AsyncIterator, Deque, Dict, Iterable, Iterator, List, Optional, Sequence

from ..refusals import GONE, WATCHING
from ..wire.replies import line_of_reply, refusal
from .changes import length_of_frames

__all__ = ["History", "serve_watch"]

# The most changes that are kept, and the most bytes of them.
_MOST_CHANGES, _MOST_BYTES = 1 << 16, 1 << 24

# The bytes of changes that are handed on at once.
_PIECE = 1 << 16

# How often it looks whether a client that sends nothing more is still there, in seconds.
_LOOK = 1.0

# What the line of a change begins with, before the text of it.
_HEAD = b'{"change":'


class History:
    """The changes after number `base`, each as its line, without its LF."""

    def __init__(self, base: int, name: str) -> None:
        #: Tells this history from that of another store.
        self.name = name
        self.base = base
        self._lines: Deque[bytes] = deque()
        # How many lines each transaction has.
        self._sizes: Deque[int] = deque()
        self._bytes = 0
        self._grown = asyncio.Event()

    @property
    def last(self) -> int:
        """The number of the last change."""
        return self.base + len(self._lines)

    def after(self, seq: int, most: int) -> List[bytes]:
        """The lines of the next changes after number `seq`: about `most` bytes, but one line if there is one."""
        lines: List[bytes] = []
        for line in islice(self._lines, seq - self.base, None):
            lines.append(line)
            most -= len(line)
            if most <= 0:
                break
        return lines

    def told(self, seq: int, most: int) -> bytes:
        """The reply to `changes`: the transactions after number `seq`, the first `most` bytes, and one at least.

        They are gone if that is no last number of one that is kept, nor the one before all.
        """
        begin, sizes = self.base, iter(self._sizes)
        while begin < seq and begin < self.last:
            begin += next(sizes)
        if begin != seq:
            return line_of_reply({"from": self.base, "gone": True, "ok": True, "seq": self.last})
        told = b",".join(self._transactions(seq, list(sizes), most))
        return b'{"changes":[%b],"identity":"%b","ok":true,"seq":%d}\n' % (told, self.name.encode(), self.last)

    def _transactions(self, seq: int, sizes: Sequence[int], most: int) -> Iterator[bytes]:
        """The transactions of these sizes after number `seq`: the first `most` bytes of them, and one at least."""
        lines, last = islice(self._lines, seq - self.base, None), seq
        for size in sizes:
            first, before, last = last + 1, last, last + size
            some = enumerate(islice(lines, size), first)
            texts = [line[len(_HEAD):-len(_tail(first, last, at))] for at, line in some]
            most -= length_of_frames(sum(map(len, texts)), size)
            if before > seq and most < 0:
                return
            yield b'{"changes":[%b],"first":%d,"last":%d}' % (b",".join(texts), first, last)

    def add(self, transactions: Iterable[Sequence[bytes]]) -> None:
        """Adds changes, or transactions of several, by the texts of their changes. The oldest ones make room."""
        for texts in transactions:
            self._sizes.append(len(texts))
            first, last = self.last + 1, self.last + len(texts)
            for seq, text in enumerate(texts, first):
                self._lines.append(_HEAD + text + _tail(first, last, seq))
                self._bytes += len(self._lines[-1])
        while len(self._lines) > _MOST_CHANGES or self._bytes > _MOST_BYTES:
            for _ in range(self._sizes.popleft()):
                self._bytes -= len(self._lines.popleft())
                self.base += 1
        self._grown.set()
        self._grown = asyncio.Event()

    async def wait(self) -> None:
        """Waits for the next change, but a second at most."""
        with contextlib.suppress(asyncio.TimeoutError):
            await asyncio.wait_for(self._grown.wait(), _LOOK)


def _tail(first: int, last: int, seq: int) -> bytes:
    """What the line of a change has after the text of it; `first` and `last` are the numbers of its transaction."""
    return b'%b,"seq":%d}' % (b',"first":%d,"last":%d' % (first, last) if first < last else b"", seq)


async def serve_watch(watch: Dict[str, Any], lines: AsyncIterator[bytes], writer: asyncio.StreamWriter,
                      history: History) -> None:
    """Tells a client changes until it goes away, or sends a further line, which is refused."""
    telling = asyncio.ensure_future(_tell(watch, writer, history))
    further = asyncio.ensure_future(_next_of(lines))
    try:
        await asyncio.wait([telling, further], return_when=asyncio.FIRST_COMPLETED)
        if further.done() and further.result() is not None:
            writer.write(refusal(WATCHING))
            return
        await telling
    finally:
        telling.cancel()
        further.cancel()


async def _next_of(lines: AsyncIterator[bytes]) -> Optional[bytes]:
    """The next line; None at the end of input, or if the client is gone."""
    with contextlib.suppress(ConnectionError):
        async for line in lines:
            return line
    return None


async def _tell(watch: Dict[str, Any], writer: asyncio.StreamWriter, history: History) -> None:
    """Tells a client the changes after a number, until it goes away, or is so slow that the next ones are gone."""
    since = watch.get("from", history.last)
    is_known = since <= history.last and watch.get("history", history.name) == history.name
    if is_known and since >= history.base:
        writer.write(line_of_reply({"from": since, "history": history.name, "ok": True, "seq": history.last}))
    while is_known and since >= history.base:
        lines = history.after(since, _PIECE)
        if lines:
            writer.write(b"\n".join(lines) + b"\n")
            since += len(lines)
            # Waits as long as the client does not read. What it has still to read is then in the history alone.
            await writer.drain()
        else:
            await history.wait()
        if writer.is_closing() or not lines and _has_gone(writer):
            return
    writer.write(refusal(GONE, **{"from": history.base}))


def _has_gone(writer: asyncio.StreamWriter) -> bool:
    poll = select.poll()
    poll.register(writer.get_extra_info("socket").fileno(), 0)
    return bool(poll.poll(0))
