"""The calls and replies of a connection: requests to bytes, and bytes to replies, without descriptors."""
import copy
import json
from collections import deque
from typing import Deque, List, Sequence

from ..errors import Ended
from .commands import STATUS

__all__ = ["Call", "Conversation", "LineBuffer"]


class LineBuffer:
    """Cuts what comes into lines."""

    def __init__(self) -> None:
        self._rest = bytearray()

    def take(self, piece: bytes) -> List[bytes]:
        """The lines that end in this piece, without their LF."""
        if b"\n" not in piece:
            self._rest += piece
            return []
        *lines, rest = (bytes(self._rest) + piece).split(b"\n")
        self._rest = bytearray(rest)
        return lines


class Call:
    """Lines that are sent together, and the replies that came to them."""

    def __init__(self, lines: Sequence[bytes], changes: bool = False, gathered: bool = False) -> None:
        self.lines = lines
        #: Whether they change documents: then they are never sent twice.
        self.changes = changes
        #: Whether the program may gather them, and wait for more. Then a line comes after them, which ends that.
        self.gathered = gathered
        #: Whether a byte of them may have come to the other side.
        self.sent = False
        self.replies: List[bytes] = []

    @property
    def done(self) -> bool:
        """Whether each line has its reply."""
        return len(self.replies) >= len(self.lines)

    def broken_off(self, ended: Ended) -> Ended:
        """The error of this call for how the connection ended: with the first change that was sent and not answered."""
        error: Ended = copy.copy(ended)
        error.replies = list(self.replies)
        if self.sent and self.changes and not self.done:
            error.change = json.loads(self.lines[len(self.replies)])
        return error


class Conversation:
    """The calls of one connection that are under way: each line has one reply, and the replies come in order."""

    def __init__(self) -> None:
        self._buffer = LineBuffer()
        #: The calls that are not yet answered, the oldest first.
        self.under_way: Deque[Call] = deque()

    def send(self, calls: Sequence[Call]) -> bytes:
        """The bytes that send these calls. If the program may gather them, one line more ends that for all of them."""
        sent = [*calls, Call([STATUS])] if any(call.gathered for call in calls) else calls
        self.under_way += sent
        return b"".join(line for call in sent for line in call.lines)

    def take(self, piece: bytes) -> List[Call]:
        """The calls whose last reply ends in this piece."""
        return self.answer(self._buffer.take(piece))

    def answer(self, replies: Sequence[bytes]) -> List[Call]:
        """The calls of which the last of these replies is."""
        done: List[Call] = []
        for reply in replies:
            call = self.under_way[0]
            call.replies.append(reply)
            if call.done:
                done.append(self.under_way.popleft())
        return done
