"""The questions of clients: each waits until the store has what it must see."""
import asyncio
import contextlib
import time
from collections import deque
from itertools import chain
from typing import Callable, Deque, List, NamedTuple

from ..refusals import NO_MAJORITY
from ..wire.replies import refusal
from .errors import ANEW, WrongLog
from .log import Head, Log
from .tasks import within

__all__ = ["Asking"]

# How many questions are taken at once.
_MOST = 256

# How often the head is asked for if nobody asks, in seconds.
_LOOK = 0.5


class _Question(NamedTuple):
    """A question, the entry that must be done before it is answered, who waits, and since when."""

    need: int
    text: bytes
    answer: "asyncio.Future[bytes]"
    since: float


class Asking:
    """The questions that wait, and the head of the log as it was seen last. `woken` is called if one may be due."""

    def __init__(self, head: Head, woken: Callable[[], None]) -> None:
        #: The last entry that was seen, and when it was asked for.
        self.head, self.asked_at = head, 0.0
        self._woken = woken
        # Those that wait for a question of the head, those that wait for its answer, and those that have it.
        self._asking: List[_Question] = []
        self._asked_for: List[_Question] = []
        self._waiting: Deque[_Question] = deque()
        self._asked = asyncio.Event()

    def question(self, text: bytes, linear: bool) -> "asyncio.Future[bytes]":
        """Asks the store: after all that a majority has now, or at once."""
        answer: "asyncio.Future[bytes]" = asyncio.get_running_loop().create_future()
        question = _Question(0, text, answer, time.monotonic())
        if linear:
            self._asking.append(question)
            self._asked.set()
        else:
            self._waiting.append(question)
            self._woken()
        return answer

    def is_due(self, n: int) -> bool:
        """Whether a question can be answered by a store that has done entry n."""
        return any(question.need <= n for question in self._waiting)

    def due(self, n: int) -> List[_Question]:
        """Takes some questions that can be answered by a store that has done entry n."""
        due: List[_Question] = []
        later: Deque[_Question] = deque()
        for question in self._waiting:
            (due if question.need <= n and len(due) < _MOST else later).append(question)
        self._waiting = later
        return due

    def refuse_old(self, before: float) -> None:
        """Refuses what waits since before this time."""
        for question in chain(self._asking, self._asked_for, self._waiting):
            if question.since < before and not question.answer.done():
                question.answer.set_result(refusal(NO_MAJORITY))

    async def run(self, log: Log, received: Callable[[], Head], seen: Callable[[int], None]) -> None:
        """Asks for the head, once for all questions that wait. `seen` gets it, and `received` is the last entry
        that has come."""
        while True:
            self._asked.clear()
            if not self._asking:
                with contextlib.suppress(asyncio.TimeoutError):
                    await within(_LOOK, self._asked.wait())
            self._asked_for, self._asking = self._asking, []
            asked, before = time.monotonic(), received()
            head = await log.head()
            # Numbers and revisions rise together.
            if head != before and not (head.n > before.n and head.r > before.r):
                raise WrongLog(f"the log ends at entry {head.n} of revision {head.r}, and the store has entry "
                               f"{before.n} of {before.r}: it is another log, or an older copy of it: {ANEW}")
            self.head, self.asked_at = max(self.head, head), asked
            self._waiting.extend(each._replace(need=head.n) for each in self._asked_for if not each.answer.done())
            self._woken()
            seen(head.n)
