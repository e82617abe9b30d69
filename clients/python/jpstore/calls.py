"""The calls of several steps, once for `Store` and `AsyncStore`: coroutines, whose steps a store of either kind does.

The steps of a `Store` are done when they return, so its coroutines never wait, and `finished` runs them to their end.
"""
import warnings
from typing import Any, Callable, Dict, List, Optional, Sequence, TypeVar

from .errors import (
    Conflict, Ended, Invalid, JpstoreError, JpstoreWarning, NotFound, Outdated, Overtaken, Refused,
)
from .faults.words import shown
from .merge import operations_of_merge
from .notices import notice_of_filter, steps_of_filter
from .once import Once, mark_of_key
from .results import Node
from .wire import requests
from .wire.commands import Command
from .wire.requests import Outcome, Request
from .wire.session import Trying

__all__ = [
    "ATTEMPTS", "NO_ATTEMPT", "Steps", "group_lines", "judged", "leave", "merge_patch", "once", "put",
    "query", "query_all", "update",
]

T = TypeVar("T")

#: How often `update`, `merge_patch`, `put`, `once` and the gateway try at most if others change a document meanwhile.
ATTEMPTS = 100

# The most documents that are asked together: a reply may have 16 MiB.
_TOGETHER = 32

#: What is said if they may not try at all.
NO_ATTEMPT = "`attempts` must be 1 or more"


class Steps:
    """The steps that a store does, of which each kind of store has its own."""

    #: How many calls are between a coroutine of this module and the line that calls the store.
    calls_between = 1

    def __init__(self, store: Any) -> None:
        self._store = store

    @property
    def closed(self) -> bool:
        """Whether the session is over."""
        return bool(self._store.closed)

    @property
    def wait(self) -> float:
        """How long it is tried again after a connection was lost, in seconds."""
        return float(self._store._session.wait)

    async def ask(self, request: Request[T]) -> T:
        """Sends a request, and reads its replies."""
        raise NotImplementedError

    async def change(self, lines: List[bytes]) -> List[bytes]:
        """The replies to a group of changes. The line after them ends one that the program would else wait to fill."""
        raise NotImplementedError

    async def explain(self, refused: Invalid) -> None:
        """Reads what `why` needs."""
        raise NotImplementedError

    async def pause(self, seconds: float) -> None:
        """Waits before the next try."""
        raise NotImplementedError

    async def close(self) -> None:
        """Ends the session."""
        raise NotImplementedError


async def leave(steps: Steps, broken_off: bool) -> None:
    """Ends the session at the end of a block."""
    try:
        await steps.close()
    except Ended:
        # What broke off the block says more than how the program ended.
        if not broken_off:
            raise


async def update(steps: Steps, name: str, change: Callable[[Any], List[Command]], attempts: int, pause: float) -> int:
    """As `Store.update`."""
    for left in range(attempts - 1, -1, -1):
        rev, value = await steps.ask(requests.rev_and_doc(name))
        try:
            return await steps.ask(requests.change(requests.patch(name, _operations(change(value)), rev)))
        except Outdated:
            if not left:
                raise
        await steps.pause(pause)
    raise JpstoreError(NO_ATTEMPT)


def _operations(returned: Any) -> List[Command]:
    if not isinstance(returned, (list, tuple)) or not all(isinstance(each, dict) and "op" in each for each in returned):
        raise JpstoreError("what `update` is given returns a list of the operations of a JSON Patch for the value, as "
                           '`[{"op": "replace", "path": "", "value": NEW}]`, and this is '
                           f"{shown(returned)}; `put` takes a new document")
    return list(returned)


async def merge_patch(steps: Steps, name: str, patch: Any, if_rev: Optional[int], attempts: int, pause: float) -> int:
    """As `Store.merge_patch`."""
    if if_rev is None:
        return await update(steps, name, lambda doc: operations_of_merge(doc, patch), attempts, pause)
    doc = await steps.ask(requests.get(name, ""))
    return await steps.ask(requests.change(requests.patch(name, operations_of_merge(doc, patch), if_rev)))


async def put(steps: Steps, replacing: Request[int], making: Optional[Request[int]], attempts: int,
              pause: float) -> int:
    """As `Store.put`, by the request that replaces a document, and the one that makes it; None if it must be there."""
    for left in range(attempts - 1, -1, -1):
        try:
            return await steps.ask(replacing)
        except NotFound:
            if making is None:
                raise
        try:
            return await steps.ask(making)
        except Conflict:
            if not left:
                raise
        await steps.pause(pause)
    raise JpstoreError(NO_ATTEMPT)


async def once(steps: Steps, work: Once, attempts: int, pause: float) -> int:
    """As `Store.once`."""
    if attempts < 1:
        raise JpstoreError(NO_ATTEMPT)
    made = work.made(await steps.ask(requests.mark(work.place))) if work.is_by else None
    trying, left = Trying(steps.wait), attempts - 1
    while made is None:
        try:
            return await steps.ask(work.request)
        except Overtaken as refused:
            made = work.overtaken(refused, left > 0)
            left, wait = left - 1, pause if made is None else 0.0
        except JpstoreError as error:
            work.check_again(error, not steps.closed, trying)
            wait = trying.pause
        await steps.pause(wait)
    return made


async def noted(steps: Steps, key: str, by: Optional[str]) -> Optional[int]:
    """As `Store.noted`."""
    found = await steps.ask(requests.mark(mark_of_key(key, by)))
    return None if found is None or (by is not None and found.value != key) else found.seq


async def query(steps: Steps, name: str, path: str) -> List[Node]:
    """As `Store.query`."""
    found = await steps.ask(requests.query(name, path))
    notice = None if found else await _notice_of_filter(steps, path, [name])
    if notice:
        warnings.warn(notice, JpstoreWarning, stacklevel=2 + steps.calls_between)
    return found


async def query_all(steps: Steps, path: str, prefix: str) -> Dict[str, List[Node]]:
    """As `Store.query_all`."""
    found: Dict[str, List[Node]] = {}
    names = await steps.ask(requests.names(prefix))
    for begin in range(0, len(names), _TOGETHER):
        found.update(await steps.ask(requests.query_all(names[begin:begin + _TOGETHER], path)))
    notice = None if found else await _notice_of_filter(steps, path, names[:_TOGETHER])
    if notice:
        warnings.warn(notice, JpstoreWarning, stacklevel=2 + steps.calls_between)
    return found


async def _notice_of_filter(steps: Steps, path: str, names: Sequence[str]) -> Optional[str]:
    """What may be a mistake in a query that finds nothing: its filter asks the members of documents for their own."""
    for step in steps_of_filter(path):
        own = await steps.ask(requests.query_all(names, f"${step}"))
        if own and not await steps.ask(requests.query_all(list(own), f"$[*]{step}")):
            return notice_of_filter(path, step)
    return None


async def group_lines(steps: Steps, lines: List[bytes]) -> List[Outcome]:
    """As `Store.group_lines`."""
    if not lines:
        return []
    try:
        replies = await steps.change(lines)
    except Ended as ended:
        ended.replies = requests.outcomes_of(ended.replies, lines)
        raise
    return requests.outcomes_of(replies, lines)


async def judged(steps: Steps, outcomes: List[Outcome], check: bool) -> Sequence[Outcome]:
    """The outcomes of a group; with `check` the first refusal among them is raised."""
    refused = next((outcome for outcome in outcomes if check and isinstance(outcome, Refused)), None)
    if refused is None:
        return outcomes
    refused.outcomes = outcomes
    if isinstance(refused, Invalid):
        await steps.explain(refused)
    raise refused
