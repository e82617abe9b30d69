"""One document of a hub's store, as it is now and after each change of it, over restarts of the hub."""
import contextlib
from dataclasses import dataclass
from typing import Any, AsyncGenerator, Callable, Iterator, Optional, TypeVar

from .calls import Steps
from .errors import Gone, JpstoreError, NotFound
from .watch import Change, Watcher
from .wire.finished import each_finished
from .wire.requests import Request, rev_and_value
from .wire.session import PAUSE, may_come

__all__ = ["Following", "Latest", "followed"]

F = TypeVar("F", bound="Following")


@dataclass(frozen=True)
class Latest:
    """A document, or the value at a place of it, and the revision that the document has with it."""

    rev: int
    value: Any


class Following(Iterator[Optional[Latest]]):
    """What `Store.follow` yields, with a connection of its own: a `with` block, or `close`, ends it."""

    def __init__(self, values: AsyncGenerator[Optional[Latest], None]) -> None:
        self._values = each_finished(values)

    def __enter__(self: F) -> F:
        return self

    def __exit__(self, *_: Any) -> None:
        self.close()

    def __iter__(self: F) -> F:
        return self

    def __next__(self) -> Optional[Latest]:
        return next(self._values)

    def close(self) -> None:
        """Ends it."""
        self._values.close()


async def followed(watch: Callable[[Optional[float]], Watcher[Any]], steps: Steps, name: str,
                   path: str) -> AsyncGenerator[Optional[Latest], None]:
    """As `Store.follow`; `watch` makes a watch that waits so long for the hub."""
    asked, latest, begun = rev_and_value(name, path), None, False
    while True:
        # The hub must be there at first, and may then go and come back.
        with contextlib.suppress(Gone), contextlib.closing(watch(float("inf") if begun else None)) as watching:
            # Watched first and read then: no change can come between.
            await watching._begun()
            change: Optional[Change] = None
            while True:
                if change is None or _concerns(change, name, latest):
                    was, latest = latest, await _read(steps, asked)
                    if not begun or was != latest:
                        begun = True
                        yield latest
                change = await watching._next()


def _concerns(change: Change, name: str, latest: Optional[Latest]) -> bool:
    """Whether a change was made to the document after what was read."""
    return change.command.get("name") == name and (latest is None or change.seq > latest.rev)


async def _read(steps: Steps, asked: "Request[Any]") -> Optional[Latest]:
    """The document as it is now; None if there is none. The hub is waited for."""
    while True:
        try:
            before, value, after = await steps.ask(asked)
        except NotFound:
            return None
        except JpstoreError as error:
            if not may_come(error):
                raise
            await steps.pause(PAUSE)
        else:
            if before == after:
                return Latest(after, value)
