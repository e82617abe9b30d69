"""Forks: a child has nothing of its parent's stores. It lets go of them before it does anything else.

A descriptor that stayed open in a child would keep the parent's program waiting for more input, and the file locked. So
that the child misses none, descriptors are made and closed while no other thread forks.
"""
import contextlib
import os
import threading
import weakref
from typing import IO, Any, ContextManager, Optional

from ..errors import JpstoreError

__all__ = ["Descriptor", "check_process", "in_each_child", "not_here", "while_none_forks"]

_lock = threading.RLock()
_process = os.getpid()
_owners: "weakref.WeakSet[Any]" = weakref.WeakSet()


def while_none_forks() -> ContextManager[Any]:
    """A block during which no other thread of this process forks by `os.fork`; it should be short."""
    return _lock


def in_each_child(owner: Any) -> None:
    """Calls `owner.let_go()` in each child that is made by fork as long as this object is there."""
    _owners.add(owner)


def not_here() -> JpstoreError:
    """The error for a store that only its own process can use."""
    return JpstoreError("this store was opened in another process: open it in each, or serve it by a hub")


def check_process() -> None:
    """Lets go of the parent's stores, if this is a child that was made without `os.fork`."""
    if os.getpid() != _process:
        _let_go()


def _let_go() -> None:
    global _lock, _process
    # Another thread, which is not here, may have held it.
    _lock, _process = threading.RLock(), os.getpid()
    for owner in list(_owners):
        owner.let_go()


os.register_at_fork(before=lambda: _lock.acquire(), after_in_parent=lambda: _lock.release(), after_in_child=_let_go)


class Descriptor:
    """A file descriptor that this object closes: by `close`, when it is dropped, and in a child at once."""

    def __init__(self, number: int) -> None:
        #: The number; -1 once it is closed.
        self.number = number
        in_each_child(self)

    @classmethod
    def of(cls, stream: Optional[IO[bytes]]) -> "Descriptor":
        """One in place of a stream, which is closed."""
        assert stream is not None
        with stream:
            return cls(os.dup(stream.fileno()))

    @property
    def closed(self) -> bool:
        """Whether it is closed."""
        return self.number < 0

    def open_number(self) -> int:
        """The number; an error if it was closed, as by the fork that made this process in the midst of a call."""
        if self.closed:
            raise JpstoreError("this was begun in another process: begin it anew here")
        return self.number

    def close(self) -> None:
        """Closes it; nothing if that was done before."""
        with while_none_forks():
            number, self.number = self.number, -1
            if number >= 0:
                with contextlib.suppress(OSError):
                    os.close(number)

    let_go = __del__ = close
