"""Changes that are made exactly once, though their answer may be lost and they may be sent again.

A mark of the store is set with them, all or none, and only if it isn't there yet. So the same changes are not made
twice, even if two calls with one key are under way at once, or an earlier line still waits somewhere.
"""
from typing import List, Optional

from .errors import AccessError, Ended, JpstoreError, Malformed, Overtaken, TimedOut
from .notices import warn_of_command
from .results import Mark
from .wire import commands, requests
from .wire.commands import Command, is_change
from .wire.forms import MARKING, has_form
from .wire.requests import Request
from .wire.session import Trying

__all__ = ["Once", "mark_of_key"]

_NO_MARKS = ("this store has no marks, and nothing was changed. At a node of a replicated store: a transaction has one "
             "mark, and that is the node's place in the log. In format 2: `jpstore upgrade FILE` brings a store to "
             "format 3, which has marks. In memory there are none")


def _digest(text: bytes) -> str:
    # It takes a while, and few programs use it.
    import hashlib
    return hashlib.sha256(text).hexdigest()[:40]


def mark_of_key(key: str, by: Optional[str]) -> str:
    """The key of the mark that is set with the changes of a key: that of the client `by`, or one of the key's own."""
    try:
        if not isinstance(key, str) or not key:
            raise JpstoreError("a key is a text that isn't empty")
        own = "once-" + _digest(key.encode())
    except UnicodeEncodeError:
        raise JpstoreError(f"the key {key!r} has half of a surrogate pair") from None
    if by is None:
        return own
    if not MARKING["mark"]({"key": by, "value": key}):
        raise JpstoreError("`by` is the name of a client, and a key by it has at most 128 bytes")
    return by


class Once:
    """The work of one key: its line, and whether it is sent again."""

    def __init__(self, key: str, changes: List[Command], by: Optional[str]) -> None:
        #: The key of the mark, and whether that is a client's, which has the last of its keys.
        self.place, self.is_by = mark_of_key(key, by), by is not None
        if not changes or not all(map(is_change, changes)):
            raise JpstoreError("what is made once is a list of changes: create, patch, schema and delete")
        for change in changes:
            warn_of_command(change)
        bare = commands.transaction(changes)
        texts = commands.texts_in_transaction(commands.line_of(bare))
        self._key, self._changes = key, changes
        self._value = key if self.is_by else _digest(b"[%b]" % texts)
        self._has_form = has_form(bare)
        self._before: Optional[str] = None
        self._lost: Optional[Ended] = None

    @property
    def request(self) -> Request[int]:
        """The changes with the mark; their number."""
        return requests.change(commands.transaction(self._changes, (self.place, self._value), self._before))

    def made(self, present: Optional[Mark]) -> Optional[int]:
        """The number of the changes, if this mark says that they are made; else it is the one that is asked for."""
        if present is not None and present.value == self._value:
            return present.seq
        self._before = None if present is None else present.value
        return None

    def overtaken(self, refused: Overtaken, may: bool) -> Optional[int]:
        """The number of the changes, if they are made; an error if they may not be tried again."""
        found = self.made(None if refused.mark is None else Mark(refused.mark, refused.seq or 0))
        if found is not None:
            return found
        if not self.is_by:
            raise JpstoreError(f"the key {self._key!r} was used for other changes, the last of which is number "
                               f"{refused.seq}") from refused
        if self._lost is not None:
            # They may have been made before the client's other work.
            raise self._lost from refused
        if not may:
            raise refused
        return None

    def check_again(self, error: JpstoreError, may: bool, trying: Trying) -> None:
        """Raises an error, unless an answer was lost and the line is sent again. A hub that hangs is left alone."""
        if isinstance(error, Malformed) and error.number == 14 and error.change is None and self._has_form:
            raise JpstoreError(_NO_MARKS) from error
        if isinstance(error, Ended) and error.change is not None:
            self._lost = error
            if may and not isinstance(error, TimedOut) and trying.again():
                return
        if self._lost is not None and isinstance(error, (AccessError, Ended)):
            raise self._lost from error
        raise error
