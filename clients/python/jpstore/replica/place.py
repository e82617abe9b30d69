"""The place of a store in the log: a mark of the store itself.

Each transaction of a node sets the mark to the place after it, and asks that it is the place before. So the place is
stored with the changes, or neither is. Entries that change nothing are not stored: their place is in memory, and etcd
is told it with the number of changes. Both are the same place to a store that has as many changes.
"""
import hashlib
from typing import Any, Dict, NamedTuple, Optional, Sequence

from ..wire.commands import line_of_transaction
from ..wire.values import canonical
from .changes import length_of_frames
from .log import Agreed, Entry

__all__ = [
    "MOST_VERSION", "Place", "as_told", "begin_of", "furthest", "key_of", "length_of_mark", "marked", "place_in",
]

#: The longest version. With numbers of 19 digits the place is then as long as the value of a mark may be.
MOST_VERSION = 56

# How many letters a chain has.
_CHAIN = 16


class Place(NamedTuple):
    """What a store has done of its log."""

    #: The last entry that is done whole: its number, its revision and the digest of its name.
    n: int
    r: int
    digest: str
    #: How many lines of the next entry are done, if it is done line by line; else -1.
    next: int
    #: A digest of the names of all entries that are done whole, in their order.
    chain: str
    #: The version of the program that judges.
    version: str

    def after(self, entry: Entry) -> "Place":
        """The place after the next entry."""
        chain = hashlib.sha256(f"{self.chain} {entry.id}".encode()).hexdigest()[:_CHAIN]
        return Place(entry.n, entry.r, entry.digest, -1, chain, entry.version or self.version)

    @property
    def text(self) -> str:
        """The value of the mark."""
        return f"{self.n} {self.r} {self.digest} {self.next} {self.chain} {self.version}"


def place_in(text: str) -> Place:
    """The place that a text tells."""
    n, r, digest, next, chain, version = text.split(" ", 5)
    return Place(int(n), int(r), digest, int(next), chain, version)


def begin_of(agreed: Agreed) -> Place:
    """The place of a store that has done nothing of a log."""
    return Place(0, 0, "", -1, "", agreed.version)


def key_of(log: str) -> str:
    """The key of the mark, by the identity of the log: so a mark is never taken for that of another log."""
    return f"log-{log}"


def as_told(place: Place, log: str, seq: int) -> Dict[str, Any]:
    """What etcd is told of a place: a store of this log that has as many changes is there, and needs the log from there
    on."""
    return {"log": log, "n": place.n, "place": place.text, "r": place.r, "seq": seq}


def furthest(stored: Place, told: Dict[str, Any], log: str, seq: int) -> Place:
    """The place of a store with this many changes: the stored one, or the one that etcd was told."""
    if (told.get("log"), told.get("seq")) != (log, seq):
        return stored
    return max(stored, place_in(told["place"]), key=lambda place: place.n)


def length_of_mark(key: str, place: Optional[Place]) -> int:
    """How many bytes the mark takes in a snapshot, where it is spelled as a creation; None is no mark."""
    if place is None:
        return 0
    return length_of_frames(len(canonical({"cmd": "create", "doc": place.text, "name": key, "schema": True})), 1)


def marked(texts: Sequence[bytes], key: str, before: Optional[Place], after: Place) -> bytes:
    """The line that makes the changes of these texts, and goes from one place to another; None is no mark."""
    return line_of_transaction(texts, (key, after.text), before and before.text)
