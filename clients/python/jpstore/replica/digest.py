"""A digest of all that a store has: its documents with their schemas and revisions, and the order of their creation.

It is a sum over the documents, kept by changes: what was changed since the last digest is read anew, in small pieces
between all else, so that nobody waits for more than a piece. A document that is changed before it is read is read right
before that. So the digest is that of one place in the log, though changes go on.
"""
import hashlib
import json
from typing import Awaitable, Callable, Dict, Iterable, List, NamedTuple, Optional, Set

from ..wire.commands import LIST, get, get_schema, line_of, rev
from ..wire.replies import REFUSED
from .store import ReplicaStore

__all__ = ["Digest", "Digesting", "MOST_TOGETHER"]

#: How many documents are read at once at most.
MOST_TOGETHER = 16

# Fewer are read at once if they have more bytes than these.
_MOST_BYTES = 1 << 18

# How many changed documents are noted at most before all are read anew.
_MOST_CHANGED = 1 << 17

# Refusals of questions for what can't be or isn't a document.
_NO_DOCUMENT = (15, 21)

_SUMS = 1 << 128


class Digest(NamedTuple):
    """What a store has after entry n."""

    n: int
    text: str


class Digesting:
    """The digest of a store at an entry, as soon as it is read. One call at a time."""

    def __init__(self, store: ReplicaStore) -> None:
        self._store = store
        self._hashes: Dict[str, int] = {}
        self._sum, self._together = 0, 1
        # The documents that were changed since they were read; None if all must be read.
        self._changed: Optional[Set[str]] = None
        # Those that are still to be read, for the digest of which entry, and what else that has.
        self._left: Set[str] = set()
        self._n, self._head = -1, ""

    @property
    def is_reading(self) -> bool:
        """Whether documents are still to be read for a digest."""
        return self._n >= 0

    async def begin(self, n: int, seq: int, chain: str) -> None:
        """Begins the digest of the store as it is after entry n. One that isn't read by then is not made any more."""
        listed, = await self._store.exchange([LIST])
        if listed.startswith(REFUSED):
            self._forget()
            return
        if self._changed is None:
            self._hashes, self._sum, self._left = {}, 0, set(json.loads(listed)["names"])
        else:
            self._left |= self._changed
        self._changed = set()
        self._n, self._head = n, f"{seq} {chain} {hashlib.sha256(listed).hexdigest()}"

    async def read(self) -> Optional[Digest]:
        """Reads some documents; returns the digest after the last ones."""
        await self._read([self._left.pop() for _ in range(min(self._together, len(self._left)))])
        if self._left or self._n < 0:
            return None
        n, self._n = self._n, -1
        return Digest(n, hashlib.sha256(f"{self._head} {self._sum:x}".encode()).hexdigest())

    async def before(self, names: Iterable[str], between: Callable[[], Awaitable[None]]) -> None:
        """Notes that these documents are changed next, and reads those that were to be read; calls `between` then."""
        if self._changed is None:
            return
        changed = set(names)
        left = sorted(changed & self._left)
        while left and self._n >= 0:
            some, left = left[:self._together], left[self._together:]
            self._left.difference_update(some)
            await self._read(some)
            await between()
        if self._changed is not None:
            self._changed |= changed
            if len(self._changed) > _MOST_CHANGED:
                self._forget()

    async def _read(self, names: List[str]) -> None:
        """Reads documents, whose hashes in the sum take the places of those before."""
        asked = [line_of(line) for name in names for line in (rev(name), get(name), get_schema(name))]
        replies = await self._store.exchange(asked)
        for name, *told in zip(names, replies[::3], replies[1::3], replies[2::3]):
            self._sum = (self._sum - self._hashes.pop(name, 0)) % _SUMS
            refused = [reply for reply in told if reply.startswith(REFUSED)]
            if not refused:
                value = hashlib.blake2b(b"%b\n" % name.encode() + b"".join(told), digest_size=16).digest()
                self._hashes[name] = int.from_bytes(value, "big")
                self._sum = (self._sum + self._hashes[name]) % _SUMS
            elif any(json.loads(reply)["number"] not in _NO_DOCUMENT for reply in refused):
                # Such as out of memory.
                self._forget()
                return
        few = sum(map(len, replies)) > _MOST_BYTES
        self._together = max(1, self._together // 2) if few else min(2 * self._together, MOST_TOGETHER)

    def _forget(self) -> None:
        """Makes no digest now, and reads all documents for the next one."""
        self._changed, self._left, self._n = None, set(), -1
