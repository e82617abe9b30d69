"""The lines of an entry that a node refuses before the store judges them, for the sake of all other nodes.

A store refuses a change if its own file has no room (60), or a transaction that copies too many bytes (65). Files
differ, and a transaction has the lines of many clients. So the same line could be accepted on one node and
refused on another. A node reckons instead, by the documents before the entry and its lines alone, and every node
reckons the same:

- Room. The documents' snapshot before the entry, with the longest mark, and what its lines may add at most, must fit
  the room agreed on.
- Weight. What the lines may copy, and the documents that they put under other schemas, must be under what the program
  takes.

The lengths are measured only if bounds that are easily kept don't decide. That changes no verdict.
"""
import math
from typing import Dict, Iterable, List, NamedTuple, Sequence, Set

from ..wire import limits
from .changes import MOST_MARK, Change, Line, length_of_frames
from .line_reader import MOST_TEXT
from .store import ReplicaStore

__all__ = ["LEAST_CAPACITY", "Reckoning", "Room", "Verdict", "room_of"]

#: The refusals: no room, and too many bytes that are copied.
FULL, HEAVY = 60, 65

#: The least capacity that may be agreed on, in bytes.
LEAST_CAPACITY = 65_536

# The most bytes that the changes of a line take, and that the mark takes in a transaction and more in a snapshot.
_MOST_CHANGES = length_of_frames(limits.MOST_LINE_BYTES, limits.MOST_CHANGES)
_MARKS = 2 * MOST_MARK

# A patch counts its document if it takes values from among more members and elements than these.
_MOST_SIBLINGS = 500_000

# How many documents' lengths are kept at most.
_MOST_KEPT = 4_096


class Room(NamedTuple):
    """What a capacity has room for: all documents, and the changes of one entry, in bytes."""

    documents: int
    changes: int


def room_of(capacity: int) -> Room:
    """How an agreed capacity is divided. A store of this capacity never refuses such changes for its own room."""
    changes = min(_MOST_CHANGES + _MARKS, capacity // 2)
    return Room(capacity - changes, changes - _MARKS)


class Verdict(NamedTuple):
    """Which lines are refused, by their places, and whether the others may be one transaction."""

    out: Dict[int, int]
    whole: bool


class Need(Exception):
    """The verdict needs lengths that are not known."""

    def __init__(self, total: bool, names: Set[str]) -> None:
        super().__init__(total, names)
        self.total, self.names = total, names


class Reckoning:
    """Upper bounds of what the documents of a store have, and the verdicts by them."""

    def __init__(self, capacity: int) -> None:
        self.room = room_of(capacity)
        # The length of a snapshot with the longest mark at most, and whether it is exact; nothing is known at first.
        self._total, self._exact = math.inf, False
        self._lengths: Dict[str, int] = {}
        self._measured: Set[str] = set()

    def verdict(self, lines: Sequence[Line]) -> Verdict:
        """What is refused of an entry of these lines; `Need` if something must be measured before."""
        out = self._without_room(lines)
        return self._too_heavy(lines, out)

    def _without_room(self, lines: Sequence[Line]) -> Dict[int, int]:
        growth = sum(line.growth for line in lines)
        out = {place: FULL for place, line in enumerate(lines) if line.cost > self.room.changes}
        if self._total + growth <= self.room.documents:
            return out
        if not self._exact:
            raise Need(True, set())
        total = self._total
        for place, line in enumerate(lines):
            if line.growth and total + line.growth > self.room.documents:
                out[place] = FULL
            elif place not in out:
                total += line.growth
        return out

    def _too_heavy(self, lines: Sequence[Line], out: Dict[int, int]) -> Verdict:
        lengths: Dict[str, int] = {}
        weights = {place: sum(self._weight(change, lengths) for change in line.changes)
                   for place, line in enumerate(lines) if place not in out}
        # A node makes no larger entries, so this holds unless one has a fault.
        fits = (sum(lines[place].cost for place in weights) <= min(self.room.changes, MOST_TEXT)
                and sum(len(lines[place].changes) for place in weights) <= limits.MOST_CHANGES)
        if sum(weights.values()) <= limits.MOST_TRANSACTION_BYTES:
            return Verdict(out, fits)
        missing = lengths.keys() - self._measured
        if missing:
            raise Need(False, missing)
        heavy = {place: HEAVY for place, weight in weights.items() if weight > limits.MOST_TRANSACTION_BYTES}
        left = sum(weight for place, weight in weights.items() if place not in heavy)
        return Verdict({**out, **heavy}, fits and left <= limits.MOST_TRANSACTION_BYTES)

    def _weight(self, change: Change, lengths: Dict[str, int]) -> int:
        """The bytes that a change counts for 65, at most; the lengths after it are noted."""
        most = limits.MOST_DOCUMENT_BYTES
        before = lengths.get(change.name, self._lengths.get(change.name, most))
        after = lengths[change.name] = min(before + change.growth, most)
        if change.word == "schema":
            return before
        # A copy doubles the document at most. An object or array has fewer members or elements than half its bytes.
        copied = min((before + change.length) * ((1 << min(change.copies, 20)) - 1), most)
        return copied + (before if change.takes * after > 2 * _MOST_SIBLINGS else 0)

    def length(self, names: Iterable[str]) -> int:
        """How long documents are together at most."""
        return sum(self._lengths.get(name, limits.MOST_DOCUMENT_BYTES) for name in names)

    async def length_now(self, names: Iterable[str], store: ReplicaStore) -> int:
        """The same, by measuring them where that wasn't done."""
        await self.measure(Need(False, set(names) - self._measured), store, 0)
        return self.length(names)

    async def measure(self, need: Need, store: ReplicaStore, mark: int) -> None:
        """Measures what a verdict needs, at the place of the log where the store is. Its mark takes so many bytes, and
        that of another node at this place may take others."""
        if need.total:
            self._total, self._exact = await store.snapshot_length() - mark + MOST_MARK, True
        if need.names:
            self._lengths.update(await store.lengths(sorted(need.names)))
            self._measured |= need.names

    def count(self, lines: Sequence[Line]) -> None:
        """Takes lines into account that are done, or at most these."""
        changes: List[Change] = [change for line in lines for change in line.changes]
        self._exact = False
        self._total += sum(change.growth for change in changes)
        if len(self._lengths) > _MOST_KEPT:
            self._lengths.clear()
            self._measured.clear()
        for change in changes:
            before = self._lengths.get(change.name, limits.MOST_DOCUMENT_BYTES)
            self._lengths[change.name] = min(before + change.growth, limits.MOST_DOCUMENT_BYTES)
            self._measured.discard(change.name)
