"""The applier: a node does the log. Each entry is one transaction of its store, with the place after it as a mark.

If a line of the entry is refused, nothing of it is done yet. The line has its answer, is left out, and the rest is
tried again. After some refusals the rest is done line by line, each with a mark that says how far the entry is. Which
way an entry takes follows from the documents before it and from its lines alone, so every node takes the same way. One
that begins anew after the last accepted line tries those after it again, and they are refused again.

A node that has no memory for an entry as a whole does it line by line too, unless lines of it were refused before the
store judged them: a start in the midst of it would judge these by other documents.
"""
import json
from typing import Any, Awaitable, Callable, Deque, Dict, Iterable, List, NamedTuple, Optional, Sequence, Tuple

from ..errors import JpstoreError
from ..wire.replies import done, line_of_reply, refusal, seq_in
from .capacity import Need, Reckoning, Verdict
from .changes import Line, line_in
from .errors import Astray, Changed
from .log import Agreed, Entry, EntryKind
from .place import Place, as_told, key_of, length_of_mark, marked
from .store import MEMORY, Faulty, ReplicaStore
from .watching import History

__all__ = ["Applier", "Done", "OtherVersion"]

#: How many lines of an entry are refused at most before the rest is done line by line.
MOST_REFUSED = 3

# How many entries are sent at once at most, and how many bytes of them.
_MOST_TOGETHER, _MOST_BYTES = 64, 1 << 22

# Refusals of a line's form, which name no change.
_OF_FORM = (10, 11, 12, 14)

# The refusal of a mark that is not the one before.
_MARK = 25


class OtherVersion(JpstoreError):
    """The next entry is for another version of the program."""


class Done(NamedTuple):
    """An entry that is done, and what its lines were answered; None for a line that was done before this start."""

    entry: Entry
    answers: List[Optional[bytes]]


class _Task:
    """An entry under way."""

    def __init__(self, entry: Entry, lines: List[Line], out: Dict[int, int]) -> None:
        self.entry, self.lines = entry, lines
        self.answers: List[Optional[bytes]] = [None] * len(lines)
        for at, number in out.items():
            self.answers[at] = refusal(number)
        #: Which lines go into its transaction, and how many the store has refused.
        self.left, self.refused = [at for at in range(len(lines)) if at not in out], 0
        #: Whether the lines have the same answers if each is done alone, whatever memory there is.
        self.divisible = not out

    def refuse(self, at: int, answer: bytes) -> None:
        """Leaves out a line that was refused."""
        self.answers[at] = answer
        self.left.remove(at)
        self.refused += 1


class Applier:
    """Does the entries of the log, one after another, in a store."""

    def __init__(self, store: ReplicaStore, agreed: Agreed, stored: Optional[Place], place: Place,
                 version: str) -> None:
        self._store, self._log, self._reckoning = store, agreed.log, Reckoning(agreed.capacity)
        #: What the agreed capacity has room for.
        self.room = self._reckoning.room
        #: The version of the program.
        self.version = version
        #: The place of the store, and the number of its last change.
        self.place, self.seq = place, int(store.status["seq"])
        # The mark of the store, which is of the last entry or line that changed something.
        self._stored = stored
        #: The changes since this start. Every node numbers them in the same way, so a watcher may go on at another one.
        self.history = History(self.seq, name=agreed.log)
        #: Called with the names of documents that are changed next.
        self.before: Callable[[Iterable[str]], Awaitable[None]] = _nothing
        self._window = _MOST_TOGETHER

    def length(self, names: Iterable[str]) -> int:
        """How long documents are together at most."""
        return self._reckoning.length(names)

    async def length_now(self, names: Iterable[str]) -> int:
        """The same, for which they are read if need be."""
        return await self._reckoning.length_now(names, self._store)

    def told(self) -> Dict[str, Any]:
        """What etcd is told of the place."""
        return as_told(self.place, self._log, self.seq)

    async def apply(self, waiting: Deque[Entry]) -> List[Done]:
        """Does some of the entries that wait, at least one, and takes them away."""
        if self.place.next >= 0:
            # An earlier start has begun to do the entry line by line.
            entry = waiting.popleft()
            return [await self._rest(_Task(entry, self._lines_in(entry), {}), self.place.next)]
        group = await self._group(waiting)
        if not group:
            return [await self._alone(waiting.popleft())]
        done, reply = await self._together(group)
        finished = [Done(waiting.popleft(), task.answers) for task in group[:done]]
        if done == len(group):
            self._window = min(2 * self._window, _MOST_TOGETHER)
            return finished
        # What was sent after a refusal was refused too, so fewer entries are sent at once for a while.
        self._window = 1
        finished.append(await self._settle(group[done], reply))
        waiting.popleft()
        return finished

    async def _group(self, waiting: Deque[Entry]) -> List[_Task]:
        """The entries that are sent at once; none, if the next one has a way of its own."""
        group: List[_Task] = []
        size = 0
        for entry in list(waiting)[:self._window]:
            if entry.kind is not EntryKind.LINES:
                break
            lines = self._lines_in(entry)
            try:
                verdict = self._reckoning.verdict(lines) if group else await self._verdict(lines)
            except Need:
                # The store isn't there yet.
                break
            task = _Task(entry, lines, verdict.out)
            size += sum(map(len, entry.lines))
            if not verdict.whole or not task.left or group and size > _MOST_BYTES:
                break
            group.append(task)
            self._reckoning.count([lines[at] for at in task.left])
        return group

    async def _verdict(self, lines: List[Line]) -> Verdict:
        """The verdict on lines at the place of the store; what it needs is measured."""
        while True:
            try:
                return self._reckoning.verdict(lines)
            except Need as need:
                await self._reckoning.measure(need, self._store, length_of_mark(key_of(self._log), self._stored))

    async def _alone(self, entry: Entry) -> Done:
        """Does an entry that is no transaction of changes, or none as a whole."""
        lines = self._lines_in(entry)
        verdict = await self._verdict(lines) if lines else Verdict({}, True)
        task = _Task(entry, lines, verdict.out)
        return self._ended(task) if verdict.whole else await self._rest(task, 0)

    def _lines_in(self, entry: Entry) -> List[Line]:
        """The lines of an entry. `OtherVersion` if another version of the program judges them."""
        if entry.kind is EntryKind.VERSION and entry.version != self.version:
            raise OtherVersion(f"from entry {entry.n} on the log is for {entry.version}, and this is {self.version}: "
                               "install that version here")
        if entry.kind is EntryKind.LINES and self.place.version != self.version:
            raise OtherVersion(f"entry {entry.n} of the log is for {self.place.version}, and this is {self.version}: "
                               "run that version here until they are done, or move the file aside and make it anew by "
                               "`replica join`")
        return [line_in(line) for line in entry.lines]

    def _ended(self, task: _Task) -> Done:
        """Passes over an entry of which nothing more is to be made."""
        self.place = self.place.after(task.entry)
        return Done(task.entry, task.answers)

    async def _together(self, group: Sequence[_Task]) -> Tuple[int, bytes]:
        """Sends entries at once; returns how many are done, and what the next one was answered.

        Each asks for the mark of the one before. So if an entry is refused, all later ones are refused too.
        """
        sent, places, before, place = [], [], self._stored, self.place
        for task in group:
            place = place.after(task.entry)
            sent.append(self._line(task, task.left, before, place))
            places.append(place)
            before = place
        await self.before(change.name for task in group for at in task.left for change in task.lines[at].changes)
        replies = await self._store.change(sent)
        done = 0
        while done < len(group) and seq_in(replies[done]) is not None:
            self._take(places[done], group[done], group[done].left, replies[done])
            done += 1
        if any(seq_in(reply) is not None for reply in replies[done:]):
            raise Astray("an entry was done after one that was refused")
        return done, replies[done] if done < len(group) else b""

    def _line(self, task: _Task, left: Sequence[int], before: Optional[Place], after: Place) -> bytes:
        return marked([text for at in left for text in task.lines[at].texts], key_of(self._log), before, after)

    def _take(self, after: Place, task: _Task, left: Sequence[int], reply: bytes) -> None:
        """Takes lines as accepted by this reply, and the place after them."""
        for at in left:
            self.seq += len(task.lines[at].changes)
            task.answers[at] = done(self.seq)
        if seq_in(reply) != self.seq:
            raise Astray(f"the store answered {reply.decode().strip()} for change {self.seq}")
        self.history.add(task.lines[at].texts for at in left)
        self.place = self._stored = after

    async def _settle(self, task: _Task, reply: bytes) -> Done:
        """Goes on with an entry that was refused as a whole by this reply."""
        if json.loads(reply)["number"] == MEMORY:
            # Perhaps for the sake of another entry that was sent with it.
            done, reply = await self._together([task])
            if done:
                return Done(task.entry, task.answers)
        while True:
            if task.divisible and json.loads(reply)["number"] == MEMORY:
                return await self._rest(task, 0)
            told = _refusal_in(reply)
            if "change" not in told:
                return await self._undivided(task, told)
            index, begin = _line_of_change(task, told["change"])
            at = task.left[index]
            task.refuse(at, _as_alone(told, task.lines[at], begin))
            if task.refused == MOST_REFUSED:
                # The lines before it are sure to be accepted.
                if index and await self._attempt(task, task.left[:index], at + 1):
                    raise Astray(f"lines of entry {task.entry.n} were refused that had been accepted")
                return await self._rest(task, at + 1)
            if not task.left:
                return self._ended(task)
            done, reply = await self._together([task])
            if done:
                return Done(task.entry, task.answers)

    async def _undivided(self, task: _Task, told: Dict[str, Any]) -> Done:
        """Goes on with an entry whose refusal names none of its lines."""
        if told["number"] not in _OF_FORM:
            raise Astray(f"the store answered {json.dumps(told)} to entry {task.entry.n}")
        return await self._rest(task, 0)

    async def _rest(self, task: _Task, begin: int) -> Done:
        """Does the lines from `begin` on, each alone, and judges it by the documents as they are then.

        What was said of their room before counts no more: a start that goes on here doesn't know it.
        """
        for at in range(begin, len(task.lines)):
            out = (await self._verdict([task.lines[at]])).out
            told = None if out else await self._attempt(task, [at], at + 1)
            if out or told:
                task.answers[at] = _as_alone(told, task.lines[at], 0) if told else refusal(out[0])
        return self._ended(task)

    async def _attempt(self, task: _Task, left: Sequence[int], next: int) -> Optional[Dict[str, Any]]:
        """Does some lines of an entry, after which it goes on at `next`; returns the refusal if there is one."""
        after = self.place._replace(next=next)
        await self.before(change.name for at in left for change in task.lines[at].changes)
        reply, = await self._store.change([self._line(task, left, self._stored, after)])
        if seq_in(reply) is None:
            return _refusal_in(reply)
        self._take(after, task, left, reply)
        self._reckoning.count([task.lines[at] for at in left])
        return None


async def _nothing(_: Iterable[str]) -> None:
    pass


def _refusal_in(reply: bytes) -> Dict[str, Any]:
    """A refusal of the store; `Changed` if its mark was not the one before, and `Faulty` if it has no memory."""
    told: Dict[str, Any] = json.loads(reply)
    if told["number"] == MEMORY:
        raise Faulty(f"the store of this node had a fault: {reply.decode().strip()}")
    if told["number"] == _MARK:
        raise Changed(f"the file of this node was changed by somebody else: {reply.decode().strip()}")
    return told


def _line_of_change(task: _Task, change: int) -> Tuple[int, int]:
    """Which of the lines that are left has this change of their transaction, and the number of its first one."""
    index = begin = 0
    while begin + len(task.lines[task.left[index]].changes) <= change:
        begin += len(task.lines[task.left[index]].changes)
        index += 1
    return index, begin


def _as_alone(told: Dict[str, int], line: Line, begin: int) -> bytes:
    """A refusal of a transaction as the refusal of one of its lines, whose first change is number `begin`."""
    change = told.pop("change", None)
    if line.several and change is not None:
        told["change"] = change - begin
    return line_of_reply(told)
