"""The log: the history of one key of etcd.

Each entry is a put of the key `NAME/log`. The version that etcd gives to the key is the entry's number n (1, 2, 3, ..),
and its modification revision r is the place from which a watch finds the entry again. To trim the log is to compact.
"""
import asyncio
import hashlib
import json
import time
import uuid
from enum import Enum
from typing import Any, AsyncGenerator, Dict, List, NamedTuple, Optional, Sequence, Tuple

from ..errors import JpstoreError
from .engine import Engine, Member, NoAnswer, NoSpace, Rejected, Trimmed, packed, unpacked
from .errors import ANEW, OLDER, WrongLog
from .reach import Reach
from .tasks import end_tasks, started

__all__ = ["Agreed", "DIGESTS", "Entry", "EntryKind", "Head", "Log", "PATIENCE", "PLACES", "TakenOver", "Unknown"]

#: How long the calls of an operator may take, in seconds.
PATIENCE = 10.0

#: What nodes tell of themselves.
PLACES, DIGESTS = "nodes", "compared"

# What the key ends with that makes a log.
_AGREED = b"/agreed"

# How long it waits before it watches at another member.
_PAUSE = 0.05

# How often an entry may be left out by a member before the log counts as broken.
_MOST_GAPS = 5

# How many letters the digest of an entry's name has.
_DIGEST = 10


class TakenOver(JpstoreError):
    """Another process has registered under this node's name since."""


class Unknown(Rejected):
    """Etcd has no space, and it can't be told whether the entry is in the log."""


class EntryKind(Enum):
    """What an entry is for."""

    #: Changes of clients.
    LINES = "lines"
    #: From here on another version of the program judges.
    VERSION = "version"
    #: Each node compares what it has here with the others.
    COMPARE = "compare"


class Entry(NamedTuple):
    """An entry: its number, its revision, its name, and the lines of its changes, each with its LF."""

    n: int
    r: int
    id: str
    kind: EntryKind
    version: str
    lines: List[bytes]

    @property
    def digest(self) -> str:
        """A short digest of its name."""
        return hashlib.sha256(self.id.encode()).hexdigest()[:_DIGEST]

    @classmethod
    def of(cls, n: int, r: int, value: bytes) -> "Entry":
        """The entry that the key's value is; `WrongLog` if it is none."""
        head, _, rest = value.partition(b"\n")
        try:
            told = json.loads(head)
            lines = [line + b"\n" for line in rest.split(b"\n")[:-1]]
            return cls(n, r, told["id"], EntryKind(told["kind"]), told.get("version", ""), lines)
        except (ValueError, KeyError, TypeError):
            raise WrongLog(f"entry {n} of the log is none that a node writes") from None


class Agreed(NamedTuple):
    """What was agreed when the log was made: its identity, the capacity that each file has, and the first state, by a
    digest and the version of the program that judges from there on."""

    log: str
    capacity: int
    digest: str
    version: str


class Head(NamedTuple):
    """The last entry: its number and its revision, both 0 if there is none."""

    n: int
    r: int


class Log:
    """The log of this name. One call at a time; each task that calls has a log of its own."""

    def __init__(self, members: Sequence[Member], name: str, first: int = 0, reach: Optional[Reach] = None) -> None:
        self._engine = Engine(members, first, reach)
        self._members, self._first, self._reach, self._name = members, first, reach, name
        self._node, self._last = "", 0

    def _key(self, word: str) -> str:
        return packed(f"{self._name}/{word}".encode())

    async def _read(self, word: str, patience: Optional[float], keys_only: bool = False) -> Optional[Dict[str, Any]]:
        answer = await self._engine.call("/kv/range", {"key": self._key(word), "keys_only": keys_only}, patience)
        found = answer.get("kvs")
        return found[0] if found else None

    async def agree(self, wanted: Agreed) -> Agreed:
        """Makes the log, if it doesn't exist; returns what was agreed by whoever made it."""
        body = {"compare": [_is_absent(self._key("agreed"))],
                "success": [_put(self._key("agreed"), json.dumps(wanted._asdict()).encode())]}
        await self._engine.call("/kv/txn", body, PATIENCE)
        return await self.agreed()

    async def agreed(self, patience: Optional[float] = PATIENCE) -> Agreed:
        """What was agreed when the log was made; an error if there is no such log."""
        found = await self._read("agreed", patience)
        if found is None:
            raise JpstoreError(f"etcd has no log {self._name}: make it by `python3 -m jpstore replica init`")
        told = json.loads(unpacked(found["value"]))
        if "version" not in told:
            raise WrongLog(f"{self._name} is a log of older nodes: {OLDER}")
        return Agreed(**told)

    async def head(self, patience: Optional[float] = None) -> Head:
        """The last entry, as a majority has it now: a linearizable read."""
        found = await self._read("log", patience, True)
        return Head(int(found["version"]), int(found["mod_revision"])) if found else Head(0, 0)

    async def register(self, node: str) -> str:
        """Begins to append for this node, and shuts out what an earlier process left on its way; returns its name."""
        self._node, name, seen = node, uuid.uuid4().hex[:12], 0
        key = self._key("writers/" + node)
        while True:
            body = {"compare": [_has_revision(key, seen)], "success": [_put(key, name.encode())],
                    "failure": [{"request_range": {"key": key}}]}
            answer = await self._engine.call("/kv/txn", body)
            if answer.get("succeeded"):
                self._last = int(answer["header"]["revision"])
                return name
            seen, value = _found_in(answer)
            if value == name:
                # An earlier try was committed, and its answer was lost.
                self._last = seen
                return name

    async def append(self, id: str, lines: Sequence[bytes], kind: EntryKind = EntryKind.LINES, version: str = "",
                     after: Optional[int] = None) -> bool:
        """Appends an entry, once, however often it must be sent; with `after` only right after that entry.

        `NoSpace` is raised only if it is sure that the entry isn't in the log, and never will be.
        """
        if not self._last:
            # What it had sent was shut out.
            await self.register(self._node)
        key = self._key("writers/" + self._node)
        head = {"id": id, "kind": kind.value, **({"version": version} if version else {})}
        value = json.dumps(head).encode() + b"\n" + b"".join(lines)
        compare = [_has_revision(key, self._last)]
        if after is not None:
            compare.append({"key": self._key("log"), "target": "VERSION", "result": "EQUAL", "version": str(after)})
        body = {"compare": compare, "success": [_put(key, id.encode()), _put(self._key("log"), value)],
                "failure": [{"request_range": {"key": key}}]}
        answer = await self._sent(key, body)
        if answer.get("succeeded"):
            self._last = int(answer["header"]["revision"])
            return True
        revision, found = _found_in(answer)
        if revision == self._last and after is not None:
            # Nothing of this node's came between: the log has another head.
            return False
        if revision in (0, self._last) or found != id:
            raise TakenOver(f"another process runs as node {self._node}")
        # A try was committed, and its answer was lost, or told of no space.
        self._last = revision
        return True

    async def _sent(self, key: str, body: Dict[str, Any]) -> Dict[str, Any]:
        """The answer to an append. A refusal is final only if no earlier try may have been committed."""
        tried = False
        while True:
            try:
                return await self._engine.call("/kv/txn", body, 0)
            except NoAnswer:
                tried = True
            except NoSpace as refused:
                return await self._settled(key, body, refused)
            except Rejected:
                if not tried:
                    raise
            await asyncio.sleep(_PAUSE)

    async def _settled(self, key: str, body: Dict[str, Any], refused: NoSpace) -> Dict[str, Any]:
        """The answer to an append that was refused for want of space, if a try of it was committed all the same.

        That refusal tells nothing: etcd commits what crosses its quota, and refuses it then. To delete the key that
        has not changed takes no space. It shuts out all tries, so the refusal is raised.
        """
        shut = {"compare": body["compare"][:1], "success": [{"request_delete_range": {"key": key}}],
                "failure": body["failure"]}
        last, self._last = self._last, 0
        try:
            answer = await self._engine.call("/kv/txn", shut)
        except Rejected as error:
            raise Unknown(str(error)) from None
        if answer.get("succeeded"):
            raise refused
        if not _found_in(answer)[0]:
            # The key was deleted, and the answer was lost; or another process did that.
            raise Unknown(str(refused))
        self._last = last
        return answer

    async def tell(self, what: str, node: str, told: Dict[str, Any], patience: Optional[float] = PATIENCE) -> None:
        """Tells the place of a node, from which the log is kept, or what it has after an entry."""
        body = {"key": self._key(f"{what}/{node}"), "value": packed(json.dumps(told).encode())}
        await self._engine.call("/kv/put", body, patience)

    async def told(self, what: str, patience: Optional[float] = PATIENCE) -> Dict[str, Dict[str, Any]]:
        """What each node has told last."""
        return await self._told_in(self._name.encode(), what, patience)

    async def _told_in(self, log: bytes, what: str, patience: Optional[float]) -> Dict[str, Dict[str, Any]]:
        begin = b"%b/%b/" % (log, what.encode())
        end = begin[:-1] + bytes([begin[-1] + 1])
        answer = await self._engine.call("/kv/range", {"key": packed(begin), "range_end": packed(end)}, patience)
        return {unpacked(each["key"])[len(begin):].decode(): json.loads(unpacked(each["value"]))
                for each in answer.get("kvs", [])}

    async def others(self) -> List[str]:
        """The names of the other logs in this etcd."""
        return [log.decode("utf-8", "replace") for log in (await self._logs())[1] if log != self._name.encode()]

    async def _logs(self) -> Tuple[int, List[bytes]]:
        """Etcd's revision, and the names of all logs in it: one that is made later begins after that revision.

        Each has the key that makes it, whichever version of nodes made it.
        """
        every = packed(b"\0")
        answer = await self._engine.call("/kv/range", {"key": every, "range_end": every, "keys_only": True}, PATIENCE)
        keys = [unpacked(each["key"]) for each in answer.get("kvs", [])]
        return int(answer["header"]["revision"]), [key[:-len(_AGREED)] for key in keys if key.endswith(_AGREED)]

    async def forget(self, node: str) -> bool:
        """Keeps the log no longer for a node; returns whether it was known."""
        place, _ = [await self._engine.call("/kv/deleterange", {"key": self._key(f"{what}/{node}")}, PATIENCE)
                    for what in (PLACES, DIGESTS)]
        return bool(int(place.get("deleted", 0)))

    async def trim(self) -> Optional[int]:
        """Drops the entries that all nodes have, of all logs in this etcd, since to drop concerns the whole etcd.

        Returns up to which revision, or None if there are none.
        """
        now, logs = await self._logs()
        places = [place for log in logs for place in (await self._told_in(log, PLACES, PATIENCE)).values()]
        # A node that is being made holds the log by 0. The last entry of each stays, since a node looks for it.
        until = min([now, *[int(place["r"]) for place in places]]) - 1 if places else 0
        return until if until > 0 and await self._dropped(until) else None

    async def _dropped(self, until: int) -> bool:
        """Drops what is up to a revision, and waits until it is gone; returns whether there was any."""
        body, end, tried = {"revision": str(until), "physical": True}, time.monotonic() + PATIENCE, False
        while True:
            try:
                await self._engine.call("/kv/compaction", body, 0)
                return True
            except NoAnswer:
                if time.monotonic() > end:
                    raise
                tried = True
            except Trimmed:
                # Perhaps by an earlier try, which took longer than one may.
                return tried
            await asyncio.sleep(_PAUSE)

    def watch(self) -> "Watched":
        """A watch of the entries."""
        return Watched(Engine(self._members, self._first, self._reach), self._key("log"))

    def close(self) -> None:
        """Closes the connection."""
        self._engine.close()


class _Compacted(Exception):
    """The log was trimmed up to this revision, which is after the one that is asked for."""

    def __init__(self, revision: int) -> None:
        super().__init__(revision)
        self.revision = revision


class Watched:
    """The entries as members send them. None may be left out, doubled or exchanged; that is checked here."""

    def __init__(self, engine: Engine, key: str) -> None:
        self._engine, self._key = engine, key
        self._reading: Optional["asyncio.Future[Any]"] = None

    def kick(self) -> None:
        """Goes to another member: the present one has nothing new."""
        if self._reading is not None:
            self._reading.cancel()

    async def entries(self, n: int = 0, r: int = 0, digest: str = "") -> AsyncGenerator[Entry, None]:
        """Each entry after number n, which must have this revision and digest; from the first one on if n is 0.

        On every connection the last entry comes first once more, since etcd may have been put back meanwhile. If it
        was trimmed, it is looked up in what is left.
        """
        last, gaps, trimmed = (n, r, digest), 0, 0
        while True:
            told, known = self._told(max(last[1], trimmed, 1)), last[0] == 0 or trimmed > last[1]
            trimmed = 0
            try:
                async for entry in told:
                    place = (entry.n, entry.r, entry.digest)
                    if (not known or entry.n == last[0]) and place != last:
                        raise _other_log(entry, last)
                    known = True
                    if entry.n > last[0] + 1:
                        gaps += 1
                        break
                    if entry.n == last[0] + 1:
                        last, gaps = place, 0
                        yield entry
            except _Compacted as compacted:
                trimmed = compacted.revision if await self._is_last(last, compacted.revision) else 0
                continue
            finally:
                await told.aclose()
            if gaps > _MOST_GAPS:
                raise WrongLog(f"the log has no entry {last[0] + 1}, and later ones: {ANEW}")
            self._engine.leave()
            await asyncio.sleep(_PAUSE)

    async def _is_last(self, last: Tuple[int, int, str], revision: int) -> bool:
        """Whether this was the last entry at a revision up to which the log was trimmed; no if it was trimmed further.

        `Trimmed` if there were later ones, which are gone.
        """
        try:
            answer = await self._engine.call("/kv/range", {"key": self._key, "revision": str(revision)})
        except Trimmed:
            await asyncio.sleep(_PAUSE)
            return False
        entry = _entry_in({"kv": answer["kvs"][0]}) if "kvs" in answer else Entry(0, 0, "", EntryKind.LINES, "", [])
        if entry.n > last[0]:
            raise Trimmed(f"the log is trimmed up to revision {revision}, and the store has no entry {last[0] + 1}, "
                          f"which was before that: {ANEW}")
        if last[0] and (entry.n, entry.r, entry.digest) != last:
            raise _other_log(entry, last)
        return True

    async def _told(self, revision: int) -> AsyncGenerator[Entry, None]:
        """The entries from a revision on, as one member sends them, until the connection ends."""
        body = {"create_request": {"key": self._key, "start_revision": str(revision), "fragment": True}}
        messages = self._engine.stream("/watch", body)
        try:
            while True:
                self._reading = started(messages.__anext__())
                await asyncio.wait([self._reading])
                if self._reading.cancelled():
                    return
                message = self._reading.result()
                if int(message.get("compact_revision", 0)):
                    raise _Compacted(int(message["compact_revision"]))
                if message.get("canceled"):
                    return
                for event in message.get("events", ()):
                    yield _entry_in(event)
        except (OSError, EOFError, ValueError, KeyError, asyncio.TimeoutError, asyncio.LimitOverrunError,
                StopAsyncIteration):
            return
        finally:
            if self._reading is not None:
                await end_tasks([self._reading])
            await messages.aclose()


def _other_log(entry: Entry, last: Tuple[int, int, str]) -> WrongLog:
    return WrongLog(f"the log has entry {entry.n} ({entry.digest}) at revision {entry.r}, and the store has entry "
                    f"{last[0]} ({last[2]}) at {last[1]}: it is another log, or an older copy of it: {ANEW}")


def _entry_in(event: Dict[str, Any]) -> Entry:
    if event.get("type", "PUT") != "PUT":
        raise WrongLog("the key of the log was deleted")
    found = event["kv"]
    return Entry.of(int(found["version"]), int(found["mod_revision"]), unpacked(found["value"]))


def _put(key: str, value: bytes) -> Dict[str, Any]:
    return {"request_put": {"key": key, "value": packed(value)}}


def _is_absent(key: str) -> Dict[str, Any]:
    return {"key": key, "target": "CREATE", "result": "EQUAL", "create_revision": "0"}


def _has_revision(key: str, revision: int) -> Dict[str, Any]:
    return {"key": key, "target": "MOD", "result": "EQUAL", "mod_revision": str(revision)}


def _found_in(answer: Dict[str, Any]) -> Tuple[int, str]:
    """The revision and the value of the key that a transaction has read when it failed; 0 and nothing without it."""
    found, = answer["responses"][0]["response_range"].get("kvs") or [{}]
    return int(found.get("mod_revision", 0)), unpacked(found.get("value", "")).decode()
