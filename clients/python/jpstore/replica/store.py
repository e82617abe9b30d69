"""The program under a node, and what its replies mean."""
import asyncio
import contextlib
import hashlib
import json
import time
from asyncio.subprocess import PIPE, Process
from typing import Any, Dict, List, Optional, Sequence, Tuple

from ..errors import Ended, JpstoreError
from ..wire import commands
from ..wire.commands import LIST, SNAPSHOT, STATUS, line_of
from ..wire.limits import MOST_GROUP
from ..wire.program import ended_program, find_program, serve_words, version_of
from ..wire.replies import REFUSED, text_in
from ..wire.store_file import format_of
from .errors import ANEW, Changed, WrongLog
from .log import Agreed
from .place import MOST_VERSION, Place, key_of, place_in

__all__ = ["Faulty", "MEMORY", "ReplicaStore", "judge_of"]

# Refusals that are no answers of the log: those of this machine (60 to 64), as another node may have accepted the
# change, and that of an entry as a whole (65), which the reckoning leaves to none. One for memory may be for entries
# that were sent together.
_FAULTS = (60, 61, 62, 64, 65)

#: The refusal for want of memory.
MEMORY = 63

# Longer than any reply of the program, and the bytes of replies that are dropped at once.
_MOST_REPLY, _PIECE = (1 << 24) + (1 << 16), 1 << 16

# How long it waits before it looks again whether a file is free, in seconds.
_PAUSE = 0.05

# How many documents are read at once for the digest of a first state.
_TOGETHER = 16

# How many letters the digest of a long version has.
_DIGEST = 16


class Faulty(JpstoreError):
    """The store of this node had a fault of its own. What it has done is whole, and a new start may go on."""


def judge_of(program: Optional[str]) -> str:
    """By what the changes of a store are judged: the version of the program, if need be with a digest of its rest."""
    version = version_of(find_program(program)).encode("ascii", "replace")
    if len(version) > MOST_VERSION:
        version = version[:MOST_VERSION - _DIGEST] + hashlib.sha256(version).hexdigest()[:_DIGEST].encode()
    return version.decode()


class ReplicaStore:
    """The program that serves a node's file. One call at a time."""

    def __init__(self, file: str, words: List[str], program: Process) -> None:
        assert program.stdin and program.stdout and program.stderr
        self.file = file
        self.process = program
        self._words, self._input, self._output, self._errors = words, program.stdin, program.stdout, program.stderr
        #: The last status of the store.
        self.status: Dict[str, Any] = {}

    @classmethod
    async def open(cls, file: str, program: Optional[str], pump: int = 0, wait: float = 0) -> "ReplicaStore":
        """Starts the program. `Ended` if it can't open the file, which may be in use for so many seconds."""
        if format_of(file) != 3:
            raise JpstoreError(f"{file} is of format 2, and nodes keep their place in format 3 alone: bring it to that "
                               "by `jpstore upgrade`")
        words, until = serve_words(find_program(program), file, MOST_GROUP, pump), time.monotonic() + wait
        while True:
            # In a session of its own, so that an interrupt at the terminal does not end it before the node.
            store = cls(file, words, await asyncio.create_subprocess_exec(
                *words, stdin=PIPE, stdout=PIPE, stderr=PIPE, limit=_MOST_REPLY, start_new_session=True))
            store._input.write(STATUS)
            if await store._output.readline():
                await store.ask([])
                return store
            ended = await store.close()
            if ended.name != "in-use" or time.monotonic() >= until:
                raise ended
            await asyncio.sleep(_PAUSE)

    async def close(self) -> Ended:
        """Ends the program, which gets no more lines, and returns how it ended."""
        self._input.close()
        # A program whose replies nobody reads any more would wait for that.
        dropping = asyncio.ensure_future(self._drop())
        # What was written to a program that has ended is lost, and that is no error of its own.
        with contextlib.suppress(OSError):
            await self._input.wait_closed()
        errors = await self._errors.read()
        await dropping
        return ended_program(self._words, await self.process.wait(), errors)

    async def _drop(self) -> None:
        while await self._output.read(_PIECE):
            pass

    async def exchange(self, lines: Sequence[bytes]) -> List[bytes]:
        """The replies to lines, one each."""
        self._input.write(b"".join(lines))
        return [await self._reply() for _ in lines]

    async def ask(self, lines: Sequence[bytes]) -> List[bytes]:
        """The replies to lines, after which the status is asked for, so that a group of changes is done."""
        *replies, status = await self.exchange([*lines, STATUS])
        told = json.loads(status)
        if not told["ok"] or told["broken"]:
            raise Faulty(f"the store of this node failed: {status.decode().strip()}")
        self.status = told
        return replies

    async def change(self, lines: Sequence[bytes]) -> List[bytes]:
        """The replies to changes. `Faulty` if one of them is of this node's own, after which nothing is done."""
        replies = await self.ask(lines)
        for reply in replies:
            if reply.startswith(REFUSED) and json.loads(reply)["number"] in _FAULTS:
                raise Faulty(f"the store of this node had a fault: {reply.decode().strip()}")
        return replies

    async def _reply(self) -> bytes:
        reply = await self._output.readline()
        if not reply.endswith(b"\n"):
            raise Faulty("the program under this node ended")
        return reply

    async def place(self, agreed: Agreed) -> Optional[Place]:
        """The place that is stored; None if the store is the first state of the log.

        `WrongLog` if it is no store of this log, and `Changed` if somebody else changed it.
        """
        reply, = await self.ask([line_of(commands.mark_of(key_of(agreed.log)))])
        told = json.loads(reply)
        if told["mark"] is None:
            if await self.digest() != agreed.digest:
                raise WrongLog(f"{self.file} is of no node of the log {agreed.log}: make it by `replica join`")
            return None
        if told["seq"] != self.status["seq"]:
            raise Changed(f"{self.status['seq'] - told['seq']} changes were made to the file beside the log, by "
                          f"somebody else: {ANEW}")
        return place_in(told["mark"])

    async def digest(self) -> str:
        """A digest of all documents, their schemas, order and revisions, of the number of changes, and of the room that
        all takes with clients' marks."""
        made = hashlib.sha256(b"%d %d\n" % (await self.snapshot_length(), self.status["seq"]))
        rows = await self.revisions()
        for some in (rows[begin:begin + _TOGETHER] for begin in range(0, len(rows), _TOGETHER)):
            replies = await self.exchange([line_of(line) for name, _ in some
                                           for line in (commands.get(name), commands.get_schema(name))])
            for (name, rev), doc, schema in zip(some, replies[::2], replies[1::2]):
                made.update(b"%b %d\n%b%b" % (name.encode(), rev, doc, schema))
        return made.hexdigest()

    async def snapshot_length(self) -> int:
        """Makes a snapshot, and returns its length: that of all documents, the same at every node."""
        reply, = await self.ask([SNAPSHOT])
        told = json.loads(reply)
        if not told["ok"]:
            raise Faulty(f"the store of this node can't be written anew: {reply.decode().strip()}")
        return int(told["used"])

    async def lengths(self, names: Sequence[str]) -> Dict[str, int]:
        """The lengths of the documents' texts, 0 of one that doesn't exist."""
        replies = await self.exchange([line_of(commands.get(name)) for name in names])
        return {name: len(text_in(reply) or b"") for name, reply in zip(names, replies)}

    async def revisions(self) -> List[Tuple[str, int]]:
        """Each document's name and revision, in the order of creation."""
        listed, = await self.exchange([LIST])
        names: List[str] = json.loads(listed)["names"]
        replies = await self.exchange([line_of(commands.rev(name)) for name in names])
        return [(name, json.loads(reply)["rev"]) for name, reply in zip(names, replies)]
