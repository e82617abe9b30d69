"""The clients of a node: each connection's lines are done and answered in its own order."""
import asyncio
import json
from typing import Any, AsyncIterator, Dict, Optional, Set

from ..errors import JpstoreError
from ..refusals import NOT_GROWN
from ..wire.commands import STATUS, changes_in
from ..wire.forms import Kind
from ..wire.line_splitter import lines_of
from ..wire.replies import REFUSED, line_of_reply, refusal
from .appending import Lost
from .line_reader import Asked, read_line
from .export import send
from .node import Node
from .store import MEMORY
from .tasks import end_tasks, started
from .watching import serve_watch

__all__ = ["Clients"]

# How many lines of a connection may wait for their replies.
_MOST_AHEAD = 256

# All nodes have files of one size.
_NO_GROWTH = "a node does not grow while it serves"


class Clients:
    """The connections of a node."""

    def __init__(self, node: Node) -> None:
        self._node = node
        self._tasks: "Set[asyncio.Future[None]]" = set()

    def welcome(self, linear: bool, reader: asyncio.StreamReader, writer: asyncio.StreamWriter) -> None:
        """Serves a client that has connected, beside the others; its questions are linearizable or answered at once."""
        task = asyncio.ensure_future(_Client(self._node, linear, reader, writer).serve())
        self._tasks.add(task)
        task.add_done_callback(self._tasks.discard)

    async def close(self) -> None:
        """Ends all connections."""
        await end_tasks(self._tasks)


class _Client:
    """A connection."""

    def __init__(self, node: Node, linear: bool, reader: asyncio.StreamReader, writer: asyncio.StreamWriter) -> None:
        self._node, self._linear, self._reader, self._writer = node, linear, reader, writer
        self._replies: "asyncio.Queue[Optional[asyncio.Future[bytes]]]" = asyncio.Queue(_MOST_AHEAD)
        self._kind: Optional[Kind] = None

    async def serve(self) -> None:
        """Takes lines until no more come, and all are answered."""
        answering = asyncio.ensure_future(self._answer())
        attending = asyncio.ensure_future(self._attend())
        try:
            await asyncio.wait([answering, attending], return_when=asyncio.FIRST_COMPLETED)
            if attending.done() and not attending.exception():
                await self._replies.put(None)
                await answering
        except (ConnectionError, Lost):
            pass
        finally:
            await end_tasks([attending, answering])
            self._writer.close()
            for task in (attending, answering):
                error = None if task.cancelled() else task.exception()
                if error is not None and not isinstance(error, (OSError, JpstoreError, Lost)):
                    raise error

    async def _answer(self) -> None:
        """Hands on the replies in order. A change of which nothing is known ends the connection."""
        while True:
            answer = await self._replies.get()
            if answer is None:
                return
            self._writer.write(await answer)
            self._replies.task_done()
            if self._replies.empty():
                await self._writer.drain()

    async def _attend(self) -> None:
        lines = lines_of(self._reader)
        async for line in lines:
            asked = read_line(line)
            own = asked.kind in (Kind.OWN, Kind.NODE)
            if own or asked.kind not in (None, self._kind):
                # A question comes after the changes before it, and a change after the questions.
                await self._replies.join()
                self._kind = asked.kind
            if own and not await self._own(asked.command, lines):
                return
            if not own:
                await self._replies.put(await self._asked(asked))

    async def _asked(self, asked: Asked) -> "asyncio.Future[bytes]":
        if asked.kind is Kind.CHANGE:
            changes = changes_in(asked.command)
            if await self._node.lacks_memory(asked.text, {each["name"] for each in changes if each["cmd"] != "create"}):
                return _settled(refusal(MEMORY))
            return await self._node.appending.change(asked.text, len(changes))
        if asked.kind is Kind.QUESTION:
            return self._node.asking.question(asked.text, self._linear)
        if asked.kind is Kind.SNAPSHOT:
            return started(self._node.local(asked.text))
        return _settled(asked.text)

    async def _own(self, command: Dict[str, Any], lines: AsyncIterator[bytes]) -> bool:
        """Answers a line that is for the node itself; returns whether further lines may come."""
        word = command["cmd"]
        if word == "watch":
            await serve_watch(command, lines, self._writer, self._node.history)
        elif word == "node":
            self._writer.write(line_of_reply({"ok": True, **self._node.told()}))
        elif word == "copy":
            await self._copied()
        elif word == "grow":
            self._writer.write(refusal(NOT_GROWN, why=_NO_GROWTH))
        else:
            await self._exported()
        return bool(word != "watch")

    async def _exported(self) -> None:
        """Sends all documents, once this node has all that a majority has now."""
        status = await self._node.asking.question(STATUS, self._linear)
        if status.startswith(REFUSED):
            self._writer.write(status)
            return
        try:
            await send(await self._node.export(), self._writer)
        except OSError as error:
            raise JpstoreError(f"an export is broken off: {error}") from None

    async def _copied(self) -> None:
        """Hands out the store, or says why not."""
        try:
            copy = await self._node.copy()
        except (OSError, JpstoreError) as error:
            self._writer.write(json.dumps({"error": str(error), "ok": False}).encode() + b"\n")
            return
        self._writer.write(copy.line)
        await send(copy.spool, self._writer)


def _settled(reply: bytes) -> "asyncio.Future[bytes]":
    """A reply that is known."""
    answer: "asyncio.Future[bytes]" = asyncio.get_running_loop().create_future()
    answer.set_result(reply)
    return answer
