"""The answer of a node to `export`."""
import asyncio
import json
import tempfile
from typing import IO, Awaitable, Callable, List, Sequence

from ..wire.commands import LIST, STATUS, get, get_schema, line_of, rev
from ..wire.replies import REFUSED, line_of_reply, rev_in, text_in
from .store import ReplicaStore

__all__ = ["export", "send"]

# The pieces in which a file is sent.
_PIECE = 1 << 16

# An export asks for this many documents at once, and has this many bytes in memory.
_DOCUMENTS = 64
_IN_MEMORY = 1 << 22


class _Refused(Exception):
    """A question was refused by this reply, such as out of memory."""


async def export(store: ReplicaStore, between: Callable[[], Awaitable[None]]) -> IO[bytes]:
    """A file with the answer to `export`: all documents, while no change is made.

    `between` is called between pieces. The file is in memory as long as it is small, and has no name.
    """
    spool: IO[bytes] = tempfile.SpooledTemporaryFile(_IN_MEMORY)
    try:
        await _write(spool, store, between)
    except _Refused as error:
        spool.seek(0)
        spool.truncate()
        spool.write(error.args[0])
    spool.seek(0)
    return spool


async def _write(spool: IO[bytes], store: ReplicaStore, between: Callable[[], Awaitable[None]]) -> None:
    listed, status = await _asked(store, [LIST, STATUS])
    names, seq = json.loads(listed)["names"], json.loads(status)["seq"]
    spool.write(line_of_reply({"documents": len(names), "ok": True, "seq": seq}))
    for begin in range(0, len(names), _DOCUMENTS):
        some = names[begin:begin + _DOCUMENTS]
        asked = [line_of(line) for name in some for line in (get(name), get_schema(name), rev(name))]
        replies = await _asked(store, asked)
        for name, *told in zip(some, replies[::3], replies[1::3], replies[2::3]):
            spool.write(_line_of_document(name, told))
        await between()
    spool.write(line_of_reply({"end": True, "ok": True, "seq": seq}))


async def _asked(store: ReplicaStore, lines: Sequence[bytes]) -> List[bytes]:
    """The replies to questions, none of which is refused."""
    replies = await store.exchange(lines)
    for reply in replies:
        if reply.startswith(REFUSED):
            raise _Refused(reply)
    return replies


def _line_of_document(name: str, replies: Sequence[bytes]) -> bytes:
    doc, schema, number = text_in(replies[0]), text_in(replies[1]), rev_in(replies[2])
    assert doc is not None and schema is not None and number is not None
    return b'{"doc":%b,"name":"%b","rev":%d,"schema":%b}\n' % (doc, name.encode(), number, schema)


async def send(spool: IO[bytes], writer: asyncio.StreamWriter) -> None:
    """Sends what is in a file, as fast as the client takes it, and closes the file."""
    with spool:
        for piece in iter(lambda: spool.read(_PIECE), b""):
            writer.write(piece)
            await writer.drain()
