"""A store handed from one node to another: the bytes of its file, as they are between two changes."""
import json
import os
import socket
import tempfile
from typing import IO, NamedTuple, Tuple

from ..errors import Ended, JpstoreError, accessing
from ..wire.commands import COPY
from ..wire.connection import check_socket
from ..wire.replies import line_of_reply
from ..wire.rights import create_private, mode_of
from ..wire.store_file import SECTOR, committed_in

__all__ = ["Copy", "copy_of", "receive_copy"]

_PIECE = 1 << 20
_IN_MEMORY = 1 << 22


class Copy(NamedTuple):
    """The line that comes before the bytes of a store, and a file with these."""

    line: bytes
    spool: IO[bytes]


def copy_of(file: str, place: str) -> Copy:
    """The bytes that begin the file of a store that nobody writes now, and the committed ones in its half.

    The line tells how many bytes these are together (`bytes`), how many of them begin the file (`head`), the place in
    it of the others (`begin`), the permission bits of the file (`mode`), and the text of its place in the log.
    """
    spool: IO[bytes] = tempfile.SpooledTemporaryFile(_IN_MEMORY)
    with accessing(file), open(file, "rb") as opened:
        found = committed_in(opened)
        mode = mode_of(opened)
        spool.write(found.head)
        for piece in found.pieces(opened, found.settled):
            spool.write(piece)
    told = {"begin": found.begin, "bytes": spool.tell(), "head": len(found.head), "mode": mode, "ok": True,
            "place": place, "sectors": found.sectors, "seq": found.seq}
    spool.seek(0)
    return Copy(line_of_reply(told), spool)


def receive_copy(path: str, target: str) -> Tuple[int, str]:
    """Makes the file `target`, which must not exist, with the store of the node at a socket; returns its sectors and
    the text of its place.

    Before its first byte it has the permission bits of that node's file.
    """
    check_socket(path)
    with socket.socket(socket.AF_UNIX) as connected:
        with accessing(path):
            connected.connect(path)
            connected.sendall(COPY)
        with connected.makefile("rb") as lines, accessing(target), create_private(target) as made:
            told = json.loads(lines.readline() or b"{}")
            if not told.get("ok"):
                raise JpstoreError(f"{path} hands out no store: {told.get('error', 'it is no node')}")
            os.fchmod(made.fileno(), told.get("mode", 0o600) & 0o777)
            # So that no later write has to find room.
            os.posix_fallocate(made.fileno(), 0, told["sectors"] * SECTOR)
            made.write(_exactly(lines, told["head"], path))
            made.seek(told["begin"])
            left = told["bytes"] - told["head"]
            while left:
                piece = _exactly(lines, min(left, _PIECE), path)
                made.write(piece)
                left -= len(piece)
            made.flush()
            os.fsync(made.fileno())
    return told["sectors"], told["place"]


def _exactly(lines: IO[bytes], size: int, path: str) -> bytes:
    piece = lines.read(size)
    if len(piece) != size:
        raise Ended(f"the node at {path} closed the connection")
    return piece
