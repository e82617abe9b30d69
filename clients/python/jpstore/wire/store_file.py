"""What is committed in a store's file, by `docs/inside/FORMAT.md`; this only reads."""
import struct
from typing import BinaryIO, Iterator, NamedTuple

from ..errors import JpstoreError, accessing_store
from .store_slots import SLOTS, begin_of, counting

__all__ = ["SECTOR", "Committed", "committed_in", "format_of"]

#: The length of a sector.
SECTOR = 512

_FIELDS = struct.Struct(">8sIIQQQQ")
_BEGIN = b"JPSTORE1\0\0\0\2"

# How many bytes are read at once.
_PIECE = 1 << 20


class Committed(NamedTuple):
    """What the commit sector says, or the slot that counts. Nobody may write the file while the bytes are read."""

    #: The format of the store.
    version: int
    #: The commit sector, or all slots, which begin the file.
    head: bytes
    length: int
    seq: int
    sectors: int
    #: Where the half in force begins in the file.
    begin: int
    #: The last committed bytes, which format 3 has in the slot.
    tail: bytes
    #: The identity of a store in format 3; format 2 has none.
    identity: bytes

    @property
    def settled(self) -> int:
        """How many of the committed bytes are in the half."""
        return self.length - len(self.tail)

    def pieces(self, file: BinaryIO, end: int) -> Iterator[bytes]:
        """The committed bytes up to `end`, piece by piece."""
        settled = min(end, self.settled)
        file.seek(self.begin)
        for begin in range(0, settled, _PIECE):
            count = min(_PIECE, settled - begin)
            piece = file.read(count)
            if len(piece) < count:
                raise JpstoreError(f"{file.name} is shorter than a store is")
            yield piece
        yield self.tail[:end - settled]


def format_of(path: str) -> int:
    """The format of the store in a file."""
    with accessing_store(path), open(path, "rb") as opened:
        return committed_in(opened).version


def committed_in(file: BinaryIO) -> Committed:
    """What is committed in a file; an error if it is no store of format 2 or 3."""
    file.seek(0)
    head = file.read(SLOTS)
    if head.startswith(_BEGIN) and len(head) >= SECTOR:
        _, _, half, length, seq, _, sectors = _FIELDS.unpack_from(head)
        begin = SECTOR + half * SECTOR * ((sectors - 1) // 2)
        return Committed(2, head[:SECTOR], length, seq, sectors, begin, b"", b"")
    slot = counting(head) if len(head) == SLOTS else None
    if slot is None:
        raise JpstoreError(f"{file.name} is not a store of format 2 or 3")
    begin = begin_of(slot.half, slot.sectors)
    return Committed(3, head, slot.length, slot.seq, slot.sectors, begin, slot.tail, slot.identity)
