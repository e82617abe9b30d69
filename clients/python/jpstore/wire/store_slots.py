"""The slots of commits in a store of format 3, by `docs/inside/FORMAT.md`; this only reads."""
import struct
from typing import NamedTuple, Optional

__all__ = ["SLOTS", "Slot", "begin_of", "counting"]

_SECTOR, _BLOCK = 512, 4096
_SECTORS_OF_SLOTS, _SECTORS_OF_A_SLOT, _SECTORS_OF_A_BLOCK = 128, 32, 8

#: The bytes of the four slots, which begin the file.
SLOTS = _SECTORS_OF_SLOTS * _SECTOR

# How each sector of a slot begins: letters and format.
_BEGIN = b"JPSTORE1\0\0\0\x03"
_HEAD = struct.Struct(">12sIQI")
_FIELDS = struct.Struct(">QQQQIII16s")


class Slot(NamedTuple):
    """What a slot says; `tail` are the committed bytes after the blocks in the half."""

    number: int
    length: int
    seq: int
    sectors: int
    half: int
    identity: bytes
    tail: bytes


def _remainder(rest: int) -> int:
    for _ in range(8):
        rest = rest >> 1 ^ (0x82F63B78 if rest & 1 else 0)
    return rest


_REMAINDERS = [_remainder(byte) for byte in range(256)]


def _crc32c(data: bytes) -> int:
    rest = 0xFFFFFFFF
    for byte in data:
        rest = _REMAINDERS[rest & 255 ^ byte] ^ rest >> 8
    return rest ^ 0xFFFFFFFF


def counting(slots: bytes) -> Optional[Slot]:
    """The slot that counts, of those that begin a file."""
    size = _SECTORS_OF_A_SLOT * _SECTOR
    found = (_valid(place, slots[place * size:(place + 1) * size]) for place in range(4))
    # The number of the commit comes first in a slot.
    return max(filter(None, found), default=None)


def _valid(place: int, slot: bytes) -> Optional[Slot]:
    """What the slot at a place says, if it is valid."""
    content, number = b"", int.from_bytes(slot[16:24], "big")
    for at in range(0, len(slot), _SECTOR):
        sector = slot[at:at + _SECTOR]
        if _HEAD.unpack_from(sector) != (_BEGIN, _crc32c(sector[16:]), number, at // _SECTOR):
            break
        content += sector[_HEAD.size:]
    if not content:
        return None
    length, seq, _, sectors, half, blocks, _, identity = _FIELDS.unpack_from(content)
    rest = length - blocks * _BLOCK
    if number % 2 != place // 2 or not 0 <= rest <= len(content) - _FIELDS.size:
        return None
    return Slot(number, length, seq, sectors, half, identity, content[_FIELDS.size:_FIELDS.size + rest])


def begin_of(half: int, sectors: int) -> int:
    """Where a half begins in a file of so many sectors."""
    blocks = (sectors - _SECTORS_OF_SLOTS) // (2 * _SECTORS_OF_A_BLOCK)
    return SLOTS + half * _BLOCK * blocks
