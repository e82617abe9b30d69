"""Pieces of bytes cut into the lines that have a reply, by the rules of the program."""
import asyncio
from typing import AsyncIterator

from .limits import MOST_LINE_BYTES

__all__ = ["TOO_LONG", "lines_of"]

#: In the place of a line that is longer than a line may be; only its reply matters.
TOO_LONG = b""

_BLANKS = b" \t\r"

# The bytes that are read at once.
_PIECE = 1 << 16


async def lines_of(reader: asyncio.StreamReader) -> AsyncIterator[bytes]:
    """The lines that a client sends, each with its LF, without the blank ones; the last may come without its LF.

    At most one line is held, and of one that is too long nothing.
    """
    line = bytearray()
    # Whether the line is over the limit, and whether it had anything but blanks then.
    is_long = is_full = False
    while True:
        piece = await reader.read(_PIECE)
        for number, part in enumerate((piece or b"\n").split(b"\n")):
            if number:
                if is_full or line.strip(_BLANKS):
                    yield TOO_LONG if is_long else bytes(line) + b"\n"
                line.clear()
                is_long = is_full = False
            line += part
            if is_long or len(line) > MOST_LINE_BYTES:
                is_long, is_full = True, is_full or bool(line.strip(_BLANKS))
                line.clear()
        if not piece:
            return
