"""Sizes of files as people write them."""
import argparse
import re

from .wire.store_file import SECTOR

__all__ = ["sectors_of_size"]

_SIZE = re.compile(r"([1-9][0-9]*)([KMGT]?)(?:i?B)?", re.IGNORECASE)
# The sectors of the smallest store.
_LEAST = 3

_UNITS = {"": 1, "K": 1 << 10, "M": 1 << 20, "G": 1 << 30, "T": 1 << 40}


def sectors_of_size(text: str) -> int:
    """The sectors that a size needs, such as 2M: bytes, or with K, M, G or T multiples of 1,024."""
    found = _SIZE.fullmatch(text)
    if found is None:
        raise argparse.ArgumentTypeError(f"`{text}` is no size: give bytes, or as 512K, 16M or 2G")
    sectors = -(-int(found[1]) * _UNITS[found[2].upper()] // SECTOR)
    if sectors < _LEAST:
        raise argparse.ArgumentTypeError(f"`{text}` is too small: a store has {_LEAST * SECTOR:,} bytes at least")
    return sectors
