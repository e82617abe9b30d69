"""Who may read and write a file that this package makes."""
import os
from typing import IO

__all__ = ["create_private", "mode_of"]


def create_private(path: str) -> IO[bytes]:
    """Makes a file, at a path that doesn't exist, that its owner alone reads and writes."""
    return open(path, "xb", opener=lambda name, how: os.open(name, how, 0o600))


def mode_of(file: IO[bytes]) -> int:
    """The permission bits of an open file."""
    return os.fstat(file.fileno()).st_mode & 0o777
