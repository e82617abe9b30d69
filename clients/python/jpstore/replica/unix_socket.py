"""The Unix socket of a node: made for its user alone, and taken away only if it is the one that was made."""
import contextlib
import os
import socket
import stat
from typing import Optional, Tuple

from ..errors import JpstoreError

__all__ = ["Listening", "check_free"]


class Listening:
    """A socket bound at a path. What a killed node left there is taken away; anything else is an error."""

    def __init__(self, path: str) -> None:
        self._path = path
        stale = check_free(path)
        # Looked at once more, right before: nothing but that stale socket is ever removed.
        if stale is not None and _place_of(path) == stale:
            os.unlink(path)
        self.socket = socket.socket(socket.AF_UNIX)
        mask = os.umask(0o177)
        try:
            self.socket.bind(path)
            # At once: a socket at which nobody listens looks stale.
            self.socket.listen()
            self._made = _place_of(path)
        except OSError as error:
            self.socket.close()
            raise JpstoreError(f"no socket can be made at {path}: {error.strerror or error}") from None
        finally:
            os.umask(mask)

    def remove(self) -> None:
        """Takes the socket away, if it is still the one that was made here."""
        with contextlib.suppress(OSError):
            if _place_of(self._path) == self._made:
                os.unlink(self._path)


def check_free(path: str) -> Optional[Tuple[int, int]]:
    """Raises an error if no socket can be made at the path; returns the stale socket that is there, if there is one."""
    try:
        found = os.lstat(path)
    except FileNotFoundError:
        return None
    except OSError as error:
        raise JpstoreError(f"no socket can be made at {path}: {error.strerror}") from None
    if not stat.S_ISSOCK(found.st_mode):
        kind = _kind(found.st_mode)
        raise JpstoreError(f"{path} is {kind} and not a socket, and is left as it is: choose another path")
    with socket.socket(socket.AF_UNIX) as other:
        other.setblocking(False)
        try:
            other.connect(path)
        except (ConnectionRefusedError, FileNotFoundError):
            return found.st_dev, found.st_ino
        except BlockingIOError:
            pass
        except OSError as error:
            raise JpstoreError(f"{path} is a socket that cannot be looked at: {error.strerror}") from None
    raise JpstoreError(f"another program listens at {path}: connect to it, end it, or choose another path")


def _place_of(path: str) -> Optional[Tuple[int, int]]:
    """Which socket is at the path."""
    try:
        found = os.lstat(path)
    except FileNotFoundError:
        return None
    return (found.st_dev, found.st_ino) if stat.S_ISSOCK(found.st_mode) else None


def _kind(mode: int) -> str:
    kinds = ((stat.S_ISREG, "a file"), (stat.S_ISDIR, "a folder"), (stat.S_ISLNK, "a symbolic link"))
    return next((kind for is_kind, kind in kinds if is_kind(mode)), "a device or a pipe")
