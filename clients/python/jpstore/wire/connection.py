"""A connection to a hub, in place of a program of one's own."""
import contextlib
import errno
import os
import socket
import stat
from typing import ContextManager, Iterator, Optional

from ..errors import Ended, JpstoreError, TimedOut, accessing
from .forks import Descriptor, while_none_forks
from .stream import Lines, StreamEnded, StreamSilent

__all__ = ["Connection", "check_socket", "doubled", "ended_connection", "new_socket", "reaching", "socket_of"]


# What to do if a hub can't be reached, by the system's number.
_ADVICE = {
    **dict.fromkeys((errno.ENOENT, errno.ECONNREFUSED),
                    "no hub serves here: start it by `jpstore-cli hub FILE --socket PATH`, or wait for it by `--wait "
                    "SECONDS`"),
    errno.EACCES: "a hub's socket is for its own user: run this as that user",
    errno.ENOTSOCK: "name the PATH that the hub was started with, as `--socket PATH`; a file is opened without a hub",
}


def reaching(path: str) -> ContextManager[None]:
    """As `accessing`, for the socket of a hub: an error says what to do."""
    return accessing(path, _ADVICE)


def check_socket(path: str) -> None:
    """An error if there is something else than a socket at the path, which connecting would report as `refused`."""
    with reaching(path):
        if not stat.S_ISSOCK(os.stat(path).st_mode):
            raise OSError(errno.ENOTSOCK, "this is not the socket of a hub", path)


def ended_connection(path: str, ended: StreamEnded, timeout: Optional[float]) -> Ended:
    """The error for a connection that ended, or that was silent for too long."""
    if isinstance(ended, StreamSilent):
        return TimedOut(f"the hub at {path} did not answer within {timeout:g} seconds")
    return Ended(f"the hub at {path} closed the connection")


def new_socket() -> Descriptor:
    """A Unix socket that is not connected."""
    with while_none_forks():
        return Descriptor(socket.socket(socket.AF_UNIX).detach())


def doubled(descriptor: Descriptor) -> Descriptor:
    """Another descriptor of the same socket."""
    with while_none_forks():
        return Descriptor(os.dup(descriptor.open_number()))


@contextlib.contextmanager
def socket_of(descriptor: Descriptor) -> Iterator[socket.socket]:
    """The socket of a descriptor, as an object that leaves it open."""
    found = socket.socket(fileno=descriptor.open_number())
    try:
        yield found
    finally:
        found.detach()


class Connection(Lines):
    """The Unix socket of a hub, which answers lines as the program does."""

    def __init__(self, path: str, timeout: Optional[float] = None) -> None:
        self._path = path
        check_socket(path)
        self._socket = new_socket()
        try:
            with reaching(path), socket_of(self._socket) as connected:
                connected.settimeout(timeout)
                connected.connect(path)
        except BaseException:
            self._socket.close()
            raise
        super().__init__(self._socket, doubled(self._socket), timeout)

    def next_line(self) -> bytes:
        """The next line that the hub sends, without its LF; if none comes, the error that says how it ended."""
        try:
            return super().next_line()
        except StreamEnded as ended:
            raise self.ended(ended) from None

    def shut_down(self) -> None:
        """Ends the connection, also for a thread that waits for a line of it."""
        # That thread may close it meanwhile.
        with contextlib.suppress(OSError, JpstoreError), socket_of(self._socket) as connected:
            connected.shutdown(socket.SHUT_RDWR)

    def ended(self, ended: StreamEnded) -> Ended:
        """Closes the connection, and returns the error that says how it ended."""
        self.close()
        return ended_connection(self._path, ended, self._timeout)

    def close(self) -> None:
        """Closes the connection; the hub goes on."""
        self.close_both()

    #: The same, for one whose replies are not wanted any more.
    give_back = close
