"""The standard streams of a server. It serves on if they take nothing, such as a log on a full disk.

What starts services is told too when clients may connect.
"""
import contextlib
import os
import socket
import sys
from typing import TextIO

__all__ = ["announce", "complain"]


def announce(text: str) -> None:
    """Says on standard output, and to systemd, that clients may connect."""
    try:
        print(text, flush=True)
    except OSError as error:
        _discard(sys.stdout)
        complain(f"standard output cannot be written, and nothing more is: {error.strerror}")
    _notify()


def _notify() -> None:
    """Says to systemd that the service is ready, if it started it (`Type=notify`; sd_notify(3) has the form)."""
    name = os.environ.pop("NOTIFY_SOCKET", "")
    if name.startswith(("/", "@")):
        with contextlib.suppress(OSError), socket.socket(socket.AF_UNIX, socket.SOCK_DGRAM) as notified:
            notified.sendto(b"READY=1", "\0" + name[1:] if name[0] == "@" else name)


def complain(text: str) -> None:
    """Says on standard error what went wrong."""
    try:
        print(text, file=sys.stderr, flush=True)
    except OSError:
        _discard(sys.stderr)


def _discard(stream: TextIO) -> None:
    """Lets a stream take everything, so that what it still holds is no fault at the end."""
    null = os.open(os.devnull, os.O_WRONLY)
    os.dup2(null, stream.fileno())
    os.close(null)
