"""A line on a terminal about work that takes over a second."""
import sys
import threading
import time
from typing import Any, Optional, TextIO

__all__ = ["Progress"]

# When the line comes, and how often it is written anew, in seconds.
_FIRST, _EACH = 1.0, 0.25


class Progress:
    """Tells how far the work of a `with` block is, after its first second, in a line that is cleared.

    What is no terminal gets nothing: a script reads errors there.
    """

    def __init__(self, what: str, unit: str = "", total: Optional[int] = None, stream: Optional[TextIO] = None) -> None:
        self._what, self._unit, self._total = what, unit, total
        self._stream = stream or sys.stderr
        self._done = 0
        self._began = time.monotonic()
        self._shown = 0
        self._ended = threading.Event()
        self._thread = threading.Thread(target=self._run, daemon=True)

    def step(self, count: int = 1) -> None:
        """So much more is done."""
        self._done += count

    def __enter__(self) -> "Progress":
        self._began = time.monotonic()
        if self._stream.isatty():
            self._thread.start()
        return self

    def __exit__(self, *_: Any) -> None:
        self._ended.set()
        if self._thread.ident is not None:
            self._thread.join()
        if self._shown:
            self._stream.write("\r" + " " * self._shown + "\r")
            self._stream.flush()

    def _run(self) -> None:
        pause = _FIRST
        while not self._ended.wait(pause):
            line = self._line()
            self._stream.write("\r" + line.ljust(self._shown))
            self._stream.flush()
            self._shown, pause = len(line), _EACH

    def _line(self) -> str:
        parts = [f"{self._what}: {time.monotonic() - self._began:.0f} s"]
        if self._unit:
            of = "" if self._total is None else f" of {self._total:,}"
            parts.append(f"{self._done:,}{of} {self._unit}")
        return ", ".join(parts)
