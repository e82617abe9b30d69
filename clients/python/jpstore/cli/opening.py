"""What the sub-commands share: the store that is named, and the values that are given."""
import argparse
import os
import stat
import sys
import time
from typing import Any, Callable, Dict, List, Optional, Tuple

from ..client import Store
from ..errors import Unsendable, accessing
from ..progress import Progress
from ..wire.program import BATCH
from ..wire.session import PAUSE
from ..wire.texts import value_of_text

__all__ = ["Do", "Row", "Word", "is_socket", "opened", "program_of", "value_in", "value_in_file",
           "value_of_word", "wait_for"]

#: What a sub-command does with its words; its result is the exit status, if that is not 0.
Do = Callable[[argparse.Namespace], Optional[int]]

#: A word after STORE: its name, and how argparse takes it.
Word = Tuple[str, Dict[str, Any]]

#: A sub-command: what it does, its help, an example, and its words after STORE.
Row = Tuple[Do, str, str, List[Word]]


def program_of(words: argparse.Namespace) -> Optional[str]:
    """The program that `--program` names."""
    return getattr(words, "program", None)


def is_socket(path: str) -> bool:
    """Whether it is the socket of a hub, and not a file."""
    return os.path.exists(path) and stat.S_ISSOCK(os.stat(path).st_mode)


def wait_for(words: argparse.Namespace) -> float:
    """Waits until there is a file or a socket at STORE, as long as `--wait` says; what is left of that, in seconds."""
    wait: float = getattr(words, "wait", 0.0)
    until = time.monotonic() + wait
    while not os.path.exists(words.store) and time.monotonic() < until:
        time.sleep(PAUSE)
    return max(until - time.monotonic(), 0.0)


def opened(words: argparse.Namespace, batch: int = BATCH) -> Store:
    """The store in a file, or that of the hub whose socket is named."""
    wait, timeout = wait_for(words), getattr(words, "timeout", None)
    if is_socket(words.store):
        return Store.connect(words.store, wait=wait, timeout=timeout)
    with Progress(f"open {words.store}" + (", which may be in use" if wait else "")):
        return Store(words.store, program=program_of(words), wait=wait, timeout=timeout, batch=batch)


def value_of_word(text: str) -> Any:
    """A JSON value, or with `-` that on standard input."""
    if text == "-":
        return value_of_text(sys.stdin.buffer.read(), "standard input")
    try:
        # A shell takes the quotes away that are not in others.
        return value_of_text(text.encode("utf-8", "surrogateescape"), f"`{text}`", "'\"{}\"'")
    except Unsendable as error:
        if not os.path.isfile(text):
            raise
        raise Unsendable(f"{error}; the value of the file of this name is read by `- < {text}`") from None


def value_in(file: str) -> Any:
    """The JSON value in a file, or with `-` that on standard input."""
    return value_of_word(file) if file == "-" else value_in_file(file)


def value_in_file(file: str) -> Any:
    """The JSON value in a file."""
    with accessing(file), open(file, "rb") as opened_file:
        return value_of_text(opened_file.read(), file)
