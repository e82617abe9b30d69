"""The reader of clients' lines at a node.

A line that one reads as a question and another as a change would be done on one node alone. So only a line with a
single reading goes further, and only as its compact text, which nobody can read in another way. Anything else is
refused here, as the program refuses it.
"""
import json
from typing import Any, Dict, List, NamedTuple, Optional, Tuple

from ..faults.depths import deeper_than
from ..wire import limits
from ..wire.forms import FORMS, Kind, has_form
from ..wire.line_splitter import TOO_LONG
from ..wire.replies import refusal
from ..wire.values import LEAST, MOST, canonical

__all__ = ["Asked", "MOST_DEPTH", "MOST_TEXT", "read_line"]

#: The longest text of a change, so that one transaction has room for it and for the mark, and the one before.
MOST_TEXT = limits.MOST_LINE_BYTES - 512

#: How deep a change may nest: its transaction puts two levels around it.
MOST_DEPTH = limits.MOST_DEPTH - 2


class Asked(NamedTuple):
    """A line as it was read: its canonical text with the LF, or the reply if it is refused; and its command.

    The kind is None if the line is refused here.
    """

    kind: Optional[Kind]
    text: bytes
    command: Dict[str, Any]


class _Unreadable(Exception):
    """A line is refused by this number before its form is looked at."""


class _Reader:
    """Reads JSON texts as the program does, and notices numbers that it doesn't have, and names that come twice."""

    def __init__(self) -> None:
        self._numbers = self._doubled = False
        self._decoder = json.JSONDecoder(object_pairs_hook=self._object, parse_float=self._fraction,
                                         parse_int=self._whole, parse_constant=self._constant)

    def read(self, line: bytes) -> Tuple[Any, bool]:
        """The value of a text, and whether an object in it has a name twice."""
        self._numbers = self._doubled = False
        try:
            value = self._decoder.decode(line.decode("utf-8"))
        except (ValueError, RecursionError):
            raise _Unreadable(11) from None
        if _is_deeper(line, value, limits.MOST_DEPTH):
            raise _Unreadable(11)
        if self._numbers:
            raise _Unreadable(12)
        return value, self._doubled

    def _object(self, pairs: List[Tuple[str, Any]]) -> Dict[str, Any]:
        found = dict(pairs)
        self._doubled = self._doubled or len(found) != len(pairs)
        return found

    def _fraction(self, _: str) -> None:
        self._numbers = True

    def _whole(self, text: str) -> int:
        # So long a text would take long to read, and is over the limit anyway.
        number = int(text) if len(text) < 100 else MOST + 1
        self._numbers = self._numbers or not LEAST <= number <= MOST or text == "-0"
        return number

    def _constant(self, _: str) -> None:
        raise ValueError


_READER = _Reader()


def _is_deeper(text: bytes, value: Any, levels: int) -> bool:
    """Whether the value of a text nests deeper."""
    return text.count(b"[") + text.count(b"{") > levels and deeper_than(value, levels) is not None


def read_line(line: bytes) -> Asked:
    """What a line of a client asks for."""
    if line == TOO_LONG:
        return _refused(10)
    try:
        command, doubled = _READER.read(line)
        text = canonical(command) + b"\n"
    except _Unreadable as error:
        return _refused(error.args[0])
    except UnicodeEncodeError:
        # Half of a surrogate pair is no character.
        return _refused(11)
    if doubled or not has_form(command):
        return _refused(14)
    kind = FORMS[command["cmd"]].kind
    if kind is Kind.CHANGE and len(text) > MOST_TEXT:
        return _refused(10)
    if kind is Kind.CHANGE and _is_deeper(text, command, MOST_DEPTH):
        return _refused(11)
    return Asked(kind, text, command)


def _refused(number: int) -> Asked:
    return Asked(None, refusal(number), {})
