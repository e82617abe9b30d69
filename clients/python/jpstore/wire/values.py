"""The canonical text of a value, and the values that a line can carry: their numbers are whole and have 64 bits."""
import json
from typing import Any, Iterator, List, Tuple

from ..errors import Unsendable
from .limits import MOST_DEPTH

__all__ = ["LEAST", "MOST", "WHOLE", "canonical", "check_value", "escaped", "text_of"]

#: What to do about a fraction in a document.
WHOLE = "send a whole number, as 1999 cents or 25 percent, or a text"

#: The least and the greatest number of a document.
LEAST, MOST = -(1 << 63), (1 << 63) - 1

# Made once, since that takes as long as a short value.
_ENCODER = json.JSONEncoder(ensure_ascii=False, separators=(",", ":"), sort_keys=True)

_CONTAINERS = (dict, list, tuple)

# The way to a value: that to its parent, and the name or the index in it.
_Trail = Tuple[Any, ...]


def canonical(value: Any) -> bytes:
    """The compact text of a value that has one, in UTF-8, members in byte order of their names: that of the store."""
    return _ENCODER.encode(value).encode()


def text_of(value: Any) -> bytes:
    """The canonical text of any value.

    A fraction, a number beyond 64 bits, a name that is not a text, and anything else that JSON or the store does
    not have is `Unsendable`.
    """
    check_value(value)
    return canonical(value)


def check_value(value: Any) -> None:
    """Raises `Unsendable` for a value that has no text."""
    if not isinstance(value, _CONTAINERS):
        _check_plain(value, ())
        return
    waiting: List[Tuple[Any, _Trail]] = [(value, ())]
    # Level by level, and what has nothing in it not by itself: a value may have very many. A list that holds itself
    # never ends.
    for _ in range(MOST_DEPTH):
        if not waiting:
            return
        waiting = [inner for part, trail in waiting for inner in _checked(part, trail)]
    if waiting:
        from ..faults.words import place_in, pointer_of
        raise Unsendable(f"level {MOST_DEPTH + 1} begins at {place_in(pointer_of(waiting[0][1]))}")


def _checked(part: Any, trail: _Trail) -> Iterator[Tuple[Any, _Trail]]:
    """Checks what is in an object or a list, but for what is in that again, which is returned with its way."""
    for token, member in part.items() if isinstance(part, dict) else enumerate(part):
        if isinstance(part, dict):
            _check_name(token, trail)
        if isinstance(member, _CONTAINERS):
            if member:
                yield member, (trail, token)
        elif type(member) is not int or not LEAST <= member <= MOST:
            _check_plain(member, (trail, token))


def _check_name(name: Any, trail: _Trail) -> None:
    if not isinstance(name, str):
        raise _unsendable(trail, f"the name {name!r} is not a text")
    _check_text(name, trail)


def _check_plain(value: Any, trail: _Trail) -> None:
    if isinstance(value, str):
        _check_text(value, trail)
    elif isinstance(value, float):
        raise _unsendable(trail, f"{value!r} is not a whole number: {WHOLE}")
    elif isinstance(value, int):
        if not LEAST <= value <= MOST:
            raise _unsendable(trail, f"a number is beyond 64 bits ({LEAST} to {MOST}): send a text")
    elif value is not None:
        raise _unsendable(trail, _no_value(value))


def _no_value(value: Any) -> str:
    """Why this has no text, and what to do about it."""
    # By its name: else each program would import `decimal`.
    if type(value).__name__ == "Decimal":
        return (f"{value} is a `Decimal`: name its member in `Scaled(..)`, which makes a whole number of it, or send a "
                "text")
    return f"{type(value).__name__} is not a JSON value"


def _check_text(text: str, trail: _Trail) -> None:
    # Half of a surrogate pair by itself is no character, and has no UTF-8.
    if not text.isascii() and any("\ud800" <= character <= "\udfff" for character in text):
        raise _unsendable(trail, f"{text!r} has half of a surrogate pair")


def _unsendable(trail: _Trail, why: str) -> Unsendable:
    place = ""
    while trail:
        trail, token = trail
        place = "/" + escaped(str(token)) + place
    return Unsendable(f"{place}: {why}" if place else why)


def escaped(token: str) -> str:
    """A name as a part of a JSON Pointer (RFC 6901, section 3)."""
    return token.replace("~", "~0").replace("/", "~1")
