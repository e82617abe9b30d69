"""The schemas in a schema: those that its keywords have, by the shapes of their values."""
import re
from typing import Any, Iterator, List, Tuple

from ..protocol import KEYWORDS
from .words import Trail

__all__ = ["IN_PLACE", "below", "step", "subschemas"]


def _holding(shape: str, *formats: int) -> Tuple[str, ...]:
    """The keywords that these formats read first, and whose values hold schemas in this shape."""
    return tuple(word for word, row in KEYWORDS.items() if row.holds == shape and row.format in formats)


_ONE, _SEVERAL, _NAMED = _holding("one", 2, 3), _holding("several", 2, 3), _holding("named", 2)

# What profile 3 has beside them.
_NAMED_IN_3 = _holding("named", 3)

#: The keywords by which a schema leads to another for the same value.
IN_PLACE = tuple(word for word, row in KEYWORDS.items() if row.in_place)


def _is_named(word: Any, profile: int) -> bool:
    return word in _NAMED or (profile > 2 and word in _NAMED_IN_3)


def subschemas(schema: Any, profile: int) -> Iterator[Tuple[Trail, Any]]:
    """The schema and those in it, each with the way to it."""
    waiting: List[Tuple[Trail, Any]] = [((), schema)]
    while waiting:
        trail, part = waiting.pop()
        yield trail, part
        if isinstance(part, dict):
            waiting.extend(reversed([inner for word, value in part.items()
                                     for inner in below(trail, word, value, profile)]))


def below(trail: Trail, word: Any, value: Any, profile: int) -> Iterator[Tuple[Trail, Any]]:
    """The schemas that the value of a keyword has."""
    at = (trail, word)
    if word in _ONE:
        yield at, value
    elif word in _SEVERAL and isinstance(value, (list, tuple)):
        yield from (((at, index), item) for index, item in enumerate(value))
    elif _is_named(word, profile) and isinstance(value, dict):
        yield from (((at, name), item) for name, item in value.items())


def step(trail: Trail, schema: Any, tokens: List[str]) -> Tuple[Trail, Any, List[str]]:
    """The schema in this one that the first tokens of a pointer lead to, its way, and the rest of the tokens.

    If they lead to none, that is this schema, its way, and all of them.
    """
    word, inner = tokens[0], tokens[1:]
    if not isinstance(schema, dict) or word not in schema:
        return trail, schema, tokens
    at, value = (trail, word), schema[word]
    if word in _ONE:
        return at, value, inner
    if inner and word in _SEVERAL and isinstance(value, (list, tuple)):
        index = int(inner[0]) if re.fullmatch("0|[1-9][0-9]{0,6}", inner[0]) else len(value)
        if index < len(value):
            return (at, index), value[index], inner[1:]
    if inner and _is_named(word, 3) and isinstance(value, dict) and inner[0] in value:
        return (at, inner[0]), value[inner[0]], inner[1:]
    return trail, schema, tokens
