"""The values in a value, and the place at which it nests deeper than it may."""
from typing import Any, Iterator, List, Optional, Tuple

from .words import Trail, pointer_of

__all__ = ["deeper_than", "values_in"]


def deeper_than(value: Any, levels: int) -> Optional[str]:
    """The place of the first object or list that is so many levels deep; None if there is none."""
    waiting: List[Tuple[Trail, Any]] = [((), value)]
    for _ in range(levels):
        waiting = [((trail, token), part) for trail, parent in waiting for token, part in _parts(parent)]
    deep = next((trail for trail, part in waiting if isinstance(part, (dict, list, tuple))), None)
    return None if deep is None else pointer_of(deep)


def values_in(value: Any) -> Iterator[Tuple[Trail, Any]]:
    """The value and those in it, each with the way to it."""
    waiting: List[Tuple[Trail, Any]] = [((), value)]
    while waiting:
        trail, part = waiting.pop()
        yield trail, part
        waiting.extend(((trail, token), inner) for token, inner in _parts(part))


def _parts(value: Any) -> Iterator[Tuple[Any, Any]]:
    if isinstance(value, dict):
        yield from value.items()
    elif isinstance(value, (list, tuple)):
        yield from enumerate(value)
