"""Words for values and places, and the known name that a wrong one is nearest to."""
import json
from itertools import islice
from typing import Any, Iterable, List, Optional, Sequence, Tuple

from ..wire.values import escaped

__all__ = ["Trail", "nearest", "perhaps", "place_in", "pointer_of", "shown", "text_at"]

#: The way to a value: that to its parent, and the name or the index in it. A pointer for each would be long for many.
Trail = Tuple[Any, ...]

_MOST_LETTERS, _FEW_LETTERS = 60, 20

# A list or an object with more is not shown.
_MOST_MEMBERS = 4

# So many names are compared at most.
_MOST_NAMES = 1000

_KINDS = {dict: "an object", list: "a list", tuple: "a list", str: "a text", bool: "a boolean", int: "a number",
          float: "a number", type(None): "null"}


def shown(value: Any) -> str:
    """A value in a few letters."""
    if isinstance(value, (dict, list, tuple)) and len(value) > _MOST_MEMBERS:
        return _KINDS[type(value)]
    try:
        text = json.dumps(value, ensure_ascii=False)
    except (TypeError, ValueError):
        return type(value).__name__
    return text if len(text) <= _MOST_LETTERS else _KINDS.get(type(value), "a value")


def nearest(word: str, known: Iterable[str]) -> Optional[str]:
    """The known name that is written most nearly so; None if there is none."""
    if len(word) > _MOST_LETTERS:
        return None
    short = (name for name in islice(known, _MOST_NAMES) if len(name) <= _MOST_LETTERS)
    # It takes long to load, and most words are known.
    import difflib
    found = difflib.get_close_matches(word, short, 1, 0.6)
    return found[0] if found else None


def perhaps(word: Any, known: Sequence[str]) -> str:
    """What is said after a word that isn't known: which one is meant, or which ones there are."""
    near = nearest(word, known) if isinstance(word, str) else None
    return f": perhaps \"{near}\" is meant" if near else f"; it is one of {', '.join(known)}"


def text_at(text: str, place: int) -> str:
    """What is at a place of a text, in a few letters."""
    rest = text[place:place + _FEW_LETTERS]
    return f" (`{rest}{'..' if len(text) > place + _FEW_LETTERS else ''}`)" if rest else " (the end)"


def pointer_of(trail: Trail) -> str:
    """The JSON Pointer of a value by the way to it."""
    tokens: List[str] = []
    while trail:
        trail, token = trail
        tokens.append("/" + escaped(str(token)))
    return "".join(reversed(tokens))


def place_in(pointer: str) -> str:
    """A place as it is shown: a long one is cut in its middle."""
    if len(pointer) <= 2 * _MOST_LETTERS:
        return f"`{pointer}`"
    return f"`{pointer[:_MOST_LETTERS]}` .. `{pointer[-_MOST_LETTERS:]}`"
