"""The parts of a pattern, which are the same in ECMA-262 and in the store's dialect, and how they nest."""
from enum import Enum
from typing import Any, List, NamedTuple, NoReturn

__all__ = ["Kind", "NoPattern", "Reader", "Token", "same"]


class Kind(Enum):
    """What a part of a pattern is."""

    CHARACTERS = "characters"
    EDGE = "edge"
    OPEN = "open"
    CLOSE = "close"
    OR = "or"
    COUNT = "count"


class Token(NamedTuple):
    """A part of a pattern: what it is, what it means, and its text.

    The value is a set of characters, the name of an edge, or the least and the most of a count (None: no most). What a
    group is called, and whether a count is lazy, decides nothing about whether a text matches.
    """

    kind: Kind
    value: Any
    text: str


class NoPattern(Exception):
    """A text is no pattern: at this character, counted from 0, by this reason."""

    def __init__(self, place: int, message: str) -> None:
        super().__init__(message)
        self.place, self.message = place, message


class Reader:
    """Reads a pattern from its begin to its end, and stops where it is none."""

    def __init__(self, pattern: str) -> None:
        self._pattern, self._at = pattern, 0
        self.tokens: List[Token] = []

    def _stop(self, message: str) -> NoReturn:
        raise NoPattern(self._at, message)

    def _is_at(self, *texts: str) -> bool:
        return self._pattern.startswith(texts, self._at)

    def _add(self, kind: Kind, value: Any, begin: int) -> None:
        """Adds the part that begins at this character and ends here."""
        self.tokens.append(Token(kind, value, self._pattern[begin:self._at]))


def same(tokens: List[Token], others: List[Token]) -> bool:
    """Whether two patterns mean the same, part by part."""
    return [token[:2] for token in tokens] == [token[:2] for token in others]
