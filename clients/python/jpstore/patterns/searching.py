"""Searches texts for a pattern as the store does, in a time that is bounded: all ways through a pattern at once.

Sets that Unicode names are those of this Python's tables, which may know fewer characters than the store's.
"""
import itertools
import re
import unicodedata
from bisect import bisect_right
from functools import lru_cache, partial, reduce
from typing import Any, Callable, Dict, FrozenSet, List, Optional, Set, Tuple, Union

from .cases import cases_of
from .characters import Characters
from .dialect import read_dialect
from .tokens import Kind, NoPattern, Token

__all__ = ["finds"]

# The most states of a pattern, steps of a search, and steps that are kept.
_MOST_STATES, _MOST_STEPS, _MOST_KEPT = 20_000, 5_000_000, 20_000

_UNICODE_SPACES = re.compile("[\t-\r \x85\xa0\u1680\u2000-\u200a\u2028\u2029\u202f\u205f\u3000]")
# The joiners, and the letters in circles and squares, which are alphabetic though they are symbols.
_MORE_OF_WORDS = re.compile("[\u200c\u200d\u24b6-\u24e9\U0001f130-\U0001f149\U0001f150-\U0001f169"
                            "\U0001f170-\U0001f189]")
_WORD_CATEGORIES, _CASED_CATEGORIES = ("L", "M", "Nl", "Nd", "Pc"), ("Lu", "Ll", "Lt")

# What each edge asks of the characters before and after it.
_EDGES = {name: re.compile(asked, re.A) for name, asked in {
    "start": r"\A", "start of line": "(?m:^)", "start of line with CR": r"\A|(?<=\n)|(?<=\r)(?!\n)",
    "end": r"\Z", "end of line": "(?m:$)", "end of line with CR": r"\Z|(?=\r)|(?<!\r)(?=\n)",
    "word": r"\b", "no word": r"(?!\b)", "word start": r"\b(?=\w)", "word end": r"\b(?!\w)",
    "word start half": r"(?<!\w)", "word end half": r"(?!\w)"}.items()}

# A part of a pattern: it makes its states, and returns the first one, if it gets the state that follows.
_Part = Callable[[int], int]


class _Unknown(Exception):
    """It can't be said here whether the text matches."""


def finds(pattern: str, text: str) -> Optional[bool]:
    """Whether some part of a text matches; None if that can't be said here."""
    try:
        return _search(pattern).finds(text)
    except (NoPattern, _Unknown, RecursionError):
        return None


@lru_cache(maxsize=64)
def _search(pattern: str) -> "_Search":
    return _Search(read_dialect(pattern))


class _Search:
    def __init__(self, tokens: List[Token]) -> None:
        # What each state waits for: a character of a set, an edge, or nothing (""); and those after it. State 0 is the
        # end of the pattern.
        self._states: List[Tuple[Union[Characters, str], Tuple[int, ...]]] = [("", ())]
        self._begin = self._whole(tokens)(0)
        self._kept: Dict[Tuple[FrozenSet[int], str, str], Optional[FrozenSet[int]]] = {}

    def finds(self, text: str) -> bool:
        """Whether some part of the text matches."""
        here: FrozenSet[int] = frozenset()
        before, steps = "", 0
        for sign in itertools.chain(text, [""]):
            step = here, before, sign
            if step not in self._kept:
                steps += 1 + len(here)
                if steps > _MOST_STEPS:
                    raise _Unknown
                if len(self._kept) > _MOST_KEPT:
                    self._kept.clear()
                self._kept[step] = self._after(*step)
            following = self._kept[step]
            if following is None:
                return True
            here, before = following, sign
        return False

    def _after(self, here: FrozenSet[int], before: str, sign: str) -> Optional[FrozenSet[int]]:
        """The states after a character, of which there is none at the end; None if there is a match before it."""
        waiting = [self._begin, *here]
        reached = set(waiting)
        following: Set[int] = set()
        while waiting:
            number = waiting.pop()
            if number == 0:
                return None
            test, after = self._states[number]
            if isinstance(test, Characters):
                if sign and _is_in(test, sign):
                    following.update(after)
            elif not test or _is_edge(test, before, sign):
                waiting.extend(set(after) - reached)
                reached.update(after)
        return frozenset(following)

    # ---- the states of a pattern

    def _whole(self, tokens: List[Token]) -> _Part:
        """The pattern, from its parts as they nest."""
        # The rows of each group that is open.
        choices: List[List[List[_Part]]] = [[[]]]
        for token in tokens:
            row = choices[-1][-1]
            if token.kind is Kind.OPEN:
                choices.append([[]])
            elif token.kind is Kind.CLOSE:
                group = partial(self._choice, choices.pop())
                choices[-1][-1].append(group)
            elif token.kind is Kind.OR:
                choices[-1].append([])
            elif token.kind is Kind.COUNT:
                row[-1] = partial(self._repeated, row[-1], *token.value)
            else:
                row.append(partial(self._added, token.value))
        return partial(self._choice, choices[0])

    def _added(self, test: Union[Characters, str], *following: int) -> int:
        if len(self._states) > _MOST_STATES:
            raise _Unknown
        self._states.append((test, following))
        return len(self._states) - 1

    def _choice(self, rows: List[List[_Part]], following: int) -> int:
        begins = (reduce(lambda after, part: part(after), reversed(row), following) for row in rows)
        return self._added("", *begins)

    def _repeated(self, part: _Part, least: int, most: Optional[int], following: int) -> int:
        if max(least, most or 0) > _MOST_STATES:
            raise _Unknown
        if most is None:
            begin = self._added("", following)
            self._states[begin] = "", (part(begin), following)
        else:
            begin = following
            for _ in range(most - least):
                begin = self._added("", part(begin), following)
        for _ in range(least):
            begin = part(begin)
        return begin


def _is_edge(edge: str, before: str, after: str) -> bool:
    """Whether a place between two characters is such an edge; at an end of the text there is no character."""
    if edge.startswith("Unicode "):
        edge = edge[len("Unicode "):]
        before, after = ("w" if _is_word(sign) else sign and " " for sign in (before, after))
    return _EDGES[edge].match(before + after, len(before)) is not None


def _is_word(sign: str) -> bool:
    return sign != "" and (unicodedata.category(sign).startswith(_WORD_CATEGORIES)
                           or _MORE_OF_WORDS.match(sign) is not None)


def _is_in(characters: Characters, sign: str) -> bool:
    """Whether a character is in a set. Raises _Unknown if only the store's tables have that."""
    ranges = characters.ranges
    place = bisect_right(ranges, (ord(sign), 0x110000))
    is_in = place > 0 and ranges[place - 1][1] >= ord(sign) or any(
        [_has(kind, value, sign) != is_negated for kind, value, is_negated in characters.properties])
    return is_in != characters.is_negated


def _has(kind: str, value: Any, sign: str) -> bool:
    """Whether a character has a property."""
    if kind in ("&&", "--", "~~"):
        one, other = (_is_in(each, sign) for each in value)
        return one and other if kind == "&&" else one and not other if kind == "--" else one != other
    if kind == "class":
        return _is_in(value, sign)
    if kind == "folded":
        return any(_is_in(value, chr(code)) for code, _ in cases_of(((ord(sign), ord(sign)),), True))
    if kind == "gc":
        return unicodedata.category(sign).startswith(_CASED_CATEGORIES if value == "LC" else value)
    if (kind, value) in (("perl", "s"), ("", "White_Space")):
        return _UNICODE_SPACES.match(sign) is not None
    if kind != "perl":
        raise _Unknown
    return _is_word(sign) if value == "w" else unicodedata.category(sign) == "Nd"
