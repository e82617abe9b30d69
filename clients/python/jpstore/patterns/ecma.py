"""A reader of the regular expressions of ECMA-262 (section 22.2.1), with the flag `u` as JSON Schema wants it.

What only a pattern without the flag may have (its annex B.1.2) is read too, where it has one meaning: escapes of signs
such as `\\-`, single brackets, and a hyphen beside `\\w` in a class. What has no counterpart in the store is refused.
"""
import re
from typing import Any, List, NamedTuple, Optional, Tuple

from .characters import DIGITS, LINE_ENDS, SPACES, WORD, Characters, of, outside, united
from .properties import ecma_property
from .tokens import Kind, Reader, Token

__all__ = ["Read", "read_ecma"]

_SYNTAX = "^$\\.*+?()[]{}|/"
_CLASSES = {"d": DIGITS, "D": outside(DIGITS), "s": SPACES, "S": outside(SPACES), "w": WORD, "W": outside(WORD)}
_CONTROLS = {"t": 0x09, "n": 0x0A, "v": 0x0B, "f": 0x0C, "r": 0x0D, "0": 0x00}
_EDGES = {"^": "start", "$": "end", "\\b": "word", "\\B": "no word"}

_COUNT = re.compile(r"(?:([*+?])|\{([0-9]+)(?:(,)([0-9]*))?\})\??")
_GROUP = re.compile(r"\((?:\?(?::|<(?![=!])[^<>()]*>))?")
_PAIR = re.compile(r"\\u([dD][89abAB][0-9a-fA-F]{2})\\u([dD][c-fC-F][0-9a-fA-F]{2})")
_CODE = re.compile(r"\\(?:x([0-9a-fA-F]{2})|u([0-9a-fA-F]{4})|u\{([0-9a-fA-F]+)\}|([tnvfr]|0(?![0-9]))|c([a-zA-Z]))")
_PROPERTY = re.compile(r"\\([pP])\{([A-Za-z_]+)(?:=([A-Za-z0-9_]+))?\}")

# What authors mean by escapes of other languages.
_ELSEWHERE = {"A": "`^` is the begin", "Z": "`$` is the end", "z": "`$` is the end", "h": "`[ \\t]` is a blank",
              "e": "`\\x1b` is the escape character", "a": "`\\x07` is the bell"}

# The greatest count that the store reads.
_MOST = (1 << 32) - 1

# What the flag `u` gives another meaning.
_ONLY_WITH_FLAG = re.compile(r"\\(?:[pP]\{|u\{|u[dD][89a-fA-F])")


class Read(NamedTuple):
    """The parts of a pattern, and what is to be said of its meaning."""

    tokens: List[Token]
    notes: List[str]


def read_ecma(pattern: str) -> Read:
    """The parts of a pattern. Raises NoPattern where ECMA-262 reads none, or the store has no counterpart."""
    reader = _Reader(pattern)
    reader.read()
    return Read(reader.tokens, reader.notes())


class _Reader(Reader):
    def __init__(self, pattern: str) -> None:
        super().__init__(pattern)
        # Which groups are open, by the places of their begins.
        self._groups: List[int] = []
        # Where the pattern is none with the flag `u`, and the characters of classes that are no text by themselves.
        self._loose: Optional[Tuple[int, str]] = None
        self._surrogates = False
        # Whether a range ends beyond U+FFFF, which is none without the flag.
        self._has_far_range = False

    def notes(self) -> List[str]:
        """What is to be said of the meaning."""
        told = []
        if self._surrogates:
            told.append("a half of a surrogate pair by itself matches nothing: no text has one, and the flag `u` takes "
                        "a pair as one character")
        far = any(token.kind is Kind.CHARACTERS and (token.value.is_negated or token.value.properties
                                                     or (token.value.ranges and token.value.ranges[-1][1] > 0xFFFF))
                  for token in self.tokens)
        if self._loose is not None and far:
            told.append(f"{self._loose[1]} is read only without the flag `u`; a character beyond U+FFFF is taken as "
                        "one all the same")
        return told

    def read(self) -> None:
        """Reads the whole pattern."""
        while self._at < len(self._pattern):
            begin = self._at
            kind, value = self._part(self._pattern[begin])
            self._add(kind, value, begin)
        if self._groups:
            self._at = self._groups[-1]
            self._stop("this group is not closed")
        if self._loose is not None and (self._has_far_range or _ONLY_WITH_FLAG.search(self._pattern)):
            self._at = self._loose[0]
            self._stop(f"{self._loose[1]} is not read with the flag `u`, which `\\p{{..}}`, `\\u{{..}}`, surrogate "
                       "pairs and ranges beyond U+FFFF need")

    def _only_without_flag(self, what: str) -> None:
        if self._loose is None:
            self._loose = self._at, what

    def _part(self, sign: str) -> Tuple[Kind, Any]:
        edge = sign if sign in "^$" else self._pattern[self._at:self._at + 2]
        count = _COUNT.match(self._pattern, self._at)
        if edge in _EDGES:
            self._at += len(edge)
            return Kind.EDGE, _EDGES[edge]
        if count is not None:
            return Kind.COUNT, self._count(count)
        if sign == "(":
            self._open()
            return Kind.OPEN, None
        if sign not in ")|":
            return Kind.CHARACTERS, self._characters(sign)
        if sign == ")" and not self._groups:
            self._stop("no group is open here: write `\\)`")
        if sign == ")":
            self._groups.pop()
        self._at += 1
        return Kind.OR if sign == "|" else Kind.CLOSE, None

    def _open(self) -> None:
        if self._is_at("(?=", "(?!"):
            self._stop("looking ahead is not possible in the store; a second pattern, by `allOf` or `not`, may say the "
                       "same")
        if self._is_at("(?<=", "(?<!"):
            self._stop("looking behind is not possible in the store")
        found = _GROUP.match(self._pattern, self._at)
        if found is None or self._pattern.startswith("?", found.end()):
            self._stop("ECMA-262 has no such group")
        self._groups.append(self._at)
        self._at = found.end()

    def _count(self, found: "re.Match[str]") -> Tuple[int, Optional[int]]:
        if not self.tokens or self.tokens[-1].kind not in (Kind.CHARACTERS, Kind.CLOSE):
            self._stop("there is nothing here to repeat")
        sign, least, comma, most = found.groups()
        if sign:
            bounds: Tuple[int, Optional[int]] = {"*": (0, None), "+": (1, None), "?": (0, 1)}[sign]
        else:
            bounds = int(least), (int(most) if most else None) if comma else int(least)
        if bounds[1] is not None and bounds[1] < bounds[0]:
            self._stop("the least count is over the most")
        if max(bounds[0], bounds[1] or 0) > _MOST:
            self._stop("the store reads no such count")
        self._at = found.end()
        return bounds

    def _characters(self, sign: str) -> Characters:
        """What matches one character."""
        if sign == "[":
            return self._bracket()
        if sign == ".":
            self._at += 1
            return Characters(outside(LINE_ENDS))
        if sign == "\\":
            return self._escape(False)
        if sign in "]{}":
            self._only_without_flag(f"`{sign}` without a backslash")
        return self._character()

    def _character(self) -> Characters:
        self._at += 1
        code = ord(self._pattern[self._at - 1])
        self._surrogates = self._surrogates or 0xD800 <= code <= 0xDFFF
        return of(code)

    # ---- escapes

    def _escape(self, in_class: bool) -> Characters:
        """What an escape matches, in a class or outside."""
        following = self._pattern[self._at + 1:self._at + 2]
        if following in _CLASSES:
            self._at += 2
            return Characters(_CLASSES[following])
        code = self._code(in_class)
        if code is not None:
            return of(code)
        if following in "pP" and following:
            return self._property()
        if following.isascii() and (following.isalnum() or not following):
            self._no_escape(following)
        if following not in (_SYNTAX + "-" if in_class else _SYNTAX):
            self._only_without_flag(f"`\\{following}`")
        self._at += 1
        return self._character()

    def _code(self, in_class: bool) -> Optional[int]:
        """The character that an escape names by its code; None if it names none so."""
        if in_class and self._is_at("\\b"):
            self._at += 2
            return 0x08
        pair, found = _PAIR.match(self._pattern, self._at), _CODE.match(self._pattern, self._at)
        if pair is not None:
            self._at = pair.end()
            return 0x10000 + ((int(pair[1], 16) - 0xD800) << 10) + int(pair[2], 16) - 0xDC00
        if found is None:
            return None
        digits = found[1] or found[2] or found[3]
        code = int(digits, 16) if digits else _CONTROLS[found[4]] if found[4] else ord(found[5]) % 32
        if code > 0x10FFFF:
            self._stop("Unicode has no such character")
        self._surrogates = self._surrogates or 0xD800 <= code <= 0xDFFF
        self._at = found.end()
        return code

    def _property(self) -> Characters:
        found = _PROPERTY.match(self._pattern, self._at)
        value = ecma_property(found[2], found[3], found[1] == "P") if found is not None else None
        if found is None or value is None:
            self._stop("ECMA-262 has no such property; a script is `\\p{Script=NAME}`")
        self._at = found.end()
        return value

    def _no_escape(self, following: str) -> None:
        if not following:
            self._stop("a backslash ends the pattern: write `\\\\`")
        if following in "123456789k":
            self._stop("a reference back to a group is not possible in the store")
        means = _ELSEWHERE.get(following)
        self._stop(f"ECMA-262 has no escape `\\{following}`" + (f": {means}" if means else ""))

    # ---- classes

    def _bracket(self) -> Characters:
        begin = self._at
        is_negated = self._is_at("[^")
        self._at += 2 if is_negated else 1
        parts: List[Characters] = []
        while not self._is_at("]"):
            if self._at >= len(self._pattern):
                self._at = begin
                self._stop("this class is not closed")
            parts.extend(self._members())
        ranges = united(each for part in parts for each in part.ranges)
        properties = frozenset(each for part in parts for each in part.properties)
        self._at += 1
        if properties:
            return Characters(ranges, properties, is_negated)
        return Characters(outside(ranges) if is_negated else ranges)

    def _members(self) -> List[Characters]:
        """A character, a range of characters, or what an escape names."""
        begin = self._at
        low, low_code = self._member()
        if not self._is_at("-") or self._is_at("-]") or self._at + 1 >= len(self._pattern):
            return [low]
        hyphen = self._at
        self._at += 1
        high, high_code = self._member()
        if low_code is None or high_code is None:
            self._at, after = begin, self._at
            self._only_without_flag(f"the hyphen in `{self._pattern[begin:after]}`")
            self._at = after
            return [low, of(ord("-")), high]
        if low_code > high_code:
            self._at = hyphen
            self._stop("the range ends before it begins")
        self._has_far_range = self._has_far_range or high_code > 0xFFFF
        return [Characters(united([(low_code, high_code)]))]

    def _member(self) -> Tuple[Characters, Optional[int]]:
        """What one member of a class matches, and its code if it is a character."""
        if not self._is_at("\\"):
            code = ord(self._pattern[self._at])
            return self._character(), code
        before = self._at
        code_named = self._code(True)
        if code_named is not None:
            return of(code_named), code_named
        value = self._escape(True)
        is_sign = self._at == before + 2 and self._pattern[before + 1] not in _CLASSES
        return value, ord(self._pattern[before + 1]) if is_sign else None
