"""A reader of the store's dialect of patterns, which is that of Rust's regular expressions, with Unicode.

It tells where a text is no pattern, and its parts. Sets that only the tables of Unicode know are kept by their names.
"""
import re
from typing import List, NamedTuple, Optional, Tuple, Union

from .cases import cases_of
from .characters import DIGITS, WORD, Characters, by_name, combined, of, outside, united
from .properties import dialect_property
from .tokens import Kind, NoPattern, Reader, Token

__all__ = ["MOST_NESTED", "read_dialect", "script_in"]

#: How deep groups, classes, counts, branches and rows may nest.
MOST_NESTED = 250

_MOST_COUNT = (1 << 32) - 1
_CONTROLS = {"a": 0x07, "f": 0x0C, "t": 0x09, "n": 0x0A, "r": 0x0D, "v": 0x0B}
_ASCII_SPACES = united([(0x09, 0x0D), (0x20, 0x20)])
_ASCII = {"d": DIGITS, "s": _ASCII_SPACES, "w": WORD}
_POSIX = {
    "alnum": "09AZaz", "alpha": "AZaz", "ascii": "\x00\x7f", "blank": "\t\t  ", "cntrl": "\x00\x1f\x7f\x7f",
    "digit": "09", "graph": "!~", "lower": "az", "print": " ~", "punct": "!/:@[`{~", "space": "\t\r  ", "upper": "AZ",
    "word": "09AZ__az", "xdigit": "09AFaf",
}
_BOUNDARIES = {"A": "start", "z": "end", "b": "word", "B": "no word", "<": "word start", ">": "word end",
               "{start}": "word start", "{end}": "word end", "{start-half}": "word start half",
               "{end-half}": "word end half"}
_OPERATORS = ("&&", "--", "~~")
_IGNORED = re.compile(r"(?:[^\S\x1c-\x1f]|#[^\n]*\n?)+")


class _Flags(NamedTuple):
    """The flags that hold at a place."""

    i: bool = False
    m: bool = False
    s: bool = False
    U: bool = False
    u: bool = True
    R: bool = False
    x: bool = False


class _Group(NamedTuple):
    """A group that is open: where it began, the flags outside of it, and how deep its rows and branches nest."""

    place: int
    flags: _Flags
    branches: List[List[int]]


def read_dialect(pattern: str) -> List[Token]:
    """The parts of a pattern. Raises NoPattern at the character from which on it is none."""
    reader = _Reader(pattern)
    reader.read()
    return reader.tokens


def script_in(pattern: str) -> Optional[str]:
    """The first name of a property in a pattern that isn't known here, as those of scripts; None if there is none."""
    try:
        tokens = read_dialect(pattern)
    except (NoPattern, RecursionError):
        return None
    properties = (each for token in tokens if isinstance(token.value, Characters) for each in token.value.properties)
    unknown = (name for kind, name, _ in properties if kind not in ("", "gc", "perl") and isinstance(name, str))
    return next(unknown, None)


def _deepest(parts: List[int]) -> int:
    return max(parts, default=0) + (len(parts) > 1)


class _Reader(Reader):
    def __init__(self, pattern: str) -> None:
        super().__init__(pattern)
        self._flags = _Flags()
        self._groups = [_Group(0, self._flags, [[]])]
        self._names: List[str] = []

    def read(self) -> None:
        """Reads the whole pattern."""
        self._skip()
        while self._at < len(self._pattern):
            self._part()
            self._skip()
        if len(self._groups) > 1:
            self._at = self._groups[-1].place
            self._stop("this group is not closed")
        self._check(_deepest([_deepest(row) for row in self._groups[0].branches]), 0)

    def _check(self, depth: int, begin: int) -> None:
        if depth > MOST_NESTED:
            self._at = begin
            self._stop(f"it nests deeper than {MOST_NESTED} levels")

    def _next(self, length: int = 1) -> None:
        self._at += length
        self._skip()

    def _skip(self) -> None:
        """Passes over white space and comments, if these are to be ignored."""
        found = _IGNORED.match(self._pattern, self._at) if self._flags.x else None
        self._at = found.end() if found else self._at

    def _part(self) -> None:
        begin, sign = self._at, self._pattern[self._at]
        if sign == "(":
            self._open()
        elif sign == ")":
            self._close()
        elif sign == "|":
            self._groups[-1].branches.append([])
            self._at += 1
            self._add(Kind.OR, None, begin)
        elif sign in "?*+{":
            self._stop("there is nothing here to repeat" if sign != "{" else "there is nothing here to repeat: write "
                                                                             "`\\{`")
        else:
            depth = self._atom(sign)
            self._repeat(depth, begin)

    # ---- groups

    def _open(self) -> None:
        begin, outer = self._at, self._flags
        self._next()
        if self._is_at("?=", "?!", "?<=", "?<!"):
            self._at = begin
            self._stop("looking ahead and behind is not possible in the store; a second pattern, by `allOf` or `not`, "
                       "may say the same")
        if self._is_at("?P<", "?<"):
            self._name()
        elif self._is_at("?"):
            self._at += 1
            if self._is_at(")"):
                self._stop("flags are missing here")
            self._set_flags()
            if self._is_at(")"):
                # The flags hold up to the end of the group around.
                self._at += 1
                self._groups[-1].branches[-1].append(0)
                return
            self._at += 1
        self._groups.append(_Group(begin, outer, [[]]))
        self._check(len(self._groups) - 1, begin)
        self._add(Kind.OPEN, None, begin)

    def _close(self) -> None:
        if len(self._groups) == 1:
            self._stop("no group is open here: write `\\)`")
        begin, group = self._at, self._groups.pop()
        self._flags = group.flags
        self._at += 1
        self._add(Kind.CLOSE, None, begin)
        self._repeat(_deepest([_deepest(row) for row in group.branches]) + 1, group.place)

    def _name(self) -> None:
        self._at += 3 if self._is_at("?P<") else 2
        end = self._pattern.find(">", self._at)
        name = self._pattern[self._at:max(end, self._at)]
        if end < 0 or re.fullmatch(r"[^\W\d](?:\w|[.\[\]])*", name) is None or name in self._names:
            self._stop("the name of a group is missing, no name, or that of another")
        self._names.append(name)
        self._at = end + 1

    def _set_flags(self) -> None:
        is_on, seen = True, ""
        while not self._is_at(":", ")"):
            sign = self._pattern[self._at:self._at + 1]
            if not sign or sign in seen or sign not in "imsUuRx-":
                self._stop("there is no such flag, or it comes twice")
            seen += sign
            if sign == "-":
                is_on = False
            else:
                self._flags = self._flags._replace(**{sign: is_on})
            self._at += 1
        if seen.endswith("-"):
            self._stop("flags are missing after the hyphen")

    # ---- counts

    def _repeat(self, depth: int, begin: int) -> None:
        """Reads the counts after a part, and notes how deep it is."""
        self._skip()
        while self._is_at("?", "*", "+", "{"):
            at, sign = self._at, self._pattern[self._at]
            bounds = {"*": (0, None), "+": (1, None), "?": (0, 1)}.get(sign) or self._bounds()
            if sign != "{":
                self._at += 1
            if self._is_at("?"):
                self._at += 1
            self._add(Kind.COUNT, bounds, at)
            depth += 1
            self._skip()
        self._check(depth, begin)
        self._groups[-1].branches[-1].append(depth)

    def _bounds(self) -> Tuple[int, Optional[int]]:
        begin = self._at
        found = re.compile(r"\{\s*([0-9]+)\s*(?:(,)\s*([0-9]*)\s*)?\}").match(self._pattern, begin)
        if found is None:
            self._stop("a count is `{N}`, `{N,}` or `{N,M}`: else write `\\{`")
        least, most = int(found[1]), int(found[3]) if found[3] else None
        bounds = least, most if found[2] else least
        if max(least, most or 0) > _MOST_COUNT or (most is not None and most < least):
            self._stop("the count is too great, or its least is over its most")
        self._at = found.end()
        return bounds

    # ---- what is repeated

    def _atom(self, sign: str) -> int:
        """Reads what can be repeated, other than a group; answers how deep it is."""
        begin, depth = self._at, 0
        value: Union[str, Characters]
        if sign == "[":
            value, depth = self._bracket()
        elif sign == "\\":
            value = self._escape()
        else:
            self._at += 1
            value = self._edge(sign) if sign in "^$" else self._dot() if sign == "." else self._folded(of(ord(sign)))
        self._add(Kind.EDGE if isinstance(value, str) else Kind.CHARACTERS, value, begin)
        return depth

    def _edge(self, sign: str) -> str:
        of_line = " of line" + " with CR" * self._flags.R if self._flags.m else ""
        return ("start" if sign == "^" else "end") + of_line

    def _dot(self) -> Characters:
        if not self._flags.u:
            self._at -= 1
            self._stop("`.` matches bytes without the flag `u`, which is not possible in a text")
        left_out = [] if self._flags.s else [(0x0A, 0x0A)] + [(0x0D, 0x0D)] * self._flags.R
        return Characters(outside(united(left_out)))

    def _folded(self, characters: Characters) -> Characters:
        if not self._flags.i:
            return characters
        if characters.properties:
            return by_name("folded", characters)
        return Characters(united(cases_of(characters.ranges, self._flags.u)))

    def _negated(self, characters: Characters, is_negated: bool) -> Characters:
        if not is_negated:
            return characters
        if not self._flags.u:
            self._stop("outside of a set are bytes without the flag `u`, which is not possible in a text")
        if characters.properties:
            return Characters(characters.ranges, characters.properties, not characters.is_negated)
        return Characters(outside(characters.ranges))

    # ---- escapes

    def _escape(self) -> Union[str, Characters]:
        """What an escape matches, or the name of the edge that it is."""
        sign = self._pattern[self._at + 1:self._at + 2]
        if sign in _BOUNDARIES:
            self._at += 2
            return self._boundary(sign)
        if sign in ("p", "P"):
            return self._property(sign == "P")
        letter = sign.lower()
        if letter not in _ASCII:
            return self._folded(of(self._code(sign)))
        self._at += 2
        return self._negated(by_name("perl", letter) if self._flags.u else Characters(_ASCII[letter]), sign != letter)

    def _boundary(self, sign: str) -> str:
        name, blank = sign, r"\s*" if self._flags.x else ""
        if sign == "b" and re.compile(r"\{%s[A-Za-z-]" % blank).match(self._pattern, self._at):
            end = self._pattern.find("}", self._at)
            name = self._pattern[self._at:end + 1].replace(" " if self._flags.x else "\0", "")
            if name not in _BOUNDARIES:
                self._stop("no edge of a word is called so")
            self._at = end + 1
        return "Unicode " * (self._flags.u and sign not in "Az") + _BOUNDARIES[name]

    def _code(self, sign: str) -> int:
        """The character that an escape is."""
        digits = {"x": 2, "u": 4, "U": 8}.get(sign)
        if digits is not None:
            self._at += 1
            self._next()
            code = self._hexadecimal(digits)
            if code > 0x10FFFF or 0xD800 <= code <= 0xDFFF:
                self._stop("no text has this character")
            return code
        if sign in _CONTROLS:
            self._at += 2
            return _CONTROLS[sign]
        if not sign:
            self._stop("a backslash ends the pattern: write `\\\\`")
        if not sign.isascii() or sign.isalnum():
            also = ", and no reference back to a group" if sign.isdigit() else ""
            self._stop(f"there is no escape `\\{sign}`{also}")
        self._at += 2
        return ord(sign)

    def _hexadecimal(self, most: int) -> int:
        blank = r"\s*" if self._flags.x else ""
        found = re.compile(r"\{%s([0-9A-Fa-f]+)%s\}" % (blank, blank)).match(self._pattern, self._at)
        found = found or re.compile("([0-9A-Fa-f]{%d})" % most).match(self._pattern, self._at)
        if found is None:
            self._stop(f"{most} hexadecimal digits are missing here, or some in braces")
        self._at = found.end()
        return int(found[1], 16)

    def _property(self, is_negated: bool) -> Characters:
        begin = self._at
        if not self._flags.u:
            self._stop("a property is of characters, and without the flag `u` bytes are meant")
        self._at += 1
        self._next()
        form, end = r"[\w\s:=!-]+", self._pattern.find("}", self._at)
        name = self._pattern[self._at + 1:max(end, self._at)]
        if not self._is_at("{"):
            form, end = "[CLMNPSZclmnpsz]", self._at
            name = self._pattern[end:end + 1]
        self._at = end + 1
        if end < 0 or re.fullmatch(form, name, re.A) is None:
            self._at = begin
            self._stop("the name of a property is missing here")
        found, is_inverted = dialect_property(name)
        return self._negated(self._folded(found), is_negated != is_inverted)

    # ---- classes

    def _bracket(self) -> Tuple[Characters, int]:
        """What a class matches, and how deep it is."""
        begin = self._at
        self._next()
        is_negated = self._is_at("^")
        if is_negated:
            self._next()
        parts: List[Tuple[Characters, int]] = []
        while self._is_at("-"):
            parts.append((of(0x2D), 0))
            self._next()
        if not parts and self._is_at("]"):
            parts.append((of(0x5D), 0))
            self._next()
        found = self._union(begin, parts)
        while not self._is_at("]"):
            operator = next(each for each in _OPERATORS if self._is_at(each))
            self._at += 2
            found = self._operated(operator, found, self._union(begin, []))
        value = self._negated(self._folded(found[0]), is_negated)
        self._at += 1
        self._check(found[1] + 1, begin)
        return value, found[1] + 1

    def _union(self, begin: int, parts: List[Tuple[Characters, int]]) -> Tuple[Characters, int]:
        self._skip()
        while not self._is_at("]", *_OPERATORS):
            if self._at >= len(self._pattern):
                self._at = begin
                self._stop("this class is not closed: write `\\[` for the sign")
            parts.append(self._item())
            self._skip()
        return _one_of([part for part, _ in parts]), _deepest([depth for _, depth in parts])

    def _operated(self, operator: str, left: Tuple[Characters, int],
                  right: Tuple[Characters, int]) -> Tuple[Characters, int]:
        one, other = self._folded(left[0]), self._folded(right[0])
        depth = max(left[1], right[1]) + 1
        if one.properties or other.properties:
            return by_name(operator, (one, other)), depth
        return Characters(combined(operator, one.ranges, other.ranges)), depth

    def _item(self) -> Tuple[Characters, int]:
        """A class in the class, a range, or a member."""
        found = re.compile(r"\[:(\^?)([a-z]+):\]").match(self._pattern, self._at)
        if found is not None and found[2] in _POSIX:
            pairs = _POSIX[found[2]]
            ranges = united((ord(low), ord(high)) for low, high in zip(pairs[::2], pairs[1::2]))
            value = self._negated(self._folded(Characters(ranges)), bool(found[1]))
            self._at = found.end()
            return value, 0
        if self._is_at("["):
            return self._bracket()
        low, code = self._member()
        self._skip()
        if not self._is_at("-") or self._ends_after_hyphen():
            return low, 0
        hyphen = self._at
        self._next()
        _, last = self._member()
        if code is None or last is None or last < code:
            self._at = hyphen
            self._stop("this is no range of characters: write `\\-` for the sign")
        return Characters(united([(code, last)])), 0

    def _ends_after_hyphen(self) -> bool:
        before = self._at
        self._next()
        ends = self._is_at("]", "-")
        self._at = before
        return ends

    def _member(self) -> Tuple[Characters, Optional[int]]:
        sign = self._pattern[self._at:self._at + 1]
        following = self._pattern[self._at + 1:self._at + 2] if sign == "\\" else ""
        if not sign:
            self._stop("this class is not closed")
        if following in _BOUNDARIES:
            self._stop("an edge is no character of a class")
        if following in tuple("dDsSwWpP"):
            value = self._escape()
            assert isinstance(value, Characters)
            return value, None
        if sign == "\\":
            code = self._code(following)
        else:
            code = ord(sign)
            self._at += 1
        if not self._flags.u and code > 0x7F:
            self._at -= 1
            self._stop("a class has ASCII alone without the flag `u`")
        return of(code), code


def _one_of(parts: List[Characters]) -> Characters:
    """The characters that are in some of these sets."""
    ranges = united(each for part in parts for each in part.ranges if not part.is_negated)
    properties = frozenset(each for part in parts if not part.is_negated for each in part.properties)
    for part in parts:
        if part.is_negated and not part.ranges and len(part.properties) == 1:
            (kind, value, is_negated), = part.properties
            properties |= {(kind, value, not is_negated)}
        elif part.is_negated:
            properties |= {("class", part, False)}
    return Characters(ranges, properties)
