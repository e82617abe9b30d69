"""The parts of a pattern as the store's dialect writes them."""
import re
from typing import List

from .characters import ALL, Characters, Property, outside
from .dialect import read_dialect
from .tokens import Kind, NoPattern, Token, same

__all__ = ["written"]

_EDGES = {"start": "^", "end": "$", "word": r"(?-u:\b)", "no word": r"(?-u:\B)"}
_SIGNS = re.compile(r"[\\.+*?()|\[\]{}^$#&~-]")
_NEEDLESS = re.compile(r"(\\\\)|\\(?=[^\w\\.+*?()|\[\]{}^$#&~-]|_)")
_CONTROLS = {"\t": r"\t", "\n": r"\n", "\r": r"\r"}

# What matches nothing: at the end of the text comes no character.
_NOTHING = r"(?:\z.)"


def written(tokens: List[Token]) -> str:
    """The pattern in the store's dialect. A part stays as it is written if it means the same there.

    Signs are without backslashes that they don't need, since not all editions of Rust's crate read these.
    """
    return "".join(_NEEDLESS.sub(r"\1", token.text) if _is_kept(token) else _written(token)
                   for token in tokens)


def _is_kept(token: Token) -> bool:
    if token.kind in (Kind.OR, Kind.CLOSE, Kind.COUNT):
        return True
    if token.kind is Kind.OPEN:
        return token.text in ("(", "(?:")
    try:
        return same(read_dialect(token.text), [token])
    except NoPattern:
        return False


def _written(token: Token) -> str:
    if token.kind is Kind.EDGE:
        return _EDGES[token.value]
    return "(?:" if token.kind is Kind.OPEN else _class(token.value)


def _class(characters: Characters) -> str:
    ranges = characters.ranges
    if not characters.properties:
        if not ranges:
            return _NOTHING
        if characters == ALL:
            return "(?s:.)"
        if len(ranges) == 1 and ranges[0][0] == ranges[0][1]:
            return _sign(ranges[0][0])
    is_negated = characters.is_negated
    if not characters.properties and ranges[-1][1] == ALL.ranges[0][1]:
        is_negated, ranges = True, outside(ranges)
    members = "".join(map(_property, sorted(characters.properties))) + "".join(
        _sign(low) if low == high else f"{_sign(low)}{'-' * (high > low + 1)}{_sign(high)}" for low, high in ranges)
    return f"[{'^' * is_negated}{members}]"


def _property(named: Property) -> str:
    kind, value, is_negated = named
    return f"\\{'P' if is_negated else 'p'}{{{kind + '=' if kind else ''}{value}}}"


def _sign(code: int) -> str:
    sign = chr(code)
    if sign in _CONTROLS:
        return _CONTROLS[sign]
    if not 0x20 <= code < 0x7F:
        # ECMA-262 has it too, so that what is written can be read again.
        return f"\\u{{{code:X}}}"
    return "\\" + sign if _SIGNS.match(sign) else sign
