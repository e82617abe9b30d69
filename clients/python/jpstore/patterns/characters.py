"""Sets of characters, as the classes of patterns name them.

No text of a store has a surrogate, so each set is kept without them, and U+D7FF is next to U+E000.
"""
from dataclasses import dataclass
from typing import Any, FrozenSet, Iterable, Iterator, List, Tuple

__all__ = ["ALL", "Characters", "DIGITS", "LINE_ENDS", "NEVER", "Property", "SPACES", "WORD", "by_name",
           "combined", "of", "outside", "united"]

#: Characters by their codes, from the first to the last of each range.
Ranges = Tuple[Tuple[int, int], ...]

#: A set that Unicode names, by its property and the property's value, and whether those outside of it are meant. What
#: an operation makes of such sets is by its sign and the sets.
Property = Tuple[str, Any, bool]

_LAST, _BEFORE_SURROGATES, _AFTER_SURROGATES = 0x10FFFF, 0xD7FF, 0xE000


@dataclass(frozen=True)
class Characters:
    """The characters of these ranges and properties, or all others."""

    ranges: Ranges
    properties: FrozenSet[Property] = frozenset()
    is_negated: bool = False


def united(ranges: Iterable[Tuple[int, int]]) -> Ranges:
    """Ranges in their order, none next to another."""
    found: List[Tuple[int, int]] = []
    for low, high in sorted(part for each in ranges for part in _without_surrogates(*each)):
        if found and low <= _after(found[-1][1]):
            found[-1] = found[-1][0], max(high, found[-1][1])
        else:
            found.append((low, high))
    return tuple(found)


def _after(code: int) -> int:
    return _AFTER_SURROGATES if code == _BEFORE_SURROGATES else code + 1


def _without_surrogates(low: int, high: int) -> Iterator[Tuple[int, int]]:
    if low <= min(high, _BEFORE_SURROGATES):
        yield low, min(high, _BEFORE_SURROGATES)
    if max(low, _AFTER_SURROGATES) <= high:
        yield max(low, _AFTER_SURROGATES), high


def outside(ranges: Ranges) -> Ranges:
    """The characters that are in none of these ranges."""
    begins = [0, *(high + 1 for _, high in ranges)]
    ends = [*(low - 1 for low, _ in ranges), _LAST]
    return united(zip(begins, ends))


def combined(operator: str, one: Ranges, other: Ranges) -> Ranges:
    """What is in both (`&&`), in the first alone (`--`), or in one of them alone (`~~`)."""
    if operator == "~~":
        return united([*combined("--", one, other), *combined("--", other, one)])
    return outside(united([*outside(one), *(other if operator == "--" else outside(other))]))


def by_name(kind: str, value: object) -> Characters:
    """The set that has this name."""
    return Characters((), frozenset([(kind, value, False)]))


def of(*codes: int) -> Characters:
    """The set of these characters."""
    return Characters(united((code, code) for code in codes))


#: The sets that ECMA-262 names (section 22.2.2.9).
DIGITS = united([(0x30, 0x39)])
WORD = united([(0x30, 0x39), (0x41, 0x5A), (0x5F, 0x5F), (0x61, 0x7A)])
SPACES = united([(0x09, 0x0D), (0x20, 0x20), (0xA0, 0xA0), (0x1680, 0x1680), (0x2000, 0x200A), (0x2028, 0x2029),
                 (0x202F, 0x202F), (0x205F, 0x205F), (0x3000, 0x3000), (0xFEFF, 0xFEFF)])

#: What `.` leaves out in ECMA-262 (section 12.3).
LINE_ENDS = united([(0x0A, 0x0A), (0x0D, 0x0D), (0x2028, 0x2029)])

#: All characters, and none.
ALL, NEVER = Characters(((0, _LAST),)), Characters(())
