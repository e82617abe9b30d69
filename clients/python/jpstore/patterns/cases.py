"""The characters that differ only by their case, by Unicode's simple case folding."""
import unicodedata
from functools import lru_cache
from typing import Dict, List, Tuple

__all__ = ["cases_of"]


def _folded(code: int) -> str:
    """A character as simple case folding makes it."""
    sign = chr(code)
    whole, lower = sign.casefold(), sign.lower()
    return whole if len(whole) == 1 else lower if len(lower) == 1 else sign


@lru_cache(maxsize=1)
def _all_cases() -> List[List[int]]:
    """The characters that differ only by their case."""
    found: Dict[str, List[int]] = {}
    for code in range(0x20000):
        if not 0xD800 <= code <= 0xDFFF and unicodedata.category(chr(code))[0] in "LMNS":
            found.setdefault(_folded(code), []).append(code)
    return [cases for cases in found.values() if len(cases) > 1]


@lru_cache(maxsize=4096)
def cases_of(ranges: Tuple[Tuple[int, int], ...], is_unicode: bool) -> List[Tuple[int, int]]:
    """The ranges with the other cases of their members."""
    found = list(ranges)
    if not is_unicode:
        for low, high in ranges:
            found += [(code ^ 0x20, code ^ 0x20) for code in range(low, min(high, 0x7F) + 1) if chr(code).isalpha()]
        return found
    for cases in _all_cases():
        if any(low <= code <= high for code in cases for low, high in ranges):
            found += [(code, code) for code in cases]
    return found
