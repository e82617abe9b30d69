"""JSON texts that people and files give: what is wrong with one is reported with its line and column."""
import json
import re
import warnings
from collections import Counter
from typing import Any, Dict, Iterator, List, Tuple, Union

from ..errors import JpstoreWarning, Unsendable
from .limits import MOST_DEPTH
from .values import escaped

__all__ = ["value_of_text"]

# Words that are perhaps a text whose quotes were forgotten.
_WORDS = re.compile(r"\s*[^\s\"{}\[\]\x00-\x1f][^\"{}\[\]\x00-\x1f]{0,60}\s*")

# Texts, in which brackets mean nothing, and brackets.
_BRACKETS = re.compile(r'"(?:[^"\\]|\\.)*"|[\[\]{}]')

# A whole number with this number of digits is beyond 64 bits in any case.
_MOST_DIGITS = 30


class _Repeating(Dict[str, Any]):
    """An object whose text has a name more than once."""

    repeated: List[str]


def value_of_text(text: Union[str, bytes], where: str = "", quoted: str = '"{}"') -> Any:
    """The value of a JSON text; `Unsendable` if it is not one, with the line and column; `where` says which text it is.

    A name that an object has more than once is a warning: its last value counts. `quoted` is how words are written that
    were perhaps meant as a text.
    """
    prefix = f"{where}: " if where else ""
    repeating: List[_Repeating] = []

    def made(pairs: List[Tuple[str, Any]]) -> Dict[str, Any]:
        members = dict(pairs)
        if len(members) < len(pairs):
            members = _Repeating(members)
            members.repeated = sorted(name for name, count in Counter(name for name, _ in pairs).items() if count > 1)
            repeating.append(members)
        return members
    try:
        value = json.loads(_decoded(text), object_pairs_hook=made, parse_int=_whole)
    except json.JSONDecodeError as error:
        told = "it begins with a byte order mark: save it without" if "BOM" in error.msg else error.msg
        raise Unsendable(f"{prefix}not JSON: line {error.lineno}, column {error.colno}: {told}"
                         f"{_hint(error.doc, quoted)}") from None
    except RecursionError:
        raise Unsendable(f"{prefix}not JSON: {_depth(_decoded(text))}") from None
    except UnicodeDecodeError as error:
        place, byte = _end_of(error.object[:error.start].decode("utf-8")), error.object[error.start]
        raise Unsendable(f"{prefix}not UTF-8: {place}: byte 0x{byte:02x}") from None
    for place in _repeated(value) if repeating else ():
        warnings.warn(f"{prefix}`{place}` is there more than once; the last one counts", JpstoreWarning, stacklevel=2)
    return value


def _hint(text: str, quoted: str) -> str:
    """What is said of words without quotes, which were perhaps meant as a text."""
    return f" (a text needs double quotes: {quoted.format(text.strip())})" if _WORDS.fullmatch(text) else ""


def _depth(text: str) -> str:
    """What is said of a text that nests too deeply to be read: the place of the first level that no line has."""
    level = 0
    for part in _BRACKETS.finditer(text):
        level += {"[": 1, "{": 1, "]": -1, "}": -1}.get(part.group(), 0)
        if level > MOST_DEPTH:
            return f"{_end_of(text[:part.start()])}: level {level} begins"
    return "it nests too deeply"


def _decoded(text: Union[str, bytes]) -> str:
    return text if isinstance(text, str) else text.decode("utf-8")


def _end_of(text: str) -> str:
    """The line and the column of what comes after a text."""
    lines = text.split("\n")
    return f"line {len(lines)}, column {len(lines[-1]) + 1}"


def _whole(text: str) -> int:
    # Python refuses to read a number of thousands of digits, and says no place.
    return int(text[:_MOST_DIGITS])


def _repeated(value: Any) -> Iterator[str]:
    waiting = [("", value)]
    while waiting:
        place, part = waiting.pop()
        if isinstance(part, _Repeating):
            yield from (f"{place}/{escaped(name)}" for name in part.repeated)
        if isinstance(part, dict):
            waiting.extend((f"{place}/{escaped(name)}", member) for name, member in part.items())
        elif isinstance(part, list):
            waiting.extend((f"{place}/{index}", item) for index, item in enumerate(part))
