"""Warnings of what the store accepts in silence, although it may not be what was meant."""
import itertools
import re
import warnings
from typing import Any, Iterator, List, Optional, Tuple

from .errors import JpstoreWarning
from .protocol import EARLIER, ELSEWHERE, KEYWORDS
from .wire.values import escaped

__all__ = ["notice_of_filter", "notices_of_schema", "steps_of_filter", "warn_of_command"]

# A name that begins with it is one's own, by custom, and no misspelled keyword.
_OWN = "x-"

# The keywords by their names in lower case, and the length of the longest.
_BY_LOWER, _LONGEST = {known.lower(): known for known in sorted(KEYWORDS)}, max(map(len, KEYWORDS))

# From this share of common letters on a name is perhaps a keyword; and one of up to three letters, as `nto`.
_NEAR, _NEAR_SHORT = 0.75, 0.66

# The most warnings of one schema and letters of a place, and the most words that are looked at: no schema that the
# store accepts has more.
_MOST_NOTICES, _MOST_LETTERS, _MOST_WORDS = 100, 1000, 1 << 16

# A place in a schema: the one around it, and a name or an index. Its text is made only when it is told, as a schema may
# have many places of long names.
_Place = Optional[Tuple[Any, Any]]

# How a query begins with a filter over the members of a document, and what is read of it: texts, brackets, and the step
# from `@` to a member.
_FILTER = re.compile(r"\$\s*\[\s*\?")
_TEXT = r"""'(?:[^'\\]|\\.)*'|"(?:[^"\\]|\\.)*\""""
_TOKEN = re.compile(r"@\s*(?P<step>\.\w+|\[\s*(?:%s)\s*\])|%s|[\[\]]" % (_TEXT, _TEXT))

# How many steps of a filter are looked at.
_MOST_STEPS = 4

# Above this function are the request, the call of the store, and then the line that calls it.
_CALLER = 4


def notices_of_schema(schema: Any) -> List[str]:
    """What may be a mistake in a schema that the store accepts, each with its place: the first 100 of it."""
    words = ((place, word) for place, part in _subschemas(schema) for word in part)
    told = (_notice_of(place, word) for place, word in itertools.islice(words, _MOST_WORDS))
    return list(itertools.islice(filter(None, told), _MOST_NOTICES))


def _notice_of(place: _Place, word: Any) -> Optional[str]:
    if not isinstance(word, str) or word.startswith(_OWN):
        return None
    if word in KEYWORDS and word not in EARLIER and word != "format":
        return None
    where = f"schema {_pointer((place, word))}"
    if word == "format":
        return f"{where}: `format` is not checked, as JSON Schema has it; other keywords, as `maxLength`, are"
    if word in EARLIER:
        return f"{where}: `{word}` is a keyword of earlier drafts, and is ignored: use `{EARLIER[word]}`"
    meant = _meant_by(word)
    told = f"{where}: `{word[:_MOST_LETTERS]}` is not a keyword, and is ignored"
    return f"{told}: perhaps `{meant}` is meant" if meant else told


def _pointer(place: _Place) -> str:
    """The JSON Pointer of a place, whose begin is left out if it is very long."""
    tokens = []
    while place is not None:
        place, token = place
        tokens.append(f"/{escaped(str(token))}")
    pointer = "".join(reversed(tokens))
    return pointer if len(pointer) <= _MOST_LETTERS else f"..{pointer[-_MOST_LETTERS:]}"


def _subschemas(schema: Any) -> Iterator[Tuple[_Place, Any]]:
    waiting: List[Tuple[_Place, Any]] = [(None, schema)]
    while waiting:
        place, part = waiting.pop()
        if not isinstance(part, dict):
            continue
        yield place, part
        for word, value in part.items():
            below, holds = (place, word), KEYWORDS[word].holds if word in KEYWORDS else ""
            if holds == "one":
                waiting.append((below, value))
            elif holds == "several" and isinstance(value, (list, tuple)):
                waiting.extend(((below, index), item) for index, item in enumerate(value))
            elif holds == "named" and isinstance(value, dict):
                waiting.extend(((below, name), item) for name, item in value.items())


def _meant_by(word: str) -> Optional[str]:
    """The keyword that is written nearly so, upper case aside, or that has the meaning of a word."""
    lower = word.lower()
    if len(lower) > _LONGEST + 1:
        return None
    # It takes longer than all the rest, and few schemas have such a word.
    import difflib
    near = difflib.get_close_matches(lower, _BY_LOWER, 1, _NEAR if len(lower) > 3 else _NEAR_SHORT)
    return ELSEWHERE.get(lower) or (_BY_LOWER[near[0]] if near else None)


def steps_of_filter(query: str) -> List[str]:
    """The first 4 steps, such as `.name`, that a query takes from `@` in a filter over the members of a document."""
    begin, depth = _FILTER.match(query), 1
    steps: List[str] = []
    for token in _TOKEN.finditer(query, begin.end()) if begin else ():
        depth += (token[0] == "[") - (token[0] == "]")
        if depth == 0:
            break
        if depth == 1 and token["step"] and token["step"] not in steps:
            steps.append(token["step"])
    return steps[:_MOST_STEPS]


def notice_of_filter(query: str, step: str) -> str:
    """What may be a mistake in a query whose filter finds nothing, though the document itself has this member."""
    return (f"in `{query}`, `@` is each member of the document, and none of them has `{step}`: the document's own is "
            f"`${step}`")


def warn_of_command(command: Any) -> None:
    """Warns of what a command's schema may have by mistake, at the line that calls the store."""
    schema: Optional[Any] = command.get("schema") if isinstance(command, dict) else None
    if isinstance(schema, dict):
        for notice in notices_of_schema(schema):
            warnings.warn(notice, JpstoreWarning, stacklevel=_CALLER)
