"""Where a schema is not one that the store reads (40 to 44), what is wrong there, and what is nearest to it.

The rules are those of `docs/use/PROTOCOL.md`, under *Names, schemas, places and queries*.
"""
from typing import Any, Callable, Dict, Iterator, List, NamedTuple, Optional, Tuple

from ..called import called
from ..patterns import NoPattern, read_dialect, script_in
from ..protocol import KEYWORDS
from ..refusals import DIALECT
from ..wire.limits import MOST_PATTERN_BYTES, MOST_PATTERNS, MOST_SCHEMA_BYTES, MOST_SCHEMA_LEVELS
from ..wire.values import canonical
from .depths import deeper_than
from .positions import subschemas
from .references import References, is_anchor
from .words import Trail, place_in, pointer_of, shown, text_at

__all__ = ["DIALECT", "FORMAT_3_ONLY", "NOT_SUPPORTED", "SchemaFault", "faults_of_schema", "told_pattern",
           "unsure_of_schema"]

#: The keywords of 2020-12 that are refused (41) in each format, each with what is nearest to it.
NOT_SUPPORTED = {word: row.instead for word, row in KEYWORDS.items() if row.refused}

#: Those that are refused (41) in a store of format 2, and read in one of format 3, each with what is nearest to it.
FORMAT_3_ONLY = {word: row.instead for word, row in KEYWORDS.items() if row.format == 3}

# The most steps of a loop that are shown.
_MOST_STEPS = 4

_TYPES = ("null", "boolean", "object", "array", "number", "string", "integer")


class SchemaFault(NamedTuple):
    """Why a schema is refused: the number, the place of the keyword, and what is wrong and what helps."""

    number: int
    place: str
    message: str

    def __str__(self) -> str:
        return f"at {place_in(self.place)}: {self.message}" if self.place else self.message


def _is_number(value: Any) -> bool:
    return isinstance(value, int) and not isinstance(value, bool)


def _is_list_of(value: Any, test: Callable[[Any], bool]) -> bool:
    if not isinstance(value, (list, tuple)) or not all(map(test, value)):
        return False
    return len(set(map(canonical, value))) == len(value)


def _are_names(value: Any) -> bool:
    return _is_list_of(value, lambda each: isinstance(each, str))


_Form = Tuple[Callable[[Any], bool], str]
_TEXT: _Form = (lambda value: isinstance(value, str), "a text")
_COUNT: _Form = (lambda value: _is_number(value) and value >= 0, "a whole number from 0")
_NUMBER: _Form = (_is_number, "a whole number")
_SCHEMAS: _Form = (lambda value: isinstance(value, (list, tuple)) and len(value) > 0, "a list of one schema or more")
_OBJECT: _Form = (lambda value: isinstance(value, dict), "an object of schemas by name")

# The form of a keyword's value, if it is not a schema.
_FORMS: Dict[str, _Form] = {
    "type": (lambda value: value in _TYPES or _is_list_of(value, _TYPES.__contains__),
             f"one of {', '.join(_TYPES)}, or a list of different ones"),
    "enum": (lambda value: isinstance(value, (list, tuple)), "a list"),
    "multipleOf": (lambda value: _is_number(value) and value >= 1, "a whole number from 1"),
    "minimum": _NUMBER, "maximum": _NUMBER, "exclusiveMinimum": _NUMBER, "exclusiveMaximum": _NUMBER,
    "minLength": _COUNT, "maxLength": _COUNT, "minItems": _COUNT, "maxItems": _COUNT, "minProperties": _COUNT,
    "maxProperties": _COUNT, "minContains": _COUNT, "maxContains": _COUNT,
    "uniqueItems": (lambda value: isinstance(value, bool), "true or false"),
    "required": (_are_names, "a list of different names"),
    "dependentRequired": (lambda value: isinstance(value, dict) and all(map(_are_names, value.values())),
                          "an object whose members are lists of different names"),
    "prefixItems": _SCHEMAS, "allOf": _SCHEMAS, "anyOf": _SCHEMAS, "oneOf": _SCHEMAS,
    "properties": _OBJECT, "$defs": _OBJECT, "$ref": _TEXT,
    # Those of profile 3, which profile 2 refuses whatever they have.
    "pattern": _TEXT, "patternProperties": (_OBJECT[0], "an object of schemas by patterns"),
    "dependentSchemas": _OBJECT,
    "$anchor": (is_anchor, "a letter or `_`, then letters, digits, `_`, `-` and `.`"),
}

# What is wrong with a form that earlier drafts had, by keyword and type of the value.
_EARLIER_FORMS = {
    ("items", "list"): "a list of schemas is `prefixItems` in 2020-12",
    ("exclusiveMinimum", "bool"): "in 2020-12 it is the bound itself, in place of `minimum`",
    ("exclusiveMaximum", "bool"): "in 2020-12 it is the bound itself, in place of `maximum`",
    ("required", "bool"): "in 2020-12 it lists the names, beside `properties`",
    ("type", "list"): "a schema in `type` is `anyOf` in 2020-12",
}


def faults_of_schema(schema: Any, profile: int = 2) -> Iterator[SchemaFault]:
    """Each reason why the store refuses a schema: its size (44), then 40 to 42 and 44 in the order of the text, and 43.

    The profile is 2, or 3 in a store of format 3.
    """
    yield from _of_size(schema)
    references, patterns = References(schema, profile), 0
    for trail, part in subschemas(schema, profile):
        if isinstance(part, dict):
            for word, value in part.items():
                yield from _of_member(references, profile, trail, word, value)
            for place, pattern in _patterns_in(trail, part) if profile > 2 else ():
                patterns += 1
                yield from _of_pattern(place, pattern, patterns)
            if profile > 2:
                yield from _of_anchor(references, trail, part)
        elif not isinstance(part, bool):
            yield SchemaFault(40, pointer_of(trail), _no_schema(trail, part))
    loop = references.loop()
    if loop:
        yield SchemaFault(43, pointer_of(loop[0]), _told_loop(loop))


def _of_size(schema: Any) -> Iterator[SchemaFault]:
    deep = deeper_than(schema, MOST_SCHEMA_LEVELS)
    if deep is not None:
        told = f"here begins level {MOST_SCHEMA_LEVELS + 1}, and a schema may have {MOST_SCHEMA_LEVELS}"
        yield SchemaFault(44, deep, f"{told}: put what is deep under `$defs` of the root, and `$ref` to it")
    elif _is_long(schema):
        yield SchemaFault(44, "", f"its compact text has over {MOST_SCHEMA_BYTES:,} bytes: leave out what is not used, "
                                  "and let `$ref` lead to what is there twice")


def _is_long(schema: Any) -> bool:
    try:
        return len(canonical(schema)) > MOST_SCHEMA_BYTES
    except (TypeError, ValueError):
        # A value that no line can have is told elsewhere.
        return False


def _of_anchor(references: References, trail: Trail, part: Dict[Any, Any]) -> Iterator[SchemaFault]:
    name = part.get("$anchor")
    if not isinstance(name, str) or not is_anchor(name):
        return
    first = pointer_of(references.anchors()[name][0])
    if first != pointer_of(trail):
        told = f"the schema at {place_in(first)}" if first else "the root"
        yield SchemaFault(40, pointer_of((trail, "$anchor")), f"{told} has the same `$anchor`")


def _patterns_in(trail: Trail, part: Dict[Any, Any]) -> Iterator[Tuple[Trail, str]]:
    """The patterns that a schema itself has, each with its place: `pattern`, and the names of `patternProperties`."""
    for word, value in part.items():
        if word == "pattern" and isinstance(value, str):
            yield (trail, word), value
        elif word == "patternProperties" and isinstance(value, dict):
            yield from ((((trail, word), name), name) for name in value if isinstance(name, str))


def _of_pattern(trail: Trail, pattern: str, count: int) -> Iterator[SchemaFault]:
    """What is wrong with a pattern, with which the schema has so many."""
    place = pointer_of(trail)
    if count == MOST_PATTERNS + 1:
        yield SchemaFault(44, place, f"a schema has at most {MOST_PATTERNS} patterns, and this is one more: let "
                                     "`$ref` lead to one schema under `$defs` where they are the same")
    size = len(pattern.encode("utf-8", "surrogatepass"))
    if size > MOST_PATTERN_BYTES:
        yield SchemaFault(44, place, f"the pattern has {size:,} bytes, and may have {MOST_PATTERN_BYTES:,}")
        return
    try:
        read_dialect(pattern)
    except NoPattern as none:
        yield SchemaFault(40, place, told_pattern(pattern, none))
    except RecursionError:
        return


def unsure_of_schema(schema: Any) -> str:
    """The first pattern with a name that only the store's tables of Unicode have, or have not."""
    for trail, part in subschemas(schema, 3):
        for place, pattern in _patterns_in(trail, part) if isinstance(part, dict) else ():
            name = script_in(pattern)
            if name is not None:
                told = place_in(pointer_of(place))
                return f"at {told}: it is no pattern if Unicode has no property or script `{name}`"
    return ""


def told_pattern(pattern: str, none: NoPattern) -> str:
    """Where a text is no pattern, and why."""
    return f"it is no pattern from character {none.place + 1}{text_at(pattern, none.place)} on: {none.message}"


def _told_loop(loop: List[Trail]) -> str:
    way = " then ".join(place_in(pointer_of(trail)) if trail else "from the root" for trail in loop[:_MOST_STEPS])
    more = f" then {len(loop) - _MOST_STEPS:,} more" if len(loop) > _MOST_STEPS else ""
    return f"the way {way}{more} leads back to it for the same value: put `properties` or `items` between"


def _no_schema(trail: Trail, part: Any) -> str:
    return f"{shown(part)} is no schema: it is an object, true or false{_hint(trail[1] if trail else '', part)}"


def _hint(word: Any, value: Any) -> str:
    """What is said of a value that the keyword had in earlier drafts."""
    earlier = _EARLIER_FORMS.get((word, type(value).__name__))
    return f" ({earlier})" if earlier else ""


def _of_member(references: References, profile: int, trail: Trail, word: Any, value: Any) -> Iterator[SchemaFault]:
    fault: Optional[Tuple[int, str]] = None
    if word in NOT_SUPPORTED:
        fault = 41, f"`{word}` is not supported; {NOT_SUPPORTED[word]}"
    elif word in FORMAT_3_ONLY and profile == 2:
        fault = 41, f"`{word}` needs a store of format 3; in format 2 {FORMAT_3_ONLY[word]}"
    elif word in ("$id", "$schema"):
        fault = _of_identity(bool(trail), word, value)
    elif word in _FORMS and not _FORMS[word][0](value):
        fault = 40, f"`{word}` is {shown(value)}, and must be {_FORMS[word][1]}{_hint(word, value)}"
    elif word == "$ref" and references.target(value) is None:
        fault = 42, references.dangling(value, f"`{called()} schema adapt`")
    if fault is not None:
        yield SchemaFault(fault[0], pointer_of((trail, word)), fault[1])


def _of_identity(is_below: bool, word: str, value: Any) -> Optional[Tuple[int, str]]:
    if is_below:
        return 41, f"`{word}` is for the root only: leave it out, and keep the schema under `$defs` of the root"
    if not isinstance(value, str):
        return 40, f"`{word}` is {shown(value)}, and must be a text"
    if word == "$schema" and value != DIALECT:
        return 41, (f"{shown(value)} is another dialect than {DIALECT}: `{called()} schema adapt` translates "
                    "earlier drafts")
    return None
