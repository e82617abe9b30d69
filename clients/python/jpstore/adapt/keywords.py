"""What becomes of each keyword: a function by its name, for what 2020-12 or the store says in another way."""
import math
from fractions import Fraction
from typing import TYPE_CHECKING, Any, Callable, Container, Dict, List, NamedTuple, Tuple

from ..faults.depths import values_in
from ..faults.references import is_anchor
from ..wire.values import LEAST, MOST
from .documents import At

if TYPE_CHECKING:
    from .schema import Work

__all__ = ["Part", "TRANSLATED", "free_name", "has_unsendable", "unknown_in"]

# The draft that brought a keyword; before it, the keyword had no effect.
_SINCE = {
    "allOf": 4, "anyOf": 4, "oneOf": 4, "not": 4, "maxProperties": 4, "minProperties": 4,
    "const": 6, "contains": 6, "propertyNames": 6, "if": 7, "then": 7, "else": 7,
    "$defs": 2019, "dependentRequired": 2019, "dependentSchemas": 2019, "minContains": 2019, "maxContains": 2019,
    "unevaluatedItems": 2019, "unevaluatedProperties": 2019, "$anchor": 2019, "$vocabulary": 2019, "prefixItems": 2020,
    "$dynamicRef": 2020, "$dynamicAnchor": 2020,
}

# The words by which a schema asks more of the same value than its own properties and items do.
_IN_PLACE = ("$ref", "$dynamicRef", "$recursiveRef", "allOf", "anyOf", "oneOf", "not", "if", "then", "else",
             "dependentSchemas", "dependencies", "patternProperties", "additionalProperties", "contains")


def free_name(name: str, taken: Container[str]) -> str:
    """The name, with a number after it if it is taken."""
    free, number = name, 2
    while free in taken:
        free, number = f"{name}_{number}", number + 1
    return free


def unknown_in(draft: int, word: str) -> bool:
    """Whether a keyword came later than the draft."""
    return draft < _SINCE.get(word, 0)


def has_unsendable(value: Any) -> bool:
    """Whether a value has a number that no line can carry."""
    return any(isinstance(part, float) or (isinstance(part, int) and not LEAST <= part <= MOST)
               for _, part in values_in(value))


class Part(NamedTuple):
    """A schema that is being translated, its place, and what is made of it so far."""

    work: "Work"
    at: At
    schema: Dict[str, Any]
    out: Dict[str, Any]

    @property
    def in_profile_3(self) -> bool:
        """Whether it is for a store that reads patterns, and references to any place."""
        return self.work.profile > 2

    @property
    def is_root(self) -> bool:
        """Whether it is the whole schema that was given."""
        return not self.at.tokens and not self.at.document

    def translated(self, value: Any, *way: Any) -> Any:
        """What a schema in it becomes."""
        return self.work.translated(self.at.below(*way), value)

    def note(self, word: str, message: str) -> None:
        """Notes that a keyword is not as it was."""
        self.work.note(self.at.below(word), message)

    def ask_also(self, *parts: Any) -> None:
        """Adds to what it asks of the same value."""
        before = self.out.get("allOf", [])
        self.out["allOf"] = [*before, *parts] if isinstance(before, list) else before


# It gets the schema, the keyword and its value.
_Translation = Callable[[Part, str, Any], None]


def _one(part: Part, word: str, value: Any) -> None:
    part.out[word] = part.translated(value, word)


def _several(part: Part, word: str, value: Any) -> None:
    if not isinstance(value, list):
        part.out[word] = value
    elif value or word not in ("allOf", "prefixItems"):
        inner = [part.translated(each, word, index) for index, each in enumerate(value)]
        part.out[word] = [*part.out.get(word, []), *inner]


def _named(part: Part, word: str, value: Any) -> None:
    part.out[word] = value if not isinstance(value, dict) else {
        name: part.translated(each, word, name) for name, each in value.items()}


def _nothing(part: Part, word: str, value: Any) -> None:
    """For what another keyword has translated, or what does nothing by itself."""


def _properties(part: Part, word: str, value: Any) -> None:
    _named(part, word, value)
    # Draft 3 says with each property whether it is required.
    needed = [name for name, each in (value.items() if isinstance(value, dict) else ())
              if isinstance(each, dict) and each.get("required") is True]
    if needed:
        part.out["required"] = list(dict.fromkeys([*part.out.get("required", []), *needed]))


def _required(part: Part, word: str, value: Any) -> None:
    if not isinstance(value, bool):
        part.out[word] = _once([*part.out.get(word, []), *value]) if isinstance(value, list) else value


def _once(names: List[Any]) -> List[Any]:
    """The names without those that came before; a list with something else is kept, and told."""
    return list(dict.fromkeys(names)) if all(isinstance(name, str) for name in names) else names


def _definitions(part: Part, word: str, value: Any) -> None:
    """What is defined comes under `$defs` of the root: all of the root's, and what references lead to.

    In profile 3 it stays in its schema.
    """
    for name, each in value.items() if isinstance(value, dict) else ():
        if part.in_profile_3:
            defs = part.out.setdefault("$defs", {})
            defs[free_name(name, defs)] = part.translated(each, word, name)
        elif part.is_root:
            part.work.name_of(part.at.below(word, name), each)


def _refer(part: Part, word: str, reference: Any) -> None:
    found = part.work.documents.target(part.at, reference) if isinstance(reference, str) else None
    if found is None or not isinstance(found[1], (dict, bool)):
        _referring(part, word)[word] = reference
    elif part.in_profile_3:
        made = _referring(part, "$ref")
        made["$ref"] = reference
        part.work.refers(made, *found)
    else:
        _referring(part, "$ref")["$ref"] = part.work.name_of(*found)


def _referring(part: Part, word: str) -> Dict[str, Any]:
    """The schema itself, or one that it asks beside, if the reference of another keyword is in it already."""
    if word not in part.out:
        return part.out
    made: Dict[str, Any] = {}
    part.ask_also(made)
    return made


def _recursive(part: Part, word: str, value: Any) -> None:
    part.note(word, "it leads to the root always, and not to the outermost `$recursiveAnchor`")
    _refer(part, word, value)


def _dynamic(part: Part, word: str, value: Any) -> None:
    name = value.partition("#")[2] if isinstance(value, str) else ""
    if name.startswith("/") or len(part.work.documents.anchors(name)) == 1:
        # There is only one that it may lead to.
        _refer(part, word, value)
    else:
        part.out[word] = value


def _anchor(part: Part, word: str, value: Any) -> None:
    """In profile 2, and from other documents, references to it lead to `$defs`."""
    if not part.in_profile_3 or part.at.document:
        return
    if not isinstance(value, str):
        part.out[word] = value
    elif is_anchor(value) and value not in part.work.anchors:
        part.out[word] = value
        part.work.anchors.add(value)


def _identity(part: Part, word: str, value: Any) -> None:
    """`id` is a keyword up to draft 4, and `$id` from draft 6 on; else `id` is a name as others."""
    is_keyword = word == ("$id" if part.at.draft > 4 else "id")
    if is_keyword and part.is_root and isinstance(value, str) and not value.startswith("#"):
        part.out["$id"] = value
    elif not is_keyword and word == "id":
        part.out[word] = value


def _dialect(part: Part, word: str, value: Any) -> None:
    if not part.at.tokens:
        part.out[word] = value


def _vocabulary(part: Part, word: str, value: Any) -> None:
    part.note(word, "`$vocabulary` is for schemas of this schema's own, and is left out")


def _items(part: Part, word: str, value: Any) -> None:
    if not isinstance(value, list):
        _one(part, word, value)
        return
    if value:
        part.out["prefixItems"] = [part.translated(each, word, index) for index, each in enumerate(value)]
    if "additionalItems" in part.schema:
        part.out[word] = part.translated(part.schema["additionalItems"], "additionalItems")


def _additional_items(part: Part, word: str, value: Any) -> None:
    if not isinstance(part.schema.get("items"), list):
        part.note(word, "`additionalItems` without a list of `items` had no effect, and is left out")


def _dependencies(part: Part, word: str, value: Any) -> None:
    for name, each in value.items() if isinstance(value, dict) else ():
        if isinstance(each, (list, str)):
            part.out.setdefault("dependentRequired", {})[name] = [each] if isinstance(each, str) else _once(each)
        else:
            _depend(part, word, name, each)


def _dependent_schemas(part: Part, word: str, value: Any) -> None:
    if part.in_profile_3:
        _named(part, word, value)
        return
    for name, each in value.items() if isinstance(value, dict) else ():
        _depend(part, word, name, each)


def _depend(part: Part, word: str, name: str, schema: Any) -> None:
    part.ask_also({"if": {"type": "object", "required": [name]}, "then": part.translated(schema, word, name)})


def _unevaluated(part: Part, word: str, value: Any) -> None:
    same = "items" if word == "unevaluatedItems" else "additionalProperties"
    if any(other in part.schema for other in (*_IN_PLACE, same)):
        part.out[word] = value
    else:
        part.out[same] = part.translated(value, word)


def _type(part: Part, word: str, value: Any) -> None:
    if value == "any" and part.at.draft == 3:
        return
    if isinstance(value, list) and any(isinstance(each, dict) for each in value):
        part.out["anyOf"] = [each if isinstance(each, bool) else part.translated(each, word, index)
                             if isinstance(each, dict) else {"type": each} for index, each in enumerate(value)]
        return
    if part.schema.get("nullable") is True and isinstance(value, str):
        value = [value, "null"]
    part.out[word] = _once(value) if isinstance(value, list) else value


def _nullable(part: Part, word: str, value: Any) -> None:
    if value is True:
        has_type = isinstance(part.schema.get("type"), str)
        part.note(word, "`nullable` of OpenAPI is `null` among the types" if has_type
                  else "`nullable` without a `type` had no effect, and is left out")


def _enum(part: Part, word: str, value: Any) -> None:
    if not isinstance(value, list):
        part.out[word] = value
        return
    kept = [each for each in value if not has_unsendable(each)]
    if len(kept) < len(value):
        part.note(word, "values with a fraction or a number beyond 64 bits are left out: no value in a store is one of "
                        "them")
    part.out[word] = [*kept, None] if part.schema.get("nullable") is True and None not in kept else kept


def _const(part: Part, word: str, value: Any) -> None:
    if not has_unsendable(value):
        part.out[word] = value
        return
    part.note(word, "no value in a store is this one, so none is accepted")
    part.out["enum"] = []


def _of_whole_numbers(word: str, value: float) -> Tuple[str, int]:
    """The keyword and the whole number that bound whole numbers as this one does."""
    if value == int(value):
        return word, int(value)
    if word in ("minimum", "exclusiveMinimum"):
        return "minimum", math.ceil(value)
    return "maximum", math.floor(value)


def _bound(part: Part, word: str, value: Any) -> None:
    if isinstance(value, bool) and word.startswith("exclusive"):
        # In draft 4 it says how the bound beside it is meant.
        return
    if isinstance(value, bool) or not isinstance(value, (int, float)):
        part.out[word] = value
        return
    other = f"exclusive{word[0].upper()}{word[1:]}"
    as_word, whole = _of_whole_numbers(other if part.schema.get(other) is True else word, value)
    is_least = as_word.lower().endswith("minimum")
    if (is_least and whole < LEAST) or (not is_least and whole > MOST):
        part.note(word, f"the bound {value} is beyond 64 bits, and is left out: each number in a store keeps it")
        return
    if isinstance(value, float) and value != whole:
        part.note(word, f"the bound {value} is `{as_word}` {whole} for whole numbers")
    before = part.out.get(as_word)
    if isinstance(before, int):
        whole = max(before, whole) if is_least else min(before, whole)
    part.out[as_word] = whole


def _multiple(part: Part, word: str, value: Any) -> None:
    whole = value
    if isinstance(value, float) and value > 0:
        # The least whole number whose multiples are the whole multiples of this one.
        whole = Fraction(repr(value)).numerator
        if whole != value:
            part.note(word, f"whole multiples of {value} are those of {whole}")
    part.out["multipleOf"] = whole


def _count(part: Part, word: str, value: Any) -> None:
    part.out[word] = int(value) if isinstance(value, float) and value == int(value) else value


def _extends(part: Part, word: str, value: Any) -> None:
    if part.at.draft != 3:
        part.out[word] = value
        return
    part.ask_also(*(part.translated(each, word) for each in (value if isinstance(value, list) else [value])))


def _disallow(part: Part, word: str, value: Any) -> None:
    if part.at.draft != 3:
        part.out[word] = value
        return
    part.out["not"] = {"anyOf": [part.translated(each, word) if isinstance(each, dict)
                                 else {} if each == "any" else {"type": each}
                                 for each in (value if isinstance(value, list) else [value])]}


def _pattern(part: Part, word: str, value: Any) -> None:
    is_read = part.in_profile_3 and isinstance(value, str)
    part.out[word] = part.work.rewritten(part.at.below(word), value, part.out, (word,)) if is_read else value


def _patterned(part: Part, word: str, value: Any) -> None:
    _named(part, word, value)
    if not part.in_profile_3 or not isinstance(value, dict):
        return
    made: Dict[str, Any] = {}
    parts, part.out[word] = part.out[word], made
    for pattern, each in parts.items():
        name = part.work.rewritten(part.at.below(word, pattern), pattern, part.out, (word, pattern))
        # Two may be written alike now.
        made[name] = {"allOf": [made[name], each]} if name in made else each


def _additional(part: Part, word: str, value: Any) -> None:
    if "patternProperties" in part.schema and "patternProperties" in part.work.drop:
        # Without the patterns it would refuse the members that these allow.
        part.work.dropped(part.at, word)
    else:
        _one(part, word, value)


#: What becomes of each keyword that is not kept as it is.
TRANSLATED: Dict[str, _Translation] = {
    **dict.fromkeys(("propertyNames", "contains", "not", "if", "then", "else"), _one),
    **dict.fromkeys(("allOf", "anyOf", "oneOf", "prefixItems"), _several),
    **dict.fromkeys(("minimum", "maximum", "exclusiveMinimum", "exclusiveMaximum"), _bound),
    **dict.fromkeys(("minLength", "maxLength", "minItems", "maxItems", "minProperties", "maxProperties", "minContains",
                     "maxContains"), _count),
    **dict.fromkeys(("$dynamicAnchor", "$recursiveAnchor"), _nothing),
    **dict.fromkeys(("$defs", "definitions"), _definitions), **dict.fromkeys(("$id", "id"), _identity),
    **dict.fromkeys(("divisibleBy", "multipleOf"), _multiple),
    **dict.fromkeys(("unevaluatedItems", "unevaluatedProperties"), _unevaluated),
    "$anchor": _anchor, "$dynamicRef": _dynamic, "$recursiveRef": _recursive, "$ref": _refer, "$schema": _dialect,
    "$vocabulary": _vocabulary, "additionalItems": _additional_items, "additionalProperties": _additional,
    "const": _const, "dependencies": _dependencies, "dependentSchemas": _dependent_schemas, "disallow": _disallow,
    "enum": _enum, "extends": _extends, "items": _items, "nullable": _nullable, "pattern": _pattern,
    "patternProperties": _patterned, "properties": _properties, "required": _required, "type": _type,
}
