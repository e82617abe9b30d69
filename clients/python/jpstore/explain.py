"""The reasons why a document is not valid, by the library `jsonschema`; a patch is made by `jsonpatch`."""
import copy
import itertools
from dataclasses import dataclass
from typing import Any, Callable, Dict, Iterable, Iterator, List, Optional, Sequence

from .errors import Invalid, JpstoreError
from .faults.depths import values_in
from .faults.words import pointer_of
from .wire.values import escaped

__all__ = ["Fault", "explain", "faults_of", "first_reason"]

_HOW_TO_GET = ("the libraries jsonschema and jsonpatch tell which value is not valid: pip install jsonschema jsonpatch"
               ", or apt-get install python3-jsonschema python3-jsonpatch")
_DIFFERS = ("the store refuses it, but jsonschema finds no fault; what the store says counts, and the document may "
            "have changed since")
_MOST_LETTERS = 200

# Reads the document and its schema from the store, if that is possible.
_Read = Optional[Callable[[], Sequence[Any]]]


@dataclass(frozen=True)
class Fault:
    """A value that a keyword of the schema refuses, both by their JSON Pointers, and what the library says of it."""

    place: str
    keyword: str
    message: str

    def __str__(self) -> str:
        where = f"at `{self.place}`" if self.place else "the document"
        by = f" (schema `{self.keyword}`)" if self.keyword else ""
        return f"{where}: {self.message}{by}"


def explain(doc: Any, schema: Any, most: Optional[int] = None) -> List[Fault]:
    """Each fault of a document under a schema of JSON Schema 2020-12, in the order of places; none if it is valid.

    `most` is the greatest number of faults: those that are found first.
    """
    if isinstance(schema, dict):
        # A schema that names its dialect is judged by the library's own meaning of patterns.
        schema = {word: value for word, value in schema.items() if word != "$schema"}
    errors = itertools.islice(_validator(schema).iter_errors(doc), most)
    try:
        return sorted((_fault(error, schema) for error in errors), key=lambda fault: fault.place)
    except Exception as error:
        # Which errors these are differs by the version of the library.
        raise JpstoreError(f"jsonschema cannot judge the document: {error}") from error


def _finds(pattern: str, text: str) -> Optional[bool]:
    """As `patterns.finds`, which is loaded when a reason is first asked for."""
    from .patterns import finds
    return finds(pattern, text)


def _validator(schema: Any) -> Any:
    """The library's validator of a schema, to which references and patterns mean what they mean in the store."""
    try:
        from jsonschema import Draft202012Validator, validators
    except ImportError:
        raise JpstoreError(_HOW_TO_GET) from None
    from .faults.references import References
    references = References(schema, 3)

    def reference(validator: Any, word: Any, doc: Any, part: Any) -> Iterator[Any]:
        found = references.target(word) if isinstance(word, str) else None
        if found is None:
            yield from Draft202012Validator.VALIDATORS["$ref"](validator, word, doc, part)
        else:
            yield from validator.descend(doc, found[1])

    return validators.extend(Draft202012Validator, {
        "$ref": reference, "pattern": _pattern, "patternProperties": _by_pattern,
        "additionalProperties": _others})(schema)


def _pattern(validator: Any, pattern: Any, doc: Any, _schema: Any) -> Iterator[Any]:
    from jsonschema import ValidationError
    # What can't be said here is left to the store.
    if isinstance(doc, str) and _finds(pattern, doc) is False:
        yield ValidationError(f"{doc!r} does not match {pattern!r}")


def _by_pattern(validator: Any, patterns: Any, doc: Any, _schema: Any) -> Iterator[Any]:
    for pattern, schema in patterns.items() if isinstance(doc, dict) else ():
        for name, value in doc.items():
            if _finds(pattern, name):
                yield from validator.descend(value, schema, path=name, schema_path=pattern)


def _others(validator: Any, others: Any, doc: Any, schema: Any) -> Iterator[Any]:
    from jsonschema import Draft202012Validator, ValidationError
    patterns, known = schema.get("patternProperties"), schema.get("properties", {})
    if not patterns:
        yield from Draft202012Validator.VALIDATORS["additionalProperties"](validator, others, doc, schema)
        return
    names = [name for name in (doc if isinstance(doc, dict) else ())
             if name not in known and all(_finds(pattern, name) is False for pattern in patterns)]
    if others is False and names:
        told = ", ".join(map(repr, names)), "does" if len(names) == 1 else "do", ", ".join(map(repr, patterns))
        yield ValidationError(f"{told[0]} {told[1]} not match any of the patterns {told[2]}")
    elif others is not False:
        for name in names:
            yield from validator.descend(doc[name], others, path=name)


def faults_of(command: Dict[str, Any], read: _Read, most: Optional[int] = None,
              before: Sequence[Dict[str, Any]] = ()) -> List[Fault]:
    """Each fault of the document as a refused change would leave it, after those `before` it in its transaction.

    If the library finds none, the only fault says so: what the store says counts. If the document can't be read, it
    says why.
    """
    changes = [*(each for each in before if each.get("name") == command.get("name")), command]
    creations = [place for place, each in enumerate(changes) if each.get("cmd") == "create"]
    if creations:
        doc, schema = changes[creations[-1]]["doc"], changes[creations[-1]]["schema"]
        del changes[:creations[-1] + 1]
    elif read is None:
        raise JpstoreError("the document is not at hand: read it and its schema, and call `explain(doc, schema)`")
    else:
        try:
            doc, schema = read()
        except JpstoreError as error:
            return [Fault("", "", f"the document was not read while it could be: {error}")]
    for change in changes:
        if change.get("cmd") == "schema":
            schema = change["schema"]
        else:
            doc = _patched(doc, change["ops"])
    return explain(doc, schema, most) or [Fault("", "", _DIFFERS)]


def _patched(doc: Any, ops: List[Dict[str, Any]]) -> Any:
    try:
        import jsonpatch
    except ImportError:
        raise JpstoreError(_HOW_TO_GET) from None
    try:
        return jsonpatch.apply_patch(doc, copy.deepcopy(ops))
    except (jsonpatch.JsonPatchException, jsonpatch.JsonPointerException) as error:
        raise JpstoreError(f"the document was changed meanwhile, and the patch does not fit it: {error}") from None
    except Exception as error:
        # It can't add a whole value in the place of a number, for one.
        raise JpstoreError(f"jsonpatch cannot make the document that the patch leaves: {error}") from error


def _fault(error: Any, schema: Any) -> Fault:
    message = str(error.message)
    if len(message) > _MOST_LETTERS:
        message = message[:_MOST_LETTERS // 2] + " .. " + message[-_MOST_LETTERS // 2:]
    return Fault(_pointer(error.absolute_path), _keyword(error, schema), message)


def _keyword(error: Any, schema: Any) -> str:
    """The place of the keyword in the schema; that in the `$defs` if a `$ref` leads there."""
    places = (trail for trail, part in values_in(schema) if part is error.schema)
    place = next(places, None) if isinstance(error.schema, dict) else None
    if place is None or not isinstance(error.validator, str):
        return _pointer(error.absolute_schema_path)
    return pointer_of((place, error.validator))


def _pointer(tokens: Iterable[Any]) -> str:
    return "".join("/" + escaped(str(token)) for token in tokens)


def first_reason(refused: Invalid) -> str:
    """The first fault of a document that is not valid, or how to get to know it."""
    try:
        return str(faults_of(refused.command, refused.read, 1, refused.before)[0])
    except JpstoreError as error:
        return str(error)
