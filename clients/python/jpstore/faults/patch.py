"""Which operation of a patch is at fault (30 to 34), and which pointer (38)."""
import re
from typing import Any, Dict, List, Optional

from .words import perhaps, place_in, shown

__all__ = ["fault_of_patch", "fault_of_pointer"]

# The members of each operation beside `op` (RFC 6902, section 4).
_MEMBERS: Dict[str, List[str]] = {
    "add": ["path", "value"], "remove": ["path"], "replace": ["path", "value"], "move": ["from", "path"],
    "copy": ["from", "path"], "test": ["path", "value"],
}

_SHAPE, _POINTER, _MISSING, _INTO_ITSELF, _TEST = 30, 31, 32, 33, 34


def fault_of_patch(number: int, command: Dict[str, Any], at: Optional[int]) -> str:
    """What is wrong with the operation at this place in `ops`, or with `ops` itself."""
    operations = command.get("ops")
    if not isinstance(operations, (list, tuple)):
        return f"`ops` is {shown(operations)}, and must be a list of operations" if number == _SHAPE else ""
    return "" if at is None or at >= len(operations) else _fault_of(number, operations[at])


def _fault_of(number: int, operation: Any) -> str:
    if number == _SHAPE:
        return _fault_of_shape(operation)
    if not isinstance(operation, dict):
        return ""
    if number == _POINTER:
        pointers = ((name, operation.get(name)) for name in ("path", "from"))
        found = ((name, fault_of_pointer(pointer)) for name, pointer in pointers if isinstance(pointer, str))
        return next((f"`{name}`: {fault}" for name, fault in found if fault), "")
    path, source = operation.get("path"), operation.get("from")
    if not isinstance(path, str):
        return ""
    if number == _MISSING:
        return _needed(str(operation.get("op")), path, source)
    if number == _INTO_ITSELF:
        return f"{place_in(path)} is within {place_in(str(source))}"
    return f"{place_in(path)} isn't {shown(operation.get('value'))}" if number == _TEST else ""


def _fault_of_shape(operation: Any) -> str:
    if not isinstance(operation, dict):
        return f"it is {shown(operation)}, and must be an object"
    if "op" not in operation:
        return "it lacks `op`, which says what to do"
    word = operation["op"]
    if not isinstance(word, str) or word not in _MEMBERS:
        return f"`op` is {shown(word)}{perhaps(word, tuple(_MEMBERS))}"
    missing = next((name for name in _MEMBERS[word] if name not in operation), None)
    if missing is not None:
        return f"`{word}` lacks `{missing}`"
    pointers = [name for name in ("path", "from") if name in operation]
    wrong = next((name for name in pointers if not isinstance(operation[name], str)), None)
    return f"`{wrong}` is {shown(operation[wrong])}, and must be a text" if wrong else ""


def _needed(word: str, path: str, source: Any) -> str:
    """The place that an operation needs."""
    if word == "add":
        return f"to add {place_in(path)}, {_parent(path)}"
    if word in ("copy", "move"):
        return f"there is no {place_in(str(source))}, or no place to put it at {place_in(path)}"
    return f"there is no {place_in(path)}"


def _parent(path: str) -> str:
    parent, _, last = path.rpartition("/")
    what = f"{place_in(parent) if parent else 'the document'} must be an object"
    return what + (", or a list that is long enough" if re.fullmatch("-|[0-9]+", last) else "")


def fault_of_pointer(pointer: str) -> str:
    """What keeps a text from being a JSON Pointer (RFC 6901, section 3); empty if it is one."""
    if pointer and not pointer.startswith("/"):
        return f"{place_in(pointer)} doesn't begin with `/`"
    wrong = re.search("~(?![01])", pointer)
    if wrong is None:
        return ""
    return f"{place_in(pointer)} has a `~` as its character {wrong.start() + 1}, without 0 or 1 after it"
