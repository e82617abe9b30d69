"""Which member of a command is at fault (14), which character of a name (15), and where a document is too deep (13)."""
import re
from typing import Any, Dict, Iterator, Tuple

from ..protocol import COMMANDS
from ..wire.forms import CHANGES, FORMS, MARKING, TRANSACTION, Kind, Members
from ..wire.limits import MOST_CHANGES, MOST_LEVELS, MOST_MARK_BYTES
from .depths import deeper_than
from .words import nearest, perhaps, place_in, shown

__all__ = ["NO_MARKS", "fault_of_depth", "fault_of_form", "fault_of_name"]

#: What is wrong with a command that has its form and a mark.
NO_MARKS = "this store has no marks"

# What the values of members are, by their kinds.
_VALUES = {"changes": f"a list of 1 to {MOST_CHANGES:,} changes", "count": "a whole number from 0", "text": "a text"}

# Of the members that speak of a mark.
_OF_MARKING = {
    "if_mark": "a text or null",
    "mark": f"an object of a `key` and a `value`, texts, the value of at most {MOST_MARK_BYTES} bytes",
}


def fault_of_form(command: Any, words: Tuple[str, ...] = tuple(FORMS)) -> str:
    """What a refused command lacks or has too much; empty if it has its form, but for a mark."""
    if not isinstance(command, dict):
        return f"a command is an object, and this is {shown(command)}"
    if "cmd" not in command:
        return "it lacks `cmd`, which says what to do"
    word = command["cmd"]
    if not isinstance(word, str) or word not in words:
        what = "command" if len(words) > len(CHANGES) else "change"
        return f"`cmd` is {shown(word)}, and no such {what} exists{perhaps(word, words)}"
    if MARKING.keys() & command.keys() and len(words) > len(CHANGES) and FORMS[word].kind is Kind.CHANGE:
        # In a line alone.
        return _fault_of_mark(word, command)
    return _fault_of_members(word, command)


def _fault_of_mark(word: str, command: Dict[str, Any]) -> str:
    fault = _fault_of_values(word, MARKING, command)
    fault = fault or _fault_of_members(word, {name: command[name] for name in command if name not in MARKING})
    return fault or (NO_MARKS if "mark" in command else f"`{word}` lacks `mark`, which `if_mark` needs beside it")


def _fault_of_values(word: str, members: Members, command: Dict[str, Any]) -> str:
    wrong = next((name for name, has_kind in members.items() if name in command and not has_kind(command[name])), None)
    if wrong is None:
        return ""
    return f"`{wrong}` of `{word}` is {shown(command[wrong])}, and must be {_wanted(word, wrong)}"


def _wanted(word: str, name: str) -> str:
    """What the value of a member must be."""
    if name in _OF_MARKING:
        return _OF_MARKING[name]
    member = COMMANDS[word].members[name]
    return _VALUES[member.kind] if member.most is None else f"a whole number from 1 to {member.most:,}"


def _fault_of_members(word: str, command: Dict[str, Any]) -> str:
    form = FORMS[word]
    missing = [name for name in form.members if name not in command and name not in form.optional]
    for name in command:
        if name not in form.members:
            near = nearest(name, missing) or nearest(name, form.members)
            return f"`{word}` has no member `{name}`" + (f": perhaps `{near}` is meant" if near else _members(word))
    if missing:
        return f"`{word}` lacks `{missing[0]}`{_members(word)}"
    if word == TRANSACTION:
        return _fault_of_changes(command["changes"])
    return _fault_of_values(word, form.members, command)


def _members(word: str) -> str:
    form = FORMS[word]
    names = [f"`{name}`" + (" (optional)" if name in form.optional else "") for name in form.members]
    return f"; it has {', '.join(names)}"


def _fault_of_changes(changes: Any) -> str:
    if not isinstance(changes, list) or not 1 <= len(changes) <= MOST_CHANGES:
        is_list = isinstance(changes, (list, tuple))
        return f"`changes` is {f'a list of {len(changes):,}' if is_list else shown(changes)}, and must be " + (
            _VALUES["changes"])
    found = ((place, fault_of_form(change, CHANGES)) for place, change in enumerate(changes))
    return next((f"change {place}, counted from 0: {fault}" for place, fault in found if fault), "")


def fault_of_name(command: Dict[str, Any]) -> str:
    """Which character a name may not have, or that it is too long."""
    name = command.get("name")
    if not isinstance(name, str):
        return ""
    wrong = re.search(r"[^A-Za-z0-9_.-]", name)
    if wrong:
        return f"`{name}` has {wrong.group()!r} as its character {wrong.start() + 1}"
    return "the name is empty" if not name else f"the name has {len(name)} characters"


def fault_of_depth(command: Dict[str, Any]) -> str:
    """The place at which a document, or what an operation puts into it, is deeper than a document may be."""
    for place, value, above in _values_of(command):
        deep = deeper_than(value, MOST_LEVELS - above)
        if deep is not None:
            return f"level {MOST_LEVELS + 1} begins at {place_in(place + deep)}"
    return ""


def _values_of(command: Dict[str, Any]) -> Iterator[Tuple[str, Any, int]]:
    """The values that a command puts into a document: each with its place in the command, and how deep it is put."""
    if "doc" in command:
        yield "/doc", command["doc"], 0
    operations = command.get("ops")
    for index, operation in enumerate(operations if isinstance(operations, list) else ()):
        if isinstance(operation, dict) and "value" in operation and isinstance(operation.get("path"), str):
            yield f"/ops/{index}/value", operation["value"], operation["path"].count("/")
