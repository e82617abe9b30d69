"""The form of each command: what it asks for, and its members."""
from enum import Enum
from typing import Any, Callable, Dict, FrozenSet, NamedTuple

from ..protocol import COMMANDS, Command, Member
from .limits import MOST_CHANGES, MOST_MARK_BYTES

__all__ = ["CHANGES", "FORMS", "MARKING", "TRANSACTION", "Form", "Kind", "Members", "has_form", "is_change"]

#: The word of several changes, all or none.
TRANSACTION = "transaction"


class Kind(Enum):
    """What a command asks for."""

    CHANGE = "change"
    QUESTION = "question"
    #: It may change which half of the file counts, or writes it anew, and changes no document.
    SNAPSHOT = "snapshot"
    #: A hub or a node answers it itself.
    OWN = "own"
    #: A node answers it itself, and nothing else knows it.
    NODE = "node"


def _is_text(value: Any) -> bool:
    return isinstance(value, str)


def _is_count(value: Any) -> bool:
    return isinstance(value, int) and not isinstance(value, bool) and value >= 0


def _is_any(_: Any) -> bool:
    return True


def _is_mark(value: Any) -> bool:
    return (isinstance(value, dict) and value.keys() == {"key", "value"} and all(map(_is_text, value.values()))
            and len(value["value"].encode(errors="replace")) <= MOST_MARK_BYTES)


def _is_asked(value: Any) -> bool:
    return value is None or _is_text(value)


def _are_changes(value: Any) -> bool:
    return (isinstance(value, list) and 1 <= len(value) <= MOST_CHANGES
            and all(is_change(each) and has_form(each) for each in value))


#: The members of an object: what the value of each is.
Members = Dict[str, Callable[[Any], bool]]


class Form(NamedTuple):
    """What a command asks for, and its members; those in `optional` may be left out."""

    kind: Kind
    members: Members
    optional: FrozenSet[str] = frozenset()


_TESTS: Members = {"any": _is_any, "changes": _are_changes, "count": _is_count, "text": _is_text}


def _test_of(member: Member) -> Callable[[Any], bool]:
    most = member.most
    return _TESTS[member.kind] if most is None else lambda value: _is_count(value) and 1 <= value <= most


def _form_of(command: Command) -> Form:
    members = {name: _test_of(member) for name, member in command.members.items()}
    return Form(Kind(command.kind), members, frozenset(name for name in members if command.members[name].optional))


#: The forms by the word of the command.
FORMS: Dict[str, Form] = {word: _form_of(command) for word, command in COMMANDS.items()}

#: What a line of changes may have beside its form: the mark that is set with them, and the one that must be there.
MARKING: Members = {"mark": _is_mark, "if_mark": _is_asked}

#: The words of the changes of one document.
CHANGES = tuple(word for word, form in FORMS.items() if form.kind is Kind.CHANGE and word != TRANSACTION)


def is_change(command: Any) -> bool:
    """Whether a command is one of the four that change a document."""
    return isinstance(command, dict) and command.get("cmd") in CHANGES


def has_form(command: Any) -> bool:
    """Whether a value is an object that has exactly the members of a command without a mark, each of the right kind."""
    word = command.get("cmd") if isinstance(command, dict) else None
    form = FORMS.get(word) if isinstance(word, str) else None
    if form is None or form.members.keys() - command.keys() - form.optional:
        return False
    return all(name in form.members and form.members[name](value) for name, value in command.items())
