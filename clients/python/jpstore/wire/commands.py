"""The commands as what is sent: one object a line."""
import re
from typing import Any, Dict, List, Literal, Optional, Sequence, Tuple, Union

from ..called import called
from ..errors import Unsendable, told_command
from .forms import CHANGES, TRANSACTION, is_change
from .values import WHOLE, canonical, text_of

__all__ = [
    "AskedMark", "COPY", "END_OF_TRANSACTION", "EXPORT", "HEAD_OF_CREATION", "LIST", "SNAPSHOT", "STATUS",
    "changes_after", "changes_in", "create", "delete", "get", "get_schema", "is_change", "is_changing", "line_of",
    "line_of_creation", "line_of_schema", "line_of_transaction", "mark_of", "patch", "pump", "query", "rev",
    "set_schema", "texts_in_transaction", "transaction",
]

#: A command; see `docs/use/PROTOCOL.md`.
Command = Dict[str, Any]

#: The value of the mark that must be there, None if there must be none, or False if nothing is asked.
AskedMark = Union[str, None, Literal[False]]

#: A line that changes nothing, and so ends a group of changes.
STATUS = b'{"cmd":"status"}\n'

#: The line that asks for the names, and the one that makes a snapshot.
LIST, SNAPSHOT = b'{"cmd":"list"}\n', b'{"cmd":"snapshot"}\n'

#: The line that asks a hub or a node for all documents, and the one that asks a node for its file.
EXPORT, COPY = b'{"cmd":"export"}\n', b'{"cmd":"copy"}\n'

#: How the text of a creation begins.
HEAD_OF_CREATION = b'{"cmd":"create",'

_CHANGING = (*CHANGES, TRANSACTION)

# The place of a fault is in a schema.
_IN_SCHEMA = re.compile("(/changes/[0-9]+)?/schema/")

# Around the texts of its changes, which have a comma between two, the text of a transaction has these.
_BEGIN_OF_TRANSACTION, END_OF_TRANSACTION = b'{"changes":[', b'],"cmd":"transaction"}'


def create(name: str, doc: Any, schema: Any = True) -> Command:
    """Makes the document `name` with the value `doc` under a JSON Schema."""
    return {"cmd": "create", "doc": doc, "name": name, "schema": schema}


def patch(name: str, ops: List[Command], if_rev: Optional[int] = None) -> Command:
    """Applies JSON Patch operations (RFC 6902) to a document, all or none, and with `if_rev` only at that revision."""
    command: Command = {"cmd": "patch", "name": name, "ops": ops}
    return command if if_rev is None else {**command, "if_rev": if_rev}


def set_schema(name: str, schema: Any) -> Command:
    """Puts a document under another schema."""
    return {"cmd": "schema", "name": name, "schema": schema}


def delete(name: str) -> Command:
    """Deletes a document."""
    return {"cmd": "delete", "name": name}


def transaction(changes: Sequence[Command], mark: Optional[Tuple[str, str]] = None,
                if_mark: AskedMark = False) -> Command:
    """Makes changes, all or none: 1 to 1,024 that the four functions above have made.

    With `mark`, a key and a value, it sets this mark too; with `if_mark` only if the key has that one.
    """
    command: Command = {"changes": list(changes), "cmd": TRANSACTION}
    if mark is not None:
        command["mark"] = {"key": mark[0], "value": mark[1]}
    # Without a mark the store refuses it (14).
    return command if if_mark is False else {**command, "if_mark": if_mark}


def get(name: str, path: str = "") -> Command:
    """Asks for the value at a place of a document."""
    return {"cmd": "get", "name": name, "path": path}


def get_schema(name: str) -> Command:
    """Asks for the schema of a document."""
    return {"cmd": "get-schema", "name": name}


def mark_of(key: str) -> Command:
    """Asks for the mark of a key."""
    return {"cmd": "mark", "key": key}


def rev(name: str) -> Command:
    """Asks for the revision of a document."""
    return {"cmd": "rev", "name": name}


def query(name: str, path: str) -> Command:
    """Asks for the nodes that a JSONPath query selects in a document."""
    return {"cmd": "query", "name": name, "path": path}


def changes_after(since: int, most: int) -> Command:
    """Asks for the transactions after a change: the first bytes of them, this many at most."""
    return {"cmd": "changes", "from": since, "max": most}


def pump(most: int) -> Command:
    """Asks for a step of a snapshot that is copied between changes."""
    return {"cmd": "pump", "max": most}


def is_changing(command: Any) -> bool:
    """Whether a command may change documents: one of the four, or a transaction."""
    return isinstance(command, dict) and command.get("cmd") in _CHANGING


def changes_in(command: Command) -> List[Command]:
    """The changes that a command makes, in order: those of a transaction, or itself."""
    if command.get("cmd") != TRANSACTION:
        return [command]
    changes = command.get("changes")
    return changes if isinstance(changes, list) else []


def line_of(command: Command) -> bytes:
    """The line of a command, with its LF; `Unsendable` if it has a value that no line can carry."""
    try:
        return text_of(command) + b"\n"
    except Unsendable as error:
        told, said = told_command(command), str(error)
        if _IN_SCHEMA.match(said):
            said = said.replace(WHOLE, f"`{called()} schema adapt` makes a bound of whole numbers of it")
        raise Unsendable(f"{told}: {said}" if told else said) from None


def line_of_creation(name: str, doc: bytes, schema: bytes) -> bytes:
    """The line that makes a document, of the texts of its value and its schema."""
    return b'%b"doc":%b,"name":"%b","schema":%b}\n' % (HEAD_OF_CREATION, doc, name.encode(), schema)


def line_of_schema(name: str, schema: bytes) -> bytes:
    """The line that puts a document under another schema, which has this text."""
    return b'{"cmd":"schema","name":"%b","schema":%b}\n' % (name.encode(), schema)


def line_of_transaction(texts: Sequence[bytes], mark: Tuple[str, str], if_mark: AskedMark) -> bytes:
    """The line of a transaction of the changes that have these texts, with a mark."""
    bare, begin = canonical(transaction([], mark, if_mark)), len(_BEGIN_OF_TRANSACTION)
    return b"%b%b%b\n" % (bare[:begin], b",".join(texts), bare[begin:])


def texts_in_transaction(line: bytes) -> bytes:
    """The texts of the changes, with a comma between two, in the canonical line of a transaction."""
    return line[len(_BEGIN_OF_TRANSACTION):-len(END_OF_TRANSACTION) - 1]
