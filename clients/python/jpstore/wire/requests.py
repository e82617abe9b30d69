"""What each call sends, and how its result is read from the replies; the same for `Store` and `AsyncStore`."""
import json
from dataclasses import dataclass
from typing import Any, Callable, Dict, Generic, List, Optional, Sequence, Tuple, TypeVar, Union

from ..errors import Gone, JpstoreError, NotFound, Refused, Unsendable, refusal_of
from ..notices import warn_of_command
from ..results import Changes, Mark, Node, Pumped, Status, Transaction
from . import commands
from .commands import AskedMark, Command, is_change, is_changing, line_of
from .replies import text_in
from .texts import value_of_text

__all__ = [
    "Outcome", "Request", "accepted", "all_of", "change", "changes", "create", "delete", "doc_and_schema",
    "get", "grow", "lines_of_group", "mark", "names", "outcomes_of", "patch", "pump", "put",
    "query", "query_all", "rev", "rev_and_doc", "rev_and_value", "schema", "set_schema", "snapshot", "status",
    "texts", "transaction",
]

T = TypeVar("T")
T_co = TypeVar("T_co", covariant=True)

Reply = Dict[str, Any]

# The refusals of a text: it is not JSON, or has a number that is not a 64-bit whole number.
_OF_TEXT = (11, 12)

# What a server answers that knows no such command.
_NO_COMMAND = 14


@dataclass(frozen=True)
class Request(Generic[T_co]):
    """Commands that are sent together, and what their replies come to."""

    commands: Sequence[Command]
    read: Callable[[List[bytes]], T_co]

    @property
    def lines(self) -> List[bytes]:
        """The lines of the commands, each with its LF."""
        return [line_of(command) for command in self.commands]

    @property
    def changes(self) -> bool:
        """Whether one of them changes a document."""
        return any(map(is_changing, self.commands))


def _request(asked: Sequence[Command], read: Callable[[List[Reply]], T]) -> Request[T]:
    def parsed(replies: List[bytes]) -> T:
        return read([accepted(reply, command) for reply, command in zip(replies, asked)])
    return Request(asked, parsed)


def accepted(line: bytes, command: Command) -> Reply:
    """A reply that is ok; else its refusal is raised."""
    # As a text, since of bytes it would first be found out which encoding they have.
    reply: Reply = json.loads(line.decode())
    if not reply["ok"]:
        raise refusal_of(reply, command)
    return reply


def _text(line: bytes, command: Command) -> bytes:
    """The text in a reply, which is not parsed, as it may be long; if there is none, its refusal is raised."""
    found = text_in(line)
    if found is None:
        raise refusal_of(json.loads(line), command)
    return found


def change(command: Command, if_rev: Optional[int] = None) -> Request[int]:
    """A change; its number. With `if_rev` only if its document has that revision."""
    warn_of_command(command)
    return _numbered([command]) if if_rev is None else _guarded(if_rev, [command])


def transaction(changes: Sequence[Command], mark: Optional[Tuple[str, str]] = None,
                if_mark: AskedMark = False) -> Request[int]:
    """Changes, all or none, and perhaps a mark with them; the number of the last."""
    for place, command in enumerate(changes):
        if not is_change(command):
            known = "a transaction has changes only: create, patch, schema and delete"
            raise JpstoreError(f"{known}; `cmd` of change {place}, counted from 0, is none of them")
        warn_of_command(command)
    return _numbered([commands.transaction(changes, mark, if_mark)])


def _numbered(asked: List[Command]) -> Request[int]:
    return _request(asked, lambda replies: int(replies[0]["seq"]))


def _guarded(if_rev: Optional[int], changes: List[Command]) -> Request[int]:
    """Changes of one document, all or none, with `if_rev` only if it has that revision: as if they were one change.

    A patch that asks for the revision and has no operations comes before them. It is a change too, with a number.
    """
    guards = [] if if_rev is None else [commands.patch(changes[0]["name"], [], if_rev)]
    asked = commands.transaction(guards + changes)

    def read(replies: List[bytes]) -> int:
        reply: Reply = json.loads(replies[0])
        if reply["ok"]:
            return int(reply["seq"])
        place = max(reply.pop("change", 0) - len(guards), 0)
        raise refusal_of(reply, changes[place], changes[:place])
    return Request([asked], read)


def put(name: str, doc: Any, schema: Any, if_rev: Optional[int]) -> Tuple[Request[int], Optional[Request[int]]]:
    """What replaces the value of a document, and what makes the document; its schema is left if None is given.

    With `if_rev` none is made.
    """
    made = create(name, doc, True if schema is None else schema)
    warn_of_command(made)
    making = _numbered([made]) if if_rev is None else None
    whole = [{"op": "replace", "path": "", "value": doc}]
    if schema is None:
        return _numbered([patch(name, whole, if_rev)]), making
    # The old schema need not allow the new value, nor the new schema the old value.
    changes = [set_schema(name, True), patch(name, whole), set_schema(name, schema)]
    return _guarded(if_rev, changes), making


def get(name: str, path: str) -> Request[Any]:
    """The value at a place of a document."""
    return _request([commands.get(name, path)], lambda replies: replies[0]["value"])


def mark(key: str) -> Request[Optional[Mark]]:
    """The mark of a key, if it has one."""
    def read(replies: List[Reply]) -> Optional[Mark]:
        value = replies[0]["mark"]
        return None if value is None else Mark(value, replies[0]["seq"])
    return _request([commands.mark_of(key)], read)


def changes(since: int, most: int) -> Request[Changes]:
    """The transactions after a change; `Gone` if the store doesn't know them all."""
    def read(replies: List[Reply]) -> Changes:
        reply = replies[0]
        if "gone" in reply:
            raise Gone(since, reply["from"])
        return Changes(reply["seq"], [Transaction.of(told) for told in reply["changes"]], reply.get("identity"))
    return _request([commands.changes_after(since, most)], read)


def rev(name: str) -> Request[int]:
    """The revision of a document."""
    return _request([commands.rev(name)], lambda replies: int(replies[0]["rev"]))


def rev_and_doc(name: str) -> Request[Tuple[int, Any]]:
    """The revision of a document, and then the document: a change after the revision makes a patch `Outdated`."""
    asked = [commands.rev(name), commands.get(name)]
    return _request(asked, lambda replies: (replies[0]["rev"], replies[1]["value"]))


def rev_and_value(name: str, path: str) -> Request[Tuple[int, Any, int]]:
    """A value of a document between two questions for its revision: if they are the same, it has the value."""
    asked = [commands.rev(name), commands.get(name, path), commands.rev(name)]
    return _request(asked, lambda replies: (replies[0]["rev"], replies[1]["value"], replies[2]["rev"]))


def doc_and_schema(name: str) -> Request[Tuple[Any, Any]]:
    """A document and its schema."""
    asked = [commands.get(name), commands.get_schema(name)]
    return _request(asked, lambda replies: (replies[0]["value"], replies[1]["value"]))


def all_of(name: str) -> Request[Tuple[Any, Any, int]]:
    """A document, its schema and its revision."""
    asked = [commands.get(name), commands.get_schema(name), commands.rev(name)]
    return _request(asked, lambda replies: (replies[0]["value"], replies[1]["value"], replies[2]["rev"]))


def schema(name: str) -> Request[Any]:
    """The schema of a document."""
    return _request([commands.get_schema(name)], lambda replies: replies[0]["value"])


def query(name: str, path: str) -> Request[List[Node]]:
    """The nodes that a query selects."""
    return _request([commands.query(name, path)],
                    lambda replies: [Node(node["path"], node["value"]) for node in replies[0]["nodes"]])


def query_all(names_asked: Sequence[str], path: str) -> Request[Dict[str, List[Node]]]:
    """The nodes that a query selects in each of these documents; those without any, and gone ones, are left out."""
    asked = [commands.query(name, path) for name in names_asked]

    def read(replies: List[bytes]) -> Dict[str, List[Node]]:
        found: Dict[str, List[Node]] = {}
        for reply, command in zip(replies, asked):
            try:
                nodes = accepted(reply, command)["nodes"]
            except NotFound:
                continue
            if nodes:
                found[command["name"]] = [Node(node["path"], node["value"]) for node in nodes]
        return found
    return Request(asked, read)


def names(prefix: str = "") -> Request[List[str]]:
    """The names of all documents, or of those that begin with `prefix`."""
    def read(replies: List[Reply]) -> List[str]:
        return [name for name in replies[0]["names"] if name.startswith(prefix)]
    return _request([{"cmd": "list"}], read)


def status() -> Request[Status]:
    """The status of the store."""
    return _request([{"cmd": "status"}], lambda replies: Status.of(replies[0]))


def grow(sectors: int, hub: Optional[str]) -> Request[Status]:
    """The status of a hub's store after it has gone on in a larger file."""
    if hub is None:
        raise JpstoreError("only the store of a hub grows while it is open: close it, and use `grow_file`")
    asked = {"cmd": "grow", "sectors": sectors}

    def read(replies: List[bytes]) -> Status:
        reply: Reply = json.loads(replies[0])
        if reply["ok"]:
            return Status.of(reply)
        if reply["number"] == _NO_COMMAND:
            raise JpstoreError("what serves here can't grow the store: end it, and name the file instead")
        raise JpstoreError(f"the store has not grown: {reply['why']}") if "why" in reply else refusal_of(reply, asked)
    return Request([asked], read)


def snapshot() -> Request[int]:
    """How many bytes are used after a snapshot."""
    return _request([{"cmd": "snapshot"}], lambda replies: int(replies[0]["used"]))


def pump(most: int) -> Request[Pumped]:
    """A step of a copied snapshot."""
    return _request([commands.pump(most)], lambda replies: Pumped(replies[0]["copy"], replies[0]["written"]))


def texts(name: str) -> Request[Tuple[bytes, bytes]]:
    """The compact texts of a document and of its schema."""
    asked = [commands.get(name), commands.get_schema(name)]

    def read(replies: List[bytes]) -> Tuple[bytes, bytes]:
        doc, under = map(_text, replies, asked)
        return doc, under
    return Request(asked, read)


#: What a change of a group is answered: its number, or the refusal.
Outcome = Union[int, Refused]


def lines_of_group(changes: Sequence[Command]) -> List[bytes]:
    """The lines of a group's changes."""
    for command in changes:
        if not is_changing(command):
            raise JpstoreError("a group has changes only: create, patch, schema, delete and transaction")
        for change_of in commands.changes_in(command):
            warn_of_command(change_of)
    return [line_of(command) for command in changes]


def _outcome_of(reply: bytes, line: bytes) -> Outcome:
    """What a reply says of the change in a line."""
    told = json.loads(reply)
    if told["ok"]:
        return int(told["seq"])
    refused = refusal_of(told, _command_in(line))
    if refused.number in _OF_TEXT:
        refused.detail = _fault_of_text(line)
    return refused


def _fault_of_text(line: bytes) -> str:
    """Where a line is not JSON, or has a number that no line can carry."""
    try:
        line_of(value_of_text(line))
    except Unsendable as error:
        return str(error)
    return ""


def _command_in(line: bytes) -> Optional[Command]:
    try:
        command: Command = json.loads(line)
    except (ValueError, RecursionError):
        return None
    return command


def outcomes_of(replies: Sequence[bytes], lines: Sequence[bytes]) -> List[Outcome]:
    """What the replies say of the changes in these lines, as far as they were answered."""
    return [_outcome_of(reply, line) for reply, line in zip(replies, lines)]


create, patch, set_schema, delete = commands.create, commands.patch, commands.set_schema, commands.delete
