"""The types of results that are more than a value."""
import json
import re
from dataclasses import dataclass, fields
from typing import Any, Dict, Iterator, List, NamedTuple, Optional, Tuple, Union

from .wire.values import escaped

# A part of a normalized path: an index, or a name with its escapes.
_PART = re.compile(r"\[(?:(0|[1-9][0-9]*)|'((?:[^'\\]|\\.)*)')\]", re.DOTALL)

__all__ = ["Changes", "Mark", "Node", "Pumped", "Status", "Transaction"]


@dataclass(frozen=True)
class Node:
    """What a query selects: its normalized path (RFC 9535, section 2.7) and its value."""

    path: str
    value: Any

    @property
    def keys(self) -> Tuple[Union[str, int], ...]:
        """The names and the indexes that lead to the value, from the document on."""
        return tuple(int(index) if index else _name(name) for index, name in _PART.findall(self.path))

    @property
    def pointer(self) -> str:
        """The JSON Pointer (RFC 6901) of the place."""
        return "".join("/" + escaped(str(key)) for key in self.keys)


def _name(quoted: str) -> str:
    """A name in a normalized path: its escapes are those of JSON, but for that of the quotation marks."""
    name: str = json.loads('"' + quoted.replace("\\'", "'").replace('"', '\\"') + '"')
    return name


class Mark(NamedTuple):
    """The mark of a key: its value, and the number of the last change that was made with it."""

    value: str
    seq: int


@dataclass(frozen=True)
class Transaction:
    """Changes that were made together, or one alone: the first number, the last, and the commands as they are kept."""

    first: int
    last: int
    changes: List[Dict[str, Any]]
    #: The key and the value of the mark that was set with them.
    mark: Optional[Tuple[str, str]] = None

    @classmethod
    def of(cls, record: Dict[str, Any]) -> "Transaction":
        """The transaction that a store tells."""
        mark = record.get("mark")
        return cls(record["first"], record["last"], record["changes"], (mark["key"], mark["value"]) if mark else None)

    def record(self) -> Dict[str, Any]:
        """What a store tells of it."""
        mark = {"mark": {"key": self.mark[0], "value": self.mark[1]}} if self.mark else {}
        return {"changes": self.changes, "first": self.first, "last": self.last, **mark}


@dataclass(frozen=True)
class Changes:
    """The transactions after a change, in order; `seq` is the number of the store's last change.

    `identity` is that of a store in format 3.
    """

    seq: int
    transactions: List[Transaction]
    identity: Optional[str] = None

    def __iter__(self) -> Iterator[Transaction]:
        return iter(self.transactions)


@dataclass(frozen=True)
class Status:
    """The status of a store; `used` and `capacity` are bytes of one half, a sector has 512 bytes.

    `id` is the identity of a store in format 3, in hexadecimal, which no other store has. `slots` is what the slots of
    such a store said when `check_file` opened it: `whole`, `mended` or `cut-off`; so did `copy_file`, if not `whole`.
    """

    broken: bool
    capacity: int
    documents: int
    half: int
    opens: int
    sectors: int
    seq: int
    used: int
    id: Optional[str] = None
    slots: Optional[str] = None

    @property
    def format(self) -> int:
        """The format of the file: 2, or 3, in which a half has fewer bytes."""
        return 2 if self.capacity == (self.sectors - 1) // 2 * 512 else 3

    @property
    def most_documents(self) -> int:
        """How many documents there may be: 65,536 in format 3, and else 1,024."""
        return 1_024 if self.format == 2 else 65_536

    @classmethod
    def of(cls, reply: Dict[str, Any]) -> "Status":
        """The status in a reply."""
        told = {field.name: reply[field.name] for field in fields(cls) if field.name not in ("id", "slots")}
        return cls(**told, id=reply.get("id"), slots=reply.get("slots"))


@dataclass(frozen=True)
class Pumped:
    """A step of a copied snapshot: `running`, `switched` or `dropped`, and how many sectors it wrote."""

    copy: str
    written: int
