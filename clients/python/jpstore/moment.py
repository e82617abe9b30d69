"""All documents of a store as they are at one moment."""
import contextlib
import json
import os
from dataclasses import dataclass
from typing import TYPE_CHECKING, Any, Dict, Iterator, List, Optional

from .errors import Ended, JpstoreError, refusal_of
from .wire.commands import EXPORT
from .wire.connection import Connection
from .wire.program import Path
from .wire.requests import all_of
from .wire.values import text_of

if TYPE_CHECKING:
    from .client import Store

__all__ = [
    "CHANGED", "Document", "EXPORT", "Moment", "document_in", "document_of", "moment_of", "moment_of_hub", "record_in",
    "record_of",
]

#: What is said if a store with a program of its own is changed by the one who reads it.
CHANGED = "the store was changed from here meanwhile, and what was read is not of one moment"


@dataclass(frozen=True)
class Document:
    """A document with its schema and its revision."""

    name: str
    doc: Any
    schema: Any
    rev: int

    def texts(self) -> List[bytes]:
        """The compact texts of the document and of its schema."""
        return [text_of(self.doc), text_of(self.schema)]


@dataclass(frozen=True)
class Moment:
    """The documents, in the order in which they were created, after the change `seq`; `count` is how many they are."""

    seq: int
    count: int
    documents: Iterator[Document]

    def __iter__(self) -> Iterator[Document]:
        return self.documents


@contextlib.contextmanager
def moment_of(store: "Store") -> Iterator[Moment]:
    """All documents of a store at one moment: of a hub's, or of one that is open here and nobody else can change."""
    if store.hub is not None:
        with moment_of_hub(store.hub, store.timeout) as moment:
            yield moment
        return
    names, before = store.names(), store.status().seq
    yield Moment(before, len(names), (Document(name, *store._do(all_of(name))) for name in names))
    if store.status().seq != before:
        raise JpstoreError(CHANGED)


@contextlib.contextmanager
def moment_of_hub(path: Path, timeout: Optional[float] = None) -> Iterator[Moment]:
    """All documents of a hub's store at one moment, read while others go on changing it.

    The hub holds changes back as long as it reads the documents, and not as long as they are taken from it here. Each
    line of it is waited for as long as `timeout` says.
    """
    path = os.fspath(path)
    connection = Connection(path, timeout)
    try:
        connection.send(EXPORT)
        begin = record_in(connection.next_line())
        documents = iter(lambda: document_in(connection.next_line()), None)
        yield Moment(begin["seq"], begin["documents"], documents)
    finally:
        connection.close()


def document_of(record: Dict[str, Any]) -> Document:
    """The document that a line of an export has."""
    return Document(record["name"], record["doc"], record["schema"], record["rev"])


def document_in(line: bytes) -> Optional[Document]:
    """The document that a line of an export has; None if it is the last line."""
    record = record_in(line)
    return None if "end" in record else document_of(record)


def record_of(line: bytes, path: str) -> Dict[str, Any]:
    """A line of an export, read as JSON; an error if it is a refusal, or is not whole."""
    if not line.endswith(b"\n"):
        raise Ended(f"the hub at {path} closed the connection")
    return record_in(line)


def record_in(line: bytes) -> Dict[str, Any]:
    """A whole line of an export, read as JSON; an error if it is a refusal."""
    record: Dict[str, Any] = json.loads(line)
    if not record.get("ok", True):
        raise refusal_of(record, {"cmd": "export"})
    return record
