"""The lines of an entry as the changes that a store is sent, and what they may cost."""
import json
from typing import Any, Dict, List, NamedTuple, Tuple

from ..wire.commands import changes_in
from ..wire.forms import TRANSACTION
from ..wire.limits import MOST_DOCUMENT_BYTES, MOST_MARK_BYTES
from ..wire.values import canonical

__all__ = ["Change", "Line", "LINES_OF_ENTRY", "MOST_MARK", "length_of_frames", "line_in"]

#: The most lines of an entry.
LINES_OF_ENTRY = 256

# A frame in a store's file is the length of its body, its seq, and the body (`docs/inside/FORMAT.md`).
_HEAD = 12

#: The most bytes that a mark takes, with the longest key.
MOST_MARK = 61 + 64 + MOST_MARK_BYTES


def length_of_frames(texts: int, changes: int) -> int:
    """The bytes of the frames of changes whose texts have `texts` bytes together."""
    return texts + _HEAD * changes


class Change(NamedTuple):
    """A change: what it does to which document, and by how many bytes the documents' text may grow by it at most."""

    word: str
    name: str
    growth: int
    #: The same without what a patch copies.
    length: int
    #: How many operations of a patch copy a value, and how many take one from its place.
    copies: int
    takes: int


class Line(NamedTuple):
    """A line of the log: the texts of its changes, whether they are a transaction, and what they are."""

    texts: List[bytes]
    several: bool
    changes: Tuple[Change, ...]

    @property
    def cost(self) -> int:
        """The bytes that its changes take in a file, and a comma between two."""
        return length_of_frames(sum(map(len, self.texts)) + len(self.texts) - 1, len(self.changes))

    @property
    def growth(self) -> int:
        """By how many bytes a snapshot may be longer after it."""
        return sum(each.growth for each in self.changes)


def line_in(text: bytes) -> Line:
    """A line of the log, which is the compact text of a change or of a transaction."""
    command: Dict[str, Any] = json.loads(text)
    several, commands = command["cmd"] == TRANSACTION, changes_in(command)
    texts = [canonical(each) for each in commands] if several else [text[:-1]]
    return Line(texts, several, tuple(map(_change, commands, map(len, texts))))


def _change(command: Dict[str, Any], length: int) -> Change:
    word = command["cmd"]
    own = 0 if word == "delete" else length_of_frames(length, 1)
    operations = _operations(command["ops"]) if word == "patch" else []
    copies = operations.count("copy")
    # With a copy it may be as long as a document can be after that.
    growth = own + MOST_DOCUMENT_BYTES if copies else own
    return Change(word, command["name"], growth, own, copies, operations.count("remove") + operations.count("move"))


def _operations(spelled: Any) -> List[Any]:
    return [each.get("op") for each in spelled if isinstance(each, dict)] if isinstance(spelled, list) else []
