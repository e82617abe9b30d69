"""All documents of a store as the lines that make them: written, and read again."""
import contextlib
import json
import tempfile
from typing import IO, Any, Callable, Dict, Iterable, Iterator, List, Mapping, NamedTuple, Optional, Tuple

from .client import Store
from .errors import JpstoreError, Refused, Unsendable
from .larger import grow, grow_file, open_store
from .moment import moment_of
from .progress import Progress
from .wire.commands import (
    Command, changes_in, create, is_changing, line_of, line_of_creation, line_of_schema, patch,
)
from .wire.limits import MOST_LINE_BYTES, MOST_OPERATIONS
from .wire.values import escaped, text_of

__all__ = ["GROUP_LINES", "LoadStopped", "document_lines", "dump", "grow", "grow_file", "load", "open_store"]

#: A group has at most this many lines, and ends with the one that makes it longer than this many bytes.
GROUP_LINES, _GROUP_BYTES = 256, 1 << 22


# A longer dump is kept in a file until its last line was read.
_IN_MEMORY = 1 << 24


class _Line(NamedTuple):
    """A line to load: its number, counted from 1, the line, and how many changes it makes, or why it is no change."""

    number: int
    line: bytes
    changes: int
    error: Optional[JpstoreError] = None


class LoadStopped(JpstoreError):
    """Lines were refused: `refused` by their numbers; `made` changes were made, none of a line after `last`.

    A line that is no change has another error than a `Refused`: it was not sent.
    """

    def __init__(self, made: int, last: int, refused: Mapping[int, JpstoreError]) -> None:
        self.made, self.last, self.refused = made, last, dict(refused)
        super().__init__(made, last, self.refused)

    @property
    def first(self) -> Tuple[int, JpstoreError]:
        """The number of the first refused line, and why it was refused."""
        return next(iter(self.refused.items()))

    def __str__(self) -> str:
        number, first = self.first
        more = len(self.refused) - 1
        others = f", and {more:,} more {'line' if more == 1 else 'lines'} up to {self.last:,}" if more else ""
        changes = "1 change was" if self.made == 1 else f"{self.made:,} changes were"
        return f"line {number:,} is refused{others}; {changes} made\n{first}"


def dump(store: Store, write: Callable[[bytes], Any]) -> int:
    """Writes each document as its create line, in the order of creation; returns how many there are.

    They are of one moment, also if others change the store of a hub meanwhile. A last line has the number of those
    before it, by which `load` sees that none is missing, and the number of the last change.
    """
    lines = 0
    with moment_of(store) as moment, Progress("dump", "documents", moment.count) as progress:
        for document in moment:
            for line in document_lines(document.name, *document.texts()):
                write(line)
                lines += 1
            progress.step()
    # It counts the lines before it, so that a dump which was cut is not taken for a whole one.
    write(b'{"end":true,"lines":%d,"seq":%d}\n' % (lines, moment.seq))
    return moment.count


def document_lines(name: str, doc: bytes, schema: bytes) -> Iterator[bytes]:
    """The lines that make a document: its create line, or several if that is longer than a line may be."""
    line = line_of_creation(name, doc, schema)
    if len(line) <= MOST_LINE_BYTES + 1:
        yield line
        return
    value = json.loads(doc)
    if not isinstance(value, (dict, list)):
        yield _checked(line_of_creation(name, doc, b"true"))
    else:
        yield line_of_creation(name, b"{}" if isinstance(value, dict) else b"[]", b"true")
        yield from _patches(name, _additions("", value, MOST_LINE_BYTES - len(line_of(patch(name, [])))))
    yield line_of_schema(name, schema)


def _checked(line: bytes) -> bytes:
    if len(line) > MOST_LINE_BYTES + 1:
        raise JpstoreError("no line can carry a text of this document, so it cannot be dumped: copy the file")
    return line


def _additions(place: str, value: Any, room: int) -> Iterator[Tuple[Command, int]]:
    """Operations that fill an empty object or list at a place, each with the bytes of its text, of at most `room`."""
    members = value.items() if isinstance(value, dict) else (("-", item) for item in value)
    for index, (token, member) in enumerate(members):
        path = place + "/" + escaped(token)
        operation = {"op": "add", "path": path, "value": member}
        size = len(line_of(operation))
        if size <= room:
            yield operation, size
        elif isinstance(member, (dict, list)):
            empty = {"op": "add", "path": path, "value": type(member)()}
            yield empty, len(line_of(empty))
            yield from _additions(path if isinstance(value, dict) else f"{place}/{index}", member, room)
        else:
            raise JpstoreError("no line can carry a text of this document, so it cannot be dumped: copy the file")


def _patches(name: str, additions: Iterable[Tuple[Command, int]]) -> Iterator[bytes]:
    operations: List[Command] = []
    left = room = MOST_LINE_BYTES - len(line_of(patch(name, [])))
    for operation, size in additions:
        if operations and (size > left or len(operations) == MOST_OPERATIONS):
            yield line_of(patch(name, operations))
            operations, left = [], room
        operations.append(operation)
        left -= size
    if operations:
        yield _checked(line_of(patch(name, operations)))


def load(store: Store, lines: Iterable[bytes], partial: bool = False) -> int:
    """Sends lines of changes, as `dump` writes them, or of transactions, in groups; returns how many changes were made.

    The lines of documents that a server sends for `GET /documents` are taken too, with `partial`. Without it nothing is
    sent before the last line of a dump was read, and was found to count the others; with it there may be no such line,
    and lines may be missing. It stops after the first group of which something was refused, and at a
    line that is no change: `LoadStopped`.
    """
    if partial:
        return _load(store, lines)
    with _whole_dump(lines) as checked:
        return _load(store, checked)


def _load(store: Store, lines: Iterable[bytes]) -> int:
    made = 0
    with Progress("load", "changes") as progress:
        for group in _groups(lines):
            sent = [each for each in group if each.error is None]
            outcomes = list(zip(sent, store.group_lines([each.line for each in sent])))
            refused = {each.number: outcome for each, outcome in outcomes if isinstance(outcome, Refused)}
            step = sum(each.changes for each, outcome in outcomes if not isinstance(outcome, Refused))
            made += step
            if refused:
                raise LoadStopped(made, sent[-1].number, refused)
            last = group[-1]
            if last.error is not None:
                raise LoadStopped(made, last.number, {last.number: last.error})
            progress.step(step)
    return made


def _groups(lines: Iterable[bytes]) -> Iterator[List[_Line]]:
    """The lines in groups. A line that is no change is the last of its group."""
    group: List[_Line] = []
    size = 0
    for number, line in enumerate(lines, 1):
        if not line.strip() or _end_in(line):
            continue
        group += _numbered(number, line)
        size += len(line)
        if group[-1].error is not None or len(group) >= GROUP_LINES or size > _GROUP_BYTES:
            yield group
            group, size = [], 0
    if group:
        yield group


def _numbered(number: int, line: bytes) -> List[_Line]:
    """The lines that are sent for a line: one, or several for a document that no line can carry."""
    try:
        return [_Line(number, each, changes) for each, changes in _sent(line)]
    except JpstoreError as error:
        return [_Line(number, line, 0, error)]


def _sent(line: bytes) -> List[Tuple[bytes, int]]:
    """The lines that are sent for a line, each with the number of its changes."""
    value = _value_of(line)
    if _is_document(value):
        return [(made, 1) for made in _lines_that_make(value)]
    if not is_changing(value):
        raise Unsendable("it is none of create, patch, schema, delete and transaction: of other JSON make documents by "
                         "`put`, or in Python by `store.group(create(name, doc) for ..)`")
    return [(line if line.endswith(b"\n") else line + b"\n", len(changes_in(value)))]


def _is_document(value: Any) -> bool:
    """Whether it is what the server sends of a document for `GET /documents`."""
    return (isinstance(value, dict) and value.keys() == {"doc", "name", "rev", "schema"}
            and isinstance(value["name"], str))


def _lines_that_make(document: Dict[str, Any]) -> List[bytes]:
    """The lines that make a document anew, without its revision."""
    line = line_of(create(document["name"], document["doc"], document["schema"]))
    if len(line) <= MOST_LINE_BYTES + 1:
        return [line]
    return list(document_lines(document["name"], text_of(document["doc"]), text_of(document["schema"])))


def _is_document_line(line: bytes) -> bool:
    with contextlib.suppress(JpstoreError):
        return _is_document(_value_of(line))
    return False


def _value_of(line: bytes) -> Any:
    try:
        return json.loads(line)
    except json.JSONDecodeError as error:
        raise Unsendable(f"not JSON: column {min(error.pos, len(error.doc.rstrip())) + 1}: {error.msg}") from None
    except (ValueError, RecursionError) as error:
        raise Unsendable(f"not JSON: {error}") from None


def _end_in(line: bytes) -> Optional[Dict[str, Any]]:
    if b'"end"' not in line or b'"cmd"' in line:
        return None
    try:
        record = json.loads(line)
    except (ValueError, RecursionError):
        return None
    return record if isinstance(record, dict) and record.get("end") is True else None


@contextlib.contextmanager
def _whole_dump(lines: Iterable[bytes]) -> Iterator[Iterable[bytes]]:
    """The same lines, once the last was read; an error if they are not all that were dumped."""
    with tempfile.SpooledTemporaryFile(max_size=_IN_MEMORY) as kept:
        fault = _kept(lines, kept)
        if fault:
            raise JpstoreError(f"this is no whole dump: {fault}. Nothing was loaded; `--partial`, or `partial=True`, "
                               "loads what is there")
        kept.seek(0)
        yield kept


def _kept(lines: Iterable[bytes], kept: IO[bytes]) -> str:
    """Writes the lines, and returns what shows that they are not a whole dump, if anything does."""
    count, end, last = 0, None, None
    for line in lines:
        kept.write(line if line.endswith(b"\n") else line + b"\n")
        if not line.strip():
            continue
        if end is not None:
            return "lines follow its last line"
        end, last = _end_in(line), line
        count += end is None
    if end is None and last is not None and _is_document_line(last):
        return "lines of `GET /documents` have no last one that counts them: see that the request ended well"
    if end is None:
        return "its last line, which counts the others, is missing"
    return "" if end.get("lines") == count else f"its last line counts {end.get('lines')} lines, and {count} are there"
