"""Small edits, of one place of a document or of the schema of several, as the shell and the command line offer them."""
import contextlib
from typing import Any, Optional, Sequence

from .client import ATTEMPTS, Store
from .errors import Conflict, JpstoreError, NotFound, Outdated, Refused
from .faults.words import shown
from .wire.commands import line_of, set_schema, transaction
from .wire.limits import MOST_CHANGES, MOST_LINE_BYTES

__all__ = ["patched", "put", "remove", "set_schemas"]

# A `test` found another value.
_TEST = 34


def put(store: Store, name: str, pointer: str, value: Any) -> int:
    """Replaces the value at a place, or adds one if there is none; returns the number of the change.

    The index of a list must have a value, and `-` is the place after its last. If another client changes the document
    meanwhile, this is done again.
    """
    for _ in range(ATTEMPTS - 1):
        with contextlib.suppress(Outdated):
            return _put(store, name, pointer, value)
    return _put(store, name, pointer, value)


def _put(store: Store, name: str, pointer: str, value: Any) -> int:
    try:
        rev = store.rev(name)
        operation = "replace" if _exists(store, name, pointer) else "add"
    except Refused as refused:
        # What was asked for is no question.
        refused.command = {**refused.command, "cmd": "set"}
        raise
    return store.patch(name, [{"op": operation, "path": pointer, "value": value}], rev)


def remove(store: Store, name: str, pointer: Optional[str] = None, if_rev: Optional[int] = None) -> int:
    """Removes the value at a place, or deletes the document if no place is given; returns the number of the change.

    The empty pointer is refused (35): a script whose variable is empty deletes no document. With `if_rev` only if the
    document has that revision.
    """
    if pointer is None:
        return store.delete(name, if_rev)
    return store.patch(name, [{"op": "remove", "path": pointer}], if_rev)


def patched(store: Store, name: str, operations: Any, if_rev: Optional[int] = None) -> int:
    """As `Store.patch`; if a `test` fails, the refusal also says what the document has there."""
    try:
        return store.patch(name, operations, if_rev)
    except Conflict as refused:
        with contextlib.suppress(JpstoreError, LookupError, TypeError):
            path = operations[refused.op]["path"]
            if refused.number == _TEST:
                found = shown(store.get(name, path)) if _exists(store, name, path) else "no value"
                refused.detail += f"; the document has {found} there"
        raise


def _exists(store: Store, name: str, pointer: str) -> bool:
    try:
        store.get(name, pointer)
    except NotFound:
        return False
    return True


def set_schemas(store: Store, names: Sequence[str], schema: Any) -> int:
    """Puts documents under another schema, all or none; returns the number of the last change."""
    changes = [set_schema(name, schema) for name in names]
    if len(names) > MOST_CHANGES:
        raise JpstoreError(_too_many(names, f"{MOST_CHANGES:,}, the most of one transaction"))
    size = len(line_of(transaction(changes)))
    if size > MOST_LINE_BYTES + 1:
        fitting = len(names) * MOST_LINE_BYTES // size
        raise JpstoreError(_too_many(names, f"some {fitting:,}, of which one line has room with this schema"))
    return store.transaction(changes)


def _too_many(names: Sequence[str], most: str) -> str:
    return (f"{len(names):,} documents are more than {most}. Nothing was changed: name fewer at once, as by a longer "
            "prefix. Between two transactions both schemas hold, each for its documents")
