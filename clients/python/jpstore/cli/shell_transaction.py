"""The changes that the shell gathers for a transaction, and the documents as they would leave them."""
import copy
import re
from typing import Any, Dict, List, Optional, Tuple

from ..client import Store
from ..errors import JpstoreError, NotFound
from ..wire.commands import Command, create, delete, patch, set_schema

__all__ = ["Draft"]


class Draft:
    """Changes that are made later, all or none. Each is the one that fits after those before it.

    A patch fits a value that was read. So the first one of a document asks for the revision that was read with it.
    """

    def __init__(self) -> None:
        self.changes: List[Command] = []
        #: Whether a line was refused meanwhile, so that the changes are perhaps not all that were meant.
        self.failed = False
        # The values of documents after the changes; None for a document that these delete.
        self._values: Dict[str, Optional[Tuple[Any]]] = {}

    def create(self, name: str, doc: Any, schema: Any) -> None:
        """Makes a document."""
        self.changes.append(create(name, doc, schema))
        self._values[name] = (copy.deepcopy(doc),)

    def set_schema(self, name: str, schema: Any) -> None:
        """Puts a document under another schema."""
        self.changes.append(set_schema(name, schema))

    def replace(self, store: Store, name: str, doc: Any) -> None:
        """Replaces the whole of a document, or makes it if there is none."""
        try:
            is_gone = name in self._values and self._values[name] is None
            if not is_gone:
                self.put(store, name, "", doc)
        except NotFound:
            is_gone = True
        if is_gone:
            self.create(name, doc, True)

    def put(self, store: Store, name: str, pointer: str, value: Any) -> None:
        """Replaces the value at a place, or adds one if there is none."""
        doc, rev = self._read(store, name)
        if not pointer:
            operation, doc = "replace", copy.deepcopy(value)
        else:
            parent, token = _parent(name, pointer, doc)
            operation = _put_in(name, pointer, parent, token, copy.deepcopy(value))
        self._values[name] = (doc,)
        self.changes.append(patch(name, [{"op": operation, "path": pointer, "value": value}], rev))

    def remove(self, store: Store, name: str, pointer: Optional[str]) -> None:
        """Removes the value at a place, or deletes the document if no place is given."""
        if pointer is None:
            self.changes.append(delete(name))
            self._values[name] = None
            return
        doc, rev = self._read(store, name)
        if pointer:
            parent, token = _parent(name, pointer, doc)
            _child(name, pointer, parent, token)
            del parent[int(token) if isinstance(parent, list) else token]
            self._values[name] = (doc,)
        self.changes.append(patch(name, [{"op": "remove", "path": pointer}], rev))

    def _read(self, store: Store, name: str) -> Tuple[Any, Optional[int]]:
        """The value of a document after the changes, and its revision if none of them has changed it yet."""
        if name not in self._values:
            rev = store.rev(name)
            is_first = all(change["name"] != name for change in self.changes)
            return store.get(name), rev if is_first else None
        value = self._values[name]
        if value is None:
            raise JpstoreError(f"the transaction has deleted {name}")
        return value[0], None


def _parent(name: str, pointer: str, value: Any) -> Tuple[Any, str]:
    """The value in which a place is, and the name or the index of the place there."""
    if not pointer.startswith("/"):
        raise JpstoreError(f"{pointer} is no place: a JSON Pointer begins with `/`")
    *tokens, last = (token.replace("~1", "/").replace("~0", "~") for token in pointer[1:].split("/"))
    for token in tokens:
        value = _child(name, pointer, value, token)
    return value, last


def _child(name: str, pointer: str, value: Any, token: str) -> Any:
    if isinstance(value, dict) and token in value:
        return value[token]
    if isinstance(value, list) and _is_index(value, token):
        return value[int(token)]
    raise _no_place(name, pointer)


def _is_index(value: List[Any], token: str) -> bool:
    return re.fullmatch(r"0|[1-9][0-9]*", token) is not None and int(token) < len(value)


def _put_in(name: str, pointer: str, parent: Any, token: str, value: Any) -> str:
    """Puts a value at a place; returns the operation that does the same."""
    if isinstance(parent, dict):
        operation = "replace" if token in parent else "add"
        parent[token] = value
        return operation
    if not isinstance(parent, list) or not (token == "-" or _is_index(parent, token)):
        raise _no_place(name, pointer)
    if token == "-":
        parent.append(value)
        return "add"
    parent[int(token)] = value
    return "replace"


def _no_place(name: str, pointer: str) -> JpstoreError:
    return JpstoreError(f"{name} has no place {pointer} after the changes before it")
