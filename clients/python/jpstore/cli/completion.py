"""The words that may be at the cursor: names of documents, places in them, files."""
import glob
import os
from typing import Any, Callable, List

from ..client import Store
from ..errors import JpstoreError
from ..wire.values import escaped

__all__ = ["completions", "places"]

_WITH_POINTER = ("cat", "follow", "get", "rm", "set")
_WITH_FILE = ("new", "put", "schema")


def completions(store: Store, before: List[str], begun: str) -> List[str]:
    """The words that begin so, after the words before it; none if the store cannot say."""
    if len(before) == 1 and before[0] != "new":
        # The blank after a name that is whole leads on to the next word.
        return _of(begun, lambda: [name + " " for name in store.names()])
    if len(before) == 2 and before[0] in _WITH_POINTER:
        return _of(begun, lambda: places(store, before[1], begun))
    if len(before) >= 2 and before[0] in _WITH_FILE:
        return [path + "/" if os.path.isdir(path) else path for path in sorted(glob.glob(glob.escape(begun) + "*"))]
    return []


def _of(begun: str, ask: Callable[[], List[str]]) -> List[str]:
    try:
        return [word for word in ask() if word.startswith(begun)]
    except JpstoreError:
        return []


def places(store: Store, name: str, begun: str) -> List[str]:
    """The places in the value that the pointer leads to as far as it is whole."""
    parent = begun.rpartition("/")[0]
    value: Any = store.get(name, parent)
    if isinstance(value, dict):
        tokens = [escaped(member) for member in value]
    else:
        tokens = [str(index) for index in range(len(value))] if isinstance(value, list) else []
    # A blank would end the word; such a place is typed in quotes.
    return [f"{parent}/{token}" for token in tokens if " " not in token]
