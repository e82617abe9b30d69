"""A client of jpstore, the crash-safe store of named JSON documents.

    from jpstore import Store, new_file

    new_file("inventory", "16M")
    with Store("inventory") as store:
        store.create("shelf-1", {"bolts": 40})

`docs/use/GUIDE.md` shows how to use it; `python3 -m jpstore FILE` is a shell for people, `jpstore-cli` does one thing
at a time. It needs a POSIX system and Python 3.8 or later.
"""
import importlib
from typing import TYPE_CHECKING, Any

from .client import Mark, Node, Pumped, Status, Store
from .dump import LoadStopped, dump, load
from .errors import (
    AccessError, Broken, Conflict, Ended, Full, Gone, Invalid, JpstoreError, JpstoreWarning, Malformed, NoMemory,
    NotFound, Outdated, Overtaken, Refused, TimedOut, TooLarge, Unsendable,
)
from .explain import Fault, explain
from .follow import Latest
from .larger import grow, grow_file
from .moment import Document, Moment
from .refusals import REFUSALS, Refusal
from .results import Changes, Transaction
from .version import __version__
from .watch import Change, Watch
from .wire.commands import create, delete, patch, set_schema, transaction
from .wire.program import check_file, copy_file, format_file, new_file, upgrade_file

if TYPE_CHECKING:
    from .adapt import Adapted, Schema
    from .aio.client import AsyncStore
    from .scaled import Scaled

__all__ = [
    "AccessError", "Adapted", "AsyncStore", "Broken", "Change", "Changes", "Conflict", "Document", "Ended", "Fault",
    "Full", "Gone", "Invalid", "JpstoreError", "JpstoreWarning", "Latest", "LoadStopped", "Malformed", "Mark", "Moment",
    "NoMemory", "Node", "NotFound", "Outdated", "Overtaken", "Pumped", "REFUSALS", "Refusal", "Refused", "Scaled",
    "Schema", "Status", "Store", "TimedOut", "TooLarge", "Transaction", "Unsendable", "Watch", "__version__",
    "check_file", "copy_file", "create", "delete", "dump", "explain", "format_file", "grow", "grow_file", "load",
    "new_file", "patch", "set_schema", "transaction", "upgrade_file",
]


# These take as long as all the rest, and most programs use none of them.
_MODULES = {"Adapted": "adapt", "AsyncStore": "aio.client", "Scaled": "scaled", "Schema": "adapt"}


def __getattr__(name: str) -> Any:
    """What takes long is loaded when it is first used (PEP 562)."""
    if name not in _MODULES:
        raise AttributeError(f"module {__name__!r} has no attribute {name!r}")
    return getattr(importlib.import_module(f".{_MODULES[name]}", __name__), name)
