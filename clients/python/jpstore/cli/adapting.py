"""The sub-command that makes a schema of other people one that the store reads."""
import argparse
import json
import os
import sys
from typing import TYPE_CHECKING, Any, Optional
from urllib.parse import unquote, urlsplit

from ..errors import JpstoreError, accessing
from ..wire.texts import value_of_text
from .display import printable
from .opening import Row, value_in

if TYPE_CHECKING:
    from ..adapt import Adapted

__all__ = ["ADAPT"]

# The exit status if the store does not read what was made: that of a schema with a wrong form.
_NOT_READ = 6


def _adapt(words: argparse.Namespace) -> Optional[int]:
    # They take longer than all that the other commands need.
    from ..adapt import Schema
    from ..faults.schema import FORMAT_3_ONLY
    schema, folder = value_in(words.store), os.path.dirname(os.path.abspath(words.store))
    adapted = Schema.adapt(schema, drop=words.drop, read=lambda uri: _beside(folder, uri), profile=words.profile)
    if getattr(words, "json", False):
        print(json.dumps(_told(adapted), ensure_ascii=False))
    else:
        print(json.dumps(adapted.schema, ensure_ascii=False, indent=2))
        for change in adapted.changes:
            print("changed: " + printable(str(change)), file=sys.stderr)
        for fault in adapted.left:
            print("left: " + printable(str(fault)), file=sys.stderr)
        if words.profile == 2 and any(fault.place.rpartition("/")[2] in FORMAT_3_ONLY for fault in adapted.left):
            print("for a store of format 3: --profile 3", file=sys.stderr)
    return 0 if adapted.is_read else _NOT_READ


def _told(adapted: "Adapted") -> Any:
    return {"schema": adapted.schema, "changes": [change._asdict() for change in adapted.changes],
            "left": [fault._asdict() for fault in adapted.left]}


def _beside(folder: str, uri: str) -> Any:
    """The schema in the file of the folder that a URI names by its path; None if there is none. Nothing is fetched."""
    parts = urlsplit(uri)
    relative = os.path.normpath(unquote(parts.path).lstrip("/"))
    # What is named by a URI with a host may lie in a file of the same name.
    for name in (relative, os.path.basename(relative)):
        path = os.path.join(folder, name)
        if not name.startswith("..") and os.path.isfile(path):
            with accessing(path), open(path, "rb") as opened:
                text = opened.read()
            try:
                return value_of_text(text, path)
            except JpstoreError:
                return None
    return None


#: The sub-command, whose STORE is the file of a schema.
ADAPT: Row = (_adapt, "makes a schema of an earlier draft, or in several files, one that the store reads",
              "schema adapt package.schema.json --drop pattern > schema.json", [
                  ("--profile", {"type": int, "choices": (2, 3), "default": 3,
                                 "help": "2 is for a store of format 2, which reads no patterns (default: 3)"}),
                  ("--drop", {"metavar": "KEYWORD", "action": "append", "default": [],
                              "help": "leave this keyword out, if the store does not read it; `$comment` says so"})])
