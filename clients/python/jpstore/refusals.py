"""Every refusal and every complaint of the program: what it means, and what to do about it.

The manual page jpstore-refusals(7) shows the same texts; `python -m jpstore.refusals` prints them as a table.
"""
import json
from dataclasses import dataclass
from typing import Any, Dict, Iterable, Mapping, Optional

from . import protocol
from .protocol import DAMAGED, GONE, NO_MAJORITY, NOT_GROWN, WATCHING

__all__ = [
    "ADVICE", "COMPLAINTS", "DAMAGED", "DIALECT", "GONE", "NAMES", "NOT_GROWN", "NO_MAJORITY", "REFUSALS", "Refusal",
    "WATCHING", "advice_for", "table",
]


@dataclass(frozen=True)
class Refusal:
    """A row of the table of refusals."""

    number: int
    name: str
    meaning: str
    advice: str


# Those whose advice depends on the command.
_COMMAND, _PATCH_MISSING, _PATCH_ROOT, _SCHEMA_KEYWORD, _SCHEMA_SIZE = 14, 32, 35, 41, 44

#: The dialect that a schema may name.
DIALECT = "https://json-schema.org/draft/2020-12/schema"

#: The refusals by number.
REFUSALS: Dict[int, Refusal] = {number: Refusal(number, name, meaning, advice)
                                for number, name, _, meaning, advice in protocol.REFUSALS}

#: The name of each refusal, by its number.
NAMES: Dict[int, str] = {**{number: row.name for number, row in REFUSALS.items()}, **protocol.OWN_REFUSALS}

#: What the program says on standard error, without the number after it, and what it means.
COMPLAINTS: Dict[str, str] = {
    "file": "FILE, or NEW of `copy`, cannot be made or opened; `--why` tells the cause",
    "no-space": "the disk, a quota or a limit has no room for the new file; no file is left",
    "identity": "the system gave no random bytes for the identity of a store in format 3: `/dev/urandom` can't be "
                "opened or read. No file is made, and a store that was opened for `copy` or `upgrade` stays as it is; "
                "`--id` gives one",
    "in-use": "another command uses FILE, under this name or another; no byte of it was read or changed",
    "device": "the device failed during the session; later changes were answered 62, and the replies that were written "
              "are true",
    "damage": "the lines of `check --deep` say what is damaged; of `salvage`: something is lost, or a commit may be",
    "reader": "standard input or output failed",
    "writer": "standard input or output failed",
    "memory": "the program ran out of memory for its own buffers",
    "turns": "the input took over 2^40 reads, which no client reaches",
    "arguments": "an argument of the command line is not UTF-8",
}

#: What to do about a complaint, by its word; for `file` by the cause that `--why` tells.
ADVICE: Dict[str, str] = {
    "exists": "choose another name; the file that has it is left as it is",
    "missing": "compare the path, whose folder must exist; `jpstore-cli new FILE` makes a store, and "
               "`jpstore-cli hub FILE --socket PATH` serves one at a socket",
    "folder": "name a file in it",
    "denied": "a store is read and written by its owner, even to look at it, and made in a folder of theirs: run this "
              "as that user, or change the rights of the file and its folder (`chmod`, `chown`); `jpstore dump FILE "
              "--read-only` needs no right to write",
    "read-only": "copy the file to a file system that can be written",
    "descriptors": "close files, or raise the limit (`ulimit -n`)",
    "no-space": "make room, or choose a smaller size; `--sparse` leaves the room to be taken later",
    "socket": "this is the socket of a hub: open it by `Store.connect`, or by the command line",
    "in-use": "connect to the socket of the hub that serves it, end the other command, or wait for it by `--wait "
              "SECONDS`",
}


def advice_for(number: int, command: Mapping[str, Any], operation: Optional[int]) -> str:
    """What to do about a refusal of this command in particular; empty if that is what the table says.

    A patch has the place of the operation that was refused.
    """
    if number == _PATCH_MISSING:
        operations = command.get("ops")
        known = isinstance(operations, (list, tuple)) and operation is not None and operation < len(operations)
        refused = operations[operation] if known else None  # type: ignore[index]
        adds = isinstance(refused, dict) and refused.get("op") == "add"
        return "" if adds or refused is None else "read the document, to see what is there"
    from .faults.command import NO_MARKS, fault_of_form
    if number == _COMMAND and fault_of_form(command) == NO_MARKS:
        return "marks need a store in format 3 that is no replica: `jpstore upgrade FILE` makes one of one in format 2"
    if number == _PATCH_ROOT:
        return "delete the document instead: by `store.delete(name)`, `rm STORE NAME`, or `DELETE` over HTTP"
    from .faults.schema import FORMAT_3_ONLY
    schema = command.get("schema")
    if number == _SCHEMA_KEYWORD and isinstance(schema, dict) and schema.get("$schema") not in (None, DIALECT):
        return "`jpstore-cli schema adapt FILE` makes a schema of it that the store reads"
    if number == _SCHEMA_KEYWORD and not _has_some(schema, FORMAT_3_ONLY):
        return "leave the keyword out, or use supported ones"
    if number == _SCHEMA_SIZE and _has_some(schema, ("pattern", "patternProperties")):
        return ("make the schema smaller; if it is its patterns, bound lengths by `maxLength` in place of large "
                "counts, and name classes of fewer characters than `\\p{L}` has")
    return ""


def _has_some(schema: Any, words: Iterable[str]) -> bool:
    text = json.dumps(schema, default=str)
    return any(f'"{word}": ' in text for word in words)


def table() -> str:
    """The refusals as a table in Markdown."""
    rows = [f"| {row.number} {row.name} | {row.meaning} | {row.advice} |\n" for row in REFUSALS.values()]
    return "| Refusal | Means | What to do |\n|---|---|---|\n" + "".join(rows)


if __name__ == "__main__":
    print(table(), end="")
