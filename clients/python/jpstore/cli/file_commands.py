"""The sub-commands that make, judge and copy the files of stores."""
import argparse
import os
import re
from typing import Dict, List, Tuple

from ..errors import JpstoreError, accessing_store
from ..larger import grow, grow_file
from ..sizes import sectors_of_size
from ..wire.program import check_file, copy_file, format_file, new_file, upgrade_file
from ..wire.store_file import SECTOR
from .display import members_of, shown_status
from .opening import Row, Word, is_socket, opened, program_of
from .printing import said

__all__ = ["FILE_COMMANDS", "NEW_STORE", "SIZE_WORDS"]

#: The size of a new file if none is given: half of it, 8 MiB, holds the documents.
_SECTORS = (16 << 20) // SECTOR


def _mode(text: str) -> int:
    if not re.fullmatch("[0-7]{3,4}", text):
        raise argparse.ArgumentTypeError(f"`{text}` is no mode: give permission bits in octal, as 640")
    return int(text, 8)


def _sectors_in(file: str) -> int:
    with accessing_store(file):
        return os.stat(file).st_size // SECTOR


def _new(words: argparse.Namespace) -> None:
    sectors = words.sectors or _SECTORS
    _said_new(words, sectors, new_file(words.store, sectors * SECTOR, program_of(words), identity=words.id))


def _format(words: argparse.Namespace) -> None:
    sectors = words.sectors or _SECTORS
    _said_new(words, sectors, format_file(words.store, sectors, program_of(words), words.mode, version=words.format,
                                          sparse=words.sparse, identity=words.id))


def _said_new(words: argparse.Namespace, sectors: int, capacity: int) -> None:
    said(words, {"capacity": capacity, "sectors": sectors},
         f"{words.store} is an empty store of {sectors * SECTOR:,} bytes, {capacity:,} of them for the "
         "documents")


def _check(words: argparse.Namespace) -> None:
    status = check_file(words.store, program_of(words))
    said(words, members_of(status), f"{words.store} is a store\n{shown_status(status)}")


def _copy(words: argparse.Namespace) -> None:
    status = copy_file(words.store, words.new, words.sectors or _sectors_in(words.store), program_of(words),
                       version=words.format, identity=words.id)
    said(words, members_of(status), f"{words.new} has the same documents\n{shown_status(status)}")


def _grow(words: argparse.Namespace) -> None:
    if words.new is not None and is_socket(words.store):
        raise JpstoreError("the store of a hub grows in its place: leave NEW out")
    if words.new is None and words.format is not None:
        raise JpstoreError("a store that grows in its place keeps its format: leave `--format` out, or name NEW")
    if words.new is not None:
        status = grow(words.store, words.new, words.sectors or 2 * _sectors_in(words.store), program_of(words),
                      version=words.format)
        said(words, members_of(status), f"{words.new} has the same documents\n{shown_status(status)}")
        return
    if is_socket(words.store):
        with opened(words) as store:
            status = store.grow(words.sectors or 2 * store.status().sectors)
    else:
        status = grow_file(words.store, words.sectors or 2 * _sectors_in(words.store), program_of(words))
    said(words, members_of(status), f"{words.store} has grown\n{shown_status(status)}")


def _upgrade(words: argparse.Namespace) -> None:
    before = upgrade_file(words.store, words.format, program_of(words), identity=words.id)
    said(words, {"format": words.format, "from": before},
         f"{words.store} is in format {words.format}; before it was in format {before}")


_NEW: Word = ("new", {"metavar": "NEW", "help": "the new file"})


def _sizes(otherwise: str) -> List[Word]:
    """The two ways to give a size, of which one is taken, and what it is without them."""
    return [("--size", {"metavar": "SIZE", "type": sectors_of_size, "dest": "sectors",
                        "help": f"its size, such as 512K, 16M or 2G ({otherwise})"}),
            ("--sectors", {"metavar": "N", "type": int, "help": "its size in sectors of 512 bytes"})]


def _format_of_new(otherwise: str) -> Word:
    return ("--format", {"metavar": "V", "type": int, "choices": (2, 3),
                         "help": f"the format of the new file, 2 or 3 ({otherwise})"})


_IDENTITY: Word = ("--id", {"metavar": "HEX",
                            "help": "the identity of the store in format 3, 32 hexadecimal digits (random)"})

#: The words of which one is given at most.
SIZE_WORDS: Tuple[str, ...] = ("--size", "--sectors")

#: `new`, if STORE alone is named: a file that is made.
NEW_STORE: Row = (_new, "makes a file with an empty store of format 3", "new inventory --size 16M",
                  [*_sizes("16M"), _IDENTITY])

#: Each command, as in `commands.COMMANDS`; STORE is a file.
FILE_COMMANDS: Dict[str, Row] = {
    "format": (_format, "makes a file with an empty store of either format", "format inventory --size 16M --format 3", [
        *_sizes("16M"),
        ("--format", {"metavar": "V", "type": int, "choices": (2, 3), "help": "the format of the file, 2 or 3 (2)"}),
        ("--mode", {"metavar": "MODE", "type": _mode, "help": "its permission bits in octal (600)"}),
        _IDENTITY,
        ("--sparse", {"action": "store_true", "help": "leave its blocks to be allocated as they are written"})]),
    "check": (_check, "reads and judges all of a store, and shows its status", "check inventory", []),
    "copy": (_copy, "copies a store into a new file, with its revisions and counts", "copy inventory saved", [
        _NEW, *_sizes("that of STORE"), _format_of_new("that of STORE"), _IDENTITY]),
    "grow": (_grow, "makes a store larger: in its place, also while a hub serves it, or as another file",
             "grow inventory.socket --size 32M", [
                 ("new", {"metavar": "NEW", "nargs": "?", "help": "a new file for the larger store; STORE, a file that "
                                                                  "nobody serves, stays as it is then"}),
                 *_sizes("twice that of STORE"), _format_of_new("that of STORE; with NEW alone")]),
    "upgrade": (_upgrade, "brings a store to format 3, or back to 2", "upgrade inventory", [
        ("--format", {"metavar": "V", "type": int, "choices": (2, 3), "default": 3,
                      "help": "the format to bring it to, 2 or 3 (3)"}),
        _IDENTITY]),
}
