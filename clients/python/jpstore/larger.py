"""A larger store of the same documents: as a new file, or in the place of the store's file.

A larger file gets its name when it has been compared with the store. So at each moment the store's name leads to a file
with every change that was answered.
"""
import contextlib
import errno
import glob
import os
import shlex
import shutil
import tempfile
from typing import IO, Callable, Optional

from .client import Status, Store
from .errors import AccessError, JpstoreError, accessing_store
from .progress import Progress
from .wire.program import Path, copy_file
from .wire.store_file import SECTOR
from .wire.store_slots import SLOTS

__all__ = ["give_name", "grow", "grow_file", "open_store", "sync_folder"]

# A file that takes another's place is made in a folder beside it, whose name is that of the file, this, and eight
# letters. A hub makes one so too, with these names in it.
_FOLDER, _NAMES = ".growing-", {"from", "to"}


def open_store(file: Path, program: Optional[Path] = None) -> Store:
    """The store in a file, which may take a while to read."""
    with Progress("open"):
        return Store(file, program=program)


def grow(file: Path, new: Path, sectors: int, program: Optional[Path] = None, *,
         version: Optional[int] = None) -> Status:
    """Makes a store of this many sectors in `new`, which must not exist, with the documents of the store in `file`.

    They keep their revisions, and the store its count of changes, and its format, unless `version` gives 2 or 3. They
    are compared, as new openings read them, before `new` gets its name; until then it is `new.growing`, which is
    removed if something fails. `file` keeps all it has. Returns the status of the new store.
    """
    name = os.fspath(new)
    part = name + ".growing"
    _check_absent(name, part)
    status = _copied(file, part, sectors, program, lambda: give_name(part, name), version)
    sync_folder(name)
    return status


def grow_file(file: Path, sectors: int, program: Optional[Path] = None) -> Status:
    """Makes the store in `file`, which nobody serves, one of this many sectors; returns its status.

    It keeps its documents with their revisions, its count of changes, and its format. They are compared, as openings
    read them, before the larger file takes the name. If it is stopped, the name leads to the smaller file or to the
    larger one, each of which is whole.
    """
    # A renaming would replace a symbolic link, and not what it leads to.
    path = os.path.realpath(file)
    with open_store(file, program) as old:
        identity = old.status().id
        _remove_leftovers(path)
    with accessing_store(file), open(path, "r+b") as smaller:
        _check_larger(smaller, path, sectors)
        with tempfile.TemporaryDirectory(prefix=os.path.basename(path) + _FOLDER, dir=os.path.dirname(path)) as folder:
            part = os.path.join(folder, "to")
            status = _copied(file, part, sectors, program, lambda: _replace(smaller, path, part, sectors),
                             3 if identity else 2, identity)
    return status


def _copied(file: Path, part: str, sectors: int, program: Optional[Path], take_name: Callable[[], None],
            version: Optional[int], identity: Optional[str] = None) -> Status:
    """Copies a store into `part`, which gets its name by `take_name` while both are open, and are the same."""
    with Progress("copy"):
        copy_file(file, part, sectors, program, version=version, identity=identity)
    try:
        with open_store(file, program) as old, open_store(part, program) as grown:
            _compare(old, grown)
            status = grown.status()
            take_name()
    except BaseException:
        # If it has its name, it is whole.
        with contextlib.suppress(FileNotFoundError):
            os.unlink(part)
        raise
    return status


def _check_absent(new: str, part: str) -> None:
    if os.path.lexists(new):
        raise AccessError(errno.EEXIST, "it exists already, and is left as it is: choose another name", new)
    if os.path.lexists(part):
        raise JpstoreError(f"{part} exists already: another `grow` is at work there, or one was killed. If none is at "
                           f"work, remove it (`rm {shlex.quote(part)}`) and try again; the old store is whole")


def give_name(part: str, new: str) -> None:
    """Names the file `new`. A hard link never replaces a file that got this name meanwhile, as a renaming would."""
    try:
        os.link(part, new)
    except OSError:
        # The name is taken, or the file system has no hard links.
        if os.path.lexists(new):
            raise JpstoreError(f"{new} was made meanwhile, and is left as it is: choose another name") from None
        os.rename(part, new)
    else:
        os.unlink(part)


def _check_larger(smaller: IO[bytes], path: str, sectors: int) -> None:
    """An error if the file at a path is not this one, or can't be replaced by one of so many sectors."""
    named = os.stat(path)
    if not os.path.samestat(os.fstat(smaller.fileno()), named):
        raise JpstoreError(f"{path} is another file than the one that is served: end what serves it")
    if named.st_nlink != 1:
        raise JpstoreError(f"{path} has another name too (a hard link), which would keep the smaller file: remove that "
                           "name")
    if sectors * SECTOR <= named.st_size:
        raise JpstoreError(f"it has {named.st_size // SECTOR:,} sectors already: choose a larger number")


def _replace(smaller: IO[bytes], path: str, part: str, sectors: int) -> None:
    """Gives the larger file the name of the other, which is no store any more then.

    Both are locked by their programs, so nobody else changes one of them meanwhile. Somebody who has opened the other
    under its name, and waits for its lock, finds no store in it.
    """
    _check_larger(smaller, path, sectors)
    told = os.fstat(smaller.fileno())
    # Only root may give a file away.
    with contextlib.suppress(PermissionError):
        os.chown(part, told.st_uid, told.st_gid)
    os.rename(part, path)
    sync_folder(path)
    with contextlib.suppress(OSError):
        smaller.write(bytes(SLOTS))
        smaller.flush()


def _remove_leftovers(path: str) -> None:
    """Removes what a killed growth of a store left. Nobody else can copy the store now, since it is open here."""
    for folder in glob.glob(glob.escape(path + _FOLDER) + "????????"):
        if set(os.listdir(folder)) <= _NAMES:
            shutil.rmtree(folder, ignore_errors=True)


def _compare(old: Store, new: Store) -> None:
    if new.status().seq != old.status().seq:
        raise JpstoreError("the old store was changed while it was copied: try again once nothing else uses it")
    names = old.list()
    if new.list() != names:
        raise JpstoreError("the new store has other names than the old one")
    with Progress("compare", "documents", len(names)) as progress:
        for name in names:
            if (old.texts(name), old.rev(name)) != (new.texts(name), new.rev(name)):
                raise JpstoreError(f"{name} is another document in the new store than in the old one")
            progress.step()


def sync_folder(file: str) -> None:
    """Puts the names in the folder of a file on the disk."""
    folder = os.open(os.path.dirname(os.path.abspath(file)), os.O_RDONLY)
    try:
        os.fsync(folder)
    finally:
        os.close(folder)
