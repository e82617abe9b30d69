"""The program `jpstore` as a process: where it is, how it is started, how it ended."""
import json
import os
import shutil
import subprocess
import warnings
from typing import Any, Dict, List, Optional, Sequence, Union

from ..errors import Ended, JpstoreError, JpstoreWarning, TimedOut, accessing
from ..results import Status
from .forks import Descriptor, in_each_child, while_none_forks
from .stream import PIECE, Lines, StreamEnded, StreamSilent

__all__ = [
    "BATCH", "Path", "Program", "SAID_BY_SLOTS", "Started", "check_file", "copy_file", "ended_program", "find_program",
    "format_file", "new_file", "path_word", "serve_words", "upgrade_file", "version_of",
]

_HOW_TO_GET = ("it is in the Debian package jpstore, and `./build` of a clone puts it into `crates/jpstore/out`; "
               "`--program PATH`, or in Python `program=PATH`, names one at another place")

#: A path of a file or a socket.
Path = Union[str, "os.PathLike[str]"]

#: How many changes that are sent together share a sync of the disk at most, unless a caller says another number. More
#: are hardly faster, and as many of the longest documents take 200 MB until they are stored.
BATCH = 64

#: What the slots of a store in format 3 say when it is opened, unless they are whole.
SAID_BY_SLOTS = {
    "mended": "a copy of the last commit was damaged, and nothing is lost",
    "cut-off": "a commit was under way at a stop, and was never answered; or both copies of the last one are damaged, "
               "and it is lost",
}


def find_program(program: Optional[Path] = None) -> str:
    """The path of the program: the one that is given, or `jpstore` on PATH."""
    named = os.fspath(program) if program is not None else "jpstore"
    found = shutil.which(named)
    if found is None:
        where = "a program" if program is not None else "on PATH"
        raise JpstoreError(f"{named} is not {where}" + ("" if program is not None else f": {_HOW_TO_GET}"))
    return found


def version_of(program: str) -> str:
    """What the program says of its version."""
    with accessing(program):
        ended = subprocess.run([program, "--version"], stdin=subprocess.DEVNULL, stdout=subprocess.PIPE,
                               stderr=subprocess.STDOUT, check=False)
    return ended.stdout.decode("utf-8", "replace").strip()


def serve_words(program: str, file: Path, batch: int = 1, pump: int = 0) -> List[str]:
    """The words that start `serve`, with the options that are asked for."""
    options = _options(batch=batch if batch > 1 else None, pump=pump if pump > 0 else None)
    return [program, "serve", path_word(file), *options, "--why"]


def _options(**given: Any) -> List[str]:
    """The words of the options that have a value."""
    return [word for name, value in given.items() if value is not None for word in (f"--{name}", str(value))]


def path_word(file: Path) -> str:
    """A path as a word that is not taken for an option."""
    word = os.fspath(file)
    return "./" + word if word.startswith("-") else word


def ended_program(words: Sequence[str], status: int, errors: bytes) -> Ended:
    """The error for a program that ended."""
    return Ended(" ".join(words), status, errors.decode("utf-8", "replace"), file=words[2] if len(words) > 2 else "")


class Started:
    """The program as a process, and its streams. In a child made by fork it is the parent's, and is left alone."""

    def __init__(self, words: Sequence[str]) -> None:
        self.words = list(words)
        self._end: Optional[Ended] = None
        with accessing(words[0]), while_none_forks():
            # In a session of its own, so that an interrupt at the terminal does not end it in the midst of a change.
            process = subprocess.Popen(words, stdin=subprocess.PIPE, stdout=subprocess.PIPE, stderr=subprocess.PIPE,
                                       start_new_session=True)
            self._process = process
            self.input, self.output = Descriptor.of(process.stdin), Descriptor.of(process.stdout)
            self._errors = Descriptor.of(process.stderr)
            in_each_child(self)

    @property
    def pid(self) -> int:
        """The number of the process."""
        return self._process.pid

    def let_go(self) -> None:
        """Forgets the process, which is the parent's."""
        self._end = Ended(" ".join(self.words))
        # What is asked for here and is not there would be a warning.
        self._process.returncode = 0

    def kill(self) -> None:
        """Kills it, which loses nothing that was answered."""
        if self._end is None:
            self._process.kill()

    def ended(self, ended: Optional[StreamEnded] = None, timeout: Optional[float] = None) -> Ended:
        """Waits for its end, and returns the error that says how it ended. One that was silent is killed."""
        if isinstance(ended, StreamSilent):
            self.kill()
        if self._end is None:
            errors = b"".join(iter(lambda: os.read(self._errors.open_number(), PIECE), b""))
            self._end = ended_program(self.words, self._process.wait(), errors)
            self._errors.close()
        if isinstance(ended, StreamSilent):
            return TimedOut(f"{' '.join(self.words)} did not answer within {timeout:g} seconds, and was killed")
        return self._end


class Program(Lines):
    """A program that answers lines, one for each."""

    def __init__(self, words: Sequence[str], timeout: Optional[float] = None) -> None:
        self._started = Started(words)
        super().__init__(self._started.output, self._started.input, timeout)

    @property
    def pid(self) -> int:
        """The number of the process."""
        return self._started.pid

    def ended(self, ended: StreamEnded) -> Ended:
        """Waits for the end of the program, and returns the error that says how it ended."""
        self.close_both()
        return self._started.ended(ended, self._timeout)

    def close(self) -> None:
        """Ends the input, and waits for the program's end; `Ended` if its status is not 0."""
        self._writing.close()
        ended = self._started.ended()
        self.close_both()
        if ended.status:
            raise ended

    def give_back(self) -> None:
        """Kills the program, which loses nothing that was answered."""
        self._started.kill()
        self._started.ended()
        self.close_both()


def _shown(words: List[str]) -> Dict[str, Any]:
    with accessing(words[0]):
        ended = subprocess.run([*words, "--why"], stdin=subprocess.DEVNULL, stdout=subprocess.PIPE,
                               stderr=subprocess.PIPE, check=False)
    if ended.returncode:
        raise ended_program(words, ended.returncode, ended.stderr)
    shown: Dict[str, Any] = json.loads(ended.stdout)
    for line in ended.stderr.splitlines():
        if line.startswith(b'{"slots":'):
            shown.update(json.loads(line))
    return shown


def _shown_of_opened(words: List[str]) -> Dict[str, Any]:
    """The same, of a program that opens a store; what its slots say is a warning, unless they are whole."""
    shown = _shown(words)
    said = shown.get("slots")
    if said in SAID_BY_SLOTS:
        warnings.warn(f"{words[2]}: its slots are {said}: {SAID_BY_SLOTS[said]}", JpstoreWarning, stacklevel=3)
    return shown


def new_file(file: Path, size: Union[int, str] = "16M", program: Optional[Path] = None, *,
             identity: Optional[str] = None) -> int:
    """Makes `file`, which must not exist, with an empty store of format 3; returns the capacity of a half.

    `size` is in bytes, or a text such as "512K", "16M" or "2G", in powers of 1,024. Its owner alone reads and writes
    it. The store gets `identity`, 32 hexadecimal digits that no other store has, or random ones.
    """
    words = [find_program(program), "new", path_word(file), *_options(size=size, id=identity)]
    capacity: int = _shown(words)["capacity"]
    return capacity


def format_file(file: Path, sectors: int, program: Optional[Path] = None, mode: Optional[int] = None, *,
                version: Optional[int] = None, sparse: bool = False, identity: Optional[str] = None) -> int:
    """Makes `file`, which must not exist, with an empty store of this size; returns the capacity of a half.

    Its owner alone reads and writes it, unless `mode` has other permission bits, such as 0o640. With `version` it is in
    format 2 or 3, and without it in format 2; with `sparse` its blocks are allocated as they are written. In format 3
    the store gets `identity`, 32 hexadecimal digits that no other store has, or random ones.
    """
    options = _options(sectors=sectors, mode=None if mode is None else f"{mode:04o}", format=version, id=identity)
    words = [find_program(program), "format", path_word(file), *options, *(["--sparse"] if sparse else [])]
    capacity: int = _shown(words)["capacity"]
    return capacity


def check_file(file: Path, program: Optional[Path] = None) -> Status:
    """Opens the store in `file`, which reads and judges all of it and counts as an opening, and returns its status."""
    return Status.of(_shown([find_program(program), "check", path_word(file)]))


def copy_file(file: Path, new: Path, sectors: int, program: Optional[Path] = None, *,
              version: Optional[int] = None, identity: Optional[str] = None) -> Status:
    """Copies the store in `file` into `new`, which must not exist, with this many sectors, and returns its status.

    The copy has the documents with their schemas and revisions, and the counts of changes and openings; it is in format
    2 or 3 by `version`, and without it in that of `file`. In format 3 it gets another identity, as by `format_file`.
    After a stop `new` holds no store, or all of this; if the program fails it removes `new`. It counts as an opening of
    `file`. If the slots of `file` aren't whole, `slots` of the status says so, and a `JpstoreWarning`.
    """
    options = _options(sectors=sectors, format=version, id=identity)
    return Status.of(_shown_of_opened([find_program(program), "copy", path_word(file), path_word(new), *options]))


def upgrade_file(file: Path, version: int = 3, program: Optional[Path] = None, *,
                 identity: Optional[str] = None) -> int:
    """Brings the store in `file` to format 3 or 2, and returns the number of the format that it was in.

    The documents, their revisions and the count of changes stay, also after a stop at any moment. It counts as an
    opening. A store that comes to format 3 gets an identity, as by `format_file`. A `JpstoreWarning` says if its slots
    aren't whole.
    """
    options = _options(format=version, id=identity)
    before: int = _shown_of_opened([find_program(program), "upgrade", path_word(file), *options])["from"]
    return before
