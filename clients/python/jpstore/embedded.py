"""A store in this process, in the place of a program: `Store(file, embedded=True)`."""
import json
import os
from typing import Any, Callable, Optional

from .errors import Ended, JpstoreError, refusal_of
from .refusals import REFUSALS
from .results import Status
from .wire import commands
from .wire.conversation import Call, Conversation
from .wire.program import Path
from .wire.stream import StreamEnded

try:
    from . import _embedded
except ImportError:
    _embedded = None  # type: ignore[assignment]

__all__ = [
    "SECTORS", "Embedded", "Over", "copy_embedded", "embedded_version", "format_embedded", "upgrade_embedded",
]

#: The size of a store in memory, in sectors of 512 bytes.
SECTORS = 65536

# The exit status that the program would end with.
_STATUS, _STATUS_OF_WORDS = 1, 2


def _extension() -> Any:
    if _embedded is None:
        raise JpstoreError("this package has no library: run clients/c/build, and then clients/python/build_embedded")
    return _embedded


def embedded_version() -> str:
    """The version of the library, and the SHA-256 of the program's object that is in it."""
    version: str = _extension().version()
    return version


def _complaint(fault: int, refusal: int) -> str:
    """What the program would say on standard error."""
    words = {_embedded.IN_USE: "in-use", _embedded.FILE: "file", _embedded.NO_SPACE: "no-space",
             _embedded.MEMORY: "memory", _embedded.REPLY: "writer", _embedded.ARGUMENTS: "arguments",
             _embedded.DEVICE: "device (61)", _embedded.IDENTITY: "identity"}
    if fault == _embedded.REFUSED and refusal in REFUSALS:
        return f"jpstore: {REFUSALS[refusal].name} ({refusal})\n"
    return f"jpstore: {words[fault]}\n" if fault in words else ""


def _error(file: Optional[str], fault: Any) -> Ended:
    """How the program would have ended, and the system's reason."""
    number, refusal, system_error, replies = fault.args
    status = _STATUS_OF_WORDS if number == _embedded.ARGUMENTS else _STATUS
    complaint = _complaint(number, refusal)
    what = "libjpstore" if complaint else f"the store in {file or 'memory'}: {_embedded.fault_text(number)}"
    ended = Ended(what, status, complaint, replies or (), file or "the store in memory")
    if system_error:
        ended.system_error, ended.cause = system_error, f"{ended.file}: {os.strerror(system_error)}"
    return ended


def _done(call: Callable[..., Any], *words: Any) -> Any:
    """What a call for files answers; `Ended`, which names them, if it has a fault."""
    try:
        return call(*words)
    except _embedded.Fault as fault:
        raise _error(", ".join(word for word in words if isinstance(word, str)), fault) from None


def format_embedded(file: Path, sectors: int, version: int = 2, sparse: bool = False, mode: int = 0,
                    identity: Optional[str] = None) -> int:
    """As `format_file`, by the library and not by the program.

    `version` is the format of the file, 2 or 3. With `sparse` only the empty store is written and not the whole file,
    so that a full disk may refuse changes (61). `mode` has the file's permission bits; 0 is 0600. In format 3 the store
    gets `identity`, 32 hexadecimal digits that no other store has, or random ones.
    """
    capacity: int = _done(_extension().format, os.fspath(file), sectors, version, sparse, mode, identity)
    return capacity


def copy_embedded(file: Path, new: Path, sectors: int, version: Optional[int] = None) -> Status:
    """As `copy_file`, by the library and not by the program."""
    return Status.of(_done(_extension().copy, os.fspath(file), os.fspath(new), sectors, version or 0))


def upgrade_embedded(file: Path, version: int = 3) -> int:
    """As `upgrade_file`, by the library and not by the program."""
    before: int = _done(_extension().upgrade, os.fspath(file), version)
    return before


class Over(StreamEnded):
    """The session is over, for a reason that is known at once; `error` has the replies that came before."""

    def __init__(self, error: Ended) -> None:
        super().__init__()
        self.error = error


class Embedded:
    """A store of libjpstore, with the calls of a `Program`. It is opened by the first exchange."""

    def __init__(self, file: Optional[str], batch: int = 1, pump: int = 0, sectors: int = SECTORS) -> None:
        """The store in `file`; with None a new one in memory, of this many sectors."""
        self._extension = _extension()
        self._words = (file, batch, pump, sectors)
        self._session: Any = None
        self._conversation = Conversation()

    def exchange(self, call: Call) -> None:
        """Feeds the lines of a call, and takes the replies to them; `StreamEnded` if the session is over before."""
        sent = self._conversation.send([call])
        try:
            if self._session is None:
                self._session = self._opened()
            call.sent = True
            self._conversation.answer(self._session.exchange(sent))
        except self._extension.Fault as fault:
            self._conversation.answer(fault.args[3] or ())
            raise self._broken_off(fault) from None
        if not call.done:
            raise JpstoreError(f"{len(call.replies)} replies came, and not {len(call.lines)}: a change waits for "
                               "others of its batch")

    def let_go(self) -> None:
        """Closes this process's copy of the file, in a child, and leaves the parent's as it is."""
        self._free()

    def get(self, name: str, path: str) -> Any:
        """The value at a place of a document, without the line of a general command; NotImplemented if it needs one."""
        if self._session is None or self._conversation.under_way:
            return NotImplemented
        try:
            value = self._session.get(name, path)
        except self._extension.Fault as fault:
            raise self._broken_off(fault) from None
        if type(value) is bytes:
            raise refusal_of(json.loads(value), commands.get(name, path))
        return value

    def change(self, command: commands.Command) -> Any:
        """The number of a change, or its refusal as a reply, without a general line; NotImplemented if it needs one."""
        if self._session is None or self._conversation.under_way:
            return NotImplemented
        try:
            return self._session.change(command)
        except self._extension.Fault as fault:
            raise self._broken_off(fault) from None

    def ended(self, ended: StreamEnded) -> Ended:
        """The error that says how the session ended."""
        self._free()
        assert isinstance(ended, Over)
        return ended.error

    def close(self) -> None:
        """Ends the session; `Ended` if the device failed in it."""
        session, self._session = self._session, None
        if session is None:
            return
        try:
            session.finish()
        except self._extension.Fault as fault:
            raise _error(self._words[0], fault) from None
        finally:
            session.free()

    def give_back(self) -> None:
        """Ends the session, and loses nothing that was answered."""
        self._free()

    def _opened(self) -> Any:
        return self._extension.open(*self._words)

    def _free(self) -> None:
        session, self._session = self._session, None
        if session is not None:
            session.free()

    def _broken_off(self, fault: Any) -> Exception:
        if fault.args[0] in (self._extension.FORKED, self._extension.BUSY):
            return JpstoreError(self._extension.fault_text(fault.args[0]))
        return Over(_error(self._words[0], fault))
