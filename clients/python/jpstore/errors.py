"""Errors: a refusal by its family, the end of the program, a value that cannot be sent."""
import contextlib
import errno
import json
import os
import re
from types import MappingProxyType
from typing import (
    TYPE_CHECKING, Any, Callable, ContextManager, Dict, Iterator, List, Mapping, Optional, Sequence, Tuple, Type, Union,
)

from . import protocol
from .called import as_called
from .refusals import ADVICE, COMPLAINTS, REFUSALS, advice_for

if TYPE_CHECKING:
    from .explain import Fault

__all__ = [
    "AccessError", "Broken", "Conflict", "Ended", "Full", "Gone", "Invalid", "JpstoreError", "JpstoreWarning",
    "Malformed", "NoMemory", "NotFound", "Outdated", "Overtaken", "Refused", "TimedOut", "TooLarge", "Unsendable",
    "accessing", "accessing_store", "refusal_of",
]


class JpstoreError(Exception):
    """Every error that this package raises by itself is one of these."""


class JpstoreWarning(UserWarning):
    """The store accepts this, but perhaps it is not what was meant; or it says this of itself."""


class AccessError(JpstoreError, OSError):
    """The system refused access to a file, a socket or the program; `filename` names it, `strerror` says why."""

    #: What to do about it, if that is known.
    advice = ""

    def __str__(self) -> str:
        return f"{self.filename}: {self.strerror}"


@contextlib.contextmanager
def accessing(path: Union[str, "os.PathLike[str]"], advice: Mapping[int, str] = MappingProxyType({})) -> Iterator[None]:
    """Raises a system error of the block as an `AccessError` that names this path, or the one that the system named.

    `advice` says what to do, by the system's number.
    """
    try:
        yield
    except JpstoreError:
        raise
    except OSError as error:
        named = error.filename or os.fspath(path)
        told = AccessError(error.errno or 0, error.strerror or str(error), named)
        told.advice = as_called(advice.get(told.errno or 0, ""))
        raise told from error


class Gone(JpstoreError):
    """Not all changes after the number that was asked for are known, or that number belongs to another history.

    Read the documents again (`export`), and go on from the number that they have then.
    """

    def __init__(self, asked: Optional[int], since: int) -> None:
        #: The least number from which one may go on.
        self.since = since
        super().__init__(asked, since)

    def __str__(self) -> str:
        asked = self.args[0]
        known = asked is not None and asked >= self.since
        gone = (f"the store has no change {asked}, or is another one than that which had it" if known
                else f"the changes after {asked} are gone")
        return (f"{gone}; one may go on from {self.since}: read the documents again (`export`), and go on from their "
                "number")


# What to do about the file of a store, by the system's number.
_STORE_ADVICE = {
    errno.ENOENT: ADVICE["missing"], errno.EISDIR: ADVICE["folder"], errno.EACCES: ADVICE["denied"],
    errno.EROFS: ADVICE["read-only"], errno.ENOSPC: ADVICE["no-space"], errno.EEXIST: ADVICE["exists"],
}


def accessing_store(path: Union[str, "os.PathLike[str]"]) -> ContextManager[None]:
    """As `accessing`, for the file of a store: an error says what to do."""
    return accessing(path, _STORE_ADVICE)


class Unsendable(JpstoreError, ValueError):
    """No line can carry this value, such as a fraction or a number beyond 64 bits; nothing was sent."""


# The refusals that say less than the place of the fault does.
_TOLD_BY_DETAIL = (14, 30, 31, 32, 33, 34, 37, 38, 40, 41, 42, 43, 50, 51)


class Refused(JpstoreError):
    """The store refused a command, and nothing was changed (except perhaps by 61, see `Broken`)."""

    def __init__(self, number: int, name: str, op: Optional[int] = None, rev: Optional[int] = None,
                 command: Optional[Dict[str, Any]] = None, change: Optional[int] = None,
                 before: Sequence[Dict[str, Any]] = (), mark: Optional[str] = None, seq: Optional[int] = None) -> None:
        #: The refusal's number and name, and the operation of the patch that is at fault, counted from 0.
        self.number, self.name, self.op = number, name, op
        #: The document's revision, if the patch asked for another (24).
        self.rev = rev
        #: The value and the number of the key's mark, if another was asked for (25); None if there is none.
        self.mark, self.seq = mark, seq
        #: The command that was refused, if it is known; of a transaction the change that was.
        self.command: Dict[str, Any] = command if isinstance(command, dict) else {}
        #: The place of that change in its transaction, counted from 0; None if no change of a transaction was refused.
        self.change = change
        #: The changes before it in its transaction. It was judged after them, and they were not made either.
        self.before = list(before)
        self._detail: Optional[str] = None
        #: What each change of a group was answered, if the first refusal of a group is raised.
        self.outcomes: Sequence[Union[int, "Refused"]] = ()
        row = REFUSALS.get(number)
        #: What the refusal means, and what to do about it.
        self.meaning = row.meaning if row else ""
        self.advice = as_called(advice_for(number, self.command, op) or (row.advice if row else ""))
        super().__init__(number, name, op, rev, command, change, self.before, mark, seq)

    @property
    def detail(self) -> str:
        """The place of the fault in the line, the schema or the query, and what is wrong there, if it is found."""
        if self._detail is None:
            from .faults import detail_of
            self._detail = detail_of(self.number, self.command, self.op) if self.command else ""
        return self._detail

    @detail.setter
    def detail(self, detail: str) -> None:
        self._detail = detail

    def __reduce__(self) -> Any:
        # A refusal goes to another process without the store that it may read.
        return type(self), self.args

    @property
    def document(self) -> Optional[str]:
        """The name of the document that the command is about."""
        name = self.command.get("name")
        return name if isinstance(name, str) else None

    def __str__(self) -> str:
        said = f"{self.number} {self.name}"
        if self.change is not None:
            said += f", change {self.change}"
        if self.op is not None:
            said += f", operation {self.op}"
        if self.rev is not None:
            said += f", revision {self.rev}"
        if self.mark is not None:
            said += f", mark {json.dumps(self.mark, ensure_ascii=False)} of change {self.seq}"
        meaning = "" if self.detail and self.number in _TOLD_BY_DETAIL else self.meaning
        parts = [told_command(self.command), said, meaning, self.detail]
        return ": ".join(part for part in parts if part)


def told_command(command: Any) -> str:
    """A command in a few words: what it does and to which document."""
    if not isinstance(command, dict):
        return ""
    if command.get("cmd") == "transaction" and isinstance(command.get("changes"), list):
        count = len(command["changes"])
        return f"transaction of {count} {'change' if count == 1 else 'changes'}"
    words = [command.get("cmd"), command.get("name")]
    return " ".join(word for word in words if isinstance(word, str))


class Malformed(Refused):
    """The line, the name, the pointer, the patch, the schema or the query has a wrong form."""


class NotFound(Refused):
    """No document has this name, or the document has no value at this place."""


class Conflict(Refused):
    """A name is taken, a `test` found another value, or the revision (`Outdated`) or mark (`Overtaken`) is another."""


class Outdated(Conflict):
    """The document has another revision than the one that the patch asked for by `if_rev`; it is `rev`."""


class Overtaken(Conflict):
    """The key has another mark than the one that was asked for by `if_mark`; it is `mark`, of change `seq`, or None."""


class Invalid(Refused):
    """The document would not be valid under its schema; `why` says where."""

    #: Reads the document and its schema, which a `patch` does not carry; None if that is not possible.
    read: Optional[Callable[[], Sequence[Any]]] = None

    def keep(self) -> None:
        """Reads what `why` needs now, while the store is open."""
        if self.read is not None and self.asks_the_store:
            with contextlib.suppress(JpstoreError):
                values = self.read()
                self.read = lambda: values

    @property
    def asks_the_store(self) -> bool:
        """Whether `why` reads the document from the store: neither the change nor one before it makes the document."""
        return not any(each.get("cmd") == "create" and each.get("name") == self.document
                       for each in [*self.before, self.command])

    def why(self) -> List["Fault"]:
        """Each fault, with its place in the document and the keyword that refuses it, both as JSON Pointers.

        It needs the libraries `jsonschema` and, for a patch, `jsonpatch`. For a patch or a new schema it speaks of the
        document as it was when the refusal was raised. For one among the outcomes of a group it reads the document, and
        the only fault says so if that can't be done any more.
        """
        from .explain import faults_of
        return faults_of(self.command, self.read, before=self.before)


class TooLarge(Refused):
    """A limit of lines, documents, patches, schemas, queries, replies or transactions is passed."""


class Full(Refused):
    """The store has no room for the change, or has counted its last one."""


class Broken(Refused):
    """The device failed. After 61, open the store again to see whether the change is stored."""


class NoMemory(Refused):
    """The program ran out of memory for this line; it may be sent again."""


_FAMILIES: Dict[str, Type[Refused]] = {family.__name__: family for family in (
    Malformed, NotFound, Conflict, Outdated, Overtaken, Invalid, TooLarge, Full, Broken, NoMemory)}
_FAMILY_OF = {number: _FAMILIES[name] for number, _, name, _, _ in protocol.REFUSALS if name}


def refusal_of(reply: Dict[str, Any], command: Optional[Dict[str, Any]] = None,
               before: Sequence[Dict[str, Any]] = ()) -> Refused:
    """The exception for a reply that is not ok, of the refusal's family.

    The command may be a transaction, whose changes the reply counts; else `before` has the changes before it.
    """
    number, change = reply["number"], reply.get("change")
    if change is not None and command is not None:
        before, command = command["changes"][:change], command["changes"][change]
    family = _FAMILY_OF.get(number, Refused)
    return family(number, reply["error"], reply.get("op"), reply.get("rev"), command, change, before, reply.get("mark"),
                  reply.get("seq"))


#: What the program says with `--why` after `jpstore: file`.
_REASON = re.compile(r"(?<=^jpstore: file\n)\{.*\}$", re.MULTILINE)


def _cause(errors: str) -> Tuple[str, str, Optional[int]]:
    """What the program said of a file that it could not make or open: its word, in words, and the system's number."""
    found = _REASON.search(errors)
    if found is None:
        return "", "", None
    reason = json.loads(found.group())
    number: int = reason["errno"]
    told = f"{reason['path']}: {os.strerror(number) if number else reason['cause']}"
    return reason["cause"], told, number or None


class Ended(JpstoreError):
    """The program ended, or the hub closed the connection, before all replies came.

    If `change` is set, this change was sent and not answered: it may or may not be stored, but never in part.
    """

    def __init__(self, what: str, status: Optional[int] = None, errors: str = "", replies: Sequence[Any] = (),
                 file: str = "") -> None:
        #: The file that the program was given, if it is known.
        self.file = file
        #: The exit status, or minus the signal that ended the program; None if a hub closed the connection.
        self.status = status
        #: What the program wrote to standard error.
        self.errors = errors
        #: What the lines of a group were answered until then.
        self.replies: List[Any] = list(replies)
        #: The first change that was sent and not answered, or the transaction.
        self.change: Optional[Dict[str, Any]] = None
        #: Why a file could not be made or opened, in the system's words, and its `errno` for that, if they are known.
        self._cause_word, self.cause, self.system_error = _cause(errors)
        found = re.search(r"^jpstore: ([a-z-]+)(?: \((\d+)\))?(?::.*)?$", errors, re.MULTILINE)
        #: The word of `jpstore: WORD`, and the number after it.
        self.name = found.group(1) if found else None
        self.number = int(found.group(2)) if found and found.group(2) else None
        self.meaning, self.advice = self._explained()
        super().__init__(what)

    def _explained(self) -> Tuple[str, str]:
        if self.name in COMPLAINTS:
            advice = ADVICE.get("socket" if self.system_error == errno.ENXIO else self._cause_word or self.name, "")
            return COMPLAINTS[self.name], as_called(advice)
        row = REFUSALS.get(self.number or 0)
        return (row.meaning, as_called(row.advice)) if row else ("", "")

    @property
    def document(self) -> Optional[str]:
        """The document of the change that was not answered."""
        name = self.change.get("name") if self.change else None
        return name if isinstance(name, str) else None

    def __str__(self) -> str:
        what = self.args[0]
        if self.status is not None:
            how = f"by signal {-self.status}" if self.status < 0 else f"with status {self.status}"
            what = f"{what} ended {how}"
        said = (_REASON.sub("", self.errors) if self.cause else self.errors).strip()
        parts = [what, said, self.cause or self.meaning]
        if self.file and self.meaning and said.startswith("jpstore: ") and "\n" not in said:
            # The file and what is the matter with it come first: how the program was called is of less use.
            known = " is in use" if self.name == "in-use" else said[len("jpstore"):]
            matter = self.cause or f"{self.file}{known}: {self.meaning.replace('FILE', 'it')}"
            parts = [f"{matter} ({what})"]
        if self.change is not None:
            parts.append(f"`{told_command(self.change)}` may or may not be stored")
        return ": ".join(part for part in parts if part)


class TimedOut(Ended, TimeoutError):
    """No reply came within the time that was set. The connection is closed; a hub's client connects again.

    A hub that goes on later may still do the `change` then.
    """

    def __str__(self) -> str:
        return Ended.__str__(self)
