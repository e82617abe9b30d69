"""A store, as an object: each of its calls sends a line and reads the reply."""
import os
import time
from typing import (
    Any, Callable, ContextManager, Dict, Iterable, List, Literal, Optional, Sequence, Tuple, Type, TypeVar, cast,
    overload,
)

from . import calls
from .calls import ATTEMPTS, NO_ATTEMPT
from .embedded import SECTORS, Embedded
from .errors import Invalid
from .follow import Following, followed
from .moment import Moment, moment_of
from .once import Once
from .results import Changes, Mark, Node, Pumped, Status
from .watch import Watch, watched
from .wire import requests
from .wire.commands import AskedMark, Command
from .wire.connection import Connection
from .wire.finished import finished
from .wire.limits import MOST_TOLD_BYTES
from .wire.program import BATCH, Path, Program, find_program, serve_words
from .wire.requests import Outcome, Request
from .wire.session import Channel, Session, give_back_if_dropped

__all__ = ["ATTEMPTS", "Mark", "NO_ATTEMPT", "Node", "Pumped", "Status", "Store"]

T = TypeVar("T")
S = TypeVar("S", bound="Store")


class Store:
    """The store in a file, served by a program of its own, or the store of a hub.

    A call returns when the store has answered: a change is on the disk then. A refusal is raised as a `Refused`, by
    its family; if the program ends or the hub goes away, `Ended` is raised. Several threads may call at once; their
    calls come one after another.
    """

    def __init__(self, file: Path, *, program: Optional[Path] = None, batch: int = BATCH, pump: int = 0,
                 wait: float = 0, timeout: Optional[float] = None, hub: bool = False, reconnect: bool = True,
                 embedded: bool = False) -> None:
        """Opens the store in `file`, or with `hub=True` that of the hub whose socket `file` is (see `connect`).

        `program` is the program `jpstore`, if it is not on PATH; `batch`, how many changes of a `group` share a sync
        of the disk at most, and `pump` are its options. `wait` is how
        long it tries to get a file that another process uses, in seconds. `timeout` is the longest time without a
        byte of the store: then `TimedOut` is raised, and the program is killed. With `embedded=True` the store is in
        this process, by `libjpstore`, without a program and without a timeout (`docs/use/EMBEDDING.md`).
        """
        #: The file, or the socket.
        self.path = path = os.fspath(file)
        #: The socket of the hub whose store this is; None for a store with a program of its own.
        self.hub = path if hub else None
        #: The longest time without a byte of the store, in seconds.
        self.timeout = timeout
        self._gathers = batch > 1 and not hub
        if hub:
            start: Callable[[], Channel] = lambda: Connection(path, timeout)
        elif embedded:
            start = lambda: Embedded(path, batch, pump)  # noqa: E731
        else:
            words = serve_words(find_program(program), path, batch, pump)
            start = lambda: Program(words, timeout)  # noqa: E731
        self._session = Session(start, wait, hub and reconnect, hub)
        give_back_if_dropped(self, path, self._session.give_back)

    @classmethod
    def connect(cls: Type[S], path: Path, *, timeout: Optional[float] = None, wait: float = 0,
                reconnect: bool = True) -> S:
        """The store of the hub whose Unix socket is at `path`.

        `wait` is how long it tries until a hub is there, in seconds. `timeout` is the longest time without a byte
        of the hub. If the connection is lost, the next call connects again, and waits as at first. A question whose
        reply was lost is asked again: once, and more often for `wait` seconds. A change is never sent twice, except by
        `once`: if its reply is lost, `Ended` is raised, and its `change` is the one that may or may not be stored. With
        `reconnect=False` a lost connection is the end of the session.
        """
        return cls(path, hub=True, timeout=timeout, wait=wait, reconnect=reconnect)

    @classmethod
    def in_memory(cls: Type[S], sectors: int = SECTORS) -> S:
        """A new store in memory, in this process, of this many sectors of 512 bytes, for tests. Closing forgets it.

        It has format 2, and so no marks.
        """
        store = cls.__new__(cls)
        store.path = ":memory:"
        store.hub = None
        store._gathers, store.timeout = False, None
        store._session = Session(lambda: Embedded(None, sectors=sectors), 0, False)
        return store

    def __enter__(self: S) -> S:
        return self

    def __exit__(self, kind: Optional[Type[BaseException]], *_: Any) -> None:
        finished(calls.leave(_Steps(self), kind is not None))

    @property
    def pid(self) -> Optional[int]:
        """The process of the program; None for a hub's or an embedded store, and when the store is closed."""
        channel = self._session.channel
        return channel.pid if isinstance(channel, Program) else None

    @property
    def closed(self) -> bool:
        """Whether the session is over: closed, ended, or broken off before a reply came."""
        return self._session.over

    def close(self) -> None:
        """Ends the session; `Ended` if the program ends with another status than 0, as after a device failure (61)."""
        self._session.close()

    # Changes: each returns its number, the store's new `seq`.

    def create(self, name: str, doc: Any, schema: Any = True) -> int:
        """Makes the document `name` with the value `doc` under a JSON Schema."""
        return self._do(requests.change(requests.create(name, doc, schema)))

    def patch(self, name: str, ops: List[Command], if_rev: Optional[int] = None) -> int:
        """Applies JSON Patch operations (RFC 6902) to a document, all or none.

        With `if_rev` only if the document has that revision, else `Outdated`, whose `rev` is the document's.
        """
        command = requests.patch(name, ops, if_rev)
        # An embedded store answers most patches without a request; a patch has no schema to warn of.
        answer = self._session.change(command)
        return answer if type(answer) is int else self._do(requests.change(command), answer)

    def merge_patch(self, name: str, patch: Any, if_rev: Optional[int] = None, *, attempts: int = ATTEMPTS,
                    pause: float = 0) -> int:
        """Applies a JSON Merge Patch (RFC 7396): members replace those of the document, and null removes.

        The document is read, and patched only if it is still the same; else this is done again, as by `update`. With
        `if_rev` it is done once, and only if the document has that revision.
        """
        return finished(calls.merge_patch(_Steps(self), name, patch, if_rev, attempts, pause))

    def update(self, name: str, change: Callable[[Any], List[Command]], *, attempts: int = ATTEMPTS,
               pause: float = 0) -> int:
        """Patches a document by what it holds: `change` is called with its value and returns the operations.

        They are applied only to the value that `change` was called with. If others changed the document meanwhile,
        it is read again and `change` is called again, after `pause` seconds, at most `attempts` times; then
        `Outdated` is raised. What `change` raises ends it, and nothing is sent.
        """
        return finished(calls.update(_Steps(self), name, change, attempts, pause))

    def put(self, name: str, doc: Any, schema: Any = None, if_rev: Optional[int] = None, *, attempts: int = ATTEMPTS,
            pause: float = 0) -> int:
        """Makes the document `name`, or replaces its whole value in its place in the order of creation.

        With `schema` it is under that schema then: value and schema are replaced at once. Else it keeps its own, and a
        new document is under `true`. With `if_rev` only a document of that revision is replaced, and none is made. If
        another client makes or deletes the document meanwhile, this is done again.
        """
        replacing, making = requests.put(name, doc, schema, if_rev)
        return finished(calls.put(_Steps(self), replacing, making, attempts, pause))

    def set_schema(self, name: str, schema: Any, if_rev: Optional[int] = None) -> int:
        """Puts a document under another schema, if it is valid under it.

        With `if_rev` only if the document has that revision, else `Outdated`. The condition is a change too: it takes
        the number before the one that is returned.
        """
        return self._do(requests.change(requests.set_schema(name, schema), if_rev))

    def delete(self, name: str, if_rev: Optional[int] = None) -> int:
        """Deletes a document; with `if_rev` only if it has that revision, as `set_schema` does."""
        return self._do(requests.change(requests.delete(name), if_rev))

    def transaction(self, changes: Iterable[Command], *, mark: Optional[Tuple[str, str]] = None,
                    if_mark: AskedMark = False) -> int:
        """Makes changes, all or none: those of `create`, `patch`, `set_schema` and `delete` of this package.

        There are 1 to 1,024. What they copy, and the documents that they put under other schemas, have at most
        33,554,432 bytes of text together (65, `TooLarge`). They are judged in order, each after those before it. Each
        has a number of its own, and that of the last is returned. If one is refused, nothing is changed: the refusal is
        raised, and its `change` is the place of that change, counted from 0.

        In format 3 `mark`, a key and a value, sets this mark with the changes (see `mark`). With `if_mark` only if the
        key has a mark of this value, or none if it is None, else `Overtaken`, whose `mark` and `seq` are those of the
        one that is there.
        """
        return self._do(requests.transaction(list(changes), mark, if_mark))

    def once(self, key: str, changes: Iterable[Command], *, by: Optional[str] = None, attempts: int = ATTEMPTS,
             pause: float = 0) -> int:
        """Makes changes as `transaction` does, but only if no call with this key has made them before. Format 3 alone.

        The key is a text that the caller chooses for this one piece of work, such as `"order-1234"`. A mark is set with
        the changes: its key is `once-` and 40 digits, its value 40 digits, the first of the SHA-256 in hexadecimal of
        the key and of the list of the changes in compact text. A call that finds it changes nothing, and returns the
        number that the first one returned; if its changes are others, that is an error. So a call whose answer was lost
        may be made again, from another process too. Over a hub that comes back this is done here, for the `wait`
        seconds of the store. A key is known until 1,024 others were used, by all clients together; then its changes
        would be made again. Until then it takes some 150 bytes of the store's half, which no call gives back.

        A client that makes its work piece by piece has a name, `by`, as documents have. The mark is its own then, with
        the key of up to 128 bytes as value: its last key is known, however many it used, if fewer than 1,024 marks of
        others were set since. The changes aren't compared. `attempts` is how often it is tried if another process works
        under the same name, and `pause` how long it waits between.
        """
        return finished(calls.once(_Steps(self), Once(key, list(changes), by), attempts, pause))

    def noted(self, key: str, by: Optional[str] = None) -> Optional[int]:
        """The number that `once` returned for this key; None if its changes are not made, or the key is forgotten."""
        return finished(calls.noted(_Steps(self), key, by))

    def mark(self, key: str) -> Optional[Mark]:
        """The mark of a key: its value, and the number of the last change that was made with it; None if there is none.

        A store of format 3 has the marks of the 1,024 keys that were set last, and a dump has none.
        """
        return self._do(requests.mark(key))

    @overload
    def group(self, changes: Iterable[Command], *, check: Literal[True] = True) -> List[int]: ...

    @overload
    def group(self, changes: Iterable[Command], *, check: bool) -> Sequence[Outcome]: ...

    def group(self, changes: Iterable[Command], *, check: bool = True) -> Sequence[Outcome]:
        """Sends many changes, made by `create`, `patch`, `set_schema`, `delete` and `transaction` of this package, and
        reads all replies.

        Returns the number of each, in order. A refused change does not hold up the others: when all are answered,
        the first refusal is raised, and its `outcomes` has all. With `check=False` nothing is raised, and the
        result has the refusal of each refused change. If the program ends, `Ended.replies` has what was answered
        until then.
        """
        outcomes = self.group_lines(requests.lines_of_group(list(changes)))
        return finished(calls.judged(_Steps(self), outcomes, check))

    def group_lines(self, lines: List[bytes]) -> List[Outcome]:
        """As `group` with `check=False`, for lines that are there already: each is a change with its LF, sent as is."""
        return [self._explainable(outcome) for outcome in finished(calls.group_lines(_Steps(self), lines))]

    # Questions, and what changes no document.

    def get(self, name: str, path: str = "") -> Any:
        """The value at a place of a document, by its JSON Pointer (RFC 6901); the empty one is the whole document."""
        value = self._session.value(name, path)
        return self._do(requests.get(name, path)) if value is NotImplemented else value

    def rev(self, name: str) -> int:
        """The revision of a document: the store's `seq` after the last creation, patch or schema of it."""
        return self._do(requests.rev(name))

    def schema(self, name: str) -> Any:
        """The schema of a document."""
        return self._do(requests.schema(name))

    def query(self, name: str, path: str) -> List[Node]:
        """The nodes that a JSONPath query (RFC 9535) selects in a document, in the order of the nodelist."""
        return finished(calls.query(_Steps(self), name, path))

    def query_all(self, path: str, prefix: str = "") -> Dict[str, List[Node]]:
        """The nodes that a JSONPath query selects in each document, or each whose name begins with `prefix`.

        A document without nodes is left out. Others may change documents of a hub's store while it is asked.
        """
        return finished(calls.query_all(_Steps(self), path, prefix))

    def names(self, prefix: str = "") -> List[str]:
        """The names, or those that begin with `prefix`, in the order in which the documents were created."""
        return self._do(requests.names(prefix))

    def changes(self, since: int, max_bytes: int = MOST_TOLD_BYTES) -> Changes:
        """The transactions after the change `since`, each whole: the first `max_bytes` of them, and one at least.

        `since` is the number of the last change of a transaction, or that of documents that were read (`status`,
        `export`). `Gone` is raised if the store doesn't know all that came after it. It knows the newest ones: those
        since it was opened, and in format 3 those since its last snapshot too. If there are no transactions, nothing is
        newer. Nothing is waited for: see `watch`.
        """
        return self._do(requests.changes(since, max_bytes))

    def status(self) -> Status:
        """The status of the store."""
        return self._do(requests.status())

    def snapshot(self) -> int:
        """Writes the store anew without its history, which makes room; returns how many bytes are used then."""
        return self._do(requests.snapshot())

    def grow(self, sectors: int) -> Status:
        """Lets a hub go on in a larger file, of this many sectors, without refusing a change; returns its status."""
        return self._do(requests.grow(sectors, self.hub))

    def pump(self, most: int) -> Pumped:
        """A step of a snapshot that is copied between changes, of 1 to 1,000,000 sectors at most."""
        return self._do(requests.pump(most))

    def texts(self, name: str) -> Tuple[bytes, bytes]:
        """The compact texts of a document and of its schema, as the store writes them."""
        return self._do(requests.texts(name))

    def export(self) -> ContextManager[Moment]:
        """All documents as they are at one moment, for a `with` block.

        The `Moment` has the number of its last change as `seq`, and yields each `Document`, with schema and revision.
        They are read one by one, while others go on changing a hub's store.
        """
        return moment_of(self)

    def watch(self, since: Optional[int] = None, *, history: Optional[str] = None, follow: bool = True,
              wait: Optional[float] = None) -> Watch:
        """The changes of a hub's store after number `since`, or from now on: an iterator that waits for the next one.

        It has a connection of its own, which is made again if it is lost. With `follow=False` it ends with the last
        change that is already made. If the hub doesn't know all changes after `since`, `Gone` is raised. See `Watch`.
        """
        return Watch(watched(self.hub), since, history=history, follow=follow, wait=wait)

    def follow(self, name: str, path: str = "") -> Following:
        """A document of a hub's store, or the value at a place of it, at once and again after changes of it.

        It yields a `Latest` with `value` and `rev`, or None if there is no such document or place; with a `path` also
        if the value there is the same. A `with` block ends it.
        Several changes may come as one: `watch` has each. It waits for the next change, and goes on after the hub was
        ended or killed and started anew, or serves another history of the store, whose revisions count anew.
        """
        hub = watched(self.hub)
        return Following(followed(lambda wait: Watch(hub, wait=wait), _Steps(self), name, path))

    #: Another name of `names`.
    list = names

    def _do(self, request: Request[T], answer: Any = None) -> T:
        changes = request.changes
        if answer is None and changes and len(request.commands) == 1:
            answer = self._session.change(request.commands[0])
        if type(answer) is int:
            # What each request with a change comes to.
            return cast(T, answer)
        # A change by itself would wait for others if the program gathers them.
        replies = ([answer] if type(answer) is bytes
                   else self._session.exchange(request.lines, self._gathers and changes, changes))
        try:
            return request.read(replies)
        except Invalid as refused:
            self._explainable(refused)
            refused.keep()
            raise

    def _explainable(self, outcome: Outcome) -> Outcome:
        """The outcome; by `read`, `why` of an `Invalid` reads the document and its schema."""
        if isinstance(outcome, Invalid) and outcome.document is not None:
            name = outcome.document
            outcome.read = lambda: self._do(requests.doc_and_schema(name))
        return outcome


class _Steps(calls.Steps):
    """The steps of a store, each of which is done when it returns."""

    _store: Store

    # That of the store, and `finished`.
    calls_between = 2

    async def ask(self, request: Request[T]) -> T:
        return self._store._do(request)

    async def change(self, lines: List[bytes]) -> List[bytes]:
        return self._store._session.exchange(lines, True, True)

    async def explain(self, refused: Invalid) -> None:
        self._store._explainable(refused)
        refused.keep()

    async def pause(self, seconds: float) -> None:
        time.sleep(seconds)

    async def close(self) -> None:
        self._store.close()
