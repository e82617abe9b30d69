"""Each public call of a store, under way in a thread while another thread forks; the child then uses the store.

A call over a program or a hub is held up by stopping the process that answers. A call that waits for nobody, as each of
an embedded store, is made again and again meanwhile.
"""
import asyncio
import contextlib
import json
import os
import random
import select
import signal
import threading
import time

from jpstore import JpstoreError, Node, Store, create, format_file, patch, set_schema
from jpstore.wire.commands import line_of

# How long anything may take, in seconds.
PATIENCE = 20

ONE_MORE = [{"op": "replace", "path": "/n", "value": 1}]

# The document that a child reads, and that it replaces over a hub.
OF_CHILD, VALUE = "of-the-child", {"text": "the child's"}


def either(of_store, of_async_store):
    """A call that is made in one way of a `Store`, and in another of an `AsyncStore`."""
    return lambda store, name: (of_store if isinstance(store, Store) else of_async_store)(store, name)


def exported(store, _):
    """All documents of one moment."""
    with store.export() as moment:
        return {each.name: each.doc for each in moment}


async def exported_async(store, _):
    """The same of an `AsyncStore`."""
    async with store.export() as moment:
        return {each.name: each.doc async for each in moment}


def watched(store, _):
    """The numbers of all changes."""
    return [change.seq for change in store.watch(0, follow=False)]


async def watched_async(store, _):
    """The same of an `AsyncStore`."""
    return [change.seq async for change in store.watch(0, follow=False)]


def followed(store, name):
    """A document as it is followed at first, by a hub's store."""
    with contextlib.closing(store.follow(name)) as values:
        return next(values).value


async def followed_async(store, name):
    """The same of an `AsyncStore`."""
    async for latest in store.follow(name):
        return latest.value


def names_in(store):
    """What is in another store, which is closed then."""
    with store as other:
        return other.names()


async def names_in_async(store):
    """The same of an `AsyncStore`."""
    async with store as other:
        return await other.names()


def connected(store, _):
    """What a connection of its own finds."""
    return (names_in if isinstance(store, Store) else names_in_async)(store.connect(store.path))


# What is called with the store and the name of a document `{"n": 0}` under `true`, by the name of its method.
CHANGES = {
    "create": lambda store, name: store.create(name + "-new", 1),
    "patch": lambda store, name: store.patch(name, ONE_MORE),
    "merge_patch": lambda store, name: store.merge_patch(name, {"n": 1}),
    "update": lambda store, name: store.update(name, lambda _: ONE_MORE),
    "put": lambda store, name: store.put(name, {"n": 1}),
    "set_schema": lambda store, name: store.set_schema(name, {"type": "object"}),
    "delete": lambda store, name: store.delete(name),
    "transaction": lambda store, name: store.transaction([set_schema(name, {}), patch(name, ONE_MORE)]),
    "once": lambda store, name: store.once(f"key-{name}", [patch(name, ONE_MORE)]),
    "group": lambda store, name: store.group([patch(name, ONE_MORE)]),
    "group_lines": lambda store, name: store.group_lines([line_of(patch(name, ONE_MORE))]),
}
QUESTIONS = {
    "noted": (lambda store, name: store.noted(f"key-{name}"), lambda found, _: found is None),
    "mark": (lambda store, name: store.mark(f"key-{name}"), lambda found, _: found is None),
    "get": (lambda store, name: store.get(name), lambda found, _: found == {"n": 0}),
    "get a value": (lambda store, name: store.get(name, "/n"), lambda found, _: found == 0),
    "rev": (lambda store, name: store.rev(name), lambda found, _: type(found) is int),
    "schema": (lambda store, name: store.schema(name), lambda found, _: found is True),
    "query": (lambda store, name: store.query(name, "$.n"), lambda found, _: found == [Node("$['n']", 0)]),
    "query_all": (lambda store, name: store.query_all("$.n", name), lambda found, name: name in found),
    "names": (lambda store, name: store.names(), lambda found, name: name in found and OF_CHILD in found),
    "list": (lambda store, name: store.list(), lambda found, name: name in found and OF_CHILD in found),
    "changes": (lambda store, name: store.changes(0), lambda found, _: found.transactions[0].first == 1),
    "status": (lambda store, name: store.status(), lambda found, _: found.documents > 1),
    "snapshot": (lambda store, name: store.snapshot(), lambda found, _: type(found) is int),
    "grow": (lambda store, name: store.grow(8192), lambda found, _: found.sectors == 8192),
    "pump": (lambda store, name: store.pump(1), lambda found, _: found.written >= 0),
    "texts": (lambda store, name: store.texts(name), lambda found, _: found == (b'{"n":0}', b"true")),
    "export": (either(exported, exported_async), lambda found, name: found[name] == {"n": 0} and OF_CHILD in found),
    "watch": (either(watched, watched_async), lambda found, _: found == list(range(1, len(found) + 1)) != []),
    "follow": (either(followed, followed_async), lambda found, _: found == {"n": 0}),
    "connect": (connected, lambda found, name: name in found and OF_CHILD in found),
    "in_memory": (lambda store, _: names_in(store.in_memory(64)), lambda found, _: found == []),
    "close": (lambda store, _: store.close(), lambda found, _: found is None),
}
# These open another store of the same kind.
OPENINGS = ("__init__", "open")
CALLS = [*CHANGES, *QUESTIONS, *OPENINGS]


def calls_of(cls):
    """The calls that are tried of each public method of a class; a method for which there is none is one that fails."""
    methods = ["__init__", *(name for name in vars(cls) if name[0] != "_" and callable(getattr(cls, name)))]
    return [call for method in methods for call in [each for each in CALLS if each.split()[0] == method] or [method]]


class Sync:
    """Calls of a `Store`."""

    def __init__(self, store):
        self.store = store

    def call(self, made):
        """The result of a call."""
        return made(self.store)


class Async:
    """Calls of an `AsyncStore`, whose event loop has a thread of its own."""

    def __init__(self, store):
        self.store, self._loop = store, asyncio.new_event_loop()
        threading.Thread(target=self._loop.run_forever, daemon=True).start()
        self._process, self._of_child = os.getpid(), None

    def call(self, made):
        """The result of a call; a child, in which that thread is not, has another loop."""
        async def awaited():
            return await made(self.store)
        if os.getpid() != self._process:
            self._of_child = self._of_child or asyncio.new_event_loop()
            return self._of_child.run_until_complete(awaited())
        return asyncio.run_coroutine_threadsafe(awaited(), self._loop).result(2 * PATIENCE)


@contextlib.contextmanager
def only_here(patience=PATIENCE):
    """What a child of `os.fork` does.

    The child ends with that, whatever is raised: else it would go on with the tests, and fork too.
    """
    try:
        signal.signal(signal.SIGALRM, signal.SIG_DFL)
        signal.alarm(patience)
        yield
        os._exit(0)
    finally:
        os._exit(1)


class Child:
    """A child that uses its parent's store, tells what came of it, and then is there until it is ended."""

    def __init__(self, use):
        told, tell = os.pipe()
        self._number = os.fork()
        if self._number == 0:
            with only_here():
                os.write(tell, json.dumps(outcome_of(use)).encode())
                os.close(tell)
                signal.alarm(10 * PATIENCE)
                signal.pause()
        os.close(tell)
        self._told = told

    def outcome(self):
        """What came of it; an empty text if it hung."""
        taken = b""
        with open(self._told, "rb", buffering=0) as told:
            while select.select([told], [], [], 2 * PATIENCE)[0]:
                piece = told.read(1 << 16)
                if not piece:
                    break
                taken += piece
        return json.loads(taken or b'""')

    def end(self):
        """Ends it."""
        os.kill(self._number, signal.SIGKILL)
        os.waitpid(self._number, 0)


def outcome_of(use):
    """What a child's use of the store comes to."""
    try:
        return use()
    except JpstoreError as error:
        return f"JpstoreError: {error}"
    except BaseException as error:
        return f"{type(error).__name__}: {error}"


def use_in_child(client):
    """What the child does with the store: it reads, changes and reads again."""
    try:
        found = client.call(lambda store: store.get(OF_CHILD))
        again = client.call(lambda store: store.put(OF_CHILD, found))
        rev = client.call(lambda store: store.rev(OF_CHILD))
    except JpstoreError as error:
        with contextlib.suppress(JpstoreError):
            client.call(lambda store: store.close())
        return f"JpstoreError: {error}"
    return "right" if (found, again) == (VALUE, rev) else f"wrong: {found} {again} {rev}"


def states_of(number):
    """The states of a process's threads, a letter each."""
    states = []
    for task in os.listdir(f"/proc/{number}/task"):
        with open(f"/proc/{number}/task/{task}/stat", encoding="ascii", errors="replace") as opened:
            states.append(opened.read().rpartition(")")[2].split()[0])
    return states


@contextlib.contextmanager
def stopped(number):
    """A block in which a process does nothing: a thread of it may go on for a moment after the signal."""
    os.kill(number, signal.SIGSTOP)
    end = time.monotonic() + PATIENCE
    while any(state != "T" for state in states_of(number)) and time.monotonic() < end:
        time.sleep(0.001)
    try:
        yield
    finally:
        os.kill(number, signal.SIGCONT)


def client_of(store):
    """The client of a store, which is open then."""
    if isinstance(store, Store):
        return Sync(store)
    client = Async(store)
    client.call(lambda store: store.open())
    return client


class OverFile:
    """Stores with programs of their own."""

    #: Whether a child may use the store too, and the calls that wait for nobody.
    shared, at_once = False, ("connect", "follow", "grow", "in_memory", "watch")

    def __init__(self, cls, place, version):
        self._cls, self._place = cls, place
        for file in (place.file, place.path("another")):
            place.format(file=file, version=version)
        self._gate = place.path("gate")
        os.mkfifo(self._gate)
        self._slow = place.script("slow", f'read _ < {self._gate}; exec {place.program} "$@"')
        self.client = client_of(cls(place.file, program=place.program))

    def another(self, slow=False):
        """Another store, not open yet if it is an `AsyncStore`; a slow one waits for its gate."""
        return self._cls(self._place.path("another"), program=self._slow if slow else self._place.program)

    def held(self, kind, client):
        """A block in which a call of a client is not answered."""
        return self._gated() if kind in OPENINGS else stopped(client.store.pid)

    @contextlib.contextmanager
    def _gated(self):
        yield
        with open(self._gate, "wb"):
            pass


class OverHub:
    """Stores of a hub."""

    shared, at_once = True, ("close", "in_memory")

    def __init__(self, cls, hub):
        self._cls, self._hub = cls, hub
        self.client = client_of(cls.connect(hub.path))

    def another(self, slow=False):
        """As of `OverFile`."""
        return self._cls(self._hub.path, hub=True)

    def held(self, kind, client):
        """As of `OverFile`."""
        return stopped(self._hub.process.pid)


class InProcess:
    """Embedded stores, in files or in memory. No call of one waits for another process."""

    shared, at_once = False, CALLS

    def __init__(self, folder):
        self._files = [os.path.join(folder, name) for name in ("forks", "forks-another")] if folder else []
        for file in self._files:
            with contextlib.suppress(FileNotFoundError):
                os.remove(file)
            format_file(file, 4096)
        self.client = Sync(self._opened(0))

    def _opened(self, number):
        return Store(self._files[number], embedded=True) if self._files else Store.in_memory()

    def another(self, slow=False):
        """As of `OverFile`."""
        return self._opened(1)


def held_up(held, client, call, child_of):
    """The one result of a call during which the process forks, with the child; it is answered after that."""
    found = []
    thread = threading.Thread(target=lambda: found.append(outcome_in_thread(client, call)), daemon=True)
    with held:
        thread.start()
        # Until the call waits for an answer.
        time.sleep(0.05)
        assert thread.is_alive(), "the call is not held up"
        child = child_of()
        time.sleep(0.01)
    thread.join(2 * PATIENCE)
    assert found, "the call hangs"
    return found, child


def repeated(client, call, child_of):
    """The results of many calls, during one of which the process forks, with the child."""
    found, stop = [], threading.Event()

    def work():
        while not found or not stop.is_set():
            found.append(outcome_in_thread(client, call))
    thread = threading.Thread(target=work, daemon=True)
    thread.start()
    time.sleep(random.uniform(0, 0.01))
    child = child_of()
    stop.set()
    thread.join(2 * PATIENCE)
    assert found and not thread.is_alive(), "the call hangs"
    return found, child


def outcome_in_thread(client, call):
    """The result, or the error as a text."""
    try:
        return client.call(call)
    except Exception as error:
        return f"{type(error).__name__}: {error}"


def judge(client, kind, name, found):
    """The call did what it does, and nothing else."""
    if kind in OPENINGS:
        assert isinstance(found, list), f"{kind} returned {found!r}"
        return
    if kind in QUESTIONS:
        assert QUESTIONS[kind][1](found, name), f"{kind} returned {found!r}"
        return
    if kind == "once" and client.call(lambda store: store.status()).id is None:
        # In format 2 there are no marks.
        assert "this store has no marks" in found, f"{kind} returned {found!r}"
        return
    number = found[0] if isinstance(found, list) else found
    assert type(number) is int, f"{kind} returned {found!r}"
    if kind == "delete":
        assert name not in client.call(lambda store: store.names())
        return
    changed = name + "-new" if kind == "create" else name
    assert client.call(lambda store: store.rev(changed)) == number, f"{kind} returned {number}"
    wanted = {"create": 1, "set_schema": {"n": 0}}.get(kind, {"n": 1})
    assert client.call(lambda store: store.get(changed)) == wanted


def judge_repeated(client, kind, name, found):
    """Each of many calls that change nothing did what it does, or none can be made here."""
    errors = [each for each in found if isinstance(each, str)]
    if len(errors) == len(found) and kind in ("connect", "follow", "grow", "in_memory", "watch"):
        assert len(set(errors)) == 1 and errors[0].startswith(("JpstoreError: ", "AccessError: ")), errors
        return
    for each in found:
        judge(client, kind, name, each)


def judge_child(kind, shared, told):
    """A child used the store if it may, and was refused else."""
    refused = told.startswith("JpstoreError: ")
    # A store that one process closes may be closed in the other too.
    right = told == "right" or (kind == "close" and refused) if shared else refused
    assert right, f"while {kind} was under way, a child was told {told!r}"


def call_of(tried, kind, name):
    """A call, which is made with the store."""
    if kind in OPENINGS:
        return lambda store: (names_in if isinstance(store, Store) else names_in_async)(tried.another(slow=True))
    call = CHANGES[kind] if kind in CHANGES else QUESTIONS[kind][0]
    return lambda store: call(store, name)


def try_call(tried, kind, children):
    """Tries a call over stores of one kind; `children` ends the child, which is there until then."""
    name = "d-" + kind.replace(" ", "-")
    tried.client.call(lambda store: store.group([create(OF_CHILD, VALUE), create(name, {"n": 0})], check=False))
    client = client_of(tried.another()) if kind == "close" else tried.client
    call = call_of(tried, kind, name)

    def child_of():
        child = Child(lambda: use_in_child(client))
        children.callback(child.end)
        return child
    if kind in tried.at_once:
        found, child = repeated(client, call, child_of)
    else:
        found, child = held_up(tried.held(kind, client), client, call, child_of)
    judge_child(kind, tried.shared, child.outcome())
    if kind not in tried.at_once:
        judge(tried.client, kind, name, found[0])
    elif kind not in CHANGES:
        judge_repeated(tried.client, kind, name, found)


def close_beside(tried):
    """Closes the store while all children are there."""
    begin = time.monotonic()
    tried.client.call(lambda store: store.close())
    assert time.monotonic() - begin < PATIENCE
