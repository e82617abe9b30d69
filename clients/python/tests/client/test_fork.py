"""Stores on both sides of a fork: each process gets its own answers, and what one opened is left alone by the other."""
import asyncio
import contextlib
import gc
import multiprocessing
import os
import pickle
import signal
import socket
import subprocess
import sys
import threading
import time

import pytest
from forking import only_here
from hubs import Hub
from jpstore import AsyncStore, Ended, JpstoreError, Refused, Store, create, patch
from support import PATIENCE, raised

ELSEWHERE = "this store was opened in another process: open it in each, or serve it by a hub"


def forked(work):
    """Calls a function in a child, and returns a function that waits for what it returned."""
    reading, writing = os.pipe()
    child = os.fork()
    if child == 0:
        with only_here():
            try:
                told = work()
            except BaseException as error:
                told = f"{type(error).__name__}: {error}"
            with os.fdopen(writing, "wb") as pipe:
                pickle.dump(told, pipe)
    os.close(writing)

    def result():
        with os.fdopen(reading, "rb") as pipe:
            told = pipe.read()
        os.waitpid(child, 0)
        assert told, "the child was killed"
        return pickle.loads(told)
    return result


def value(number):
    return [{"op": "replace", "path": "", "value": number}]


def wrong_answers(store, name, times=200):
    """How often another document than one's own is answered, or a change that must be refused is accepted."""
    wrong = 0
    for number in range(times):
        wrong += store.get(name) != name
        with contextlib.suppress(Refused):
            wrong += store.patch("strict", value(1)) > 0
        wrong += store.create(f"{name}-{number}", number) == 0
    return wrong


def test_each_process_gets_its_own_answers_from_a_hub(place):
    place.format()
    with Hub(place) as hub, hub.connect() as store:
        store.group([create("parent", "parent"), create("child", "child"), create("strict", 0, {"maximum": 0})])
        answers = forked(lambda: wrong_answers(store, "child"))
        assert wrong_answers(store, "parent") == 0
        assert answers() == 0
        assert store.status().seq == 403


def test_a_store_over_a_file_is_refused_in_a_child(place):
    with place.made() as store:
        store.create("strict", 0, {"maximum": 0})

        def calls():
            told = [str(raised(JpstoreError, call)) for call in (
                store.names, lambda: store.patch("strict", value(1)), lambda: store.group([create("d", 1)]),
                lambda: store.once("key", [create("d", 1)]), lambda: store.transaction([create("d", 1)]),
                lambda: store.export().__enter__(), lambda: list(store.export().__enter__()))]
            store.close()
            return told, store.pid, store.closed
        answers = forked(calls)
        for number in range(200):
            assert raised(Refused, store.patch, "strict", value(1)).number == 45
        told, pid, closed = answers()
        assert (set(told), pid, closed) == ({ELSEWHERE}, None, True)
        assert store.create("d", 1) == 2


def asleep():
    """A child that sleeps, made by `os.fork`."""
    child = os.fork()
    if child == 0:
        with only_here():
            time.sleep(PATIENCE)
    return child


def asleep_by_multiprocessing():
    child = multiprocessing.get_context("fork").Process(target=time.sleep, args=(PATIENCE,))
    child.start()
    return child.pid


@pytest.mark.parametrize("start", [asleep, asleep_by_multiprocessing])
def test_a_child_keeps_no_store_from_being_closed(place, start):
    store = place.made()
    program, child = store.pid, start()
    begin = time.monotonic()
    store.close()
    assert not os.path.exists(f"/proc/{program}")
    # The file is free, though the child lives.
    place.store().close()
    assert time.monotonic() - begin < PATIENCE / 4
    os.kill(child, signal.SIGKILL)
    os.waitpid(child, 0)


def pipes_and_sockets():
    found = set()
    for number in os.listdir("/proc/self/fd"):
        with contextlib.suppress(OSError):
            found.add(os.readlink(f"/proc/self/fd/{number}"))
    return {name for name in found if name.startswith(("pipe:", "socket:"))}


def test_a_child_has_no_descriptor_of_its_parent(place):
    place.format()
    place.format(file=place.path("other"))
    before = pipes_and_sockets()
    with Hub(place) as hub, Store(place.path("other"), program=place.program), hub.connect() as connected:
        between = pipes_and_sockets()
        streams = hub.process.stdout, hub.process.stderr
        of_hub = {os.readlink(f"/proc/self/fd/{stream.fileno()}") for stream in streams}
        with connected.watch(), connected.export():
            assert len(pipes_and_sockets()) == len(between) + 2 > len(before) + 4
            left = forked(pipes_and_sockets)() - before - of_hub
        # The pipe to the test is the only one that is new.
        assert len(left) == 1


def used_by_threads(store, stop):
    """Threads that call all the time, so that a fork comes in the midst of a call."""
    def work(number):
        while not stop.is_set():
            store.patch("d", value(number))
            store.get("d")
    threads = [threading.Thread(target=work, args=(number,), daemon=True) for number in range(4)]
    for thread in threads:
        thread.start()
    return threads


@pytest.mark.parametrize("of_hub", [True, False])
def test_a_fork_in_the_midst_of_a_call_neither_hangs_nor_answers_wrongly(place, of_hub):
    place.format(65536)
    stop = threading.Event()
    with contextlib.ExitStack() as stack:
        store = stack.enter_context(stack.enter_context(Hub(place)).connect() if of_hub else place.store())
        store.group([create("d", 0), create("mine", "mine")])
        threads = used_by_threads(store, stop)

        def ask():
            return [store.get("mine"), store.create(f"c{os.getpid()}", 1) > 0]
        for _ in range(20):
            time.sleep(0.02)
            assert forked(ask)() == (["mine", True] if of_hub else "JpstoreError: " + ELSEWHERE)
        stop.set()
        for thread in threads:
            thread.join(PATIENCE)
            assert not thread.is_alive()
        assert store.status().documents == (22 if of_hub else 2)


def test_a_watch_and_an_export_in_a_child(place):
    place.format()
    with Hub(place) as hub, hub.connect() as store:
        store.create("d", "x" * 900000)
        with store.watch(0) as changes, store.export() as moment:
            assert next(changes).seq == 1

            def child():
                exported = str(raised(JpstoreError, list, moment))
                seen = [next(changes).seq for _ in range(50)]
                with store.export() as another:
                    return exported, seen, another.count
            answers = forked(child)
            for number in range(50):
                store.patch("d", value(number))
            assert [next(changes).seq for _ in range(50)] == list(range(2, 52))
            assert answers() == ("this was begun in another process: begin it anew here", list(range(2, 52)), 1)
            assert [document.doc for document in moment] == ["x" * 900000]


def test_work_is_done_once_in_both_processes(place):
    place.format(version=3)
    with Hub(place) as hub, hub.connect() as store:
        store.create("d", 0)

        def work():
            return [store.once(f"key-{number}", [patch("d", [{"op": "test", "path": "", "value": number}, *value(
                number + 1)])]) for number in range(20)]

        def tried():
            numbers = []
            for number in range(20):
                with contextlib.suppress(Refused):
                    numbers.append(store.once(f"key-{number}", [patch("d", [
                        {"op": "test", "path": "", "value": number}, *value(number + 1)])]))
            return numbers
        answers = forked(tried)
        assert len(tried()) == 20 == len(answers()) and len(work()) == 20
        assert store.get("d") == 20


def in_a_process(path, name):
    """What a worker does that was not forked: it opens the store itself."""
    with Store.connect(path) as store:
        sys.exit(wrong_answers(store, name, 50))


def test_a_worker_of_a_forkserver_opens_its_own(place):
    place.format()
    with Hub(place) as hub, hub.connect() as store:
        names = [f"w{number}" for number in range(3)]
        store.group([create("strict", 0, {"maximum": 0}), *(create(name, name) for name in names)])
        workers = [multiprocessing.get_context("forkserver").Process(target=in_a_process, args=(hub.path, name))
                   for name in names]
        for worker in workers:
            worker.start()
        for worker in workers:
            worker.join()
            assert worker.exitcode == 0


class Preforked:
    """A server whose workers are forked after the store was opened; each answers a name with the document."""

    def __init__(self, store, workers):
        self._socket = socket.create_server(("127.0.0.1", 0))
        self.address = self._socket.getsockname()
        self._workers = []
        for _ in range(workers):
            pid = os.fork()
            if pid == 0:
                with only_here():
                    while True:
                        self._answer(store)
            self._workers.append(pid)

    def _answer(self, store):
        client, _ = self._socket.accept()
        with client, client.makefile("rwb") as lines:
            name = lines.readline().decode().strip()
            try:
                store.patch("count", [{"op": "add", "path": f"/{name}", "value": 1}])
                lines.write(store.get(name).encode())
            except BaseException as error:
                lines.write(repr(error).encode())

    def ask(self, name):
        with socket.create_connection(self.address) as client:
            client.sendall(name.encode() + b"\n")
            return b"".join(iter(lambda: client.recv(1 << 16), b"")).decode()

    def close(self):
        self._socket.close()
        for pid in self._workers:
            os.kill(pid, signal.SIGKILL)
            os.waitpid(pid, 0)


def test_a_server_forks_its_workers(place):
    place.format()
    with Hub(place) as hub, hub.connect() as store:
        names = [f"n{number}" for number in range(40)]
        store.group([create("count", {}), *(create(name, name) for name in names)])
        with contextlib.closing(Preforked(store, 4)) as server:
            answers = {}

            def ask(some):
                answers.update((name, server.ask(name)) for name in some)
            threads = [threading.Thread(target=ask, args=(names[number::8],)) for number in range(8)]
            for thread in threads:
                thread.start()
            for thread in threads:
                thread.join()
        assert answers == {name: name for name in names}
        assert store.get("count") == dict.fromkeys(names, 1)


def test_what_is_dropped_in_a_child_is_still_the_parents(place):
    opened = [place.made()]
    answers = forked(lambda: (opened.clear(), gc.collect(), "dropped")[2])
    assert answers() == "dropped"
    with opened.pop() as store:
        assert store.create("d", 1) == 1


SCRIPT = """
import os, sys, warnings
from jpstore import Store
warnings.simplefilter("error")
with Store(sys.argv[1], program=sys.argv[2]) as store:
    child = os.fork()
    if child == 0:
        sys.exit(3)
    assert os.waitstatus_to_exitcode(os.waitpid(child, 0)[1]) == 3
    assert store.create("d", 1) == 1
"""


@pytest.mark.skipif(sys.version_info < (3, 9), reason="waitstatus_to_exitcode")
def test_a_child_that_leaves_the_block_ends_nothing(place):
    ended = subprocess.run([sys.executable, "-c", SCRIPT, place.format(), place.program], stderr=subprocess.PIPE,
                           env=place.environment(), timeout=PATIENCE, check=False)
    assert (ended.returncode, ended.stderr) == (0, b"")


def test_a_signal_that_forks_in_the_midst_of_a_call(place):
    with place.made() as store:
        store.create("d", "x" * 100000)
        children, under_way = [], []

        def fork(*_):
            # On a busy machine signals come faster than forks are done; and one may wait in the child.
            if under_way or len(children) == 10:
                return
            under_way.append(True)
            children.append(forked(lambda: str(raised(JpstoreError, store.names))))
            under_way.clear()
        before = signal.signal(signal.SIGUSR1, fork)
        try:
            stop = threading.Event()

            def kill():
                while not stop.wait(0.02):
                    os.kill(os.getpid(), signal.SIGUSR1)
            killer = threading.Thread(target=kill)
            killer.start()
            while len(children) < 10:
                assert store.get("d") == "x" * 100000
            stop.set()
            killer.join()
        finally:
            signal.signal(signal.SIGUSR1, before)
        assert {child() for child in children} == {ELSEWHERE}


def test_an_asyncio_store_on_both_sides(place):
    async def ask(store, name):
        return [await store.get(name) for _ in range(200)]

    async def run(path):
        async with AsyncStore.connect(path) as store:
            await store.group([create("parent", 1), create("child", 2)])
            await store.get("parent")
            answers = forked(lambda: asyncio.run(ask(store, "child")))
            assert await ask(store, "parent") == [1] * 200
            assert await asyncio.get_running_loop().run_in_executor(None, answers) == [2] * 200
            assert await ask(store, "parent") == [1] * 200

    async def run_file():
        async with AsyncStore(place.path("other"), program=place.program) as store:
            asking = asyncio.ensure_future(ask(store, "d"))
            await store.create("d", 1)
            answers = forked(lambda: asyncio.run(ask(store, "d")))
            assert await asking == await ask(store, "d") == [1] * 200
            assert answers() == "JpstoreError: " + ELSEWHERE
            child, begin = asleep(), time.monotonic()
            await store.close()
            assert time.monotonic() - begin < PATIENCE / 4
            os.kill(child, signal.SIGKILL)
            os.waitpid(child, 0)
    place.format()
    place.format(file=place.path("other"))
    with Hub(place) as hub:
        asyncio.run(run(hub.path))
    asyncio.run(run_file())


def test_a_connection_that_is_not_made_anew_is_made_once_in_a_child(place):
    place.format()
    with Hub(place) as hub, hub.connect(reconnect=False) as store:
        store.create("d", 1)

        def child():
            first = store.get("d")
            os.kill(hub.process.pid, signal.SIGKILL)
            return first, type(raised(Ended, store.names)), str(raised(JpstoreError, store.names))
        assert forked(child)() == (1, Ended, "the store is closed")
