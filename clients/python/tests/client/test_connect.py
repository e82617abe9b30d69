"""The client of a hub: it waits, it connects again, and it never sends a change twice."""
import asyncio
import contextlib
import os
import pathlib
import random
import signal
import threading
import time

import pytest
from jpstore import AccessError, AsyncStore, Conflict, Ended, JpstoreError, Store, TimedOut, create
from jpstore.edits import put
from serving import FakeHub, RealHub
from support import PATIENCE, SILENCE, raised

# How often hub or program is killed.
KILLS = int(os.environ.get("JPSTORE_KILLS", "6"))


def test_the_store_of_a_hub_that_was_started_anew_goes_on(place):
    place.format()
    with RealHub(place) as hub:
        store = Store.connect(pathlib.Path(hub.path), wait=30)
        assert (store.create("d", 1), store.pid) == (1, None)
    with RealHub(place) as hub:
        assert (store.get("d"), store.closed) == (1, False)
        hub.kill()
        with RealHub(place):
            # Nothing of the change was sent to the hub that was killed, so it may be sent now.
            assert store.create("e", 2) == 2
            assert store.names() == ["d", "e"]
            store.close()
            assert str(raised(JpstoreError, store.names)) == "the store is closed"


def test_a_question_whose_reply_was_lost_is_asked_once_more(place):
    answers = [None, {"ok": True, "names": ["a"]}, None, None]
    with FakeHub(place.path("fake"), *answers) as hub, Store.connect(hub.path) as store:
        assert store.names() == ["a"]
        assert hub.lines == [{"cmd": "list"}] * 2
        lost = raised(Ended, store.names)
        assert (lost.change, hub.lines) == (None, [{"cmd": "list"}] * 4)


def test_a_change_whose_reply_was_lost_is_never_sent_twice(place):
    with FakeHub(place.path("fake"), None) as hub, Store.connect(hub.path) as store:
        lost = raised(Ended, store.create, "d", 1)
        assert lost.change == {"cmd": "create", "doc": 1, "name": "d", "schema": True}
        assert lost.document == "d"
        assert str(lost) == f"the hub at {hub.path} closed the connection: `create d` may or may not be stored"
        assert hub.lines == [lost.change]
        # The store goes on.
        assert (store.create("e", 2), len(hub.lines)) == (2, 2)


def test_a_group_whose_replies_were_lost_tells_which_came(place):
    refusal = {"ok": False, "number": 20, "error": "exists"}
    with FakeHub(place.path("fake"), {"ok": True, "seq": 1}, refusal, None) as hub, Store.connect(hub.path) as store:
        lost = raised(Ended, store.group, [create("a", 1), create("b", 1), create("c", 1), create("d", 1)])
        assert (lost.replies[0], type(lost.replies[1]), lost.change["name"]) == (1, Conflict, "c")
        assert [line["name"] for line in hub.lines] == ["a", "b", "c"]


def test_an_update_whose_reply_was_lost_is_not_done_again(place):
    answers = [{"ok": True, "rev": 7}, {"ok": True, "value": {"n": 1}}, None]
    with FakeHub(place.path("fake"), *answers) as hub, Store.connect(hub.path) as store:
        lost = raised(Ended, store.update, "d", lambda value: [])
        assert (lost.change["if_rev"], [line["cmd"] for line in hub.lines]) == (7, ["rev", "get", "patch"])


class Counter(threading.Thread):
    """A client that counts its document up from 0, over all restarts of the hub, until it is told to stop."""

    def __init__(self, path, name):
        super().__init__(daemon=True)
        self.path, self.document = path, name
        self.count = self.lost = 0
        self.stopping, self.wrong = False, None

    def run(self):
        try:
            with Store.connect(self.path, wait=PATIENCE) as store:
                while not self.stopping:
                    self.step(store)
        except BaseException as error:
            self.wrong = error

    def step(self, store):
        try:
            store.patch(self.document, [{"op": "replace", "path": "", "value": self.count + 1}])
            self.count += 1
        except Ended as ended:
            if ended.change is not None:
                self.lost += 1
                stored = self.stored(store)
                assert stored in (self.count, self.count + 1)
                self.count = stored

    def stored(self, store):
        while True:
            # A hub may be killed twice while one question is asked.
            with contextlib.suppress(Ended):
                return store.get(self.document)


@pytest.mark.time_limit(20 * KILLS)
def test_counts_are_exact_while_hub_and_program_are_killed(place):
    place.format(64)
    hub = RealHub(place)
    counters = [Counter(hub.path, f"c{number}") for number in range(8)]
    with Store.connect(hub.path) as store:
        store.group([create(counter.document, 0) for counter in counters])
    for counter in counters:
        counter.start()
    for kill in range(KILLS):
        time.sleep(random.uniform(0.1, 0.5))
        if kill % 2:
            hub.kill()
        else:
            hub.kill_program()
        hub = RealHub(place)
    for counter in counters:
        counter.stopping = True
    for counter in counters:
        counter.join(PATIENCE)
        assert (counter.wrong, counter.is_alive()) == (None, False)
    with hub, Store.connect(hub.path) as store:
        assert [store.get(counter.document) for counter in counters] == [counter.count for counter in counters]
        # Each accepted change is counted by the store: none was made twice.
        assert store.status().seq == len(counters) + sum(counter.count for counter in counters)
    print(f"{KILLS} kills, {sum(counter.lost for counter in counters)} answers lost, none counted twice")


def test_a_place_is_set_for_the_document_that_was_read(place):
    with place.made() as store:
        store.create("d", {"list": []})
        asked = store.get

        def get_and_be_late(name, pointer):
            store.get = asked
            try:
                return asked(name, pointer)
            finally:
                # Another client fills the place after it was found empty.
                store.patch("d", [{"op": "add", "path": "/list/0", "value": "theirs"}])
        store.get = get_and_be_late
        put(store, "d", "/list/0", "mine")
        assert store.get("d") == {"list": ["mine"]}


def test_the_shell_goes_on_after_a_lost_answer(place):
    with FakeHub(place.path("fake"), None, {"ok": True, "names": ["d"]}):
        ended = place.run("fake", given=b"new d 1\nls\n", status=1)
        assert (ended.stdout, b"`create d` may or may not be stored" in ended.stderr) == (b"d\n", True)
    with FakeHub(place.path("fake"), None):
        place.run("new", "fake", "d", "1", status=11)


def test_without_reconnect_a_lost_connection_is_the_end(place):
    with FakeHub(place.path("fake"), None) as hub, Store.connect(hub.path, reconnect=False) as store:
        raised(Ended, store.names)
        assert store.closed
        assert str(raised(JpstoreError, store.names)) == "the store is closed"


def test_a_hub_that_hangs_is_given_up(place):
    place.format()
    with RealHub(place) as hub, Store.connect(hub.path, timeout=SILENCE) as store:
        store.create("d", 1)
        os.kill(hub.process.pid, signal.SIGSTOP)
        begin = time.monotonic()
        late = raised(TimedOut, store.get, "d")
        assert str(late) == f"the hub at {hub.path} did not answer within {SILENCE:g} seconds"
        late = raised(TimedOut, store.create, "e", 1)
        assert time.monotonic() - begin < 10
        os.kill(hub.process.pid, signal.SIGCONT)
        assert store.get("d") == 1


def test_a_hub_that_is_not_there_yet_may_be_waited_for(place):
    place.format()
    hubs = []
    late = threading.Timer(0.3, lambda: hubs.append(RealHub(place)))
    late.start()
    try:
        with Store.connect(place.path("socket"), wait=30) as store:
            assert store.names() == []
    finally:
        late.join()
        hubs[0].kill()


def test_what_is_not_the_socket_of_a_hub_is_named(place):
    missing = raised(AccessError, Store.connect, place.path("nowhere"))
    assert str(missing) == f"{place.path('nowhere')}: No such file or directory"
    assert isinstance(missing, JpstoreError)
    file = place.format(16)
    assert "not the socket" in str(raised(AccessError, Store.connect, file))
    assert os.path.getsize(file) == 16 * 512
    long = place.path("x" * 120)
    with pytest.raises(AccessError):
        Store.connect(long)
    with FakeHub(place.path("fake")) as hub:
        os.rename(hub.path, place.path("dead"))
        open(hub.path, "w").close()
    assert place.path("dead") in str(raised(AccessError, Store.connect, place.path("dead")))


def test_a_subclass_connects(place):
    class Named(Store):
        def __init__(self, file, *, title="none", **options):
            super().__init__(file, **options)
            self.title = title
    with FakeHub(place.path("fake")) as hub, Named.connect(hub.path) as store:
        assert (type(store), store.title) == (Named, "none")


class Closing(FakeHub):
    """It closes each connection at the first question, as often as it is told, and answers `rev` with 7 then."""

    def __init__(self, path, times):
        super().__init__(path)
        self.times = times

    def _answer(self, connection, command):
        if command != {"cmd": "status"} and self.times:
            self.times -= 1
            return False
        self._answers = [{"ok": True, "rev": 7}]
        return super()._answer(connection, command)


def test_a_question_is_asked_again_as_long_as_the_hub_is_waited_for(place):
    with Closing(place.path("fake"), 8) as hub, Store.connect(hub.path, wait=PATIENCE) as store:
        assert (store.rev("d"), hub.times) == (7, 0)
    with Closing(place.path("fake"), 10 ** 9) as hub, Store.connect(hub.path, wait=0.5) as store:
        begin = time.monotonic()
        raised(Ended, store.rev, "d")
        assert 0.5 <= time.monotonic() - begin < PATIENCE and 10 ** 9 - hub.times > 2
        raised(Ended, store.once, "k", [create("d", 1)])


def test_a_question_over_asyncio_is_asked_again_as_long_as_the_hub_is_waited_for(place):
    async def asked(path, wait):
        async with AsyncStore.connect(path, wait=wait) as store:
            return await asyncio.gather(store.rev("d"), store.rev("e"))
    with Closing(place.path("fake"), 8) as hub:
        assert (asyncio.run(asked(hub.path, PATIENCE)), hub.times) == ([7, 7], 0)
    with Closing(place.path("fake"), 10 ** 9) as hub:
        begin = time.monotonic()
        with pytest.raises(Ended):
            asyncio.run(asked(hub.path, 0.5))
        assert 0.5 <= time.monotonic() - begin < PATIENCE and 10 ** 9 - hub.times > 2


def test_the_command_line_waits_for_a_hub_that_has_not_started(place):
    place.format()
    hubs = []
    late = threading.Timer(0.5, lambda: hubs.append(RealHub(place)))
    late.start()
    try:
        place.shows("--wait", "30", "new", "socket", "d", "1", output="done, change 1\n")
        place.shows("get", "socket", "d", output="1\n")
    finally:
        late.join()
        hubs[0].kill()
    begin = time.monotonic()
    assert b"nowhere: No such file or directory" in place.run("ls", "nowhere", "--wait", "0.5", status=14).stderr
    assert time.monotonic() - begin > 0.5
