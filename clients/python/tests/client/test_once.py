"""Exactly once: a call whose answer is lost is made again, and its changes are made one time."""
import asyncio
import contextlib
import hashlib
import multiprocessing
import os
import random
import socket
import threading
import time

import pytest
from hubs import Hub
from jpstore import (
    AccessError, AsyncStore, Conflict, Ended, Full, JpstoreError, Malformed, Mark, NotFound, Outdated, Overtaken,
    Store, TimedOut, Unsendable, create, delete, patch, transaction,
)
from serving import FakeHub, RealHub
from support import PACKAGE, PATIENCE, SILENCE, Place, raised

LOSING = os.path.join(PACKAGE, "tests", "losing.py")

# How often hub or program is killed.
KILLS = int(os.environ.get("JPSTORE_KILLS", "6"))

NO_MARK = {"ok": True, "mark": None}


def one_more(name):
    """A change that counts at each time it is made: a letter more in a list."""
    return patch(name, [{"op": "add", "path": "/-", "value": "x"}])


def made(place, sectors=4096, **how):
    place.format(sectors, version=3)
    store = place.store(**how)
    store.create("d", [])
    return store


def digits(text):
    return hashlib.sha256(text.encode()).hexdigest()[:40]


def marked(mark, seq):
    """How a line is refused whose key has this mark."""
    return {"error": "mark", "mark": mark, "number": 25, "ok": False, "seq": seq}


def test_a_key_makes_its_changes_one_time(place):
    with made(place) as store:
        first = store.once("a", [one_more("d"), create("e", 1)])
        assert (first, store.once("a", [one_more("d"), create("e", 1)]), store.status().seq) == (3, 3, 3)
        assert (store.once("b", [delete("e")]), store.once("d", [one_more("d")])) == (4, 5)
        # Each key has its own number, whatever was made after it.
        assert (store.once("b", [delete("e")]), store.noted("a"), store.noted("c")) == (4, 3, None)
        assert (store.get("d"), store.names(), store.status().seq) == (["x", "x"], ["d"], 5)
        store.snapshot()
    with place.store() as store:
        assert (store.once("d", [one_more("d")]), store.noted("a"), store.status().seq) == (5, 3, 5)


def test_a_key_of_other_changes_is_told(place):
    with made(place) as store:
        store.once("a", [one_more("d")])
        for changes in ([one_more("d")] * 2, [delete("d")]):
            told = raised(JpstoreError, store.once, "a", changes)
            assert str(told) == "the key 'a' was used for other changes, the last of which is number 2"
            assert (type(told.__cause__), told.__cause__.seq) == (Overtaken, 2)
        # The members of an object have no order.
        assert store.once("a", [dict(reversed(one_more("d").items()))]) == 2
        assert (store.get("d"), store.status().seq) == (["x"], 2)


def test_the_mark_is_as_the_page_says(place):
    with made(place) as store:
        store.once("\u00e4\"\\", [create("e", {"b": "\u00e4", "a": [1]}), delete("e")])
        text = ('[{"cmd":"create","doc":{"a":[1],"b":"\u00e4"},"name":"e","schema":true},{"cmd":"delete","name":"e"}]')
        assert store.mark("once-" + digits("\u00e4\"\\")) == Mark(digits(text), 3)


def test_the_newest_keys_of_all_are_known(place):
    with made(place, batch=64) as store:
        first = store.once("order-0", [one_more("d")])
        store.once("b", [one_more("d")], by="till")
        store.group([transaction([patch("d", [])], (f"k{number}", "")) for number in range(1022)])
        assert (store.once("order-0", [one_more("d")]), store.noted("b", by="till")) == (first, 3)
        store.once("order-1", [one_more("d")])
        assert (store.noted("order-0"), store.noted("b", by="till"), store.noted("order-1")) == (None, 3, 1026)
        # What is set again is new.
        store.once("c", [one_more("d")], by="till")
        store.group([transaction([patch("d", [])], (f"k{number}", "")) for number in range(1023)])
        assert (store.noted("order-1"), store.noted("c", by="till")) == (None, 1027)


def test_the_last_key_of_each_client_is_known(place):
    with made(place) as store:
        for number in range(20):
            for name in ("till-1", "till-2"):
                seq = store.once(f"key-{number}", [one_more("d")], by=name)
                # Whatever the changes are by now.
                assert store.once(f"key-{number}", [delete("d")], by=name) == seq == store.noted(f"key-{number}", name)
        assert (len(store.get("d")), store.mark("till-1"), store.mark("till-2")) == \
            (40, Mark("key-19", 40), Mark("key-19", 41))
        assert (store.noted("key-18", by="till-1"), store.noted("key-19"), store.noted("key-19", by="till-3")) == \
            (None, None, None)
        store.snapshot()
    with place.store() as store:
        assert store.once("key-19", [one_more("d")], by="till-1") == 40


def test_a_refusal_makes_nothing_and_sets_no_mark(place):
    with made(place) as store:
        for how in ({}, {"by": "till"}):
            refused = raised(Conflict, store.once, "a", [create("e", 1), create("d", 1)], **how)
            assert (refused.number, refused.change, refused.document, refused.before) == \
                (20, 1, "d", [create("e", 1)])
            assert raised(NotFound, store.once, "a", [delete("none")], **how).change == 0
            assert raised(Outdated, store.once, "b", [patch("d", [], 7)], **how).change == 0
            many = raised(Malformed, store.once, "b", [create(f"n{number}", 1) for number in range(1025)], **how)
            assert (many.number, "must be a list of 1 to 1,024 changes" in many.detail) == (14, True)
            assert (store.noted("a", **how), store.names(), store.status().seq) == (None, ["d"], 1)
        assert (store.once("a", [create("e", 1)]), store.once("a", [create("f", 1)], by="till")) == (2, 3)
    os.unlink(place.file)
    with made(place, 256) as store:
        full = raised(Full, store.once, "a", [create("e", "x" * 36000)])
        assert (full.change, str(full).startswith("transaction of 1 change: 60 full: ")) == (None, True)


def test_what_can_be_no_key_is_not_sent(place):
    with FakeHub(place.path("fake")) as hub, Store.connect(hub.path) as store:
        for key in ("", 5, None, b"a", "\ud800"):
            for call in (lambda: store.once(key, [delete("d")]), lambda: store.once(key, [delete("d")], by="till"),
                         lambda: store.noted(key)):
                raised(JpstoreError, call)
        raised(JpstoreError, store.once, "x" * 129, [delete("d")], by="till")
        raised(JpstoreError, store.once, "x", [delete("d")], by=5)
        for changes in ([], [{"cmd": "list"}], [5], [transaction([delete("d")])]):
            raised(JpstoreError, store.once, "a", changes)
        raised(Unsendable, store.once, "a", [create("e", 1.5)])
        raised(JpstoreError, store.once, "a", [delete("d")], attempts=0)
        raised(TypeError, store.once, "a", [delete("d")], notes="notes")
        assert hub.lines == []
    with made(place) as store:
        assert raised(Malformed, store.once, "a", [delete("d")], by="a b").number == 15
        assert store.once("\u00e4\"\\" * 66, [one_more("d")]) == store.once("\u00e4\"\\" * 66, [one_more("d")]) == 2
        assert store.once("\u00e4" * 64, [one_more("d")], by="x" * 64) == 3


def test_a_store_of_format_2_has_no_marks(place):
    with place.made() as store:
        store.create("d", [])
        for how in ({}, {"by": "till"}):
            told = str(raised(JpstoreError, store.once, "a", [one_more("d")], **how))
            assert "this store has no marks, and nothing was changed" in told
            assert "In format 2: `jpstore upgrade FILE` brings a store to format 3" in told
            assert (store.noted("a", **how), store.get("d")) == (None, [])
        refused = raised(Malformed, store.transaction, [one_more("d")], mark=("k", "v"))
        assert str(refused) == "transaction of 1 change: 14 command: this store has no marks"
        assert (refused.number, "`jpstore upgrade FILE`" in refused.advice) == (14, True)
        # Only if nothing else is wrong.
        refused = raised(Malformed, store.transaction, [one_more("d")], mark=("k", "x" * 129))
        assert "the value of at most 128 bytes" in refused.detail and "upgrade" not in refused.advice
        assert store.mark("k") is None


def test_a_mark_is_set_with_a_transaction(place):
    with made(place) as store:
        assert store.transaction([one_more("d"), create("e", 1)], mark=("k", "v")) == 3
        for asked in (None, "w"):
            refused = raised(Overtaken, store.transaction, [delete("d")], mark=("k", "w"), if_mark=asked)
            assert (refused.number, refused.mark, refused.seq, refused.change) == (25, "v", 3, None)
        assert '25 mark, mark "v" of change 3: the mark is another' in str(refused)
        assert store.transaction([one_more("d")], mark=("k", "\u00e4"), if_mark="v") == 4
        refused = raised(Overtaken, store.transaction, [delete("d")], mark=("none", "w"), if_mark="v")
        assert (refused.mark, refused.seq) == (None, None)
        assert (store.mark("k"), store.mark("none"), len(store.get("d"))) == (Mark("\u00e4", 4), None, 2)
        # As a line, alone and in a group.
        lines = [{**one_more("d"), "mark": {"key": "k", "value": "w"}}, transaction([delete("e")], ("l", ""), None)]
        assert store.group(lines) == [5, 6] and (store.mark("k"), store.mark("l")) == (Mark("w", 5), Mark("", 6))
        assert [outcome.mark for outcome in store.group(lines[1:], check=False)] == [""]
        for mark, how, number, detail in (
                (("a b", "v"), {}, 15, ""), (("k", "x" * 129), {}, 14, "`mark` of `transaction` is an object"),
                (("k", "v"), {"if_mark": 5}, 14, "`if_mark` of `transaction` is 5, and must be a text or null"),
                (None, {"if_mark": "v"}, 14, "`transaction` lacks `mark`, which `if_mark` needs beside it")):
            refused = raised(Malformed, store.transaction, [delete("d")], mark=mark, **how)
            assert (refused.number, refused.detail.startswith(detail)) == (number, True), refused
        raised(Malformed, store.mark, "a b")


@pytest.mark.parametrize("plan", ["b", "a"])
@pytest.mark.parametrize("how", [{}, {"by": "till"}], ids=["once", "by"])
def test_the_work_of_a_program_that_was_killed_is_found_by_the_next(place, plan, how, monkeypatch):
    made(place).close()
    monkeypatch.setenv("LOST_BY", place.program)
    monkeypatch.setenv("LOST", place.text("plan", "-" + plan))
    with Place(LOSING, place.folder).store() as store:
        assert store.once("a", [one_more("d")], **how) == 2
        lost = raised(Ended, store.once, "b", [one_more("d")], **how)
        assert lost.change["changes"] == [one_more("d")]
        raised(JpstoreError, store.once, "b", [one_more("d")], **how)
    with place.store(wait=PATIENCE) as store:
        assert len(store.get("d")) == 1 + "ba".index(plan)
        assert store.once("b", [one_more("d")], **how) == 3
        assert (store.get("d"), store.status().seq) == (["x", "x"], 3)


def test_an_answer_that_is_lost_on_the_way_to_a_client_of_a_hub_is_found(place, monkeypatch):
    made(place).close()
    monkeypatch.setenv("LOST_BY", place.program)
    monkeypatch.setenv("LOST", place.text("plan", "a"))
    with served_again_and_again(place, LOSING), Store.connect(place.path("socket"), wait=PATIENCE) as store:
        assert store.once("a", [one_more("d")]) == 2
        with open(place.path("plan"), "w", encoding="ascii") as plan:
            plan.write("bab")
        assert (store.once("b", [one_more("d")]), store.get("d"), store.status().seq) == (3, ["x", "x"], 3)
        with open(place.path("plan"), encoding="ascii") as plan:
            assert plan.read() == ""


@contextlib.contextmanager
def served_again_and_again(place, program):
    """A hub over this program, and another one each time that it has ended."""
    hubs, stopping = [], threading.Event()

    def serve():
        while not stopping.is_set():
            with Hub(place, program, options=("--wait", "30")) as hub:
                hubs.append(hub)
                hub.process.wait()
    serving = threading.Thread(target=serve, daemon=True)
    serving.start()
    yield
    stopping.set()
    while serving.is_alive():
        hubs[-1].kill()
        serving.join(0.1)


def test_what_is_sent_after_an_answer_was_lost(place):
    mark = {"key": "once-" + digits("a"), "value": digits('[{"cmd":"delete","name":"d"}]')}
    whole = {"changes": [delete("d")], "cmd": "transaction", "if_mark": None, "mark": mark}
    for found, number in ((marked(mark["value"], 8), 8), ({"ok": True, "seq": 9}, 9)):
        with FakeHub(place.path("fake"), None, found) as hub, Store.connect(hub.path) as store:
            assert store.once("a", [delete("d")]) == number
            # In one line, and the same again.
            assert hub.lines == [whole, whole]
    mine = {**whole, "if_mark": "y", "mark": {"key": "till", "value": "a"}}
    for found, number in ((marked("a", 8), 8), ({"ok": True, "seq": 9}, 9)):
        answers = [{"ok": True, "mark": "y", "seq": 5}, None, found]
        with FakeHub(place.path("fake"), *answers) as hub, Store.connect(hub.path) as store:
            assert store.once("a", [delete("d")], by="till") == number
            assert hub.lines == [{"cmd": "mark", "key": "till"}, mine, mine]
    with FakeHub(place.path("fake"), {"ok": True, "mark": "a", "seq": 5}) as hub, Store.connect(hub.path) as store:
        assert (store.once("a", [delete("d")], by="till"), len(hub.lines)) == (5, 1)


def test_a_client_that_is_overtaken_by_its_name_tries_again(place):
    answers = [NO_MARK, marked("x", 3), marked("y", 4), {"ok": True, "seq": 5}]
    with FakeHub(place.path("fake"), *answers) as hub, Store.connect(hub.path) as store:
        assert store.once("a", [delete("d")], by="till") == 5
        assert [line["if_mark"] for line in hub.lines[1:]] == [None, "x", "y"]
    with FakeHub(place.path("fake"), NO_MARK, *[marked("x", 3)] * 3) as hub, Store.connect(hub.path) as store:
        refused = raised(Overtaken, store.once, "a", [delete("d")], by="till", attempts=3)
        assert (refused.mark, refused.seq, len(hub.lines)) == ("x", 3, 4)
    # What may have been made before the other is not made again.
    with FakeHub(place.path("fake"), NO_MARK, None, marked("x", 3)) as hub, Store.connect(hub.path) as store:
        lost = raised(Ended, store.once, "a", [delete("d")], by="till")
        assert (lost.change["cmd"], isinstance(lost.__cause__, Overtaken), len(hub.lines)) == ("transaction", True, 3)


class Leaving(FakeHub):
    """It goes away when it gets a transaction."""

    def __exit__(self, *_):
        self._thread.join(PATIENCE)

    def _answer(self, connection, command):
        if command["cmd"] != "transaction":
            return super()._answer(connection, command)
        os.unlink(self.path)
        self._socket.shutdown(socket.SHUT_RDWR)
        self._socket.close()
        return False


def test_what_may_be_stored_is_told_if_the_hub_does_not_come_back(place):
    with Leaving(place.path("fake")) as hub, Store.connect(hub.path, wait=0.2) as store:
        lost = raised(Ended, store.once, "a", [delete("d")])
        assert (lost.change["cmd"], isinstance(lost.__cause__, AccessError)) == ("transaction", True)
        raised(AccessError, store.once, "a", [delete("d")])


def test_a_hub_that_hangs_is_left_alone(place):
    class Silent(FakeHub):
        def _answer(self, connection, command):
            return command["cmd"] == "transaction" or super()._answer(connection, command)
    with Silent(place.path("fake")) as hub, Store.connect(hub.path, timeout=SILENCE) as store:
        assert raised(TimedOut, store.once, "a", [delete("d")]).change["cmd"] == "transaction"


def test_of_clients_with_one_key_each_gets_the_same_number(place):
    place.format(version=3)
    with Hub(place) as hub, hub.connect() as store:
        store.create("d", [])
        numbers, wrong = {}, []

        def work(worker):
            with hub.connect() as mine:
                for number in range(10):
                    # Two workers have each key.
                    key = f"{worker // 2}-{number}"
                    seq = mine.once(key, [one_more("d")])
                    if numbers.setdefault(key, seq) != seq:
                        wrong.append(key)
        threads = [threading.Thread(target=work, args=(worker,), daemon=True) for worker in range(6)]
        for thread in threads:
            thread.start()
        for thread in threads:
            thread.join()
        assert (wrong, len(numbers), len(store.get("d"))) == ([], 30, 30)
        assert sorted(numbers.values()) == list(range(2, 32))


def make_all(path, queue):
    with Store.connect(path, wait=PATIENCE) as store:
        queue.put([store.once(f"key-{number}", [one_more("d")]) for number in range(50)])


def test_two_processes_with_the_same_keys_make_each_one_time(place):
    place.format(version=3)
    context = multiprocessing.get_context("spawn")
    queue = context.Queue()
    with Hub(place) as hub, hub.connect() as store:
        store.create("d", [])
        processes = [context.Process(target=make_all, args=(hub.path, queue), daemon=True) for _ in range(2)]
        for process in processes:
            process.start()
        numbers = [queue.get(timeout=PATIENCE) for _ in processes]
        for process in processes:
            process.join()
        assert numbers == [list(range(2, 52))] * 2 and len(store.get("d")) == 50


def test_what_a_watcher_is_told_has_no_marks(place):
    place.format(version=3)
    with Hub(place) as hub, hub.connect() as store:
        with store.watch(0) as changes:
            store.create("d", [])
            store.once("a", [one_more("d"), one_more("d")])
            store.group([{**one_more("d"), "mark": {"key": "k", "value": "v"}, "if_mark": None}])
            told = [next(changes) for _ in range(4)]
        assert [change.command for change in told[1:]] == [one_more("d")] * 3
        assert [(change.first, change.last) for change in told] == [(None, None), (2, 3), (2, 3), (None, None)]
    # The next hub finds them in the file.
    with place.store(wait=PATIENCE) as store:
        assert store.once("a", [one_more("d"), one_more("d")]) == 3
    with Hub(place) as hub, hub.connect() as store, store.watch(0, follow=False) as changes:
        assert [change.command for change in changes] == [change.command for change in told]
        store.snapshot()
        store.once("b", [one_more("d")])
    # The snapshot has marks too, which are no changes since.
    with Hub(place) as hub, hub.connect() as store, store.watch(4, follow=False) as changes:
        assert [(change.seq, change.command) for change in changes] == [(5, one_more("d"))]
        assert store.noted("b") == 5


class Counter(threading.Thread):
    """A client that counts two documents up, one of its own and one of all clients, over all restarts of the hub."""

    def __init__(self, path, index):
        super().__init__(daemon=True)
        self.path, self.index = path, index
        self.count, self.stopping, self.wrong = 0, False, None

    def run(self):
        try:
            with Store.connect(self.path, wait=PATIENCE) as store:
                while not self.stopping:
                    self.count += 1
                    # Half of them by a name of their own.
                    store.once(f"{self.index}-{self.count}", [one_more(f"c{self.index}"), one_more("all")],
                               by=f"c{self.index}" if self.index % 2 else None)
        except BaseException as error:
            self.wrong = error


@pytest.mark.time_limit(20 * KILLS)
def test_counts_are_exact_while_hub_and_program_are_killed(place):
    place.format(version=3)
    with place.store() as store:
        store.transaction([create("all", []), *[create(f"c{number}", []) for number in range(4)]])
    hub = RealHub(place)
    counters = [Counter(hub.path, number) for number in range(4)]
    for counter in counters:
        counter.start()
    for kill in range(KILLS):
        time.sleep(random.uniform(0.1, 0.5))
        if kill % 2:
            hub.kill()
        else:
            hub.kill_program()
        hub = RealHub(place)
    for counter in counters:
        counter.stopping = True
    for counter in counters:
        counter.join(PATIENCE)
    with hub, Store.connect(hub.path) as store:
        assert [counter.wrong for counter in counters] == [None] * 4
        counts = [counter.count for counter in counters]
        assert [len(store.get(f"c{number}")) for number in range(4)] == counts
        assert (len(store.get("all")), min(counts) > 0) == (sum(counts), True)


def test_exactly_once_over_asyncio(place):
    async def run(store, key):
        async with store:
            first = await store.once(key, [one_more("d")])
            both = await asyncio.gather(store.once(key + "b", [one_more("d")]), store.once(key + "b", [one_more("d")]))
            assert (await store.once(key, [one_more("d")]), both[0], await store.noted(key)) == (first, both[1], first)
            assert await store.once("a", [one_more("d")], by=key) == await store.noted("a", by=key)
            assert (await store.mark(key)).value == "a" and await store.mark("none") is None
            with pytest.raises(NotFound) as caught:
                await store.once("c", [one_more("d"), delete("none")])
            assert caught.value.change == 1
            with pytest.raises(JpstoreError):
                await store.once("c", [one_more("d")], attempts=0)
            with pytest.raises(Overtaken) as caught:
                await store.transaction([one_more("d")], mark=(key, "b"), if_mark=None)
            assert caught.value.mark == "a"
            return len(await store.get("d"))
    made(place).close()
    assert asyncio.run(run(AsyncStore(place.file, program=place.program), "p")) == 3
    with Hub(place) as hub:
        assert asyncio.run(run(AsyncStore.connect(hub.path), "h")) == 6


def test_a_lost_answer_over_asyncio(place):
    async def run(path):
        async with AsyncStore.connect(path) as store:
            return await store.once("a", [delete("d")])
    with FakeHub(place.path("fake"), None, marked(digits('[{"cmd":"delete","name":"d"}]'), 8)) as hub:
        assert asyncio.run(run(hub.path)) == 8
    assert hub.lines[0] == hub.lines[1]


def test_a_dump_has_no_marks(place):
    with made(place) as store:
        store.once("a", [one_more("d")])
    dumped = place.run("dump", "store").stdout
    place.format(file=place.path("other"), version=3)
    place.run("load", "other", given=dumped)
    with Store(place.path("other"), program=place.program) as store:
        assert (store.get("d"), store.noted("a")) == (["x"], None)
