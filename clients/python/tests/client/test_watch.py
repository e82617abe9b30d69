"""Watching a hub's store: each accepted change once and in order, on the wire and by the iterators."""
import asyncio
import json
import os
import re
import signal
import socket
import threading

import pytest
from hubs import Hub
from jpstore import AsyncStore, JpstoreError, Store, delete
from jpstore.aio.watch import AsyncWatch
from jpstore.errors import AccessError, Malformed
from jpstore.watch import Change, Gone, Progress, Watch
from support import PATIENCE, raised, until

CREATE = b'{"schema":true, "cmd":"create","name":"%b", "doc":{"b":1,"a":"\\u00e4\\/"}}\n'


def watch_line(since):
    return b'{"cmd":"watch","from":%d}\n' % since


def count(store, number):
    """So many more changes of one document."""
    for _ in range(number):
        store.update("d", lambda value: [{"op": "replace", "path": "/n", "value": value["n"] + 1}])


def counts_of(changes):
    """The counts that the changes of the document put there."""
    return [change.command["ops"][0]["value"] for change in changes]


def test_the_lines_are_those_of_the_protocol(place):
    place.format()
    with Hub(place) as hub, hub.connected() as watcher, watcher.makefile("rb") as told:
        watcher.sendall(watch_line(0))
        begin = json.loads(told.readline())
        assert (begin.pop("history") != "", begin) == (True, {"from": 0, "ok": True, "seq": 0})
        assert hub.raw(CREATE % b"d" + CREATE % b"d" + b'{"cmd":"delete","name":"d"}\n').count(b'{"ok":true') == 2
        # The text is the compact one, and the refused change is not told.
        line = told.readline().decode()
        name = json.loads(line)["history"]
        assert line == ('{"change":{"cmd":"create","doc":{"a":"\u00e4/","b":1},"name":"d","schema":true},'
                        f'"history":"{name}","seq":1}}\n')
        line = told.readline().decode()
        last = json.loads(line)["history"]
        assert line == f'{{"change":{{"cmd":"delete","name":"d"}},"history":"{last}","seq":2}}\n'
        # Each change has a name of its own; it is that of the history up to it, also to one who begins there.
        assert name != last and all(re.fullmatch("[0-9A-Za-z.]{1,64}", each) for each in (name, last))
        again = hub.lines(watch_line(1), 2)
        assert again[0] == {"from": 1, "history": name, "ok": True, "seq": 2}
        assert again[1] == {"change": {"cmd": "delete", "name": "d"}, "history": last, "seq": 2}


def test_a_watch_without_a_number_begins_with_the_next_change(place):
    place.format()
    with Hub(place) as hub, hub.connect() as store, hub.connected() as watcher, watcher.makefile("rb") as told:
        store.create("d", 1)
        watcher.sendall(b'{"cmd":"watch"}\n')
        assert json.loads(told.readline())["from"] == 1
        store.delete("d")
        assert json.loads(told.readline())["seq"] == 2


def test_it_comes_after_the_lines_before_it(place):
    place.format()
    with Hub(place) as hub:
        replies = hub.lines(CREATE % b"a" + b'{"cmd":"list"}\n' + CREATE % b"b" + watch_line(1), 5)
        assert replies[:3] == [{"ok": True, "seq": 1}, {"names": ["a"], "ok": True}, {"ok": True, "seq": 2}]
        assert (replies[3]["seq"], replies[4]["seq"]) == (2, 2)


@pytest.mark.parametrize("line", [
    b'{"cmd":"watch","from":-1}', b'{"cmd":"watch","from":1.0}', b'{"cmd":"watch","from":true}',
    b'{"cmd":"watch","from":"1"}', b'{"cmd":"watch","form":1}',
    b'{"cmd":"watch","history":"h"}', b'{"cmd":"export","from":1}'])
def test_what_is_no_such_line_is_refused_by_the_program(place, line):
    place.format()
    with Hub(place) as hub:
        assert json.loads(hub.raw(line))["number"] in (12, 14)


def test_a_further_line_of_a_watcher_is_refused_and_ends_it(place):
    place.format()
    with Hub(place) as hub:
        begin, refusal, rest = hub.raw(watch_line(0) + CREATE % b"d").split(b"\n")
        assert (json.loads(begin)["ok"], rest) == (True, b"")
        assert json.loads(refusal) == {"error": "watching", "number": 81, "ok": False}
        with hub.connect() as store:
            assert store.names() == []


def test_a_watcher_may_say_that_it_sends_nothing_more(place):
    place.format()
    with Hub(place) as hub, hub.connect() as store:
        sockets = f"/proc/{hub.process.pid}/fd"
        before = len(os.listdir(sockets))
        with hub.connected() as watcher, watcher.makefile("rb") as told:
            watcher.sendall(watch_line(0))
            watcher.shutdown(socket.SHUT_WR)
            told.readline()
            store.create("d", 1)
            assert json.loads(told.readline())["seq"] == 1
            assert len(os.listdir(sockets)) > before
        # A watcher that has gone is let go, without a change that is told to it.
        until(lambda: len(os.listdir(sockets)) <= before, "the end of a watcher that has gone")


def test_an_iterator_tells_each_change_once(place):
    place.format()
    with Hub(place) as hub, hub.connect() as store:
        store.create("d", {"n": 0})
        with Watch(hub.path, 0) as one, Watch(hub.path, 1) as other, Watch(hub.path) as later:
            count(store, 50)
            assert next(one) == Change(1, {"cmd": "create", "doc": {"n": 0}, "name": "d", "schema": True})
            for watch in (one, other, later):
                changes = [next(watch) for _ in range(50)]
                assert [change.seq for change in changes] == list(range(2, 52))
                assert counts_of(changes) == list(range(1, 51))
                assert watch.since == 51
        past = list(Watch(hub.path, 40, follow=False))
        assert [change.seq for change in past] == list(range(41, 52))
        assert list(Watch(hub.path, 51, follow=False)) == []


def test_a_store_is_watched(place):
    async def watched(path):
        async with AsyncStore.connect(path) as store:
            async with store.watch(0, follow=False) as changes:
                return [change.seq async for change in changes]

    with place.made() as store:
        assert "only the store of a hub" in str(raised(JpstoreError, store.watch))
    with Hub(place) as hub, hub.connect() as store:
        with store.watch() as later, store.watch(0) as changes:
            store.create("d", 1)
            assert next(later) == next(changes) == Change(1, {"cmd": "create", "doc": 1, "name": "d", "schema": True})
        assert [change.seq for change in store.watch(0, follow=False)] == [1]
        assert asyncio.run(watched(hub.path)) == [1]


def test_an_iterator_is_closed_by_another_thread(place):
    place.format()
    with Hub(place) as hub:
        watch = Watch(hub.path)
        threading.Timer(0.2, watch.close).start()
        assert list(watch) == []


def test_an_iterator_for_asyncio(place):
    async def watched(path):
        async with AsyncWatch(path, 0) as watch:
            return [await watch.__anext__() for _ in range(11)], watch.since

    async def past(path):
        return [change async for change in AsyncWatch(path, 5, follow=False)]

    place.format()
    with Hub(place) as hub, hub.connect() as store:
        store.create("d", {"n": 0})
        count(store, 10)
        changes, since = asyncio.run(watched(hub.path))
        assert (counts_of(changes[1:]), since) == (list(range(1, 11)), 11)
        assert [change.seq for change in asyncio.run(past(hub.path))] == list(range(6, 12))


@pytest.mark.parametrize("how", [signal.SIGTERM, signal.SIGKILL, None])
def test_an_iterator_goes_on_after_the_end_of_a_hub(place, how):
    async def watched(path, wanted):
        return [change async for _, change in asyncio_zip(range(wanted), AsyncWatch(path, 0))]

    place.format(version=3)
    changes, others = [], []
    path = place.path("socket")
    reading = threading.Thread(target=lambda: others.extend(asyncio.run(watched(path, 61))), daemon=True)
    for life in range(3):
        with Hub(place, options=("--wait", "10")) as hub, hub.connect() as store:
            if life == 0:
                store.create("d", {"n": 0})
                watch = Watch(hub.path, 0)
                reading.start()
            count(store, 20)
            while watch.since < 20 * life + 11:
                changes.append(next(watch))
            if how is None:
                os.kill(hub.program(), signal.SIGKILL)
            else:
                hub.process.send_signal(how)
            hub.process.wait()
    with Hub(place, options=("--wait", "10")):
        while watch.since < 61:
            changes.append(next(watch))
        reading.join()
        # Each change has what it takes to go on after it.
        for change in (changes[-1], others[30]):
            again = Watch(path, change.seq, history=change.history, follow=False)
            assert list(again) == changes[change.seq:]
    watch.close()
    for some in (changes, others):
        assert [change.seq for change in some] == list(range(1, 62))
        assert counts_of(some[1:]) == list(range(1, 61))


async def asyncio_zip(numbers, changes):
    """As `zip`, for an iterator of asyncio."""
    for number in numbers:
        yield number, await changes.__anext__()


@pytest.mark.parametrize("how", [signal.SIGTERM, signal.SIGKILL])
def test_in_format_2_it_is_gone_after_the_end_of_a_hub(place, how):
    async def ended(path):
        async with AsyncWatch(path, 0) as watch:
            assert (await watch.__anext__()).seq == 1
            began.set()
            with pytest.raises(Gone):
                await watch.__anext__()

    place.format()
    began = threading.Event()
    with Hub(place) as hub, hub.connect() as store:
        store.create("d", 1)
        watch = Watch(hub.path, 0)
        assert next(watch).seq == 1
        reading = threading.Thread(target=lambda: asyncio.run(ended(hub.path)))
        reading.start()
        assert began.wait(PATIENCE)
        hub.process.send_signal(how)
        hub.process.wait()
    with Hub(place, options=("--wait", "10")) as hub:
        gone = raised(Gone, next, watch)
        assert (gone.since, "the store has no change 1, or is another one" in str(gone)) == (1, True)
        reading.join()
        with hub.connect() as store, store.export() as moment:
            assert moment.seq == 1 and list(Watch(hub.path, moment.seq, follow=False)) == []


def test_the_history_of_a_line_without_one_is_the_last(place):
    """As a node of a replicated store has it."""
    progress = Progress(place.path("socket"), 1, None, True, None)
    assert json.loads(progress.asked()) == {"cmd": "watch", "from": 1}
    assert progress.take(b'{"from":1,"history":"a","ok":true,"seq":2}') is None
    assert json.loads(progress.asked()) == {"cmd": "watch", "from": 1, "history": "a"}
    change = progress.take(b'{"change":{"cmd":"delete","name":"d"},"seq":2}')
    assert (change.seq, change.history) == (2, "a")
    change = progress.take(b'{"change":{"cmd":"delete","name":"d"},"history":"b","seq":3}')
    assert change.record() == {"change": delete("d"), "history": "b", "seq": 3}
    assert json.loads(progress.asked()) == {"cmd": "watch", "from": 3, "history": "b"}


def test_an_iterator_says_why_it_does_not_begin_or_ends(place):
    place.format()
    raised(AccessError, Watch, place.path("socket"))
    raised(AccessError, Watch, place.file)
    with Hub(place) as hub:
        watch = Watch(hub.path, wait=0.2)
        hub.kill()
        raised(AccessError, next, watch)
    with Hub(place):
        # It may be asked again.
        watch.close()
        assert list(watch) == []
    with Hub(place) as hub:
        raised(Malformed, Watch, hub.path, -1)


def test_a_number_of_another_store_is_gone(place):
    place.format(version=3)
    with Hub(place) as hub:
        gone = raised(Gone, Watch, hub.path, 7)
        assert (gone.since, "the store has no change 7, " in str(gone)) == (0, True)
        with hub.connect() as store:
            store.group([{"cmd": "create", "doc": 1, "name": f"n{n}", "schema": True} for n in range(9)])
        watch = Watch(hub.path, 7)
        history = watch.history
        watch.close()
        assert raised(Gone, lambda: Watch(hub.path, 7, history="another")).since == 0
    os.rename(place.file, place.path("old"))
    place.format(version=3)
    with Store(place.file, program=place.program) as store:
        store.group([{"cmd": "create", "doc": 2, "name": f"n{n}", "schema": True} for n in range(9)])
    with Hub(place) as hub:
        raised(Gone, lambda: Watch(hub.path, 7, history=history))
        assert next(Watch(hub.path, 7)).command["doc"] == 2


def test_a_watcher_that_does_not_read_is_told_what_is_gone(place):
    place.format(16384)
    text, changes = "x" * 900000, 40
    with Hub(place) as hub, hub.connect() as store, hub.connected() as watcher:
        watcher.sendall(watch_line(0))
        told = watcher.makefile("rb")
        told.readline()
        store.create("d", "")
        for number in range(2, changes + 1):
            store.patch("d", [{"op": "replace", "path": "", "value": f"{number}{text}"}])
        seqs, line = [], json.loads(told.readline())
        while "change" in line:
            seqs.append(line["seq"])
            line = json.loads(told.readline())
        # Those that were on their way, and then from where on one may watch: what is kept of the last 16 MiB.
        assert 1 <= len(seqs) < 10 and seqs == list(range(1, len(seqs) + 1))
        assert (line["error"], line["number"], told.read()) == ("gone", 80, b"")
        assert changes - 19 <= line["from"] <= changes - 13
        assert [change.seq for change in Watch(hub.path, line["from"], follow=False)] == \
            list(range(line["from"] + 1, changes + 1))
        assert raised(Gone, Watch, hub.path, line["from"] - 1).since == line["from"]
        told.close()
