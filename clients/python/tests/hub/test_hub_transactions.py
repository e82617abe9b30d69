"""Transactions through a hub: one line of a round, whose changes are told one by one, all or none."""
import asyncio
import json
import os
import random
import threading
from concurrent.futures import ThreadPoolExecutor

import pytest
from histories import Told, killed, opened
from hubs import Hub
from jpstore import AsyncStore, Store, TooLarge, create, delete, patch, set_schema, transaction
from jpstore.wire.commands import line_of
from jpstore.watch import Change, Watch
from support import GROUPING, raised


def put(number, name="d"):
    return patch(name, [{"op": "add", "path": "/n", "value": number}])


def told(path, since=0):
    """The changes that a hub tells, by their numbers."""
    changes = list(Watch(path, since, follow=False))
    assert [change.seq for change in changes] == list(range(since + 1, since + 1 + len(changes)))
    return [change.command for change in changes]


def test_each_change_is_told_with_its_number(place):
    place.format()
    changes = [create("d", {"b": 1, "a": "\u00e4"}), put(1), set_schema("d", {"type": "object"}), delete("d")]
    with Hub(place) as hub, hub.connect() as store:
        with hub.connected() as watcher, watcher.makefile("rb") as lines:
            watcher.sendall(b'{"cmd":"watch"}\n')
            assert json.loads(lines.readline())["seq"] == 0
            assert store.create("e", 1) == 1
            assert store.transaction(changes) == 5
            assert json.loads(lines.readline())["seq"] == 1
            told_lines = [json.loads(lines.readline()) for _ in changes]
            # One name for all of them.
            name, = {line.pop("history") for line in told_lines}
            assert told_lines == \
                [{"change": change, "first": 2, "last": 5, "seq": seq} for seq, change in enumerate(changes, 2)]
        assert hub.told(1, 1) == ['{"change":{"cmd":"create","doc":{"a":"\u00e4","b":1},"name":"d","schema":true},'
                                  f'"first":2,"history":"{name}","last":5,"seq":2}}\n']

        async def watched():
            async with AsyncStore.connect(hub.path) as other:
                return [change async for change in other.watch(1, follow=False)]
        assert asyncio.run(watched()) == [Change(seq, change, 2, 5) for seq, change in enumerate(changes, 2)]
        assert [json.loads(line)["seq"] for line in place.run("watch", "socket", "--since", "3", "--past").stdout.split(
            b"\n")[:-1]] == [4, 5]


def test_what_is_refused_is_not_told(place):
    place.format()
    lines = [transaction([create("a", 1), put(1, "a")]), transaction([create("b", 1), create("c", 2)]), create("d", {}),
             transaction([put(1), delete("e")]), transaction([]), transaction([put(2), put(3)]),
             transaction([delete("b")])]
    with Hub(place) as hub:
        replies = [json.loads(reply) for reply in hub.raw(b"".join(map(line_of, lines)) + b'{"cmd":"transaction"}\n')
                   .splitlines()]
        assert [reply.get("seq", (reply.get("number"), reply.get("change"))) for reply in replies] == \
            [(32, 1), 2, 3, (21, 1), (14, None), 5, 6, (14, None)]
        assert replies[0] == {"change": 1, "error": "patch-missing", "number": 32, "ok": False, "op": 0}
        assert told(hub.path) == [create("b", 1), create("c", 2), create("d", {}), put(2), put(3), delete("b")]


def test_lines_come_in_any_form(place):
    place.format()
    with Hub(place) as hub:
        sent = [b'{ "cmd" : "transaction" , "changes" : [ {"schema":true,"cmd":"create","name":"d","doc":{}} ] }',
                b'{"c\\u006dd":"transaction","changes":[{"cmd":"delete","name":"d"}]}',
                b'{"changes":[{"c\\u006dd":"create","doc":"\\u00e4\\/","name":"d","schema":true}],'
                b'"cmd":"transaction"}\r',
                b'{"cmd":"tr\\u0061nsaction","changes":[{"name":"d","cmd":"delete"}]}',
                b'{"changes":{"cmd":"transaction"}}', b'[{"cmd":"transaction"}]']
        replies = [json.loads(line) for line in hub.raw(b"\n".join(sent)).splitlines()]
        assert [reply.get("seq", reply.get("number")) for reply in replies] == [1, 2, 3, 4, 14, 14]
        assert told(hub.path) == [create("d", {}), delete("d"), create("d", "\u00e4/"), delete("d")]


def test_a_program_that_groups_changes_is_never_waited_for_in_vain(place):
    os.environ["GROUPED"] = place.program
    place.format()
    with Hub(place, GROUPING) as hub:
        def write(index):
            with hub.connect() as store:
                for count in range(10):
                    name = f"n{index}-{count}"
                    if count % 3:
                        store.transaction([create(name, {}), delete(name)])
                    else:
                        store.create(name, count)
        writers = [threading.Thread(target=write, args=(index,), daemon=True) for index in range(6)]
        for writer in writers:
            writer.start()
        for writer in writers:
            writer.join()
        with hub.connect() as store:
            assert (store.status().documents, store.status().seq) == (24, 6 * (4 + 2 * 6))
            assert len(told(hub.path)) == 96


@pytest.mark.parametrize("snapshot", [False, True])
def test_after_a_kill_it_is_told_whole(place, snapshot):
    place.format(version=3)
    changes = [put(1), create("e", 2), set_schema("d", {}), delete("e")]

    def prepare(store):
        store.put("d", {})
        if snapshot:
            store.snapshot()
    killed(place, prepare, lambda store: store.transaction(changes))
    after = opened(place)
    assert [after.changes[seq] for seq in range(2, 6)] == changes
    assert after.spans == {seq: (2, 5) for seq in range(2, 6)}


@pytest.mark.parametrize("version, sectors", [(2, 16), (3, 272)])
def test_a_hub_of_a_small_store_tells_them_over_its_snapshots(place, version, sectors):
    # A half has room for some transactions only.
    place.format(sectors, version=version)
    made = []
    for options in ((), ("--pump", "1"), ("--pump", "100")):
        with Hub(place, options=("--wait", "10", *options)) as hub, hub.connect() as store:
            begin = store.status().seq
            for number in range(40):
                changes = [put(f"{number:0{width}}") for width in (100, 1, 200)]
                if begin == number == 0:
                    changes.insert(0, create("d", {}))
                made += changes
                assert store.transaction(changes) == len(made)
            lines = [transaction([put(number), delete("d"), create("d", {})]) for number in range(100)]
            assert store.group(lines) == list(range(len(made) + 3, len(made) + 303, 3))
            made += [change for line in lines for change in line["changes"]]
            assert told(hub.path, begin) == made[begin:]
            hub.kill()
    assert len(made) == 3 * 420 + 1
    after = opened(place)
    assert after.changes == dict(list(enumerate(made, 1))[after.base:])


def test_a_full_store_refuses_as_the_program_does(place):
    place.format(16)
    with Hub(place) as hub, hub.connect() as store:
        store.create("d", "x" * 2000)
        outcomes = store.group([transaction([create(f"n{number}", "x" * 500), create(f"m{number}", "x" * 500)])
                                for number in range(2)] + [create("k", 1)], check=False)
        assert (outcomes[0], outcomes[1].number, outcomes[1].change, outcomes[2]) == (3, 60, None, 4)
        assert [change["name"] for change in told(hub.path)] == ["d", "n0", "m0", "k"]


@pytest.mark.parametrize("version", [2, 3])
def test_one_that_changes_too_many_bytes_refuses_no_line_of_another(place, version):
    """A client sends such a transaction again and again, beside four whose every change is made."""
    place.format(40_000, version=version)
    stop, refused = threading.Event(), []

    def press():
        with hub.connect() as store:
            while not stop.is_set():
                refused.append(raised(TooLarge, store.transaction, [set_schema("large", True)] * 34).number)

    def write(name):
        with hub.connect() as store:
            store.create(name, {"n": 0})
            for number in range(100):
                store.patch(name, put(number, name)["ops"])
    with Hub(place) as hub:
        with hub.connect() as store:
            store.create("large", "x" * 999_998)
        presser = threading.Thread(target=press, daemon=True)
        presser.start()
        try:
            with ThreadPoolExecutor() as writers:
                # A change that is refused is raised here.
                list(writers.map(write, "abcd"))
        finally:
            stop.set()
            presser.join()
        assert set(refused) == {65}
        with hub.connect() as store:
            assert [store.get(name, "/n") for name in "abcd"] == [99] * 4
            assert (store.rev("large"), store.status().seq) == (1, 1 + 4 * 101)


@pytest.mark.parametrize("of_hub", [True, False])
def test_a_kill_leaves_whole_transactions(place, of_hub):
    """Each transaction counts three documents up; after a kill they have one count, and so has a watcher."""
    # Room for all, since a snapshot would drop the first.
    place.format(65_536, version=3)
    names = ("a", "b", "c")
    acknowledged = 0
    for life in range(3):
        with Hub(place, options=("--wait", "30")) as hub:
            if life == 0:
                with hub.connect() as store:
                    store.transaction([create(name, 0) for name in names])
            counting = threading.Thread(target=count, args=(hub, names), daemon=True)
            counting.start()
            counting.join(random.uniform(0.2, 0.6))
            os.kill(hub.process.pid if of_hub else hub.program(), 9)
            counting.join()
        with place.store(wait=30) as store:
            counts = {store.get(name) for name in names}
            seq = store.status().seq
        assert (len(counts), seq) == (1, 3 + 3 * max(counts))
        acknowledged = max(counts)
        with Hub(place, options=("--wait", "30")) as hub:
            after = Told(hub)
            values = [change["doc"] if change["cmd"] == "create" else change["ops"][0]["value"]
                      for change in after.changes.values()]
            assert values == [number for number in range(acknowledged + 1) for _ in names]
            assert after.spans == {3 * number + place: (3 * number + 1, 3 * number + 3)
                                   for number in range(acknowledged + 1) for place in (1, 2, 3)}
    assert acknowledged > 3


def count(hub, names):
    try:
        with hub.connect() as store:
            value = store.get(names[0])
            while True:
                value += 1
                store.transaction([patch(name, [{"op": "replace", "path": "", "value": value}]) for name in names])
    except Exception:  # The hub has ended.
        pass


def test_a_dump_and_a_load_of_lines(place):
    place.format()
    lines = b"".join(map(line_of, [transaction([create("d", {}), put(1)]), create("e", 1), transaction([delete("e")])]))
    place.shows("load", "store", "--partial", given=lines, output="4 changes made\n")
    assert place.run("dump", "store").stdout.startswith(line_of(create("d", {"n": 1})) + b'{"end":true')
    refused = line_of(transaction([put(2), delete("none")])) + line_of(transaction([put(3), put(4)]))
    said = place.run("load", "store", "--partial", given=refused, status=3).stderr.decode()
    assert said.startswith("line 1 is refused; 2 changes were made\ndelete none: 21 no-document, change 1: ")
    with Hub(place) as hub, Store.connect(hub.path) as store:
        assert (store.get("d"), store.status().seq) == ({"n": 4}, 6)
        with store.export() as moment:
            assert [(document.rev, document.doc) for document in moment] == [(6, {"n": 4})]
        assert place.run("dump", "socket").stdout.startswith(line_of(create("d", {"n": 4})) + b'{"end":true')
