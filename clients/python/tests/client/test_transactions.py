"""Transactions: several changes, all or none, by each form of the client."""
import asyncio
import itertools
import os
import pickle
import threading
import warnings

import pytest
from hubs import Hub
from jpstore import (
    AsyncStore, Conflict, Ended, Full, Invalid, JpstoreError, JpstoreWarning, Malformed, NotFound, Outdated, Store,
    TooLarge, Unsendable, create, delete, patch, set_schema, transaction,
)
from jpstore.wire.commands import changes_in, is_change, is_changing
from serving import FakeHub
from support import GROUPING, Place, raised

COUNT = {"minimum": 0, "type": "integer"}
COUNTS = {"additionalProperties": COUNT, "type": "object"}


def replaced(name, path, value, if_rev=None):
    return patch(name, [{"op": "replace", "path": path, "value": value}], if_rev)


def moved(bolts, wanted):
    """Bolts go from the first shelf, which has this many, to the second one."""
    return [replaced("a", "/bolts", bolts - wanted), replaced("b", "/bolts", bolts + wanted)]


def test_all_changes_are_made_in_order(place):
    with place.made() as store:
        assert store.transaction([
            create("a", {"bolts": 40}), replaced("a", "/bolts", 39), set_schema("a", COUNTS), create("b", 1),
            delete("b"), create("b", 2)]) == 6
        assert (store.get("a"), store.schema("a"), store.rev("a"), store.get("b"), store.rev("b")) == \
            ({"bolts": 39}, COUNTS, 3, 2, 6)
        assert (store.names(), store.status().seq) == (["a", "b"], 6)
    with place.store() as store:
        assert (store.get("a"), store.rev("a"), store.status().seq) == ({"bolts": 39}, 3, 6)


def test_a_refusal_tells_the_change_and_nothing_is_made(place):
    with place.made() as store:
        store.create("a", {"bolts": 40}, COUNTS)
        store.create("b", {"bolts": 40}, COUNTS)
        rows = [
            (Invalid, 45, 0, None, None, moved(40, 41)),
            (NotFound, 21, 1, None, None, [replaced("a", "/bolts", 1), delete("c")]),
            (Conflict, 20, 2, None, None, [delete("b"), create("b", 1), create("b", 2)]),
            (Conflict, 34, 1, 1, None, [patch("a", []), patch("b", [
                {"op": "add", "path": "/nuts", "value": 1}, {"op": "test", "path": "/bolts", "value": 0}])]),
            (Outdated, 24, 1, None, 2, [replaced("a", "/bolts", 1), patch("b", [], 1)]),
            (Malformed, 15, 0, None, None, [create("a b", 1), create("", 1)]),
        ]
        for kind, number, change, op, rev, changes in rows:
            refused = raised(kind, store.transaction, changes)
            assert (refused.number, refused.change, refused.op, refused.rev) == (number, change, op, rev)
            assert (refused.command, refused.before) == (changes[change], changes[:change])
            assert f"{number} {refused.name}, change {change}" in str(refused)
            assert (store.status().seq, store.get("a"), store.get("b")) == (2, {"bolts": 40}, {"bolts": 40})
        assert refused.document == "a b"
        again = pickle.loads(pickle.dumps(refused))
        assert (again.change, again.command, str(again)) == (0, refused.command, str(refused))
        assert raised(NotFound, store.delete, "c").change is None


def test_a_revision_is_that_of_the_last_change(place):
    with place.made() as store:
        store.create("a", {"n": 0})
        # A guard is a change too: the document has its number as its revision then.
        assert store.transaction([patch("a", [], 1), replaced("a", "/n", 1), patch("a", [], 3)]) == 4
        assert store.rev("a") == 4
        assert (raised(Outdated, store.transaction, [patch("a", [], 3), delete("a")]).rev, store.rev("a")) == (4, 4)


def test_what_concerns_the_whole_names_no_change(place):
    with place.made(16) as store:
        many = [create(f"n{number}", 0) for number in range(1025)]
        for changes in ([], many):
            refused = raised(Malformed, store.transaction, changes)
            assert (refused.number, refused.change) == (14, None)
        assert str(refused).startswith("transaction of 1025 changes: 14 command: ")
        assert raised(TooLarge, store.transaction, [create("d", "x" * (1 << 20))]).change is None
        full = raised(Full, store.transaction, [create("d", "x" * 2000), create("e", "x" * 2000)])
        assert (full.number, full.change, store.status().seq) == (60, None, 0)
        # Each of them has room by itself.
        assert store.group([create("d", "x" * 1500), create("e", "x" * 1500)]) == [1, 2]
        raised(JpstoreError, store.transaction, [create("f", 1), {"cmd": "list"}])
        raised(JpstoreError, store.transaction, [transaction([create("f", 1)])])
        raised(Unsendable, store.transaction, [create("f", 1.5)])
        assert store.status().seq == 2


def test_a_transaction_has_1024_changes_at_most(place):
    with place.made() as store:
        assert store.transaction([create(f"n{number}", number) for number in range(1024)]) == 1024
        assert store.transaction([replaced(f"n{number}", "", -number) for number in range(1024)]) == 2048
        assert [store.get(f"n{number}") for number in (0, 1023)] == [0, -1023]
        assert raised(TooLarge, store.transaction, [delete("n0"), create("m", 1), create("k", 1)]).change == 2


@pytest.mark.parametrize("version", [2, 3])
@pytest.mark.parametrize("how", [{}, {"batch": 64}])
def test_one_that_keeps_too_many_bytes_is_refused_alone(place, how, version):
    # The document has 1,000,000 bytes: 33 of them are within 32 MiB, and 34 are not.
    touch = set_schema("d", True)
    place.format(5000, version=version)
    with place.store(**how) as store:
        store.create("d", "x" * 999_998)
        refused = raised(TooLarge, store.transaction, [touch] * 34)
        assert (refused.number, refused.name, refused.change) == (65, "transaction-large", None)
        assert str(refused).startswith("transaction of 34 changes: 65 transaction-large: what a transaction ")
        assert raised(NotFound, store.transaction, [touch] * 33 + [delete("z"), touch]).change == 33
        lines = [touch, transaction([touch] * 34), touch, transaction([touch] * 33), create("e", 1)]
        outcomes = store.group(lines, check=False)
        assert (outcomes[1].number, outcomes[0], *outcomes[2:]) == (65, 2, 3, 36, 37)
        assert (store.rev("d"), store.names()) == (36, ["d", "e"])


@pytest.mark.parametrize("how", [{}, {"batch": 64}])
def test_what_patches_copy_counts_and_not_their_documents(place, how):
    # The member has 500,000 bytes: 67 of them are within 32 MiB, and 68 are not.
    twice = patch("d", [{"op": "copy", "from": "/a", "path": "/b"}])
    longer = patch("d", [{"op": "replace", "path": "/c", "value": 1}])
    taken = patch("d", [{"op": "remove", "path": "/b"}, {"op": "add", "path": "/b", "value": 0}])
    place.format(5000)
    with place.store(**how) as store:
        store.create("d", {"a": "x" * 499_998, "b": "y" * 499_998, "c": 0})
        assert raised(TooLarge, store.transaction, [twice] * 68).change is None
        assert store.transaction([longer] * 400 + [taken] + [twice] * 67) == 469
        assert store.get("d", "/b") == "x" * 499_998
        # A patch counts no more than a document may have: 32 of these copy 96,000,000 bytes, and count 33,554,432.
        often = patch("d", [{"op": "copy", "from": "/a", "path": "/b"}] * 6)
        assert store.transaction([often] * 32) == 501
        assert raised(TooLarge, store.transaction, [often] * 32 + [twice]).number == 65


def test_a_program_that_groups_changes_is_never_waited_for_in_vain(place):
    os.environ["GROUPED"] = place.program
    with Place(GROUPING, place.folder).made(batch=64) as store:
        assert store.transaction([create("a", 1), create("b", 1)]) == 2
        outcomes = store.group([transaction([create("c", 1), delete("c")]), create("c", 1),
                                transaction([delete("b"), create("a", 1)])], check=False)
        assert (outcomes[:2], outcomes[2].number, outcomes[2].change, store.names()) == \
            ([4, 5], 20, 1, ["a", "b", "c"])
        assert (store.delete("a", if_rev=1), store.put("b", 3, COUNT)) == (7, 10)


def test_a_document_is_deleted_or_put_under_a_schema_at_its_revision_alone(place):
    with place.made() as store:
        store.create("a", 1)
        for call in (lambda: store.delete("a", 7), lambda: store.set_schema("a", COUNT, 7)):
            refused = raised(Outdated, call)
            assert (refused.number, refused.rev, refused.change, refused.document) == (24, 1, None, "a")
        assert str(refused).startswith("schema a: 24 revision, revision 1: ")
        assert (store.set_schema("a", COUNT, if_rev=1), store.rev("a")) == (3, 3)
        refused = raised(Invalid, store.set_schema, "a", {"minimum": 5}, 3)
        assert (refused.command, refused.change) == (set_schema("a", {"minimum": 5}), None)
        assert (store.delete("a", if_rev=3), store.names()) == (5, [])
        refused = raised(NotFound, store.delete, "a", 5)
        assert (refused.number, refused.command) == (21, delete("a"))


def test_put_makes_or_replaces_where_it_stands(place):
    with place.made() as store:
        assert (store.put("a", 1), store.put("b", {"n": 1}, COUNTS), store.put("a", [2])) == (1, 2, 3)
        assert (store.names(), store.get("a"), store.schema("a"), store.schema("b")) == (["a", "b"], [2], True, COUNTS)
        # Neither is the new value valid under the old schema, nor the old value under the new one.
        raised(Invalid, store.put, "b", "text")
        assert (store.put("b", "text", {"type": "string"}), store.get("b")) == (6, "text")
        assert (store.schema("b"), store.names()) == ({"type": "string"}, ["a", "b"])
        refused = raised(Invalid, store.put, "b", 5, {**COUNTS, "type": "array"})
        assert (refused.number, refused.change, store.status().seq) == (45, None, 6)
        assert (store.put("b", "more", if_rev=6), store.put("b", 7, COUNT, if_rev=7)) == (7, 11)
        for words in ((1,), (1, True)):
            refused = raised(Outdated, store.put, "b", *words, if_rev=7)
            assert (refused.rev, refused.change, refused.document) == (11, None, "b")
            raised(NotFound, store.put, "c", *words, if_rev=7)
        raised(JpstoreError, store.put, "b", 1, attempts=0)
        assert store.put("c", None) == 12


def test_a_put_that_others_come_before_is_done_again(place):
    no, there = {"ok": False, "number": 21, "error": "no-document"}, {"ok": False, "number": 20, "error": "exists"}
    with FakeHub(place.path("fake"), no, there, no, there, {"ok": True, "seq": 9}) as hub:
        with Store.connect(hub.path) as store:
            assert store.put("d", 1) == 9
            assert [line["cmd"] for line in hub.lines] == ["patch", "create", "patch", "create", "patch"]
    with FakeHub(place.path("fake"), no, there, no, there) as hub, Store.connect(hub.path) as store:
        raised(Conflict, store.put, "d", 1, attempts=2)


def test_an_answer_that_was_lost_is_not_sent_again(place):
    with FakeHub(place.path("fake"), None) as hub, Store.connect(hub.path) as store:
        lost = raised(Ended, store.transaction, [create("a", 1), delete("a")])
        assert (lost.change, lost.document) == (transaction([create("a", 1), delete("a")]), None)
        assert str(lost).endswith("`transaction of 2 changes` may or may not be stored")
        assert hub.lines == [lost.change]
        raised(JpstoreError, store.transaction, [{"cmd": "create"}, 5])


def test_the_place_of_a_fault_is_that_after_the_changes_before_it(place):
    pytest.importorskip("jsonschema")
    pytest.importorskip("jsonpatch")
    with place.made() as store:
        store.create("a", {"bolts": 1, "nuts": -1})
        changes = [patch("a", [{"op": "move", "from": "/bolts", "path": "/rods"}]), create("b", 1),
                   set_schema("a", COUNTS), replaced("a", "/rods", "x")]
        refused = raised(Invalid, store.transaction, changes)
        assert (refused.change, [fault.place for fault in refused.why()]) == (2, ["/nuts"])
        changes[2:2] = [patch("a", [{"op": "remove", "path": "/nuts"}])]
        refused = raised(Invalid, store.transaction, changes)
        assert (refused.change, [fault.place for fault in refused.why()]) == (4, ["/rods"])
        refused = raised(Invalid, store.transaction, [create("c", 1, COUNT), replaced("c", "", -1)])
        assert (refused.asks_the_store, [fault.keyword for fault in refused.why()]) == (False, ["/minimum"])
        changes = [replaced("a", "/bolts", 2), delete("a"), create("a", 1, COUNT), patch("a", [])]
        changes.append(replaced("a", "", -1))
        refused = raised(Invalid, store.transaction, changes)
        assert (refused.change, refused.asks_the_store, refused.why()[0].keyword) == (4, False, "/minimum")
        refused = raised(Invalid, store.put, "a", {"nuts": -5}, COUNTS)
        assert [(fault.place, fault.keyword) for fault in refused.why()] == \
            [("/nuts", "/additionalProperties/minimum")]


def test_a_mistake_in_a_schema_is_warned_of_where_the_store_is_called(place):
    place.format(version=3)
    with place.store() as store:
        calls = [lambda: store.transaction([create("a", 1, {"minimun": 0})]),
                 lambda: store.set_schema("a", {"minimun": 0}, 1), lambda: store.put("a", 1, {"minimun": 0}),
                 lambda: store.group([transaction([set_schema("a", {"minimun": 0})])]),
                 lambda: store.once("k", [set_schema("a", {"minimun": 0})])]
        for call in calls:
            with warnings.catch_warnings(record=True) as told:
                warnings.simplefilter("always")
                call()
            assert [(warning.category, warning.filename) for warning in told] == [(JpstoreWarning, __file__)]


async def each_call(store):
    assert await store.transaction([create("a", {"n": 0}), create("b", {"n": 9}, COUNTS)]) == 2
    refused = await raised_by(Invalid, store.transaction([replaced("a", "/n", 1), replaced("b", "/n", -1)]))
    assert (refused.change, refused.command["name"], refused.why()[0].place) == (1, "b", "/n")
    refused = await raised_by(Invalid, store.transaction([create("c", 1, COUNT), replaced("c", "", -1)]))
    assert (refused.change, refused.why()[0].keyword) == (1, "/minimum")
    assert (await store.set_schema("a", COUNTS, if_rev=1), await store.put("a", {"n": 1})) == (4, 5)
    assert (await store.put("a", "x", {"type": "string"}, if_rev=5), await store.get("a")) == (9, "x")
    assert (await store.put("c", 1), await store.delete("c", if_rev=10), await store.names()) == (10, 12, ["a", "b"])
    assert (await raised_by(Outdated, store.delete("a", 7))).rev == 9
    assert (await raised_by(NotFound, store.put("c", 1, if_rev=7))).number == 21


async def raised_by(kind, awaited):
    with pytest.raises(kind) as caught:
        await awaited
    return caught.value


def test_the_calls_over_asyncio(place):
    pytest.importorskip("jsonschema")
    pytest.importorskip("jsonpatch")

    async def run(store):
        async with store:
            await each_call(store)
    place.format()
    asyncio.run(run(AsyncStore(place.file, program=place.program)))
    os.unlink(place.file)
    place.format()
    with Hub(place) as hub:
        asyncio.run(run(AsyncStore.connect(hub.path)))


def test_nobody_sees_half_of_a_transaction(place):
    """Bolts are moved to and fro between two shelves, which have as many together at each moment."""
    place.format()
    with Hub(place) as hub, hub.connect() as store:
        store.transaction([create("a", 50), create("b", 50)])
        stop, wrong = threading.Event(), []

        def move(step):
            with hub.connect() as mover:
                while not stop.is_set():
                    (rev, a), b = (mover.rev("a"), mover.get("a")), mover.get("b")
                    try:
                        mover.transaction([replaced("a", "", a - step, rev), replaced("b", "", b + step)])
                    except Outdated:
                        pass

        def look():
            with hub.connect() as looker:
                while not stop.is_set():
                    with looker.export() as moment:
                        total = sum(document.doc for document in moment)
                    if total != 100:
                        wrong.append(total)
        threads = [threading.Thread(target=move, args=(step,), daemon=True) for step in (1, -1, 2)]
        threads += [threading.Thread(target=look, daemon=True) for _ in range(2)]
        for thread in threads:
            thread.start()
        threads[0].join(1.5)
        stop.set()
        for thread in threads:
            thread.join()
        assert (wrong, store.get("a") + store.get("b"), store.status().seq > 20) == ([], 100, True)


def test_what_is_a_change():
    one = create("d", 1)
    assert [is_change(each) for each in (one, transaction([one]), {"cmd": "list"}, 5)] == [True, False, False, False]
    assert [is_changing(each) for each in (one, transaction([]), {"cmd": "list"}, 5)] == [True, True, False, False]
    assert (changes_in(one), changes_in(transaction([one, delete("d")]))) == ([one], [one, delete("d")])
    assert list(itertools.chain.from_iterable(map(changes_in, ({"cmd": "transaction"}, transaction([]))))) == []
