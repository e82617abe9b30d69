"""The transactions after a change, by the program, a hub, and for asyncio; `embedded_session.py` has them embedded."""
import asyncio

import pytest
from hubs import Hub
from jpstore import AsyncStore, Changes, Gone, Malformed, Transaction, create, delete, patch
from support import raised

MADE = [[create("d", {"b": 1, "a": "\u00e4"})],
        [patch("d", [{"op": "add", "path": "/n", "value": 2}], 1), create("e", 1)], [delete("e")]]
TOLD = [Transaction(1, 1, MADE[0]), Transaction(2, 3, MADE[1], ("k", "v")), Transaction(4, 4, MADE[2])]


def make(store):
    """Makes the changes, with a mark if the store has marks."""
    store.group(MADE[0])
    store.transaction(MADE[1], mark=("k", "v") if store.status().id else None)
    store.group(MADE[2])


def told(identity):
    """What a store with this identity tells: without one, no mark."""
    return TOLD if identity else [Transaction(each.first, each.last, each.changes) for each in TOLD]


def check(store):
    identity = store.status().id
    assert store.changes(0) == Changes(4, told(identity), identity)
    assert [each.first for each in store.changes(1)] == [2, 4]
    assert store.changes(4) == Changes(4, [], identity)
    # As many as have these bytes, and one at least.
    assert [list(store.changes(since, 1)) for since in (0, 1, 3)] == [[each] for each in told(identity)]
    assert list(store.changes(0, 300 if identity else 250)) == told(identity)[:2]
    # One in the midst of a transaction, and one that isn't made yet.
    assert [raised(Gone, store.changes, since).since for since in (2, 5)] == [0, 0]
    assert "the store has no change 5, or is another one than that which had it; one may go on from 0" in \
        str(raised(Gone, store.changes, 5))


@pytest.mark.parametrize("version", [2, 3])
def test_of_a_file(place, version):
    place.format(version=version)
    with place.store() as store:
        assert store.changes(0) == Changes(0, [], store.status().id)
        make(store)
        check(store)
        store.snapshot()
        check(store)
    with place.store() as store:
        gone = raised(Gone, store.changes, 0)
        assert (gone.since, store.changes(4).transactions) == (4, [])
        assert str(gone).startswith("the changes after 0 are gone; one may go on from 4: ")
        store.create("e", 2)
    with place.store(batch=8) as store:
        if version == 3:
            assert list(store.changes(4)) == [Transaction(5, 5, [create("e", 2)])]
        else:
            assert raised(Gone, store.changes, 4).since == 5


@pytest.mark.parametrize("version", [2, 3])
def test_of_a_hub(place, version):
    place.format(version=version)
    with Hub(place) as hub, hub.connect() as store:
        make(store)
        check(store)


@pytest.mark.parametrize("hub", [False, True])
def test_for_asyncio(place, hub):
    async def run(path):
        async with AsyncStore(path, program=place.program, hub=hub, batch=4) as store:
            await store.transaction(MADE[0])
            assert list(await store.changes(0)) == [Transaction(1, 1, MADE[0])]
            assert (await store.changes(0, max_bytes=1)).seq == 1
            with pytest.raises(Gone):
                await store.changes(7)

    place.format()
    if hub:
        with Hub(place) as running:
            asyncio.run(run(running.path))
    else:
        asyncio.run(run(place.file))


def test_a_transaction_is_told_as_it_was_sent(place):
    """So its changes can be made once more, in another store."""
    place.format(version=3)
    with place.store() as store:
        make(store)
        records = [each.record() for each in store.changes(0)]
        assert [Transaction.of(record) for record in records] == TOLD
    other = place.format(file=place.path("other"), version=3)
    place.file = other
    with place.store() as store:
        for each in TOLD:
            assert store.transaction(each.changes, mark=each.mark) == each.last
        assert store.get("d") == {"a": "\u00e4", "b": 1, "n": 2}


@pytest.mark.parametrize("since, most, fault", [
    (-1, 1, "`from` of `changes` is -1, and must be a whole number from 0"),
    (0, 0, "`max` of `changes` is 0, and must be a whole number from 1 to 4,194,304"),
    (0, (1 << 22) + 1, "`max` of `changes` is 4194305, and must be a whole number from 1 to 4,194,304")])
def test_what_asks_for_none_is_refused(place, since, most, fault):
    with place.made() as store:
        assert raised(Malformed, store.changes, since, most).detail == fault
        step = raised(Malformed, store.pump, 0)
        assert step.detail == "`max` of `pump` is 0, and must be a whole number from 1 to 1,000,000"
