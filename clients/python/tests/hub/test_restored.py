"""A store whose file was put back: no watcher is told changes that this store doesn't have, and each one learns it.

A file that was opened more often since is not told apart if its transaction at the watcher's number is byte for byte
the same.
"""
import json
import shutil

import pytest
from gateways import Events, Gateway
from histories import WAIT, elsewhere, ended, ended_hub, killed, opened, snapshot
from hubs import Hub, wait_until_free
from jpstore import create, delete, transaction, upgrade_file
from jpstore.watch import Gone, Watch
from support import raised
from test_hub_history import put


@pytest.fixture(params=[2, 3])
def place(place, request):
    """A place with a store of each format."""
    place.format()
    upgrade_file(place.file, request.param, place.program)
    place.version = request.param
    return place


def saved(place, at_work=False):
    """Copies the file, which a hub may serve meanwhile."""
    if not at_work:
        wait_until_free(place.file)
    shutil.copy(place.file, place.path("saved"))


def put_back(place):
    """The file as it was, as by `cp`: with its number in the file system."""
    wait_until_free(place.file)
    shutil.copyfile(place.path("saved"), place.file)


# What was done without a hub after the file was put back, each group in an opening of its own; and how many snapshots
# the hub had made since the copy.
OTHER_WAYS = {
    "several openings": (0, [[put(4)] * 3, [put(5)] * 3, [put(6)] * 3]),
    "as many changes": (0, [[put(4), put(5), put(8)]]),
    "as many, and a snapshot": (1, [lambda store: (store.group([put(4), put(5), put(8)]), store.snapshot())]),
    "a snapshot before them": (2, [
        lambda store: (store.group([put(4), put(5)]), store.snapshot(), store.snapshot(), store.group([put(8)]))]),
    "more changes": (0, [[put(number) for number in range(20, 30)]]),
    "fewer changes": (0, [[put(4)]]),
    "none": (0, [[], []]),
    "snapshots between": (2, [[put(4), put(5)], snapshot, snapshot, [put(8)], [put(9)]]),
    "another document": (0, [[delete("d"), create("d", {"n": 9})], [put(8)]]),
    "another snapshot": (0, [[put(4), put(5), put(8)], snapshot]),
    "without the snapshot": (1, [[put(4)], [put(5), put(8)]]),
    "the same changes made together": (0, [[transaction([put(2), put(3), put(9)])]]),
}


@pytest.mark.parametrize("way", OTHER_WAYS)
def test_a_history_is_another_after_its_store_was_put_back(place, way):
    count, groups = OTHER_WAYS[way]
    ended(place, [create("d", {"n": 0})], [put(1)])
    saved(place)
    lost = ended(place, [put(2), put(3)], *[snapshot] * count, [put(9)])
    put_back(place)
    elsewhere(place, *groups)
    with ended_hub(place) as hub, hub.connect() as store:
        assert not any(lost.goes_on(hub, seq) for seq in range(3, 6))
        # And after changes that the hub itself makes.
        store.group([put(number) for number in range(40, 50)])
        assert not any(lost.goes_on(hub, seq) for seq in range(3, 6))
    with ended_hub(place) as hub:
        assert not any(lost.goes_on(hub, seq) for seq in range(3, 6))


def test_as_many_openings_are_told_apart_even_if_all_changes_are_the_same(place):
    ended(place, [create("d", {"n": 0})], [put(1)])
    saved(place)
    lost = ended(place, [put(2), put(3)])
    put_back(place)
    with ended_hub(place) as hub, hub.connect() as store:
        store.group([put(2), put(3)])
        assert not any(lost.goes_on(hub, seq) for seq in range(lost.base, 5))


def test_snapshots_at_the_same_number_are_not_the_same_history(place):
    ended(place, [create("d", {"n": 0})])
    saved(place)
    elsewhere(place, lambda store: (store.group([put(2)]), store.snapshot()))
    lost = ended(place)
    put_back(place)
    elsewhere(place, lambda store: (store.group([put(7)]), store.snapshot()), [], [], [])
    with ended_hub(place) as hub:
        assert not lost.goes_on(hub, 2)


def test_another_store_in_its_place_is_another(place):
    lost = ended(place, [create("d", {"n": 0}), put(1)])
    place.format(512, file=place.path("saved"), version=place.version)
    put_back(place)
    # The same changes, after more openings.
    elsewhere(place, [], [], [create("d", {"n": 0}), put(1)])
    with ended_hub(place) as hub:
        assert not any(lost.goes_on(hub, seq) for seq in range(3))


def test_a_copy_of_a_hub_at_work_has_no_more_than_it_had_told(place):
    lost = ended(place, [create("d", {})], [put(1)], lambda _: saved(place, at_work=True), [put(2), put(3)])
    put_back(place)
    elsewhere(place, [put(4)], [put(5)])
    with ended_hub(place) as hub:
        # Up to the copy it is the same history.
        assert [lost.goes_on(hub, seq) for seq in (2, 3, 4)] == [place.version == 3, False, False]


@pytest.mark.parametrize("between", [[], [[put(5)], snapshot, [put(6)]]], ids=["no snapshot", "snapshot"])
def test_a_watcher_goes_on_over_ends_and_kills_of_hubs(place, between):
    goes_on = place.version == 3
    first = ended(place, [create("d", {})], [put(1)], *between)
    with ended_hub(place) as hub:
        assert first.goes_on(hub, first.last) == goes_on
    # A hub that was killed after a commit may have told the change.
    second = killed(place, [put(3)])
    third = opened(place)
    assert third.changes.get(third.last) == (put(3) if goes_on else None)
    elsewhere(place, [put(4)])
    with ended_hub(place) as hub:
        assert [each.goes_on(hub, each.last) for each in (first, second, third)] == [goes_on] * 3
        if goes_on:
            assert [change.command for change in Watch(hub.path, third.last, follow=False)] == [put(4)]
        else:
            assert raised(Gone, Watch, hub.path, third.last).since == third.last + 1


def test_watchers_of_a_hub_and_of_a_gateway_are_told_that_it_is_gone(place):
    with Hub(place) as hub, hub.connect() as store:
        store.create("d", {"n": 0})
    saved(place)
    with Hub(place, options=WAIT) as hub, Gateway(place, store=hub.path) as gateway:
        watch, of_gateway = Watch(hub.path, 1), Events(gateway, "/changes?from=1")
        with hub.connect() as store:
            store.group([put(number) for number in range(101, 106)])
        changes = [next(watch) for _ in range(5)]
        assert [json.loads(of_gateway.next()[1])["seq"] for _ in changes] == [2, 3, 4, 5, 6]
    put_back(place)
    for number in range(3):
        elsewhere(place, [put(number)] * 3)
    with Hub(place, options=WAIT) as hub, Gateway(place, store=hub.path) as gateway:
        # Of those that come again, and of one that was begun before and connects anew.
        for change in changes:
            assert raised(Gone, Watch, hub.path, change.seq, history=change.history).since <= 10
        assert raised(Gone, next, watch)
        answer = gateway.get("/changes", Last_Event_ID=of_gateway.last_id)
        assert (answer.status, answer.json()["number"]) == (410, 80)
        # Without a history nobody can know; the numbers are those of this store.
        if place.version == 3:
            with Events(gateway, "/changes", Last_Event_ID="6") as events:
                assert json.loads(events.next()[1])["change"] == put(1)
            told = [change.command for change in Watch(hub.path, 0, follow=False)]
            assert told == [create("d", {"n": 0}), *[put(number) for number in (0, 0, 0, 1, 1, 1, 2, 2, 2)]]
        else:
            assert gateway.get("/changes", Last_Event_ID="6").status == 410
            assert raised(Gone, Watch, hub.path, 9).since == 10
        of_gateway.__exit__()
