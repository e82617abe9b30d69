"""A full store of format 3 under a hub: a change that is committed as a snapshot has no frame, and is told or gone."""
import pytest
from histories import Told, ended, ended_hub, killed
from hubs import Hub
from jpstore import Full, create, delete, patch
from support import raised

# The frame of the creation of an empty text, as document `d`.
EMPTY = 12 + len(b'{"cmd":"create","doc":"","name":"d","schema":true}')


def filling(store, name="d"):
    """A creation that takes all room of a new store."""
    return create(name, "x" * (store.status().capacity - EMPTY))


def test_an_export_without_room_is_refused_and_the_next_lines_are_answered(place, monkeypatch):
    """More than is kept in memory, and no folder for the rest."""
    place.format(65536)
    monkeypatch.setenv("TMPDIR", place.path("none"))
    with Hub(place) as hub, hub.connect() as store:
        for number in range(6):
            store.create(f"d{number}", "x" * 1_000_000)
        refused, names = hub.lines(b'{"cmd":"export"}\n{"cmd":"list"}\n', 2)
        assert refused == {"error": "memory", "number": 63, "ok": False}
        assert len(names["names"]) == 6


@pytest.mark.parametrize("end", [ended, killed])
def test_it_is_told_at_once_and_what_follows_after_a_restart(place, end):
    place.format(272, version=3)
    changes = [delete("d"), create("e", 1), patch("e", [{"op": "replace", "path": "", "value": 2}])]

    def make(store):
        changes.insert(0, filling(store))
        for change in changes:
            store.group([change])
    first = end(place, make)
    assert first.changes == dict(enumerate(changes, 1))
    with ended_hub(place) as hub, hub.connect() as store:
        assert (store.names(), store.status().seq) == (["e"], 4)
        again = Told(hub)
        # The snapshot has the deletion, which is in the file in no other way.
        assert (again.base, again.changes) == (2, dict(enumerate(changes[2:], 3)))
        assert [first.goes_on(hub, seq) for seq in range(1, 5)] == [False, False, True, True]


def test_a_transaction_is_told_change_by_change(place):
    place.format(272, version=3)
    with ended_hub(place) as hub, hub.connect() as store:
        changes = [filling(store), delete("d"), create("d", 1), create("e", 2)]
        store.group(changes[:1])
        assert store.transaction(changes[1:]) == 4
        told = Told(hub)
        assert (told.changes, told.spans) == (dict(enumerate(changes, 1)), {seq: (2, 4) for seq in (2, 3, 4)})


def test_what_grows_has_no_room_and_is_not_told(place):
    place.format(272, version=3)
    with ended_hub(place) as hub, hub.connect() as store:
        changes = [filling(store)]
        store.group(changes)
        raised(Full, store.create, "e", 1)
        assert Told(hub).changes == dict(enumerate(changes, 1))
