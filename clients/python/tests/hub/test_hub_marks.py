"""Marks over a hub: they are set with changes, are no part of what watchers are sent, and stay."""
import contextlib
import itertools
import json
import shutil
import socket
import threading

import pytest
from histories import Told, ended_hub, killed
from hubs import Hub, wait_until_free
from jpstore import create, delete, patch, transaction
from support import PATIENCE, until


def put(number, name="d"):
    return patch(name, [{"op": "add", "path": "/n", "value": number}])


def marked(command, key, value="v", **asked):
    return {**command, "mark": {"key": key, "value": value}, **asked}


def asked_of(place, *commands):
    """What a hub answers to commands of one client."""
    with contextlib.closing(socket.socket(socket.AF_UNIX)) as client, client.makefile("rb") as replies:
        client.settimeout(PATIENCE)
        client.connect(place.path("socket"))
        client.sendall(b"".join(json.dumps(command).encode() + b"\n" for command in commands))
        return [json.loads(replies.readline()) for _ in commands]


def done(place, *commands):
    """A function that has a hub make changes."""
    def do(_):
        assert all(reply["ok"] for reply in asked_of(place, *commands))
    return do


def mark_of(place, key):
    reply, = asked_of(place, {"cmd": "mark", "key": key})
    assert reply.pop("ok")
    return reply


# Changes, and what watchers are sent of them, with the first and the last number of a transaction.
FIRST = [create("d", {}), marked(put(1), "k"), transaction([put(2), put(3)])]
LAST = [marked(transaction([put(4), create("e", 1)]), "k", "\u0001\"\\\u00e4", if_mark="v"), put(5),
        marked(delete("e"), "l", "", if_mark=None), transaction([put(6), put(7)]), marked(transaction([put(8)]), "m")]
SENT = [create("d", {}), put(1), put(2), put(3), put(4), create("e", 1), put(5), delete("e"), put(6), put(7), put(8)]
SPANS = {3: (3, 4), 4: (3, 4), 5: (5, 6), 6: (5, 6), 9: (9, 10), 10: (9, 10)}


def test_a_mark_is_set_with_changes_or_not_at_all(place):
    place.format(version=3)
    with Hub(place):
        refused = {"error": "mark", "number": 25, "ok": False}
        replies = asked_of(
            place, create("d", {"n": 0}), marked(put(1), "k", "a", if_mark=None),
            marked(put(2), "k", "b", if_mark=None), marked(put(3, "none"), "l", "b"), {"cmd": "mark", "key": "l"},
            marked(put(4), "l", "b", if_mark="a"), marked(put(5), "k", "b", if_mark="a"), {"cmd": "mark", "key": "k"},
            {"cmd": "get", "name": "d", "path": "/n"}, marked({"cmd": "get", "name": "d", "path": ""}, "k"),
            {"cmd": "delete", "if_mark": None, "name": "d"})
        assert replies == [
            {"ok": True, "seq": 1}, {"ok": True, "seq": 2}, {**refused, "mark": "a", "seq": 2},
            {"error": "no-document", "number": 21, "ok": False}, {"mark": None, "ok": True}, {**refused, "mark": None},
            {"ok": True, "seq": 3}, {"mark": "b", "ok": True, "seq": 3}, {"ok": True, "value": 5},
            *2 * [{"error": "command", "number": 14, "ok": False}]]


def test_clients_at_once_set_it_once(place):
    place.format(version=3)
    with Hub(place):
        done(place, create("d", {"n": 0}))(None)
        replies = []

        def ask(number):
            commands = [marked(put(number), f"k{key}", str(number), if_mark=None) for key in range(50)]
            replies.extend(asked_of(place, *commands))
        threads = [threading.Thread(target=ask, args=(number,)) for number in range(6)]
        for thread in threads:
            thread.start()
        for thread in threads:
            thread.join()
        assert (len(replies), sum(reply["ok"] for reply in replies)) == (300, 50)
        assert {reply["number"] for reply in replies if not reply["ok"]} == {25}


@pytest.mark.parametrize("snapshot", [False, True])
def test_a_watcher_goes_on_after_a_kill(place, snapshot):
    """The changes are found in the file, whose frames tell also which were made together."""
    place.format(version=3)

    def between(store):
        if snapshot:
            store.snapshot()
    first = killed(place, done(place, *FIRST), between, done(place, *LAST))
    assert (first.changes, first.spans) == (dict(enumerate(SENT, 1)), SPANS)
    with ended_hub(place) as hub:
        after, base = Told(hub), 4 if snapshot else 0
        # What is in the snapshot is no change, and a creation after it is one.
        assert (after.base, after.changes) == (base, dict(enumerate(SENT[base:], base + 1)))
        assert after.spans == {seq: span for seq, span in SPANS.items() if seq > base}
        assert all(first.goes_on(hub, seq) for seq in range(base + 1, len(SENT) + 1))
        assert [mark_of(place, key) for key in "klmn"] == [
            {"mark": "\u0001\"\\\u00e4", "seq": 6}, {"mark": "", "seq": 8}, {"mark": "v", "seq": 11}, {"mark": None}]


def test_the_same_changes_with_another_mark_are_another_history(place):
    place.format(version=3)
    killed(place, [create("d", {})])
    shutil.copy(place.file, place.path("saved"))
    lost = killed(place, done(place, marked(put(1), "k")))
    wait_until_free(place.file)
    shutil.copy(place.path("saved"), place.file)
    for change in (marked(put(1), "k", "w"), put(2), put(3)):
        killed(place, done(place, change))
    with ended_hub(place) as hub:
        assert [lost.goes_on(hub, seq) for seq in range(3)] == [True, True, False]


def test_marks_have_room(place):
    """A small store makes snapshots, with marks and without, and watchers are told each change."""
    place.format(272, version=3)
    with Hub(place) as hub:
        done(place, create("d", {"n": 0}))(None)
        for start in range(0, 1500, 50):
            some = range(start, start + 50)
            done(place, *[marked(put(number), f"key-{number % 40}", "\u0001" * 20) for number in some])(None)
        told = Told(hub)
        assert told.changes == dict(enumerate([create("d", {"n": 0}), *map(put, range(1500))], 1))
        hub.kill()
    with ended_hub(place) as hub:
        assert told.goes_on(hub, 1501)
        assert mark_of(place, "key-7") == {"mark": "\u0001" * 20, "seq": 1489}


def test_marks_are_kept_as_the_store_grows(place):
    place.format(4096, version=3)
    with Hub(place) as hub, hub.connect() as store:
        store.create("big", "x" * 500_000)
        stop, marks = threading.Event(), {}

        def write():
            done(place, create("d", {"n": 0}))(None)
            for number in itertools.takewhile(lambda _: not stop.is_set(), itertools.count()):
                commands = [marked(put(number), f"k{number % 500}", f"a{number}"),
                            marked(transaction([put(number), put(-number)]), f"l{number % 400}", f"b{number}")]
                for command, reply in zip(commands, asked_of(place, *commands)):
                    marks[command["mark"]["key"]] = {"mark": command["mark"]["value"], "seq": reply["seq"]}
        writer = threading.Thread(target=write)
        writer.start()
        until(lambda: len(marks) > 40, "marks")
        store.grow(16384)
        stop.set()
        writer.join()
        assert {key: mark_of(place, key) for key in marks} == marks


def test_a_store_of_format_2_has_none(place):
    place.format()
    with Hub(place):
        assert asked_of(place, create("d", 1), marked(delete("d"), "k"), {"cmd": "mark", "key": "k"}) == [
            {"ok": True, "seq": 1}, {"error": "command", "number": 14, "ok": False}, {"mark": None, "ok": True}]
