"""The history of a hub: in format 3 a watcher goes on over its ends and kills; what isn't known for sure is gone."""
import json
import os
import random

import pytest
from histories import WAIT, Told, asked, elsewhere, ended, ended_hub, killed, opened, snapshot
from hubs import Hub
from jpstore import create, delete, patch, set_schema, transaction
from jpstore.watch import Gone, Watch
from support import PATIENCE, raised


def put(number, name="d"):
    return patch(name, [{"op": "add", "path": "/n", "value": number}])


BEFORE = [create("d", {}), put(1), create("x", 1), put(2)]


@pytest.mark.parametrize("end", [ended, killed])
def test_a_store_of_format_2_has_another_history_after_each_start(place, end):
    place.format()
    first = end(place, BEFORE)
    assert first.changes == dict(enumerate(BEFORE, 1))
    with ended_hub(place) as hub:
        again = Told(hub)
        assert (again.changes, again.base) == ({}, 4)
        assert not any(first.goes_on(hub, seq) for seq in range(5))
        # Without a history nobody can know.
        assert Watch(hub.path, 4).since == 4


@pytest.mark.parametrize("end", [ended, killed])
@pytest.mark.parametrize("last", [
    create("e", 1), put(7), delete("d"), set_schema("d", {}), transaction([create("e", 1), put(5), delete("e")])],
    ids=lambda last: last["cmd"])
def test_a_store_of_format_3_has_the_same_history_again(place, end, last):
    place.format(version=3)
    first = end(place, BEFORE, [last])
    changes = dict(enumerate([*BEFORE, *last.get("changes", [last])], 1))
    assert first.changes == changes
    with Hub(place, options=WAIT) as hub:
        again = Told(hub)
        assert (again.changes, again.spans) == (changes, first.spans)
        assert all(first.goes_on(hub, seq) for seq in range(first.last + 1))
        hub.kill()
    # A name of the first hub may come to the third one.
    with ended_hub(place) as hub:
        assert first.goes_on(hub, first.last) and again.goes_on(hub, first.last)
        refused, = hub.lines(asked(first.last + 1, first.names[first.last]), 1)
        assert refused == {"error": "gone", "from": 0, "number": 80, "ok": False}


@pytest.mark.parametrize("version", [2, 3])
def test_a_snapshot_is_no_change(place, version):
    place.format(version=version)
    with ended_hub(place) as hub, hub.connect() as store, Watch(hub.path, 0) as watch:
        store.group([create("d", {}), put(1)])
        store.snapshot()
        store.create("e", 2)
        assert [next(watch).command for _ in range(3)] == [create("d", {}), put(1), create("e", 2)]
        first = Told(hub)
    with ended_hub(place) as hub:
        again = Told(hub)
        # What is in it is no change, and a creation after it is one.
        assert (again.changes, again.base) == (({3: create("e", 2)}, 2) if version == 3 else ({}, 3))
        assert [first.goes_on(hub, seq) for seq in range(4)] == [False, False, False, version == 3]


def test_after_a_snapshot_at_the_end_a_watcher_is_told_gone(place):
    place.format(version=3)
    first = ended(place, [create("d", {}), put(1)], snapshot)
    with ended_hub(place) as hub:
        again = Told(hub)
        assert (again.changes, again.base, first.goes_on(hub, 2)) == ({}, 2, False)


@pytest.mark.parametrize("version", [2, 3])
def test_what_another_process_changed_meanwhile(place, version):
    """In format 3 it is told too, and else gone."""
    place.format(version=version)
    first = killed(place, [create("d", {}), put(1)])
    elsewhere(place, [put(2), create("e", 1)], [create("f", 1)])
    with ended_hub(place) as hub:
        if version == 3:
            assert list(Told(hub).changes) == [1, 2, 3, 4, 5]
            with Watch(hub.path, 2, history=first.names[2], follow=False) as watch:
                assert [change.command for change in watch] == [put(2), create("e", 1), create("f", 1)]
        assert first.goes_on(hub, 2) == (version == 3)


@pytest.mark.parametrize("version", [2, 3])
def test_what_another_process_moved_into_a_snapshot_is_gone(place, version):
    place.format(version=version)
    with Hub(place) as hub, hub.connect() as store:
        store.create("d", {})
        watch = Watch(hub.path, 0)
        assert next(watch).seq == 1
    elsewhere(place, lambda store: (store.group([put(1), create("e", 1)]), store.snapshot()))
    with Hub(place, options=WAIT) as hub:
        assert raised(Gone, next, watch).since == 3
        assert Told(hub).changes == {}


@pytest.mark.parametrize("version", [2, 3])
@pytest.mark.parametrize("seed", range(int(os.environ.get("JPSTORE_HISTORIES", "4"))))
@pytest.mark.time_limit(4 * PATIENCE)
def test_no_history_tells_what_did_not_happen(place, version, seed):
    lives = Lives(place, version, random.Random(seed))
    for _ in range(8):
        lives.one()


class Lives:
    """Hubs over one store that end anyhow, between processes that serve it without a hub; each change is known here."""

    def __init__(self, place, version, chance):
        self._place, self._version, self._chance = place, version, chance
        self._changes, self._documents, self._told = {}, set(), []
        # The number at the last snapshot.
        self._snapshot = 0
        place.format(version=version)

    def one(self):
        """A life of a hub or of another process; each hub tells no other changes than those that were made."""
        if self._chance.random() < 0.3:
            with self._place.store(wait=PATIENCE) as store:
                self._work(store)
        else:
            with Hub(self._place, options=WAIT) as hub:
                self._check(hub)
                with hub.connect() as store:
                    self._work(store)
                self._told.append(Told(hub))
                if self._chance.random() < 0.5:
                    hub.process.terminate()
                    hub.process.wait(PATIENCE)

    def _check(self, hub):
        """What it tells was made; and who was told some of it goes on exactly if the file has the rest."""
        told = Told(hub)
        assert (told.base, told.last) == (self._snapshot if self._version == 3 else told.last, len(self._changes))
        assert told.changes == {seq: self._changes[seq] for seq in range(told.base + 1, told.last + 1)}
        for before in self._told:
            for seq in range(before.base, before.last + 1):
                known = self._version == 3 and seq > told.base
                goes_on = before.goes_on(hub, seq)
                assert goes_on == known or (goes_on and seq == told.base and self._version == 3), (seq, told.base)

    def _work(self, store):
        for _ in range(self._chance.randrange(5)):
            if self._chance.random() < 0.3:
                store.snapshot()
                self._snapshot = len(self._changes)
            else:
                self._change(store)

    def _change(self, store):
        changes = [self._a_change() for _ in range(self._chance.randrange(1, 5))]
        if self._chance.random() < 0.5:
            seqs = store.group(changes)
        else:
            last = store.transaction(changes)
            seqs = list(range(last - len(changes) + 1, last + 1))
        self._changes.update(zip(seqs, changes))

    def _a_change(self):
        name, kind = self._chance.choice("abcd"), self._chance.random()
        if name not in self._documents:
            self._documents.add(name)
            return create(name, {"n": self._chance.randrange(3)})
        if kind < 0.4:
            self._documents.remove(name)
            return delete(name)
        return put(self._chance.randrange(3), name) if kind < 0.8 else set_schema(name, self._chance.random() < 2)


@pytest.mark.parametrize("version", [2, 3])
def test_the_history_is_bounded(place, version):
    place.format(1 << 16, version=version)
    with ended_hub(place) as hub, hub.connect() as store:
        store.create("d", {})
        for number in range(40):
            store.put("d", {"n": number, "text": "x" * (1_000_000 + number)})
        told = Told(hub)
        assert (told.last, 11 <= told.last - told.base <= 17) == (41, True)
        assert told.changes[41]["ops"][0]["value"]["n"] == 39


@pytest.mark.parametrize("version, sectors", [(2, 16), (3, 272)])
def test_a_watcher_of_a_small_store_is_told_all_over_its_snapshots(place, version, sectors):
    """A half has room for some changes only, so each client's changes make many snapshots."""
    place.format(sectors, version=version)
    for options in ((), ("--pump", "1"), ("--pump", "100")):
        with Hub(place, options=("--wait", "10", *options)) as hub, hub.connect() as store:
            begin = store.status().seq
            watch = Watch(hub.path, begin)
            if begin == 0:
                store.create("d", {})
            for number in range(40):
                store.patch("d", [{"op": "add", "path": "/n", "value": f"{number:0200}"}])
                if number % 10 == 9:
                    store.snapshot()
                    store.pump(1)
            outcomes = store.group([put(number) for number in range(200)], check=False)
            assert outcomes == list(range(store.status().seq - 199, store.status().seq + 1))
            seqs = [next(watch).seq for _ in range(begin, outcomes[-1])]
            assert seqs == list(range(begin + 1, outcomes[-1] + 1))
            watch.close()
            hub.kill()


@pytest.mark.parametrize("version", [2, 3])
def test_a_watcher_in_the_midst_of_a_transaction(place, version):
    """The hub is killed then: the next one tells the rest of it and the changes after it, or that they are gone."""
    place.format(version=version)
    parts = [create(name, "x" * 300_000) for name in "abc"]
    with Hub(place) as hub, hub.connect() as store:
        watch = Watch(hub.path, 0)
        assert (store.create("d", {}), store.transaction(parts)) == (1, 4)
        told = [next(watch), next(watch)]
        hub.kill()
    with Hub(place, options=WAIT) as hub, hub.connect() as store:
        assert store.transaction([put(5), delete("a")]) == 6
        if version == 2:
            # What had come before the kill may be read first.
            while told[-1].seq < 4:
                try:
                    told.append(next(watch))
                except Gone as gone:
                    assert gone.since >= 4
                    break
        else:
            told += [next(watch) for _ in range(4)]
            assert [change.command for change in told] == [create("d", {}), *parts, put(5), delete("a")]
            assert [(change.first, change.last) for change in told[1:]] == [(2, 4)] * 3 + [(5, 6)] * 2
            # One that asks anew in the midst of the first is told the same.
            with Watch(hub.path, 3, history=told[2].history, follow=False) as again:
                assert list(again) == told[3:]
        assert [change.seq for change in told] == list(range(1, len(told) + 1))


def test_a_full_store_refuses_as_the_program_does(place):
    place.format(16)
    with Hub(place) as hub, hub.connect() as store:
        store.create("d", "x" * 3000)
        outcomes = [outcome if isinstance(outcome, int) else outcome.number for outcome in store.group(
            [create(f"n{number}", "x" * 300) for number in range(3)] + [create("m", 1)], check=False)]
        assert outcomes[:1] + outcomes[-1:] == [2, 3] and set(outcomes[1:3]) == {60}
        assert [change.seq for change in Watch(hub.path, 0, follow=False)] == [1, 2, 3]


def test_a_change_under_a_name_with_escapes_is_told(place):
    place.format()
    with Hub(place) as hub:
        sent = [b'{"c\\u006dd":"create","doc":1,"name":"a","schema":true}',
                b'{"cmd":"cr\\u0065ate","doc":1,"name":"b","schema":true}',
                b'{"cmd":"get","cmd":"create","doc":1,"name":"c","schema":true}',
                b'{"cmd":"snap\\u0073hot"}', b'{"cmd":"create","cmd":"snapshot"}',
                b'{"cmd":"create","doc":{"cmd":"snapshot"},"name":"e","schema":true}']
        replies = [json.loads(line) for line in hub.raw(b"\n".join(sent)).splitlines()]
        assert [reply.get("seq") for reply in replies] == [1, 2, 3, None, None, 4]
        assert [change.command["name"] for change in Watch(hub.path, 0, follow=False)] == ["a", "b", "c", "e"]


ODD = "".join(map(chr, [*range(1, 0x21), 0x22, 0x2f, 0x5c, 0x7f, 0x80, 0xff, 0x2028, 0xfeff, 0xffff, 0x1f600]))


@pytest.mark.parametrize("version", [2, 3])
def test_a_change_has_the_text_that_was_accepted(place, version):
    place.format(version=version)
    changes = [create("e", {ODD: [ODD, -2 ** 63, 0, 2 ** 63 - 1, True, None]}, {"description": ODD}), create("d", {}),
               {**put(7), "if_rev": 2}, {**put(8), "if_rev": 3}]
    assert ended(place, changes).changes == dict(enumerate(changes, 1))
    assert opened(place).changes == (dict(enumerate(changes, 1)) if version == 3 else {})


def test_a_file_of_changes_of_earlier_versions_is_left_as_it_is(place):
    place.format()
    text = "not a history\n"
    path = place.text("store.changes", text)
    assert ended(place, [create("d", 1)]).changes == {1: create("d", 1)}
    with open(path, encoding="utf-8") as file:
        assert file.read() == text
    assert sorted(os.listdir(place.folder)) == ["store", "store.changes"]


def test_the_reason_is_told_if_the_store_is_no_store(place):
    place.text("store", "no store")
    said = place.run("hub", "store", "--socket", "socket", status=1).stderr.decode()
    assert "store: not-a-store (72): " in said
