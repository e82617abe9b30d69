"""Appliers do one log, each in a file of another size; some begin anew at any moment. They must answer alike."""
import asyncio
import itertools
import json
import random
from collections import deque

import pytest
from jpstore.replica.applying import Applier, OtherVersion
from jpstore.replica.changes import LINES_OF_ENTRY, MOST_MARK
from jpstore.replica.line_reader import MOST_TEXT, read_line
from jpstore.replica.log import Agreed, Entry, EntryKind
from jpstore.replica.place import MOST_VERSION, Place, begin_of, furthest, key_of, length_of_mark, marked, place_in
from jpstore.replica.store import Faulty, ReplicaStore
from jpstore.replica.trial import is_tried, lacks_memory
from jpstore.wire.limits import MOST_MARK_BYTES
from jpstore.wire.program import format_file
from replica_check import played

CAPACITY = 70_000


class Stop(Exception):
    """The end of a node at some moment."""


class Stopping:
    """A store whose node may end before or after each transaction, with this chance."""

    def __init__(self, store, choose, chance):
        self._store, self._choose, self._chance = store, choose, chance

    def __getattr__(self, name):
        return getattr(self._store, name)

    async def change(self, lines):
        """Sends all lines, or the first ones alone, as far as a program got."""
        roll = self._choose.random()
        if roll < self._chance:
            raise Stop
        if roll < 2 * self._chance:
            await self._store.change(lines[:self._choose.randrange(1, len(lines) + 1)])
            raise Stop
        return await self._store.change(lines)


NO_MEMORY = b'{"error":"memory","number":63,"ok":false}\n'


class Short:
    """A store whose machine has no memory for some transactions of several changes."""

    def __init__(self, store, lacks=lambda: True):
        self._store, self._lacks = store, lacks

    def __getattr__(self, name):
        return getattr(self._store, name)

    async def change(self, lines):
        """Sends all but the first that there is no memory for."""
        for at, line in enumerate(lines):
            if len(json.loads(line)["changes"]) > 1 and self._lacks():
                return [*await self._store.change(lines[:at]), NO_MEMORY, *await self._store.change(lines[at + 1:])]
        return await self._store.change(lines)


def entry(n, lines, kind=EntryKind.LINES, version=""):
    texts = [read_line(json.dumps(each).encode() + b"\n").text for each in lines]
    return Entry(n, 10 + 3 * n, f"a.{n}", kind, version, texts)


def command(choose):
    """A change of few documents, that is refused often, for all kinds of reasons."""
    name, roll = choose.choice("pqrs"), choose.random()
    if roll < 0.3:
        return {"cmd": "create", "doc": "x" * choose.choice((10, 3000, 9000)), "name": name + choose.choice("123"),
                "schema": True}
    if roll < 0.45:
        return {"cmd": "delete", "name": name + choose.choice("123")}
    if roll < 0.55:
        return {"cmd": "patch", "if_rev": choose.randrange(9), "name": name + choose.choice("123"), "ops": []}
    if roll < 0.7:
        # Much room is reckoned for it, and it needs little.
        return {"cmd": "patch", "name": name + choose.choice("123"), "ops": [
            {"op": "replace", "path": "", "value": [0]}, {"op": "add", "path": "/-", "value": "y" * 5000},
            {"op": "remove", "path": "/1"}]}
    changes = [command(choose) for _ in range(choose.randrange(1, 4))]
    return {"changes": [each for one in changes for each in one.get("changes", [one])], "cmd": "transaction"}


def log_of(choose):
    """Entries of which many are done line by line, or change nothing."""
    entries = []
    for n in range(1, 30):
        kind = EntryKind.COMPARE if choose.random() < 0.1 else EntryKind.LINES
        count = 0 if kind is EntryKind.COMPARE else choose.choice((1, 1, 2, 5, 12))
        entries.append(entry(n, [command(choose) for _ in range(count)], kind))
    return entries


async def agreed_on(program, file):
    store = await ReplicaStore.open(file, program)
    try:
        return Agreed("0" * 32, CAPACITY, await store.digest(), "1")
    finally:
        await store.close()


async def done(program, file, entries, agreed, stopping=None, short=0.0):
    """What the lines were answered, None for one without an answer, the mark, the state, and the count of starts. With
    this chance there is no memory for a transaction."""
    answers, told = {}, {}
    for starts in itertools.count(1):
        store = await ReplicaStore.open(file, program)
        try:
            stored = await store.place(agreed)
            place = furthest(stored or begin_of(agreed), told, agreed.log, store.status["seq"])
            used = Short(store, lambda: stopping[0].random() < short) if short else store
            used = Stopping(used, *stopping) if stopping else used
            applier = Applier(used, agreed, stored, place, "1")
            waiting = deque(entries[place.n:])
            while waiting:
                for each in await applier.apply(waiting):
                    answers.setdefault(each.entry.n, each.answers)
                if stopping and stopping[0].random() < 0.2:
                    told = applier.told()
            state = [(name, rev, await store.lengths([name])) for name, rev in await store.revisions()]
            mark, = await store.exchange([b'{"cmd":"mark","key":"%b"}\n' % key_of(agreed.log).encode()])
            return answers, mark, state, applier.seq, applier.place, starts
        except (Stop, Faulty):
            pass
        finally:
            await store.close()


def compared(program, folder, seed, short=0.0):
    """Does one log with an applier that is never stopped and with another; returns the answers, and how many starts."""
    choose = random.Random(seed)
    mine, its = str(folder / "mine"), str(folder / "its")

    async def run():
        for file, sectors in ((mine, 500), (its, 2000)):
            format_file(file, sectors, program, version=3)
        agreed, entries = await agreed_on(program, mine), log_of(choose)
        answers, mark, *rest, _ = await done(program, mine, entries, agreed)
        others, its_mark, *other, starts = await done(program, its, entries, agreed, (choose, 0.08), short)
        # Who had no memory may have done the last entry in another way.
        assert other == rest and (short or its_mark == mark)
        for n, given in others.items():
            assert all(reply in (None, first) for reply, first in zip(given, answers[n])), (n, given, answers[n])
        assert rest[1] == sum(changes_in(each) for each in entries for each in zip(each.lines, answers[each.n]))
        return entries, answers, starts
    return asyncio.run(run())


def changes_in(line_and_answer):
    line, answer = line_and_answer
    return len(json.loads(line).get("changes", [0])) if json.loads(answer)["ok"] else 0


@pytest.mark.parametrize("seed", range(3))
def test_every_start_at_any_moment_answers_alike(program, tmp_path, seed):
    entries, answers, starts = compared(program, tmp_path, seed)
    numbers = {json.loads(reply).get("number") for given in answers.values() for reply in given}
    assert {60, 21, 20, 24, None} <= numbers, numbers
    assert starts > 6, starts
    # One program with much room answers all others in the same way.
    judged = [[(line, json.loads(reply)) for line, reply in zip(each.lines, answers[each.n])] for each in entries]
    others = [[(line, reply) for line, reply in each if reply.get("number") != 60] for each in judged]
    alone, _ = played(program, [[line for line, _ in each] for each in others])
    assert alone == [[reply for _, reply in each] for each in others]


@pytest.mark.parametrize("seed", range(3, 6))
def test_one_that_has_no_memory_for_entries_as_a_whole_answers_alike(program, tmp_path, seed):
    _, answers, _ = compared(program, tmp_path, seed, 0.5)
    assert {60, 21, 20, 24, None} <= {json.loads(reply).get("number") for given in answers.values() for reply in given}


def test_the_longest_lines_are_taken(program, tmp_path):
    file = str(tmp_path / "store")
    format_file(file, 20_000, program, version=3)
    head = len(json.dumps({"cmd": "create", "doc": "", "name": "x", "schema": True}, separators=(",", ":"))) + 1
    long = {"cmd": "create", "doc": "x" * (MOST_TEXT - head), "name": "x", "schema": True}
    many = [{"cmd": "schema", "name": "y", "schema": True}] * 1023
    both = {"changes": [{**long, "doc": 0, "name": "y"}, *many], "cmd": "transaction"}
    entries = [entry(1, [long]), entry(2, [both])]
    assert len(entries[0].lines[0]) == MOST_TEXT

    async def run():
        agreed = (await agreed_on(program, file))._replace(capacity=4_000_000, version="v" * MOST_VERSION)
        store = await ReplicaStore.open(file, program)
        try:
            applier = Applier(store, agreed, None, begin_of(agreed), agreed.version)
            waiting = deque(entries)
            while waiting:
                await applier.apply(waiting)
            return applier.seq
        finally:
            await store.close()
    assert asyncio.run(run()) == 1025


def test_the_longest_place_fits_a_mark():
    last = Entry((1 << 63) - 1, (1 << 63) - 1, "a" * 90, EntryKind.VERSION, "v" * MOST_VERSION, [])
    place = begin_of(Agreed("0" * 32, 1, "", "1")).after(last)
    longest = place._replace(next=LINES_OF_ENTRY)
    assert len(longest.text) == MOST_MARK_BYTES
    assert [place_in(each.text) for each in (place, longest)] == [place, longest]
    line = json.loads(marked([b'{"cmd":"delete","name":"x"}'], key_of("0" * 32), place, longest))
    assert line == {"changes": [{"cmd": "delete", "name": "x"}], "cmd": "transaction", "if_mark": place.text,
                    "mark": {"key": "log-" + "0" * 32, "value": longest.text}}


def test_the_first_place_has_no_mark():
    first = begin_of(Agreed("0" * 32, 1, "", "jpstore 1 (a, b)"))
    assert place_in(first._replace(next=3).text) == first._replace(next=3)
    assert json.loads(marked([b"{}"], "k", None, first))["if_mark"] is None


def test_a_mark_takes_no_more_than_is_reckoned(place):
    format_file(place.file, 4096, place.program, version=3)
    with place.store() as store:
        before = store.snapshot()
        store.create("x", 0)
        store.transaction([{"cmd": "delete", "name": "x"}], mark=("k" * 64, "v" * 128))
        assert store.snapshot() - before == MOST_MARK


def test_what_etcd_was_told_counts_for_as_many_changes():
    stored, later = Place(3, 30, "", -1, "", "1"), Place(5, 50, "", -1, "", "2")
    told = {"log": "0", "n": 5, "place": later.text, "r": 50, "seq": 7}
    assert furthest(stored, told, "0", 7) == later
    assert furthest(stored, told, "0", 8) == furthest(stored, told, "1", 7) == furthest(stored, {}, "0", 7) == stored
    assert furthest(later, {**told, "place": stored.text}, "0", 7) == later


def test_an_entry_for_another_version_is_not_judged(program, tmp_path):
    file = str(tmp_path / "store")

    async def run(version, entries):
        agreed = await agreed_on(program, file)
        store = await ReplicaStore.open(file, program)
        try:
            applier = Applier(store, agreed, None, begin_of(agreed), version)
            waiting = deque(entries)
            while waiting:
                await applier.apply(waiting)
            return applier.place.version
        finally:
            await store.close()
    refused = entry(1, [{"cmd": "delete", "name": "x"}])
    newer = entry(2, [], EntryKind.VERSION, "2")
    format_file(file, 500, program, version=3)
    assert asyncio.run(run("1", [refused])) == "1"
    for version, entries in (("2", [refused]), ("1", [refused, newer])):
        with pytest.raises(OtherVersion):
            asyncio.run(run(version, entries))
    assert asyncio.run(run("2", [newer._replace(n=1), refused._replace(n=2)])) == "2"


# Its patterns are larger than the program takes for those of a schema.
HEAVY = {"properties": {"a": {"pattern": r"^\w{1,255}$"}}}


def creation(name, schema=True):
    return {"cmd": "create", "doc": 0, "name": name, "schema": schema}


async def applied(program, file, entries, together, store_of=lambda store: store):
    """What the lines of entries are answered, if so many entries wait at once; and the names at the end."""
    format_file(file, 1000, program, version=3)
    agreed = (await agreed_on(program, file))._replace(capacity=100_000)
    store = await ReplicaStore.open(file, program)
    try:
        applier, waiting, answers = Applier(store_of(store), agreed, None, begin_of(agreed), "1"), deque(entries), []
        while waiting:
            some = deque(waiting.popleft() for _ in range(min(together, len(waiting))))
            while some:
                answers += [json.loads(reply) for done in await applier.apply(some) for reply in done.answers]
        return answers, [name for name, _ in await store.revisions()]
    finally:
        await store.close()


@pytest.mark.parametrize("together", (1, 2, 9))
def test_a_schema_that_is_too_large_is_refused_for_its_line_alone(program, tmp_path, together):
    both = {"changes": [creation("e"), {"cmd": "schema", "name": "a", "schema": HEAVY}], "cmd": "transaction"}
    entries = [entry(1, [creation("a")]), entry(2, [creation("b", HEAVY)]), entry(3, [creation("a")]),
               entry(4, [creation("c"), creation("a"), both, creation("d", {"pattern": "^d$"}), creation("f", HEAVY)]),
               entry(5, [creation("g")])]
    answers, names = asyncio.run(applied(program, str(tmp_path / "store"), entries, together))
    assert [answer.get("number") for answer in answers] == [None, 44, 20, None, 20, 44, None, 44, None]
    assert names == ["a", "c", "d", "g"] and answers[-1]["seq"] == 4


class Lacking:
    """A store whose machine has no memory for any line."""

    def __init__(self, store):
        self._store = store

    def __getattr__(self, name):
        return getattr(self._store, name)

    async def ask(self, lines):
        """No reply but that there is no memory."""
        return [NO_MEMORY for _ in lines]

    change = ask


@pytest.mark.parametrize("schema", (True, {"pattern": "^a$"}))
def test_no_memory_is_no_answer_of_the_log(program, tmp_path, schema):
    with pytest.raises(Faulty):
        asyncio.run(applied(program, str(tmp_path / "store"), [entry(1, [creation("a"), creation("b", schema)])], 1,
                            Lacking))


@pytest.mark.parametrize("together", (1, 2, 9))
def test_an_entry_that_is_too_much_only_as_a_whole_is_done_line_by_line(program, tmp_path, together):
    entries = [entry(1, [creation(name) for name in "abc"]), entry(2, [creation("d")]),
               entry(3, [creation(name) for name in "aebfc"])]
    answers, names = asyncio.run(applied(program, str(tmp_path / "store"), entries, together, Short))
    assert [answer.get("seq", answer.get("number")) for answer in answers] == [1, 2, 3, 4, 20, 5, 20, 6, 20]
    assert names == list("abcdef")


def test_the_mark_takes_what_is_reckoned_for_it(place):
    marks = [Place(3, 30, "0" * 10, -1, "0" * 16, 'jpstore "1"'), Place(4, 99, "0" * 10, 256, "0" * 16, "1 \\ 2")]
    format_file(place.file, 4096, place.program, version=3)
    with place.store() as store:
        store.create("x", 0)
        bare = store.snapshot()
        for mark in marks:
            store.transaction([{"cmd": "patch", "name": "x", "ops": []}], mark=("log-" + "0" * 32, mark.text))
            assert store.snapshot() - bare == length_of_mark("log-" + "0" * 32, mark)
    assert length_of_mark("log", None) == 0


def test_lines_that_may_need_much_memory_are_tried_and_change_nothing(program, tmp_path):
    copy = {"cmd": "patch", "name": "a", "ops": [{"op": "copy", "from": "", "path": ""}]}
    long = {**creation("b"), "doc": "x" * 200_000}
    changes = [creation("b", {"pattern": "^a$"}), copy, long, {"changes": [creation("b"), copy], "cmd": "transaction"}]
    texts = entry(1, changes).lines
    most = {"changes": [copy] * 1024, "cmd": "transaction"}
    assert all(map(is_tried, texts)) and not any(map(is_tried, entry(1, [creation("b"), creation("c")]).lines))
    file = str(tmp_path / "store")
    format_file(file, 4096, program, version=3)

    async def run():
        store = await ReplicaStore.open(file, program)
        try:
            await store.ask([entry(1, [creation("a")]).lines[0]])
            tried = [*texts, *entry(1, [most]).lines]
            assert not any([await lacks_memory(text, store) for text in tried])
            assert all([await lacks_memory(text, Lacking(store)) for text in tried])
            return store.status["seq"], await store.revisions()
        finally:
            await store.close()
    assert asyncio.run(run()) == (1, [("a", 1)])
