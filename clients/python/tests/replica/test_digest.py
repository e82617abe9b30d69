"""The digest by which nodes are compared: it is that of one moment, though it is read in pieces between changes."""
import asyncio
import json
import random
from collections import deque

import pytest
from jpstore.replica.applying import Applier
from jpstore.replica.comparing import Comparing, alike, is_outvoted, unlike
from jpstore.replica.digest import MOST_TOGETHER, Digest, Digesting
from jpstore.replica.log import Agreed, EntryKind
from jpstore.replica.place import begin_of
from jpstore.replica.store import ReplicaStore
from jpstore.wire.program import format_file
from support import PATIENCE
from test_applying import command, entry


async def nothing():
    pass


def lines(*commands):
    return [json.dumps(each).encode() + b"\n" for each in commands]


def create(name, doc=0, schema=True):
    return {"cmd": "create", "doc": doc, "name": name, "schema": schema}


def put(name, value):
    return {"cmd": "patch", "name": name, "ops": [{"op": "replace", "path": "", "value": value}]}


class Recording:
    """A store that notes how many lines and bytes were exchanged at once, and may have no memory for one."""

    def __init__(self, store):
        self._store, self.lines, self.bytes, self.without_memory = store, [], [], None

    async def exchange(self, given):
        replies = await self._store.exchange(given)
        self.lines.append(len(given))
        self.bytes.append(sum(map(len, replies)))
        return [b'{"error":"memory","number":63,"ok":false}\n' if line == self.without_memory else reply
                for line, reply in zip(given, replies)]


def over_stores(program, folder, do, count=1):
    """What is done with new stores."""
    async def run():
        stores = []
        try:
            for number in range(count):
                format_file(f"{folder}/{number}", 20_000, program, version=3)
                stores.append(await ReplicaStore.open(f"{folder}/{number}", program))
            return await do(*stores)
        finally:
            for store in stores:
                await store.close()
    return asyncio.run(run())


async def read(digesting):
    """The digest that was begun, read to its end."""
    while True:
        digest = await digesting.read()
        if digest is not None:
            return digest.text


async def whole(store, seq=0, chain=""):
    """The digest of a store, all of it read now."""
    digesting = Digesting(store)
    await digesting.begin(1, seq, chain)
    return await read(digesting)


@pytest.mark.parametrize("seed", range(3))
def test_a_digest_is_that_of_its_entry_though_changes_go_on(program, tmp_path, seed):
    choose, compared = random.Random(seed), []
    entries = []
    for n in range(1, 120):
        kind = EntryKind.COMPARE if choose.random() < 0.15 else EntryKind.LINES
        count = 0 if kind is EntryKind.COMPARE else choose.choice((1, 2, 8))
        entries.append(entry(n, [command(choose) for _ in range(count)], kind))

    async def run(store):
        await store.change(lines(*[create(f"d{number}", "x" * number) for number in range(150)]))
        agreed = Agreed("0" * 32, 4_000_000, "", "1")
        applier, digesting = Applier(store, agreed, None, begin_of(agreed), "1"), Digesting(store)
        applier.before = lambda names: digesting.before(names, nothing)
        wanted, waiting = {}, deque(entries)
        while waiting or digesting.is_reading:
            few = deque(waiting.popleft() for _ in range(min(len(waiting), choose.choice((1, 1, 4)))))
            while few:
                for done in await applier.apply(few):
                    # As at a node: the group ends with such an entry.
                    if done.entry.kind is EntryKind.COMPARE:
                        assert done.entry.n == applier.place.n
                        await digesting.begin(done.entry.n, applier.seq, applier.place.chain)
                        wanted[done.entry.n] = await whole(store, applier.seq, applier.place.chain)
            for _ in range(choose.choice((0, 1, 1, 3))):
                digest = await digesting.read() if digesting.is_reading else None
                if digest is not None:
                    compared.append(digest.n)
                    assert digest.text == wanted[digest.n], (digest.n, compared)
    over_stores(program, tmp_path, run)
    assert len(compared) > 3, compared


def test_stores_that_differ_in_anything_have_other_digests(program, tmp_path):
    ways = [
        [create("a", 1), create("b", 2)], [create("b", 2), create("a", 1)], [create("a", 1), create("b", 3)],
        [create("a", 1), create("b", 2, {})], [create("a", 1), create("b", 3), put("b", 2)], [create("a", 1)],
        [create("a", 1), create("c", 2)], [],
    ]

    async def run(*stores):
        digests = []
        for store, commands in zip(stores, ways):
            if commands:
                await store.change(lines(*commands))
            digests.append(await whole(store))
        digests += [await whole(stores[0], 1), await whole(stores[0], 0, "c")]
        same = await whole(stores[0])
        return digests, same
    digests, same = over_stores(program, tmp_path, run, len(ways))
    assert len(set(digests)) == len(digests) and same == digests[0], digests


def test_no_more_than_a_piece_is_read_at_once_and_later_what_was_changed(program, tmp_path):
    async def run(store):
        await store.change(lines(*[create(f"d{number}") for number in range(100)]))
        recording = Recording(store)
        digesting = Digesting(recording)
        await digesting.begin(1, 0, "")
        await read(digesting)
        assert recording.lines.pop(0) == 1
        assert sum(recording.lines) == 300 and max(recording.lines) == 3 * MOST_TOGETHER, recording.lines
        await digesting.before(["d5", "d7", "new"], nothing)
        await store.change(lines(put("d5", 1), {"cmd": "delete", "name": "d7"}, create("new")))
        recording.lines.clear()
        await digesting.begin(2, 0, "")
        assert await read(digesting) == await whole(store)
        assert sum(recording.lines) == 1 + 9, recording.lines
    over_stores(program, tmp_path, run)


def test_long_documents_are_read_one_by_one(program, tmp_path):
    async def run(store):
        for number in range(5):
            await store.change(lines(create(f"d{number}", "x" * 900_000)))
        recording = Recording(store)
        digesting = Digesting(recording)
        await digesting.begin(1, 0, "")
        await read(digesting)
        assert max(recording.bytes) < 1_000_000, recording.bytes
    over_stores(program, tmp_path, run)


def test_what_is_changed_is_read_before_and_questions_are_answered_meanwhile(program, tmp_path):
    async def run(store):
        await store.change(lines(*[create(f"d{number}") for number in range(100)]))
        wanted, calls = await whole(store), []

        async def between():
            calls.append(1)
        digesting = Digesting(store)
        await digesting.begin(1, 0, "")
        await digesting.before([f"d{number}" for number in range(100)], between)
        assert len(calls) > 100 // MOST_TOGETHER
        await store.change(lines(*[put(f"d{number}", 1) for number in range(100)]))
        assert await read(digesting) == wanted
    over_stores(program, tmp_path, run)


def test_a_digest_without_memory_is_not_made_and_the_next_one_is(program, tmp_path):
    async def run(store):
        await store.change(lines(*[create(f"d{number}") for number in range(40)]))
        recording = Recording(store)
        for without in (b'{"cmd":"list"}\n', b'{"cmd":"get","name":"d7","path":""}\n'):
            recording.without_memory = without
            digesting = Digesting(recording)
            await digesting.begin(1, 0, "")
            while digesting.is_reading:
                assert await digesting.read() is None
            await digesting.before(["d1"], nothing)
            recording.without_memory = None
            await digesting.begin(2, 0, "")
            assert await read(digesting) == await whole(store)
    over_stores(program, tmp_path, run)


def told(*digests, version=2):
    return {name: {"n": 7, "digest": digest, "version": version} for name, digest in zip("abcde", digests)}


def test_a_node_is_outvoted_by_more_than_half_alone():
    assert not any(is_outvoted(node, 7, told(*digests)) for digests in ("xxx", "xy", "xyz", "xxyy", "x", "")
                   for node in "abcde")
    assert [node for node in "abcd" if is_outvoted(node, 7, told("x", "x", "y"))] == ["c"]
    assert [node for node in "abcde" if is_outvoted(node, 7, told("y", "x", "x", "z", "x"))] == ["a", "d"]
    # The half is no majority, though no other digest has as many.
    assert not any(is_outvoted(node, 7, told("x", "x", "y", "z")) for node in "abcd")
    assert not is_outvoted("c", 8, told("x", "x", "y"))


class Fixed:
    """A log in which nodes have told digests, whatever is told more."""

    def __init__(self, found):
        self._found = found

    async def tell(self, what, node, digest):
        """What is told is taken for what is there."""

    async def told(self, what):
        return self._found

    def close(self):
        """It has no connection."""


def said_by_a(found, capsys):
    """What node a says when it compares its digest of entry 7 with what nodes have told."""
    async def run():
        over = asyncio.Event()
        Comparing("a", 0.0, lambda: Fixed(found)).compare(Digest(7, found["a"]["digest"]), over.set)
        await asyncio.wait_for(over.wait(), PATIENCE)
    asyncio.run(run())
    return capsys.readouterr().err


def test_a_node_says_which_others_differ_from_it(capsys):
    assert said_by_a(told("x", "x", "x"), capsys) == ""
    assert said_by_a(told("x", "y"), capsys) == "at entry 7 this node has other documents than b\n"


def test_a_node_that_has_told_a_later_digest_says_nothing_of_the_one_before(capsys):
    later = {**told("x", "x", "x"), "a": {"n": 9, "digest": "z", "version": 2}}
    assert said_by_a(later, capsys) == ""


def test_what_other_versions_told_is_not_compared():
    mixed = {**told("x", "x"), "c": {"n": 7, "digest": "y", "version": 1}, "d": {"n": 7, "digest": "z"}, "e": {}}
    assert alike(7, mixed) == [["a", "b"]] and not is_outvoted("c", 7, mixed) and unlike(mixed) == (7, [])


def test_nodes_that_differ_are_told():
    assert unlike({}) == unlike(told("x")) == (0, [])
    assert unlike(told("x", "x", "x")) == (7, [])
    assert unlike(told("x", "y", "y")) == (7, [["b", "c"], ["a"]])
    # The last entry counts that several have compared.
    assert unlike({**told("x", "y"), "c": {"n": 9, "digest": "x", "version": 2}}) == (7, [["a"], ["b"]])
