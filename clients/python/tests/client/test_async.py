"""The client for asyncio: the same calls and the same rules."""
import asyncio
import gc
import inspect
import os
import random
import shutil
import signal

import pytest
from jpstore import (
    AccessError, AsyncStore, Conflict, Ended, Invalid, JpstoreError, Node, NotFound, Outdated, Store, TimedOut,
    TooLarge, Unsendable, create, patch, set_schema,
)
from serving import FakeHub, RealHub
from support import GROUPING, PATIENCE, SILENCE, Place, raised

COUNTS = {"additionalProperties": {"minimum": 0, "type": "integer"}}
BELOW = {"op": "replace", "path": "/bolts", "value": -1}


async def caught(kind, call):
    """The exception of this class that the call raises."""
    with pytest.raises(kind) as error:
        await call
    return error.value


def test_it_has_the_calls_of_the_other():
    def calls(kind):
        return {name: [parameter for parameter in inspect.signature(call).parameters]
                for name, call in inspect.getmembers(kind, inspect.isroutine) if not name.startswith("_")}
    both, other = calls(AsyncStore), calls(Store)
    assert both.pop("open") == ["self"]
    assert both == {name: parameters for name, parameters in other.items() if name in both}
    assert set(other) - set(both) == {"in_memory"}


async def each_call(store):
    assert await store.create("shelf", {"bolts": 40}, COUNTS) == 1
    assert await store.patch("shelf", [{"op": "add", "path": "/nuts", "value": 1}], if_rev=1) == 2
    assert await store.merge_patch("shelf", {"nuts": None, "pins": 5}) == 3

    def one_less(shelf):
        return [{"op": "replace", "path": "/bolts", "value": shelf["bolts"] - 1}]
    assert await store.update("shelf", one_less) == 4
    assert (await store.get("shelf"), await store.get("shelf", "/pins")) == ({"bolts": 39, "pins": 5}, 5)
    assert (await store.rev("shelf"), await store.schema("shelf")) == (4, COUNTS)
    assert await store.query("shelf", "$.bolts") == [Node("$['bolts']", 39)]
    assert await store.set_schema("shelf", True) == 5
    assert await store.group([create("a", 1), create("b", 2)]) == [6, 7]
    assert await store.names() == await store.list() == ["shelf", "a", "b"]
    assert await store.delete("a") == 8
    assert await store.texts("b") == (b"2", b"true")
    assert (await store.snapshot(), (await store.pump(5)).copy) == ((await store.status()).used, "switched")


def test_each_call_answers_over_a_program(place):
    async def run():
        async with AsyncStore(place.format(), program=place.program) as store:
            assert store.pid
            await each_call(store)
        assert store.closed
        assert str(await caught(JpstoreError, store.names())) == "the store is closed"
    asyncio.run(run())


def test_each_call_answers_over_a_hub(place):
    async def run(path):
        async with AsyncStore.connect(path) as store:
            await each_call(store)
    place.format()
    with RealHub(place) as hub:
        asyncio.run(run(hub.path))


def test_refusals_are_raised(place):
    async def run():
        async with AsyncStore(place.format(), program=place.program) as store:
            await store.create("shelf", {"bolts": 40}, COUNTS)
            assert str(await caught(Conflict, store.create("shelf", 1))).startswith("create shelf: 20 exists")
            await caught(NotFound, store.get("other"))
            await caught(Unsendable, store.create("d", 1.5))
            assert (await caught(Outdated, store.patch("shelf", [], 9))).rev == 1
            refused = await caught(Invalid, store.group([create("a", 1), patch("shelf", [BELOW])]))
            assert refused.outcomes == [2, refused]
            assert (await store.group([create("a", 1)], check=False))[0].number == 20
            assert await store.group([]) == []
    asyncio.run(run())


@pytest.mark.parametrize("version", [2, 3])
@pytest.mark.parametrize("over", ["program", "gathering program", "hub"])
def test_a_transaction_over_its_limit_is_refused_alone(place, over, version):
    """The calls go out together. The document has 1,000,000 bytes, of which 33 are within 32 MiB."""
    async def run(opened):
        async with opened as store:
            await store.create("d", "x" * 999_998)
            touch = set_schema("d", True)
            calls = [store.patch("d", []), store.transaction([touch] * 34), store.create("e", 1),
                     store.transaction([touch] * 33), store.transaction([touch] * 34), store.get("e")]
            found = await asyncio.gather(*calls, return_exceptions=True)
            assert [type(each) for each in found] == [int, TooLarge, int, int, TooLarge, int]
            assert [each if type(each) is int else (each.number, each.change) for each in found] == \
                [2, (65, None), 3, 36, (65, None), 1]
            assert (await store.rev("d"), await store.names()) == (36, ["d", "e"])
    place.format(5000, version=version)
    if over == "hub":
        with RealHub(place) as hub:
            asyncio.run(run(AsyncStore.connect(hub.path)))
    else:
        asyncio.run(run(AsyncStore(place.file, program=place.program, batch=64 if "gathering" in over else 1)))


def test_invalid_documents_are_explained(place):
    pytest.importorskip("jsonschema")
    pytest.importorskip("jsonpatch")

    async def run():
        async with AsyncStore(place.format(), program=place.program) as store:
            await store.create("shelf", {"bolts": 40}, COUNTS)
            for call in (store.patch("shelf", [BELOW]), store.group([create("a", 1), patch("shelf", [BELOW])])):
                refused = await caught(Invalid, call)
                assert [(fault.place, fault.keyword) for fault in refused.why()] == [
                    ("/bolts", "/additionalProperties/minimum")]
    asyncio.run(run())


def test_many_tasks_use_one_store(place):
    async def run():
        async with AsyncStore(place.format(), program=place.program) as store:
            await store.create("d", {"n": 0})

            async def count():
                for _ in range(10):
                    await store.update("d", lambda value: [{"op": "replace", "path": "/n", "value": value["n"] + 1}])
            await asyncio.gather(*(count() for _ in range(5)))
            assert await store.get("d", "/n") == 50
    asyncio.run(run())


def test_a_group_is_longer_than_all_pipes(place):
    async def run():
        async with AsyncStore(place.format(), program=place.program) as store:
            await store.create("d", 1)
            refusals = await store.group([create("d", "x" * 1000) for _ in range(3000)], check=False)
            assert {refused.number for refused in refusals} == {20}
            long = [patch("d", [{"op": "replace", "path": "", "value": n, "note": "y" * 200}]) for n in range(600)]
            assert await store.group(long) == list(range(2, 602))
    asyncio.run(run())


def test_a_program_that_groups_changes_is_never_waited_for_in_vain(place):
    os.environ["GROUPED"] = place.program

    async def run(file):
        async with AsyncStore(file, program=GROUPING, batch=64) as store:
            assert [await store.create("d", 1), await store.create("e", 2)] == [1, 2]
    asyncio.run(run(Place(place.program, place.folder).format()))


def test_the_end_of_the_program_is_told(place):
    async def run():
        async with AsyncStore(place.format(), program=place.program) as store:
            os.kill(store.pid, signal.SIGKILL)
            ended = await caught(Ended, store.create("d", 1))
            assert (ended.status, store.closed) == (-signal.SIGKILL, True)
        other = AsyncStore(place.path("nowhere"), program=place.program)
        assert (await caught(Ended, other.open())).name == "file"
        await caught(JpstoreError, other.names())
        await caught(AccessError, AsyncStore.connect(place.path("nowhere")).open())
    asyncio.run(run())


def test_a_file_in_use_may_be_waited_for(place):
    async def run():
        first = await AsyncStore(place.format(), program=place.program).open()
        assert (await caught(Ended, AsyncStore(place.file, program=place.program).open())).name == "in-use"

        async def close_soon():
            await asyncio.sleep(0.3)
            await first.close()
        closing = asyncio.ensure_future(close_soon())
        async with AsyncStore(place.file, program=place.program, wait=30) as store:
            assert (await store.status()).opens == 2
        await closing
    asyncio.run(run())


def test_a_question_is_asked_once_more_and_a_change_is_not(place):
    async def run():
        with FakeHub(place.path("fake"), None, {"ok": True, "names": ["a"]}, None) as hub:
            async with AsyncStore.connect(hub.path) as store:
                assert await store.names() == ["a"]
                lost = await caught(Ended, store.create("d", 1))
                assert (lost.change["name"], hub.lines[2:]) == ("d", [lost.change])
                assert (await store.create("e", 1), store.closed) == (4, False)
    asyncio.run(run())


# The second is more than the socket of the hub takes.
@pytest.mark.parametrize("length", [1, 1_000_000])
def test_a_hub_that_hangs_is_given_up(place, length):
    async def run(hub):
        async with AsyncStore.connect(hub.path, timeout=SILENCE) as store:
            os.kill(hub.process.pid, signal.SIGSTOP)
            late = await caught(TimedOut, asyncio.wait_for(store.create("d", "x" * length), PATIENCE))
            assert late.change["name"] == "d"
            os.kill(hub.process.pid, signal.SIGCONT)
            await store.names()
    place.format()
    with RealHub(place) as hub:
        asyncio.run(run(hub))


def test_closing_waits_for_the_calls_under_way(place):
    async def run():
        store = await AsyncStore(place.format(), program=place.program).open()
        creating = [asyncio.ensure_future(store.create(f"n{number}", number)) for number in range(5)]
        await asyncio.sleep(0)
        await store.close()
        done = await asyncio.gather(*creating, return_exceptions=True)
        assert done[0] == 1
        assert all(isinstance(outcome, (int, JpstoreError)) for outcome in done)
    asyncio.run(run())


def test_a_call_that_is_cancelled_closes_nothing(place):
    async def run():
        async with AsyncStore(place.format(), program=place.program) as store:
            os.kill(store.pid, signal.SIGSTOP)
            with pytest.raises(asyncio.TimeoutError):
                await asyncio.wait_for(store.create("a", 1), 0.3)
            held = asyncio.ensure_future(store.create("b", 2))
            await asyncio.sleep(0)
            os.kill(store.pid, signal.SIGCONT)
            # The change that was sent is made, and its reply is taken for no other's.
            assert (await held, await store.names(), store.closed) == (2, ["a", "b"], False)
    asyncio.run(run())


def test_a_call_that_is_cancelled_before_it_was_sent_is_not_done(place):
    async def run():
        async with AsyncStore(place.format(), program=place.program, batch=8) as store:
            os.kill(store.pid, signal.SIGSTOP)
            first = asyncio.ensure_future(store.create("a", 1))
            await asyncio.sleep(0.1)
            # The changes that come together wait for those before them.
            later = [asyncio.ensure_future(store.create(name, 1)) for name in "bcd"]
            await asyncio.sleep(0.1)
            later[1].cancel()
            os.kill(store.pid, signal.SIGCONT)
            done = await asyncio.gather(first, *later, return_exceptions=True)
            assert (done[:2], type(done[2]), done[3]) == ([1, 2], asyncio.CancelledError, 3)
            assert await store.names() == ["a", "b", "d"]
    asyncio.run(run())


def test_calls_are_cancelled_at_any_moment(place):
    async def run():
        async with AsyncStore(place.format(), program=place.program, batch=16) as store:
            await store.group([create(f"d{number}", number) for number in range(8)])

            async def ask(number):
                for turn in range(60):
                    try:
                        found = await asyncio.wait_for(store.get(f"d{number}"), random.choice([0, 0.0005, 0.002, 1]))
                        assert found == number
                        await asyncio.wait_for(store.create(f"n{number}-{turn}", turn), random.choice([0.0005, 0.002]))
                    except asyncio.TimeoutError:
                        pass
            await asyncio.gather(*(ask(number) for number in range(8)))
            names = await store.names()
            assert len(names) == len(set(names)) == (await store.status()).seq
    asyncio.run(run())


def test_calls_at_the_same_time_share_a_sync(place):
    if shutil.which("strace") is None:
        pytest.skip("strace is not there")
    traced = place.script("traced", f"exec strace -f -o {place.path('calls')} -e trace=fsync,fdatasync "
                                    f"'{place.program}' \"$@\"")

    async def run():
        async with AsyncStore(place.file, program=traced) as store:
            return await asyncio.gather(*(store.create(f"n{number}", number) for number in range(320)))

    def group():
        with Store(place.file, program=traced) as store:
            return store.group([create(f"n{number}", number) for number in range(320)])
    # Without an option: each of them takes a file of its own.
    for made in (lambda: asyncio.run(run()), group):
        place.format()
        assert made() == list(range(1, 321))
        os.unlink(place.file)
        with open(place.path("calls"), encoding="utf-8") as calls:
            syncs = sum("sync(" in line for line in calls)
        assert 0 < syncs <= 30


def test_a_question_is_sent_beside_changes_and_further_changes_wait(place):
    async def run():
        async with AsyncStore(place.format(), program=place.program) as store:
            os.kill(store.pid, signal.SIGSTOP)
            calls = [asyncio.ensure_future(store.create("a", 1))]
            await asyncio.sleep(0.1)
            calls.append(asyncio.ensure_future(store.names()))
            await asyncio.sleep(0.1)
            assert not store._session._waiting
            calls.append(asyncio.ensure_future(store.create("b", 1)))
            await asyncio.sleep(0.1)
            assert len(store._session._waiting) == 1
            os.kill(store.pid, signal.SIGCONT)
            assert await asyncio.gather(*calls) == [1, ["a"], 2]
    asyncio.run(run())


def test_calls_at_the_same_time_go_out_together(place):
    async def run(hub):
        async with AsyncStore.connect(hub.path) as store:
            assert await asyncio.gather(*(store.create(f"n{number}", number) for number in range(9))) == [*range(1, 10)]
            assert [line["name"] for line in hub.lines] == [f"n{number}" for number in range(9)]
    with FakeHub(place.path("fake")) as hub:
        asyncio.run(run(hub))


def test_each_call_is_told_what_may_have_been_made(place):
    async def run(hub):
        async with AsyncStore.connect(hub.path) as store:
            calls = [store.create("a", 1), store.create("b", 1), store.names(), store.delete("c")]
            made, *lost = await asyncio.gather(*calls, return_exceptions=True)
            assert made == 1
            assert [getattr(error, "change", None) and error.change["name"] for error in lost] == ["b", None, "c"]
            # The question was asked once more.
            assert lost[1] == ["z"]
            assert [line["cmd"] for line in hub.lines] == ["create", "create", "list"]
    answers = {"ok": True, "seq": 1}, None, {"ok": True, "names": ["z"]}
    with FakeHub(place.path("fake"), *answers) as hub:
        asyncio.run(run(hub))


def test_what_was_not_sent_when_the_program_ended_is_told_so(place):
    async def run():
        async with AsyncStore(place.format(), program=place.program, batch=8) as store:
            os.kill(store.pid, signal.SIGSTOP)
            first = asyncio.ensure_future(store.create("a", 1))
            await asyncio.sleep(0.1)
            second = asyncio.ensure_future(store.create("b", 1))
            await asyncio.sleep(0.1)
            os.kill(store.pid, signal.SIGKILL)
            sent, unsent = await asyncio.gather(first, second, return_exceptions=True)
            assert (sent.status, sent.change["name"]) == (unsent.status, "a") == (-signal.SIGKILL, "a")
            assert unsent.change is None
            assert str(await caught(JpstoreError, store.names())) == "the store is closed"
    asyncio.run(run())


def test_many_calls_time_out_together(place):
    async def run():
        async with AsyncStore(place.format(), program=place.program, timeout=SILENCE) as store:
            os.kill(store.pid, signal.SIGSTOP)
            calls = [store.create(f"n{number}", number) for number in range(20)] + [store.names()]
            late = await asyncio.gather(*calls, return_exceptions=True)
            assert {type(error) for error in late} == {TimedOut}
            assert [error.change and error.change["name"] for error in late] == [f"n{n}" for n in range(20)] + [None]
    asyncio.run(run())


def test_a_program_that_ends_while_nobody_calls_is_told_to_the_next(place):
    async def run():
        async with AsyncStore(place.format(), program=place.program) as store:
            os.kill(store.pid, signal.SIGKILL)
            while not store.closed:
                await asyncio.sleep(0.01)
            assert (await caught(Ended, store.names())).status == -signal.SIGKILL
            assert str(await caught(JpstoreError, store.names())) == "the store is closed"
    asyncio.run(run())


def test_a_store_that_is_dropped_gives_its_file_back(place):
    async def run():
        store = await AsyncStore(place.file, program=place.program).open()
        pid = store.pid
        with pytest.warns(ResourceWarning, match="dropped without `close`"):
            del store
            gc.collect()
        async with AsyncStore(place.file, program=place.program) as store:
            assert store.pid != pid
    place.format()
    asyncio.run(run())


def test_another_event_loop_is_told(place):
    store = AsyncStore(place.format(), program=place.program)
    asyncio.run(store.open())
    assert "another event loop" in str(raised(JpstoreError, asyncio.run, store.names()))
    with pytest.warns(ResourceWarning):
        del store
        gc.collect()
    place.store().close()
