"""One document as it is now and after each change of it."""
import asyncio
import threading
from unittest import mock

import pytest
from jpstore import AsyncStore, JpstoreError, Latest, Store, create, delete, patch
from jpstore.wire import requests
from serving import RealHub
from support import raised, until


def _set(value):
    return [{"op": "replace", "path": "/a", "value": value}]


def test_a_document_is_followed(place):
    place.format()
    with RealHub(place) as hub, Store.connect(hub.path) as store:
        values = store.follow("d")
        assert next(values) is None
        store.create("e", {"a": 0})
        store.create("d", {"a": 1})
        assert next(values) == Latest(2, {"a": 1})
        store.patch("e", _set(5))
        # Of several changes at once the last is seen, and a change of another document is not.
        store.transaction([patch("d", _set(2)), patch("e", _set(6)), patch("d", _set(3))])
        assert next(values) == Latest(6, {"a": 3})
        store.transaction([delete("d"), create("d", {"a": 4})])
        assert next(values) == Latest(8, {"a": 4})
        store.delete("d")
        assert next(values) is None
        values.close()


def test_the_value_at_a_place_is_followed(place):
    place.format()
    with RealHub(place) as hub, Store.connect(hub.path) as store:
        store.create("d", {"a": 1, "b": 1})
        values = store.follow("d", "/a")
        assert next(values) == Latest(1, 1)
        store.patch("d", [{"op": "remove", "path": "/a"}])
        assert next(values) is None
        values.close()


@pytest.mark.parametrize("version", [2, 3])
def test_following_goes_on_after_a_restart_and_over_another_store(place, version):
    place.format(version=version)
    hub = RealHub(place)
    with Store.connect(hub.path, wait=20) as store:
        store.create("d", {"a": 1})
        values = store.follow("d")
        assert next(values) == Latest(1, {"a": 1})
        hub.kill()
        seen = []
        reading = threading.Thread(target=lambda: seen.append(next(values)))
        reading.start()
        with RealHub(place) as hub, Store.connect(hub.path) as other:
            other.patch("d", _set(2))
            reading.join()
            assert seen == [Latest(2, {"a": 2})]
            hub.kill()
            # A store of another history takes its place, whose numbers are smaller.
            place.file = place.path("another")
            place.format(version=version)
        with place.store() as other:
            other.create("d", {"a": 9})
        with RealHub(place):
            assert next(values) == Latest(1, {"a": 9})
        values.close()


def test_what_changes_while_it_is_read_is_read_again(place):
    place.format()
    with RealHub(place) as hub, Store.connect(hub.path) as store:
        store.create("d", {"a": 1})
        asked = []

        def twice(request):
            asked.append(request)
            answer = Store._do(store, request)
            return (0, *answer[1:]) if len(asked) == 1 else answer
        with mock.patch.object(store, "_do", twice):
            values = store.follow("d")
            assert next(values) == Latest(1, {"a": 1})
        assert [request.commands for request in asked] == [requests.rev_and_value("d", "").commands] * 2
        values.close()


def test_a_with_block_ends_it(place):
    """As that of a watch, also if nothing was asked of it yet."""
    place.format()
    with RealHub(place) as hub, Store.connect(hub.path) as store:
        store.create("d", {"a": 1})
        with store.follow("d", "/a") as values, store.follow("d") as unread:
            assert iter(values) is values
            for latest in values:
                assert latest == Latest(1, 1)
                break
        for ended in (values, unread):
            assert list(ended) == []


def test_a_with_block_of_asyncio_ends_it(place):
    place.format()

    async def run(path):
        async with AsyncStore.connect(path) as store:
            await store.create("d", {"a": 1})
            async with store.follow("d", "/a") as values, store.follow("d") as unread:
                async for latest in values:
                    assert latest == Latest(1, 1)
                    break
            for ended in (values, unread):
                assert [each async for each in ended] == []
    with RealHub(place) as hub:
        asyncio.run(run(hub.path))


def test_a_document_is_followed_by_asyncio(place):
    place.format()

    async def run(path):
        async with AsyncStore.connect(path) as store:
            values = store.follow("d")
            assert await values.__anext__() is None
            await store.create("d", {"a": 1})
            assert await values.__anext__() == Latest(1, {"a": 1})
            await store.patch("d", _set(2))
            assert await values.__anext__() == Latest(2, {"a": 2})
            await values.aclose()
    with RealHub(place) as hub:
        asyncio.run(run(hub.path))


@pytest.mark.parametrize("version", [2, 3])
def test_following_by_asyncio_goes_on_after_restarts(place, version):
    """What was changed meanwhile is seen, and what was not is not told again."""
    place.format(version=version)
    seen = []

    async def run(path):
        async with AsyncStore.connect(path, wait=20) as store:
            async for latest in store.follow("d"):
                seen.append(latest)
                if latest == Latest(4, {"a": 3}):
                    return
    with RealHub(place) as hub, Store.connect(hub.path) as store:
        store.create("d", {"a": 1})
        reading = threading.Thread(target=lambda: asyncio.run(run(hub.path)))
        reading.start()
        until(lambda: seen, "the first value")
    with RealHub(place) as hub, Store.connect(hub.path) as store:
        store.create("e", 1)
        store.patch("d", _set(2))
        until(lambda: len(seen) == 2, "the second value")
    with place.store(wait=20) as store:
        store.patch("d", _set(3))
    with RealHub(place):
        reading.join()
    assert seen == [Latest(1, {"a": 1}), Latest(3, {"a": 2}), Latest(4, {"a": 3})]


def test_only_a_hub_can_be_followed(place):
    with place.made() as store:
        assert "hub" in str(raised(JpstoreError, store.follow, "d"))
    assert "hub" in str(raised(JpstoreError, AsyncStore(place.file, program=place.program).follow, "d"))
