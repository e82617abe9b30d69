"""The changes of one document, or of those whose names have one begin: the events of the whole feed, and no others."""
import contextlib
import json
import time

import pytest
from gateways import Events, Gateway
from hubs import Hub


@pytest.fixture(params=["own", "other"])
def gateway(request, place):
    """A gateway over a file, and one over the hub of a file."""
    place.format()
    with contextlib.ExitStack() as stack:
        hub = stack.enter_context(Hub(place)) if request.param == "other" else None
        yield stack.enter_context(Gateway(place, store=hub and hub.path))


def raw_events(gateway, path, count, **headers):
    """The first events with data of a stream, as bytes, with their identifiers."""
    found = []
    fields = "".join(f"{name.replace('_', '-')}: {value}\r\n" for name, value in headers.items())
    with gateway.raw() as client, client.makefile("rb") as stream:
        client.sendall(f"GET {path} HTTP/1.0\r\nHost: localhost\r\n{fields}\r\n".encode())
        assert stream.readline().split()[1] == b"200"
        while stream.readline() != b"\r\n":
            pass
        while len(found) < count:
            event = b"".join(iter(stream.readline, b"\n"))
            if b"data: " in event:
                found.append(event)
    return found


def test_a_feed_has_the_events_of_the_whole_one(gateway):
    names = ["a", "b", "ab", "a", "b", "ab"]
    for number, name in enumerate(names):
        gateway.put(f"/documents/{name}", {"name": "b", "text": '","name":"b', "n": number})
    changes = [{"cmd": "delete", "name": "b"}, {"cmd": "schema", "name": "a", "schema": {"title": '"name":"b"'}}]
    assert gateway.ask("POST", "/transactions", {"changes": changes}).status == 200
    names += ["b", "a"]
    whole = raw_events(gateway, "/changes?from=0", len(names))
    for asked, wanted in (("name=a", ["a"]), ("name=b", ["b"]), ("prefix=a", ["a", "ab"]), ("prefix=ab", ["ab"]),
                          ("prefix=", ["a", "b", "ab"])):
        events = [event for event, name in zip(whole, names) if name in wanted]
        assert raw_events(gateway, f"/changes?from=0&{asked}", len(events)) == events
        again = events[0].split(b"\n", 1)[0][4:].decode()
        assert raw_events(gateway, f"/changes?from=0&{asked}", len(events) - 1, Last_Event_ID=again) == events[1:]


def test_a_feed_goes_on_with_changes_that_are_made(gateway):
    with Events(gateway, "/changes?name=d") as events:
        for number in range(3):
            gateway.put("/documents/other", number)
            gateway.put("/documents/d", number)
        for number, seq in enumerate((2, 4, 6)):
            _, data, last = events.next()
            told = json.loads(data)
            assert (told["seq"], last) == (seq, str(seq))
            assert number in (told["change"].get("doc"), told["change"].get("ops", [{}])[0].get("value"))


def test_the_number_of_other_changes_is_told(gateway):
    """Else a client that comes again would ask for changes that aren't kept any more."""
    with contextlib.closing(gateway.connection()) as connection:
        connection.request("GET", "/changes?name=d")
        response = connection.getresponse()
        begin = time.monotonic()
        gateway.put("/documents/other", 0)
        lines = iter(lambda: response.readline(), b"")
        assert any(line.startswith(b"id: 1-") for line in lines)
        assert not response.readline().strip() and time.monotonic() - begin < 10


def test_a_reader_comes_again_after_many_other_changes(place):
    """While so many other changes are made that older ones are not kept, the number of its feed goes on."""
    place.format(65536)
    with Gateway(place) as gateway, gateway.raw() as client, client.makefile("rb") as stream:
        client.sendall(b"GET /changes?prefix=d HTTP/1.0\r\nHost: localhost\r\n\r\n")
        gateway.put("/documents/d", 1)
        for _ in range(20):
            gateway.put("/documents/other", "x" * 1_000_000)
        numbers = (line[4:].strip().decode() for line in iter(stream.readline, b"") if line.startswith(b"id: "))
        first = next(number for number in numbers if number.startswith("1-"))
        assert gateway.get("/changes?prefix=d", Last_Event_ID=first).status == 410
        last = next(number for number in numbers if number.startswith("21-"))
        gateway.put("/documents/d", 2)
        assert b'"seq":22' in raw_events(gateway, "/changes?prefix=d", 1, Last_Event_ID=last)[0]


@pytest.mark.parametrize("version", [2, 3])
def test_a_reader_comes_again_after_a_restart(place, version):
    """By each identifier that it got, the first of which came before any change."""
    place.format(version=version)
    with Gateway(place) as gateway, gateway.raw() as client, client.makefile("rb") as stream:
        client.sendall(b"GET /changes?prefix=d HTTP/1.0\r\nHost: localhost\r\n\r\n")
        identifiers = (line[4:].strip().decode() for line in iter(stream.readline, b"") if line.startswith(b"id: "))
        found = [next(identifiers)]
        for number in range(3):
            gateway.put("/documents/d", number)
        found += [next(identifiers) for _ in range(3)]
    with Gateway(place, "--wait", "30") as gateway:
        answers = [gateway.get("/changes?prefix=d", Last_Event_ID=each).status for each in found if version == 2]
        assert answers == ([410] * 4 if version == 2 else [])
        if version == 3:
            gateway.put("/documents/d", 3)
            numbers = [[event.partition(b"-")[0] for event in raw_events(gateway, "/changes?prefix=d", count,
                                                                         Last_Event_ID=each)]
                       for count, each in zip((4, 3, 2, 1), found)]
            assert numbers == [[b"id: %d" % number for number in range(begin, 5)] for begin in range(1, 5)]


@pytest.mark.parametrize("query, status, name", [
    ("name=a&prefix=a", 400, "parameter"), ("name=", 400, "name"), ("name=a/b", 400, "name"),
    ("name=%C3%A4", 400, "name"),
    ("name=" + "a" * 65, 400, "name"), ("names=a", 400, "parameter"), ("name=a&name=b", 400, "parameter"),
    ("name=d&from=9", 410, "gone")])
def test_what_no_feed_is_is_told(gateway, query, status, name):
    answer = gateway.get("/changes?" + query)
    assert (answer.status, answer.json()["name"]) == (status, name)
