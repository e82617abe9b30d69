"""The hub: each client's replies in its own order, and no acknowledged change lost, whatever is killed."""
import os
import random
import signal
import stat
import subprocess
import threading

import pytest
from hubs import Hub, count_until_a_kill
from jpstore import Broken, Conflict, Ended, Store, create
from support import GROUPING, PATIENCE, raised, until

# How many kills are tried (`tests/long/kill_hubs.py` tries more), and for how many seconds clients count before one.
KILLS = 3
MOST_TIME = 0.5


def test_the_socket_is_for_its_user_alone(place):
    place.format()
    with Hub(place) as hub:
        assert stat.S_IMODE(os.stat(hub.path).st_mode) == 0o600


def test_a_hub_serves_on_if_its_streams_take_nothing(place):
    place.format()
    words = place.words("hub", place.file, "--socket", place.path("socket"))
    with open("/dev/full", "wb") as full:
        hub = subprocess.Popen(words, stdout=full, stderr=full, env=place.environment())
        try:
            with Store.connect(place.path("socket"), wait=PATIENCE) as store:
                assert store.create("d", 1) == 1
            hub.terminate()
            assert hub.wait(PATIENCE) == 0
        finally:
            hub.kill()
            hub.wait()


def test_clients_use_one_store(place):
    place.format()
    with Hub(place) as hub:
        with hub.connect() as one, hub.connect() as other:
            one.create("d", 1)
            assert (other.names(), other.pid) == (["d"], None)
            raised(Conflict, other.create, "d", 2)
            assert one.group([create("n%d" % n, n) for n in range(500)])[-1] == 501
            assert other.status().seq == 501
        place.shows("socket", given=b"cat d\n", output="1\n")
        dumped = place.run("dump", "socket").stdout
        assert len(dumped.splitlines()) == 501 + 1


def test_updates_of_several_clients_lose_none(place):
    place.format()
    with Hub(place) as hub, hub.connect() as first:
        first.create("d", {"n": 0})

        def count():
            with hub.connect() as store:
                for _ in range(25):
                    store.update("d", lambda value: [{"op": "replace", "path": "/n", "value": value["n"] + 1}])
        threads = [threading.Thread(target=count, daemon=True) for _ in range(4)]
        for thread in threads:
            thread.start()
        for thread in threads:
            thread.join()
        assert (first.get("d"), first.status().seq, first.rev("d")) == ({"n": 100}, 101, 101)


def test_replies_come_in_the_order_of_the_lines(place):
    place.format()
    lines, wanted = [], []
    for number in range(1, 301):
        lines.append(b'{"cmd":"get","name":"n%d","path":""}' % number)
        wanted.append(b'{"error":"no-document","number":21,"ok":false}')
        lines.append(b'{"cmd":"create","doc":%d,"name":"n%d","schema":true}' % (number, number))
        wanted.append(b'{"ok":true,"seq":%d}' % number)
        lines.append(b'{"cmd":"get","name":"n%d","path":""}' % number)
        wanted.append(b'{"ok":true,"value":%d}' % number)
        lines.append(b' \t\r' if number % 2 else b'{')
        wanted.extend([b'{"error":"not-json","number":11,"ok":false}'] * (1 - number % 2))
    with Hub(place) as hub:
        assert hub.raw(b"\n".join(lines)) == b"\n".join(wanted) + b"\n"


def test_a_program_that_groups_changes_is_never_waited_for_in_vain(place):
    os.environ["GROUPED"] = place.program
    place.format()
    with Hub(place, GROUPING) as hub:
        def write(number):
            with hub.connect() as store:
                for count in range(20):
                    store.create("n%d-%d" % (number, count), count)
                    if count % 3 == 0:
                        store.get("n%d-%d" % (number, count))
        clients = [threading.Thread(target=write, args=(number,), daemon=True) for number in range(10)]
        for client in clients:
            client.start()
        for client in clients:
            client.join(PATIENCE)
        with hub.connect() as store:
            assert (store.status().documents, store.status().seq) == (200, 200)


def test_lines_are_framed_as_by_the_program(place):
    place.format()
    most = 1 << 20
    listing = b'{"cmd":"list"}'
    sent = b"\n".join([
        listing + b" " * (most - len(listing)), listing + b" " * (most - len(listing) + 1), b" " * (most + 1),
        b"\t\r ", b"",
        b" " * (most + 5) + b"x", b"x" * (3 * most), listing + b"\r", listing])
    found = '{"names":[],"ok":true}\n'
    long = '{"error":"line-too-long","number":10,"ok":false}\n'
    wanted = (found + long + long + long + found + found).encode()
    served = subprocess.run([place.program, "serve", place.file], input=sent, stdout=subprocess.PIPE, check=True)
    assert served.stdout == wanted
    with Hub(place) as hub:
        assert hub.raw(sent) == wanted
        assert hub.raw(b"") == b""


def test_a_client_that_goes_away_keeps_nobody_out(place):
    place.format()
    with Hub(place) as hub:
        with hub.connected() as client:
            client.sendall(b'{"cmd":"create","doc":1,"name":"d","schema":true}\n{"cmd":"lis')
        with hub.connect() as store:
            until(lambda: store.names() == ["d"], "the line of a client that went away")


def test_long_replies_come_whole(place):
    with place.made(16384) as store:
        store.create("d", [0] * 90000)
        plain = store.query("d", "$..*")
    with Hub(place) as hub, hub.connect() as store:
        assert store.query("d", "$..*") == plain


def test_a_hub_ends_when_it_is_told(place):
    place.format()
    for number in (signal.SIGTERM, signal.SIGINT):
        with Hub(place) as hub, hub.connect() as store:
            idle = hub.connect()
            done = store.create("d%d" % number, 1)
            hub.process.send_signal(number)
            assert hub.ends(0) == ""
            assert (os.path.exists(hub.path), done > 0) == (False, True)
            raised(Ended, idle.names)
            raised(Ended, store.names)
    with place.store() as store:
        assert sorted(store.names()) == ["d15", "d2"]


def test_a_hub_that_ends_after_a_watcher_left_says_nothing(place):
    place.format()
    for _ in range(5):
        with Hub(place) as hub:
            place.run("watch", hub.path, "--past")
            hub.process.send_signal(signal.SIGTERM)
            assert hub.ends(0) == ""


def test_the_end_of_the_program_is_the_end_of_the_hub(place):
    place.format()
    with Hub(place) as hub, hub.connect() as store:
        os.kill(hub.program(), signal.SIGKILL)
        assert hub.ends(1) == f"{place.program} serve {place.file} --batch 1024 --why ended by signal 9\n"
        raised(Ended, store.names)


def test_a_hub_takes_no_file_that_is_in_use(place):
    place.format()
    with Hub(place) as hub:
        errors = place.run("hub", "store", "--socket", "second", "--wait", "0.2", status=1).stderr.decode()
        assert "store is in use" in errors
        with hub.connect() as store:
            assert store.names() == []
    assert sorted(os.listdir(place.folder)) == ["socket", "store"]


def test_a_device_that_fails_ends_the_hub(place):
    # The commit sector can be written, and no byte after it.
    failing = place.text("failing", f"#!/bin/sh\ntrap '' XFSZ\nulimit -f 1\nexec '{place.program}' \"$@\"\n")
    os.chmod(failing, 0o700)
    place.format()
    with Store(place.file, program=failing) as store:
        assert raised(Broken, store.create, "d", 1).number == 61
        assert raised(Broken, store.create, "d", 1).number == 62
        assert store.names() == []
        ended = raised(Ended, store.close)
        assert (ended.status, ended.name, ended.number) == (1, "device", 61)
    with Hub(place, failing) as hub, hub.connect() as store:
        assert raised(Broken, store.create, "d", 1).number == 61
        assert "device (61): " in hub.ends(1)
        raised(Ended, store.names)


@pytest.mark.parametrize("of_hub", [True, False])
def test_a_kill_loses_nothing_that_was_acknowledged(place, of_hub):
    place.format(64)
    acknowledged = {}
    for _ in range(KILLS):
        count_until_a_kill(place, 8, random.uniform(0, MOST_TIME), of_hub, acknowledged)
    assert sum(acknowledged.values()) >= KILLS, "hardly anything was acknowledged"
