"""A store that grows while a hub serves it: no change is refused or lost, whatever is killed in the midst."""
import contextlib
import json
import os
import random
import signal
import stat
import threading
import time

import pytest
from histories import Told
from hubs import Hub, Writers, check_moment, count_up
from jpstore import JpstoreError, Watch, create, grow_file, patch, upgrade_file
from support import PATIENCE, raised, until

# How many kills are tried, and the most seconds before one. `JPSTORE_KILLS` tries more.
KILLS = int(os.environ.get("JPSTORE_KILLS", "4"))
MOST_TIME = 1.0


def put(number, name="d"):
    return patch(name, [{"op": "add", "path": "/n", "value": number}])


def leftovers(place):
    return [name for name in os.listdir(place.folder) if ".growing-" in name]


def counts_of(store):
    return {name: store.get(name, "/n") for name in store.names() if name.startswith("w")}


@pytest.mark.parametrize("version", [2, 3])
def test_a_store_grows_while_clients_change_it(place, version):
    place.format(512, version=version)
    os.chmod(place.file, 0o640)
    with Hub(place) as hub, hub.connect() as store:
        store.create("d", {"n": 0}, {"type": "object"})
        watch, identity = Watch(hub.path, 0), store.status().id
        with Writers(hub, 4) as writers:
            until(lambda: writers.written > 50, "some changes")
            status = store.grow(4096)
            until(lambda seen=writers.written: writers.written > seen + 50, "changes after it")
        # In format 3 a half has 248 blocks, of which one is for checks.
        capacity = {2: 4095 // 2 * 512, 3: 247 * 4096}[version]
        assert (status.sectors, status.capacity, status.broken) == (4096, capacity, False)
        # It is the same store.
        assert (status.id, identity is None) == (identity, version == 2)
        assert os.stat(place.file).st_size == 4096 * 512
        assert (stat.S_IMODE(os.stat(place.file).st_mode), leftovers(place)) == (0o640, [])
        last, counts = store.status().seq, counts_of(store)
        assert [next(watch).seq for _ in range(last)] == list(range(1, last + 1))
        assert (store.rev("d"), store.schema("d")) == (1, {"type": "object"})
        told = Told(hub)
        hub.process.terminate()
        hub.ends(0)
    with open(place.file, "rb") as opened:
        assert opened.read(12)[8:] == version.to_bytes(4, "big")
    with Hub(place) as hub, hub.connect() as store:
        assert (store.status().seq, counts_of(store)) == (last, counts)
        check_moment(counts, "after it")
        # In format 3 who was told what came after it goes on.
        assert told.goes_on(hub, last) == (version == 3)


def test_a_full_store_takes_changes_after_it(place):
    place.format(64)
    with Hub(place) as hub, hub.connect() as store:
        store.create("a", "x" * 10000)
        assert raised(JpstoreError, store.create, "b", "x" * 10000).number == 60
        assert place.run("grow", "socket").stdout.startswith(b"socket has grown\n")
        assert "leave NEW out" in place.run("grow", "socket", "new", status=1).stderr.decode()
        assert store.create("b", "x" * 10000) == 2
        assert json.loads(place.run("grow", "socket", "--sectors", "1000", "--json").stdout)["sectors"] == 1000
        assert store.get("a") == store.get("b") == "x" * 10000


def test_it_catches_up_with_writers_that_are_faster_than_the_copy(place):
    """What the hub doesn't keep any more is copied anew, while the writers wait."""
    place.format(16384)
    script = place.script("slow", f'case "$1" in copy) sleep 1;; esac; exec {place.program} "$@"')
    with Hub(place, program=script) as hub, hub.connect() as store, hub.connect() as writer:
        store.create("d", {"n": 0})
        grown = []
        growing = threading.Thread(target=lambda: grown.append(store.grow(32768)))
        growing.start()
        until(lambda: leftovers(place), "its folder")
        # Over 16 MiB of changes, so that the first ones are gone.
        for number in range(24):
            writer.put("d", {"n": number, "text": "x" * 900_000})
        growing.join()
        assert grown[0].sectors == 32768
        assert (writer.get("d", "/n"), writer.status().seq, leftovers(place)) == (23, 25, [])


def test_what_can_not_grow_is_served_on(place):
    place.format(512)
    with Hub(place) as hub, hub.connect() as store:
        store.create("d", {"n": 0})
        assert "choose a larger number" in str(raised(JpstoreError, store.grow, 512))
        assert "4294967296" in str(raised(JpstoreError, store.grow, 1 << 33)), "too many sectors"
        os.link(place.file, place.path("other"))
        assert "remove that name" in str(raised(JpstoreError, store.grow, 1024))
        os.unlink(place.path("other"))
        assert hub.raw(b'{"cmd":"grow"}\n') == b'{"error":"command","number":14,"ok":false}\n'
        assert (store.patch("d", put(1)["ops"]), leftovers(place)) == (2, [])
        assert store.status().sectors == 512
    with place.store(wait=PATIENCE) as store:
        assert "only the store of a hub grows" in str(raised(JpstoreError, store.grow, 1024))


def test_a_disk_without_room_refuses_it_and_no_change(place):
    place.format(512)
    small = place.script("small", f"trap '' XFSZ; ulimit -f 2048; exec {place.program} \"$@\"")
    with Hub(place, program=small) as hub, hub.connect() as store:
        store.create("d", {"n": 0})
        assert "no-space" in str(raised(JpstoreError, store.grow, 1 << 16))
        assert (store.patch("d", put(1)["ops"]), leftovers(place)) == (2, [])


def test_a_second_growth_at_once_is_refused(place):
    place.format(512)
    script = place.script("slow", f'case "$1" in copy) sleep 1;; esac; exec {place.program} "$@"')
    with Hub(place, program=script) as hub, hub.connect() as store, hub.connect() as other:
        growing = threading.Thread(target=store.grow, args=(1024,))
        growing.start()
        until(lambda: leftovers(place), "its folder")
        assert "it grows already" in str(raised(JpstoreError, other.grow, 2048))
        growing.join()
        assert other.grow(2048).sectors == 2048


def test_a_hub_that_is_ended_in_the_midst_leaves_the_store_and_nothing_else(place):
    place.format(512)
    script = place.script("slow", f'case "$1" in copy) sleep 30;; esac; exec {place.program} "$@"')
    with Hub(place, program=script) as hub, hub.connect() as store:
        store.create("d", {"n": 0})
        with hub.connected() as other:
            other.sendall(b'{"cmd":"grow","sectors":1024}\n')
            until(lambda: leftovers(place), "its folder")
            hub.process.send_signal(signal.SIGTERM)
            hub.ends(0)
    assert leftovers(place) == []
    with place.store(wait=PATIENCE) as store:
        assert (store.get("d"), store.status().sectors) == ({"n": 0}, 512)


def grow_until_the_end(hub):
    """Lets the store grow again and again, until the hub ends."""
    try:
        with hub.connect() as store:
            while True:
                store.status()
                with contextlib.suppress(JpstoreError):
                    store.grow(store.status().sectors + 64)
    except (JpstoreError, OSError):
        pass


def kill_one(hub, of_hub):
    """Kills the hub, or one of its programs, such as the one that copies, and then the hub if it goes on."""
    if not of_hub:
        # A program that copies may have ended meanwhile.
        with contextlib.suppress(ProcessLookupError):
            os.kill(random.choice(hub.programs()), signal.SIGKILL)
        time.sleep(random.random() * MOST_TIME / 4)
    hub.kill()


@pytest.mark.parametrize("of_hub", [True, False])
@pytest.mark.time_limit(10 * KILLS + PATIENCE)
def test_no_kill_in_the_midst_loses_an_answered_change(place, of_hub):
    place.format(256, version=3)
    acknowledged, grown = {}, 256
    for _ in range(KILLS):
        before = dict(acknowledged)
        with Hub(place) as hub:
            assert leftovers(place) == []
            work = [(grow_until_the_end, (hub,))]
            work += [(count_up, (hub, f"c{number}", acknowledged)) for number in range(3)]
            threads = [threading.Thread(target=do, args=words, daemon=True) for do, words in work]
            for thread in threads:
                thread.start()
            until(lambda: acknowledged != before, "a change")
            time.sleep(random.random() * MOST_TIME)
            kill_one(hub, of_hub)
            for thread in threads:
                thread.join(PATIENCE)
        with place.store(wait=PATIENCE) as store:
            found = {name: store.get(name, "/n") for name in store.names()}
            assert store.status().sectors >= grown
            grown = store.status().sectors
        for name, count in acknowledged.items():
            assert count <= found[name] <= count + 1, f"{name} was acknowledged {count}, and has {found[name]}"
    assert grown > 256


def test_a_file_grows_in_its_place(place):
    with place.made(512) as store:
        store.group([create("d", {"n": 0}), put(1), create("e", [1])])
    upgrade_file(place.file, 3, place.program)
    with place.store() as store:
        identity = store.status().id
    status = grow_file(place.file, 1024, place.program)
    assert (status.sectors, status.seq, status.documents, status.id) == (1024, 3, 2, identity)
    place.shows("get", "store", "d", output='{"n": 1}\n')
    with open(place.file, "rb") as opened:
        assert opened.read(12)[8:] == (3).to_bytes(4, "big")
    assert leftovers(place) == []
    assert place.run("grow", "store").stdout.startswith(b"store has grown\n")
    assert os.stat(place.file).st_size == 2048 * 512
    with place.store():
        assert "store is in use" in place.run("grow", "store", status=13).stderr.decode()
    os.symlink("store", place.path("link"))
    assert grow_file(place.path("link"), 4096, place.program).id == identity
    assert os.path.islink(place.path("link")) and os.stat(place.file).st_size == 4096 * 512


def test_who_has_opened_the_smaller_file_finds_no_store_in_it(place):
    with place.made(512) as store:
        store.create("d", {"n": 0})
    with open(place.file, "rb") as waiting:
        grow_file(place.file, 1024, place.program)
        assert waiting.read(512) == bytes(512)
