"""The socket of a hub: nothing but a stale socket is ever taken away, and at the end only the one that the hub made."""
import os
import signal
import socket

import pytest
from hubs import Hub
from support import until

TEXT = "precious\n"


def refused(place, path):
    """A hub does not begin at this path; returns what it says."""
    said = place.run("hub", "store", "--socket", path, "--wait", "0", status=1)
    assert said.stdout == b""
    return said.stderr.decode()


def bound(path):
    """A socket at the path, at which nobody listens."""
    made = socket.socket(socket.AF_UNIX)
    made.bind(path)
    return made


def test_a_file_is_left_as_it_is(place):
    place.format()
    path = place.text("other", TEXT)
    assert refused(place, "other").startswith("other is a file and not a socket")
    with open(path, encoding="utf-8") as opened:
        assert opened.read() == TEXT


def test_the_store_that_is_served_is_left_as_it_is(place):
    with place.made() as store:
        store.create("d", 1)
    assert refused(place, "store").startswith("store is a file and not a socket")
    with place.store() as store:
        assert store.get("d") == 1


def test_a_folder_is_left_as_it_is(place):
    place.format()
    os.mkdir(place.path("other"))
    assert refused(place, "other").startswith("other is a folder and not a socket")
    assert os.path.isdir(place.path("other"))


@pytest.mark.parametrize("target", ["file", "stale", "nothing"])
def test_a_symbolic_link_is_left_as_it_is(place, target):
    place.format()
    place.text("file", TEXT)
    bound(place.path("stale")).close()
    os.symlink(target, place.path("other"))
    before = sorted(os.listdir(place.folder))
    assert refused(place, "other").startswith("other is a symbolic link and not a socket")
    assert os.readlink(place.path("other")) == target
    assert sorted(os.listdir(place.folder)) == before


def test_a_pipe_is_left_as_it_is(place):
    place.format()
    os.mkfifo(place.path("other"))
    assert refused(place, "other").startswith("other is a device or a pipe and not a socket")


def test_a_socket_at_which_another_program_listens_is_left_to_it(place):
    place.format()
    with bound(place.path("other")) as other:
        other.listen()
        what_to_do = ": connect to it, end it, or choose another path\n"
        assert refused(place, "other") == "another program listens at other" + what_to_do
        with socket.socket(socket.AF_UNIX) as client:
            client.connect(place.path("other"))
    place.format(file=place.path("second"))
    with Hub(place) as hub, hub.connect() as store:
        said = place.run("hub", "second", "--socket", "socket", "--wait", "0", status=1).stderr.decode()
        assert (said, store.names()) == ("another program listens at socket" + what_to_do, [])


def test_a_socket_of_another_kind_is_left_as_it_is(place):
    place.format()
    with socket.socket(socket.AF_UNIX, socket.SOCK_DGRAM) as other:
        other.bind(place.path("other"))
        assert refused(place, "other").startswith("other is a socket that cannot be looked at: ")
    assert os.path.exists(place.path("other"))


def test_a_stale_socket_is_replaced(place):
    place.format()
    bound(place.path("socket")).close()
    for _ in range(2):
        with Hub(place) as hub, hub.connect() as store:
            assert store.names() == []
            hub.kill()
            assert os.path.exists(hub.path)


def test_a_path_where_no_socket_can_be_is_told(place):
    place.format()
    assert refused(place, "no/socket").startswith("no socket can be made at no/socket: No such file or directory")
    said = place.run("hub", "store", "--socket", "x" * 108, status=2).stderr
    assert said == b"the path of a socket has at most 107 bytes, and this has 108: choose a shorter one\n"
    assert os.listdir(place.folder) == ["store"]


def test_at_its_end_a_hub_removes_its_own_socket(place):
    place.format()
    with Hub(place) as hub:
        hub.process.send_signal(signal.SIGTERM)
        hub.ends(0)
        assert not os.path.exists(hub.path)


@pytest.mark.parametrize("removed", [False, True])
def test_at_its_end_a_hub_leaves_what_took_the_place_of_its_socket(place, removed):
    place.format()
    with Hub(place) as hub:
        if removed:
            # The number of the socket is free, and may become that of the file.
            os.unlink(hub.path)
        else:
            os.rename(hub.path, place.path("aside"))
        path = place.text("socket", TEXT)
        hub.process.send_signal(signal.SIGTERM)
        hub.ends(0)
        with open(path, encoding="utf-8") as opened:
            assert opened.read() == TEXT
        os.unlink(path)
    with Hub(place) as hub, bound(place.path("second")):
        os.rename(place.path("second"), hub.path)
        hub.process.send_signal(signal.SIGTERM)
        hub.ends(0)
        until(lambda: os.path.exists(hub.path), "the other socket")
