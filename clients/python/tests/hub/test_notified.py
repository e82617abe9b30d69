"""What starts a hub as a service is told when clients may connect, by the datagram that sd_notify(3) describes."""
import socket

import pytest
from hubs import Hub
from support import PATIENCE


@pytest.mark.parametrize("kind", ["a file", "abstract"])
def test_a_hub_says_that_it_is_ready(place, monkeypatch, kind):
    place.format()
    name = place.path("notify") if kind == "a file" else "@" + place.path("notify")
    with socket.socket(socket.AF_UNIX, socket.SOCK_DGRAM) as notified:
        notified.settimeout(PATIENCE)
        notified.bind(name.replace("@", "\0", 1))
        monkeypatch.setenv("NOTIFY_SOCKET", name)
        with Hub(place) as hub, hub.connect() as store:
            assert notified.recv(100) == b"READY=1"
            # It is said once, and not by the program too.
            assert store.create("d", 1) == 1
            notified.setblocking(False)
            with pytest.raises(BlockingIOError):
                notified.recv(100)


def test_a_hub_serves_if_nobody_hears_that_it_is_ready(place, monkeypatch):
    place.format()
    monkeypatch.setenv("NOTIFY_SOCKET", place.path("nothing"))
    with Hub(place) as hub, hub.connect() as store:
        assert store.create("d", 1) == 1
