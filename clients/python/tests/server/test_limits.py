"""The server at its limits: without descriptors, with clients that read nothing, with a program that hangs or ends."""
import contextlib
import json
import os
import resource
import signal
import socket
import subprocess
import tempfile
import threading
import time

import pytest
from gateways import Gateway
from hubs import Hub
from jpstore import NoMemory, Store, create
from serving import STATUS
from support import PATIENCE, Place, raised, until

MIB = 1 << 20


class Serving:
    """A hub or a gateway whose standard error is a file, and which has at most this many files open."""

    def __init__(self, place, *words, files=1024):
        self._log = place.path("log")

        def limit():
            resource.setrlimit(resource.RLIMIT_NOFILE, (files, files))
        with open(self._log, "wb") as log:
            self.process = subprocess.Popen(place.words(*words), stdout=subprocess.PIPE, stderr=log,
                                            env=place.environment(), preexec_fn=limit)
        line = self.process.stdout.readline().decode()
        assert " is served at " in line, self.said()
        self.port = int(line.rsplit(":", 1)[1].strip("/\n")) if "http://" in line else None

    def __enter__(self):
        return self

    def __exit__(self, *_):
        with contextlib.suppress(ProcessLookupError):
            os.kill(self.process.pid, signal.SIGCONT)
        self.process.kill()
        self.process.wait()
        self.process.stdout.close()

    def said(self):
        """What it wrote to standard error."""
        with open(self._log, encoding="utf-8", errors="replace") as log:
            return log.read()


@pytest.fixture(scope="module")
def gateway(program):
    """A gateway of all tests that only send requests, with a document `d`."""
    with tempfile.TemporaryDirectory(prefix="jpstore-") as folder:
        place = Place(program, folder)
        place.format(65536)
        with Serving(place, "http", place.file, "--listen", "127.0.0.1:0") as running:
            assert answered(running.port, request("PUT", b"1"))[9:12] == b"201"
            yield running


def request(method, body=b"", path="/documents/d", fields=""):
    """The bytes of a request."""
    head = f"{method} {path} HTTP/1.1\r\nHost: localhost\r\nContent-Type: application/json\r\n{fields}"
    return f"{head}Content-Length: {len(body)}\r\nConnection: close\r\n\r\n".encode() + body


def most_memory(number):
    """The most memory that a process has had, in bytes."""
    with open(f"/proc/{number}/status", encoding="ascii") as opened:
        return next(int(line.split()[1]) for line in opened if line.startswith("VmHWM:")) * 1024


def grows_by(number, before, most, seconds):
    """Whether a process comes to need that much more memory within some seconds."""
    end = time.monotonic() + seconds
    while time.monotonic() < end:
        if most_memory(number) - before > most:
            return True
        time.sleep(0.05)
    return False


def answered(port, sent, seconds=5):
    """What comes back for these bytes within some seconds."""
    with socket.create_connection(("127.0.0.1", port)) as client:
        client.settimeout(seconds)
        client.sendall(sent)
        taken = b""
        # One that waits for more of the request says nothing.
        with contextlib.suppress(OSError):
            for piece in iter(lambda: client.recv(1 << 16), b""):
                taken += piece
        return taken


# Descriptors.

def test_a_hub_without_descriptors_serves_its_clients(place):
    place.format()
    path = place.path("socket")
    with Serving(place, "hub", place.file, "--socket", path, files=64) as hub, Store.connect(path) as store:
        silent = [socket.socket(socket.AF_UNIX) for _ in range(100)]
        for client in silent:
            client.connect(path)
        time.sleep(0.5)
        assert store.create("d", 1) == 1
        assert len(hub.said()) < 10_000
        for client in silent:
            client.close()


def test_a_gateway_without_descriptors_serves_its_clients(place):
    place.format()
    with Serving(place, "http", place.file, "--listen", "127.0.0.1:0", files=64) as gateway:
        silent = [socket.create_connection(("127.0.0.1", gateway.port)) for _ in range(100)]
        time.sleep(0.5)
        assert len(gateway.said()) < 10_000
        for client in silent:
            client.close()


# Memory.

def test_a_client_that_reads_nothing_takes_little_memory_of_a_hub(place):
    place.format()
    with Hub(place) as hub, hub.connect() as store, hub.connected() as client:
        store.create("d", ["x" * 1000] * 1000)
        before = most_memory(hub.process.pid)
        line = json.dumps({"cmd": "query", "name": "d", "path": "$[" + ",".join(["*"] * 15) + "]"})
        client.sendall((line + "\n").encode() * 64)
        assert not grows_by(hub.process.pid, before, 100 * MIB, 10)


def test_followers_that_read_nothing_take_little_memory(place):
    place.format(65536)
    with Gateway(place, "--socket", place.path("socket")) as gateway, contextlib.ExitStack() as followers:
        for _ in range(30):
            client = followers.enter_context(socket.socket())
            client.setsockopt(socket.SOL_SOCKET, socket.SO_RCVBUF, 4096)
            client.connect(("127.0.0.1", gateway.port))
            client.sendall(b"GET /changes HTTP/1.1\r\nHost: localhost\r\n\r\n")
            assert client.recv(12)
        before = gateway.memory()
        with Store.connect(place.path("socket")) as store:
            store.create("d", "")
            for number in range(12):
                store.patch("d", [{"op": "replace", "path": "", "value": str(number) + "x" * 1_000_000}])
                if gateway.memory() - before > 100 * MIB:
                    break
        assert not grows_by(gateway.process.pid, before, 100 * MIB, 10)


# The end.

def test_a_hub_ends_though_its_program_hangs(place):
    place.format()
    with Hub(place) as hub:
        program = hub.program()
        os.kill(program, signal.SIGSTOP)
        try:
            hub.process.send_signal(signal.SIGTERM)
            assert hub.process.wait(8) == 1
        finally:
            with contextlib.suppress(ProcessLookupError):
                os.kill(program, signal.SIGKILL)


def test_a_gateway_ends_though_its_program_hangs(place):
    place.format()
    with Gateway(place) as gateway:
        program = gateway.program()
        os.kill(program, signal.SIGSTOP)
        try:
            gateway.process.send_signal(signal.SIGTERM)
            assert gateway.process.wait(8) == 1
        finally:
            with contextlib.suppress(ProcessLookupError):
                os.kill(program, signal.SIGKILL)


def test_a_killed_gateway_leaves_no_folder(place, monkeypatch):
    place.format()
    monkeypatch.setenv("TMPDIR", place.folder)
    with Gateway(place):
        pass
    assert not [name for name in os.listdir(place.folder) if name.startswith("jpstore-")]


def test_a_hub_without_standard_output_ends_well(place):
    place.format()
    path = place.path("socket")
    hub = subprocess.Popen(place.words("hub", place.file, "--socket", path), stderr=subprocess.PIPE,
                           env=place.environment(), preexec_fn=lambda: os.close(1))
    try:
        until(lambda: os.path.exists(path), "the socket")
        hub.send_signal(signal.SIGTERM)
        assert hub.wait(PATIENCE) == 0, hub.stderr.read()
    finally:
        hub.kill()
        hub.wait()
        hub.stderr.close()


def test_a_hub_whose_program_ends_at_once_says_how_it_ended(place):
    place.format()
    # It answers the first line, which tells that the store is open, and no other.
    ends = place.script("ends", f"read line\necho '{json.dumps(STATUS)}'\nkill -9 $$")
    words = place.words("hub", place.file, "--socket", place.path("socket"))
    ended = subprocess.run([*words[:-1], ends], stderr=subprocess.PIPE, env=place.environment(), timeout=PATIENCE,
                           check=False)
    assert (ended.returncode, b"Traceback" in ended.stderr, b"signal 9" in ended.stderr) == (1, False, True)


# What is said.

def test_a_request_that_is_no_http_is_worth_a_line_at_most(gateway):
    before = gateway.said()
    for _ in range(5):
        assert answered(gateway.port, b"\x16\x03\x01 no HTTP\r\n\r\n").startswith(b"HTTP/1.")
    assert gateway.said().count("\n") - before.count("\n") <= 5


def test_a_hub_speaks_again_when_its_standard_error_takes_something(place):
    place.format(65536)
    path = place.path("socket")
    with Serving(place, "hub", place.file, "--socket", path) as hub, Store.connect(path) as store:
        # An export of these is in a file.
        store.group([create(f"d{number}", "x" * 1_000_000) for number in range(6)])

        def export():
            with store.export() as moment:
                return len(list(moment))
        # What is written to a file beyond this fails: first the complaint about that, too, and then not.
        for most in (0, 100_000):
            resource.prlimit(hub.process.pid, resource.RLIMIT_FSIZE, (most, resource.RLIM_INFINITY))
            raised(NoMemory, export)
            resource.prlimit(hub.process.pid, resource.RLIMIT_FSIZE, (resource.RLIM_INFINITY,) * 2)
            assert export() == 6
        assert "an export is broken off" in hub.said()


# Requests.

def longest_beside_a_long_body(gateway):
    """The most seconds that a small request waits while a long body is read."""
    longest, stop = [0.0], threading.Event()

    def ask():
        while not stop.is_set():
            begin = time.monotonic()
            answered(gateway.port, request("GET"), PATIENCE)
            longest[0] = max(longest[0], time.monotonic() - begin)
            time.sleep(0.01)
    asking = threading.Thread(target=ask, daemon=True)
    asking.start()
    with socket.create_connection(("127.0.0.1", gateway.port)) as client:
        client.settimeout(PATIENCE)
        client.sendall(request("PUT", b"[" + b'{"a":1,"a":1},' * 30_000 + b"1]", "/documents/long"))
        assert client.recv(12) in (b"HTTP/1.1 201", b"HTTP/1.1 200")
    stop.set()
    asking.join()
    return longest[0]


def test_a_long_body_holds_nobody_up(gateway):
    # A busy machine holds a request up now and then, a fault of the server each time.
    assert any(longest_beside_a_long_body(gateway) < 0.25 for _ in range(3))


REQUESTS = {
    "an origin that is no address": (request("GET", fields="Origin: http://[\r\n"), b"403"),
    "a target that is no address": (request("GET", path="http://evil:x[/"), b"400"),
}


@pytest.mark.parametrize("kind", REQUESTS)
def test_a_wrong_request_is_answered(gateway, kind):
    sent, status = REQUESTS[kind]
    assert answered(gateway.port, sent)[9:12] == status


PUT = b"PUT /documents/d HTTP/1.1\r\nHost: localhost\r\nContent-Type: application/json\r\nConnection: close\r\n"
LENIENT = {
    "a chunk without its end": PUT + b"Transfer-Encoding: chunked\r\n\r\n2\r\n{}XX0\r\n\r\n",
    "a line without its CR": PUT + b"X: 1\nContent-Length: 2\r\n\r\n{}",
    "a field that goes on in the next line": PUT + b"X: 1\r\n 2\r\nContent-Length: 2\r\n\r\n{}",
}


@pytest.mark.parametrize("kind", LENIENT)
def test_what_is_no_request_is_refused(gateway, kind):
    assert answered(gateway.port, LENIENT[kind])[9:12] == b"400"


def test_a_version_that_is_none_is_not_answered_in_it(gateway):
    assert answered(gateway.port, request("GET").replace(b"HTTP/1.1", b"HTTP/1.9")).startswith(b"HTTP/1.1 ")


def test_a_document_that_nests_too_deep_is_refused_for_that(gateway):
    answer = answered(gateway.port, request("PUT", b"[" * 70 + b"]" * 70))
    assert json.loads(answer.partition(b"\r\n\r\n")[2])["number"] == 13
