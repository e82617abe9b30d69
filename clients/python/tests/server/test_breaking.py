"""What a reader of the server's source tried to break it with: each request is allowed, or nearly so."""
import contextlib
import json
import os
import signal
import socket
import subprocess
import sys
import threading
import time
from concurrent.futures import ThreadPoolExecutor

import pytest
from gateways import Gateway
from support import PATIENCE, Place, until

MIB = 1 << 20


def request(method, path, *fields, body=b"", version="1.1"):
    """The bytes of a request."""
    lines = [f"{method} {path} HTTP/{version}", "Host: 127.0.0.1", "Content-Type: application/json", *fields]
    return "\r\n".join([*lines, f"Content-Length: {len(body)}"]).encode() + b"\r\n\r\n" + body


@contextlib.contextmanager
def silent(gateway, sent, count):
    """Clients that send something, and read nothing of what they are answered."""
    with contextlib.ExitStack() as clients:
        made = []
        for _ in range(count):
            client = clients.enter_context(socket.socket())
            client.setsockopt(socket.SOL_SOCKET, socket.SO_RCVBUF, 4096)
            client.connect(("127.0.0.1", gateway.port))
            client.sendall(sent)
            made.append(client)
        yield made


def grows_by(gateway, before, most, seconds):
    """How much more memory it comes to need within some seconds, unless that is too much before."""
    end = time.monotonic() + seconds
    while time.monotonic() < end and gateway.memory() - before <= most:
        time.sleep(0.05)
    return gateway.memory() - before


# What is answered.

def test_readers_that_take_nothing_keep_nobody_from_reading_and_changing(place):
    """As many bytes of documents are on their way as there may be; who takes none of them gives up what it has."""
    place.format(65536)
    text = json.dumps("x" * 1_000_000)
    # The readers keep their places, on a slow machine too.
    with Gateway(place, "--patience", "600") as gateway:
        assert gateway.put("/documents/d", text.encode()).status == 201
        assert gateway.put("/documents/n", 0).status == 201
        # What one is sent is more than the system keeps for it.
        with silent(gateway, request("GET", "/documents/d") * 8, 320):
            until(lambda: gateway.get("/documents/n?pointer=").status == 200, "an answer")
            made = [gateway.put("/documents/n", number).status for number in range(1, 4)]
            asked = [gateway.get(path).status for path in ("/status", "/documents/n", "/documents/n?pointer=")]
            large = [len(gateway.get(path).body) for path in ("/documents/d", "/documents/d?pointer=")]
            assert (made, asked, large) == ([200] * 3, [200] * 3, [len(text)] * 2)


def test_a_stream_to_an_old_client_ends_with_its_connection(place):
    """HTTP/1.0 knows no chunks, so what it is told is closed is closed (RFC 9112, section 6.3)."""
    place.format()
    with Gateway(place) as gateway, gateway.raw() as client:
        gateway.put("/documents/d", 1)
        client.sendall(request("GET", "/documents", "Accept: application/x-ndjson", "Connection: keep-alive",
                               version="1.0"))
        begin = time.monotonic()
        taken = b"".join(iter(lambda: client.recv(1 << 16), b""))
        assert b'"name":"d"' in taken and time.monotonic() - begin < 10


def test_a_follower_reads_no_less_than_it_was_told(place):
    """A document that is read right after a change of it was told has that change."""
    place.format()
    # Each `get` takes a second, with which the server replaces its copy of a document that has changed.
    slow = place.script("slow", f"""exec {sys.executable} -c '
import subprocess, sys, time
program = subprocess.Popen(sys.argv[1:], stdin=subprocess.PIPE)
for line in sys.stdin.buffer:
    time.sleep(b"\\"get\\"" in line)
    program.stdin.write(line)
    program.stdin.flush()
program.stdin.close()
sys.exit(program.wait())' {place.program} "$@\"""")
    with Gateway(Place(slow, place.folder)) as gateway, ThreadPoolExecutor(1) as pool:
        gateway.put("/documents/d", 1)
        assert [gateway.get("/documents/d").tag() for _ in range(2)] == ['"1"'] * 2
        changed = pool.submit(gateway.put, "/documents/d", 2)

        def told():
            with gateway.raw() as client:
                client.settimeout(0.1)
                client.sendall(request("GET", "/changes?from=1"))
                taken = b""
                with contextlib.suppress(OSError):
                    while b'"seq":2' not in taken:
                        taken += client.recv(1 << 16)
                return b'"seq":2' in taken
        until(told, "the change")
        assert gateway.get("/documents/d").tag() == '"2"'
        assert changed.result().status == 200


# Memory.

def test_exports_to_clients_that_read_nothing_take_little_memory(place):
    place.format(65536)
    with Gateway(place) as gateway:
        for number in range(4):
            assert gateway.put(f"/documents/d{number}", "x" * 1_000_000).status == 201
        before = gateway.memory()
        with silent(gateway, request("GET", "/documents", "Accept: application/x-ndjson"), 200):
            assert grows_by(gateway, before, 300 * MIB, 5) < 300 * MIB
            assert gateway.get("/documents/d0").status == 200


def test_refused_changes_of_many_values_take_little_memory(place):
    """Their values take a hundred times the memory of their text, while they wait for their turn to be looked at."""
    place.format(65536)
    with Gateway(place) as gateway:
        change = {"cmd": "patch", "name": "d", "ops": [{"op": "add", "path": "", "value": [{"": 0}] * 130_000}]}
        body = json.dumps({"changes": [change, {"cmd": "create", "doc": 1, "name": "e", "schema": {"type": 1}}]},
                          separators=(",", ":")).encode()
        gateway.put("/documents/d", 1)
        before = gateway.memory()
        with silent(gateway, request("POST", "/transactions", body=body), 30):
            assert grows_by(gateway, before, 900 * MIB, 10) < 900 * MIB


def test_a_merge_patch_below_a_long_name_takes_little_memory(place):
    """Each operation has the whole place of what it changes."""
    place.format(65536)
    with Gateway(place) as gateway:
        name = "n" * 300_000
        assert gateway.put("/documents/d", {name: {str(number): 0 for number in range(4000)}}).status == 201
        before = gateway.memory()
        answer = gateway.merge("d", {name: {str(number): 1 for number in range(4000)}})
        assert (answer.status, gateway.memory() - before < 100 * MIB) == (200, True), gateway.memory() - before
        assert gateway.get("/documents/d").json() == {name: {str(number): 1 for number in range(4000)}}


def test_long_replies_of_one_round_take_little_memory(place):
    """Clients that ask for more than they are handed at once have their first replies before others are asked."""
    place.format(65536)
    with Gateway(place, "--socket", place.path("socket")) as gateway, contextlib.ExitStack() as stack:
        assert gateway.put("/documents/d", ["x" * 1000] * 1000).status == 201
        line = json.dumps({"cmd": "query", "name": "d", "path": "$[" + ",".join(["*"] * 15) + "]"}).encode() + b"\n"
        before = gateway.memory()
        program = gateway.program()
        # So that they come together.
        os.kill(program, signal.SIGSTOP)
        for _ in range(60):
            client = stack.enter_context(socket.socket(socket.AF_UNIX))
            client.connect(place.path("socket"))
            client.sendall(line * 3)
        time.sleep(1)
        os.kill(program, signal.SIGCONT)
        assert grows_by(gateway, before, 450 * MIB, 10) < 450 * MIB


def test_slow_followers_of_large_changes_share_them(place):
    place.format(65536)
    with Gateway(place) as gateway, silent(gateway, request("GET", "/changes"), 200) as clients:
        for client in clients:
            assert client.recv(12)
        gateway.put("/documents/d", "")
        before = gateway.memory()
        for number in range(10):
            gateway.put("/documents/d", str(number) + "x" * 1_000_000)
        assert grows_by(gateway, before, 120 * MIB, 5) < 120 * MIB


# Time.

def test_many_words_of_schemas_hold_nobody_up(place):
    place.format(65536)
    with Gateway(place) as gateway:
        gateway.put("/documents/d", 1)
        schema = {f"w{number:05}": 0 for number in range(12_000)}
        changes = [{"cmd": "create", "doc": 1, "name": f"s{number}", "schema": schema} for number in range(7)]
        body = json.dumps({"changes": changes}, separators=(",", ":")).encode()
        longest, stop = [0.0], threading.Event()

        def ask():
            while not stop.is_set():
                begin = time.monotonic()
                gateway.get("/documents/d")
                longest[0] = max(longest[0], time.monotonic() - begin)
        asking = threading.Thread(target=ask)
        asking.start()
        with silent(gateway, request("POST", "/transactions", body=body), 8) as clients:
            for client in clients:
                client.settimeout(PATIENCE)
                assert client.recv(12)
        stop.set()
        asking.join()
        assert longest[0] < 4, longest[0]


# The start and the end.

def test_a_signal_ends_a_server_that_waits_for_its_file(place, server):
    place.format()
    with place.store():
        waiting = subprocess.Popen([server, place.file, "--listen", "127.0.0.1:0", "--program", place.program, "--wait",
                                    "600"], stderr=subprocess.PIPE)
        time.sleep(1)
        waiting.send_signal(signal.SIGTERM)
        try:
            assert waiting.wait(10) == 0
        finally:
            waiting.kill()
            waiting.communicate()


def test_a_socket_that_takes_no_more_clients_is_in_use(place, server):
    place.format()
    path = place.path("s")
    with socket.socket(socket.AF_UNIX) as busy, contextlib.ExitStack() as clients:
        busy.bind(path)
        busy.listen(0)
        for _ in range(3):
            client = clients.enter_context(socket.socket(socket.AF_UNIX))
            client.setblocking(False)
            with contextlib.suppress(BlockingIOError):
                client.connect(path)
        ended = subprocess.run([server, place.file, "--socket", path, "--program", place.program, "--wait", "0"],
                               timeout=PATIENCE, stderr=subprocess.PIPE, check=False)
        assert (ended.returncode, b"another program listens at" in ended.stderr) == (1, True)


@pytest.mark.parametrize("word", ["--help", "--version"])
def test_help_that_cannot_be_written_is_an_error(server, word):
    with open("/dev/full", "wb") as full:
        ended = subprocess.run([server, word], stdout=full, stderr=subprocess.PIPE, check=False)
    assert (ended.returncode, b"panicked" in ended.stderr) == (1, False), ended


def test_no_path_is_no_socket(place, server):
    """Else the system chooses a name at which each user of the machine may connect (unix(7))."""
    place.format()
    ended = subprocess.run([server, place.file, "--socket=", "--program", place.program], timeout=10,
                           stderr=subprocess.PIPE, check=False, env={**os.environ})
    assert ended.returncode == 2
