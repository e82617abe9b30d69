"""How the server shares itself: no client holds the others up, none has others refused, and a small cache is right."""
import contextlib
import json
import os
import re
import resource
import select
import signal
import socket
import subprocess
import sys
import threading
import time
from concurrent.futures import ThreadPoolExecutor

import pytest
from gateways import Gateway
from jpstore import Store
from support import PATIENCE, Place, until
from test_breaking import request, silent

KIB = 1 << 10
BODY = 2 << 20
LINES = {"Accept": "application/x-ndjson"}


def stalled(gateway, method, path, length, sent, count):
    """Clients that send so many bytes of a longer body, and wait."""
    head = f"{method} {path} HTTP/1.1\r\nHost: 127.0.0.1\r\nContent-Type: application/json-patch+json\r\n"
    return silent(gateway, f"{head}Content-Length: {length}\r\n\r\n".encode() + b" " * sent, count)


# Copies.

@pytest.mark.parametrize("version", [2, 3])
@pytest.mark.parametrize("cache", [1, 1000, 3000, 1 << 26])
def test_a_copy_is_never_older_than_what_was_answered(place, version, cache):
    """A document that becomes too long for the cache leaves no copy of what it was."""
    words = [place.program, "format", place.file, "--sectors", "4096", "--format", str(version)]
    subprocess.run(words, check=True, stdout=subprocess.DEVNULL)
    with Gateway(place, "--cache", str(cache)) as gateway:
        for size in (1, 5000, 2, 700, 3, 4000):
            made = gateway.put("/documents/d", "x" * size)
            for _ in range(3):
                found = gateway.get("/documents/d")
                assert (found.tag(), found.json()) == (made.tag(), "x" * size)
            assert gateway.get("/documents/d", If_None_Match=made.tag()).status == 304


@pytest.mark.parametrize("cache", [1, 1000, 3000, 1 << 26])
def test_a_merge_patch_is_made_of_the_document_that_it_changes(place, cache):
    place.format()
    with Gateway(place, "--cache", str(cache)) as gateway:
        gateway.put("/documents/d", {"a": 1})
        assert [gateway.get("/documents/d").status for _ in range(2)] == [200, 200]
        for path, value in (("/sub", {"keep": 1}), ("/big", "x" * 5000)):
            assert gateway.patch("d", [{"op": "add", "path": path, "value": value}]).status == 200
        assert gateway.merge("d", {"sub": {"new": 2}}).status == 200
        assert gateway.get("/documents/d?pointer=/sub").json() == {"keep": 1, "new": 2}


# Rounds.

# Notes each line that asks for the large document, or has a large one, and takes its time for it.
SLOW = """import subprocess, sys, time
program = subprocess.Popen(sys.argv[3:], stdin=subprocess.PIPE)
with open(sys.argv[1], "a") as log:
    for line in sys.stdin.buffer:
        if b'"large"' in line and b'"get"' in line or len(line) > 65536:
            print("asked", file=log, flush=True)
            time.sleep(float(sys.argv[2]))
        program.stdin.write(line)
        program.stdin.flush()
program.stdin.close()
sys.exit(program.wait())"""


def slowed(place, seconds):
    """A place whose program takes so long for what is large, and how often it was asked for that."""
    log = place.text("log", "")
    wrapped = f"{sys.executable} {place.text('slow.py', SLOW)} {log} {seconds} {place.program}"
    program = place.script("slow", f'exec {wrapped} "$@"')
    return Place(program, place.folder), lambda: os.path.getsize(log) // len("asked\n")


def test_who_asks_much_at_once_lets_others_change_and_ask(place):
    """A client sends 200 questions for a large document. A change and a question of another come soon after."""
    place.format(16384)
    with place.store() as store:
        store.create("large", "x" * 300_000)
        store.create("small", 1)
    slow, asked = slowed(place, 0.1)
    path = place.path("s")
    with Gateway(slow, "--socket", path) as gateway, socket.socket(socket.AF_UNIX) as greedy:
        greedy.connect(path)
        greedy.sendall(b'{"cmd":"get","name":"large","path":""}\n' * 200)
        until(asked, "the first question")
        before = asked()
        with Store.connect(path) as store:
            assert store.patch("small", [{"op": "replace", "path": "", "value": 2}]) == 3
            assert (store.get("small"), gateway.get("/documents/small?pointer=").json()) == (2, 2)
        assert asked() - before < 40
        # What it doesn't take isn't asked for.
        assert asked() < 100


def test_a_large_document_that_many_wait_for_is_read_once(place):
    """Those who ask while the program has other things to do get what it answers then."""
    place.format(16384)
    with place.store() as store:
        store.create("large", "x" * 300_000)
    slow, asked = slowed(place, 1)
    with Gateway(slow, "--cache", "0") as gateway, ThreadPoolExecutor(40) as threads:
        answers = list(threads.map(lambda _: gateway.get("/documents/large"), range(40)))
        assert {(answer.status, len(answer.body)) for answer in answers} == {(200, 300_002)}
    # Those that came at once, before it was known how long it is, and further ones.
    assert asked() < 20, asked()


def test_small_changes_seldom_wait_for_a_large_one(place):
    """Two clients send large documents over and over. Another sends small ones, each when that before was answered."""
    place.format(65536)
    slow, asked = slowed(place, 0.2)
    ended = threading.Event()

    def load(gateway, name):
        while not ended.is_set():
            assert gateway.put(name, "x" * 70_000).status in (200, 201)
    with Gateway(slow) as gateway, ThreadPoolExecutor(2) as threads:
        loads = [threads.submit(load, gateway, f"/documents/d{number}") for number in range(2)]
        try:
            until(lambda: asked() > 2, "a large document")
            before, small = asked(), 0
            while asked() < before + 3:
                assert gateway.put("/documents/small", small).status in (200, 201)
                small += 1
        finally:
            ended.set()
        assert [load.result() for load in loads] == [None, None]
    assert small > 20, small


# Rooms.

@pytest.mark.parametrize("length, count", [(BODY, 40), (1000, 300)])
def test_bodies_that_do_not_go_on_keep_nobody_from_sending_one(place, length, count):
    place.format(16384)
    with Gateway(place, "--patience", "600") as gateway:
        gateway.put("/documents/d", {"a": 1})
        with stalled(gateway, "PATCH", "/documents/d", length, length - 1, count):
            for size in (1, 60_000, 500_000):
                assert gateway.put(f"/documents/d{size}", "x" * size).status == 201
                assert gateway.patch("d", [{"op": "add", "path": "/a", "value": size}]).status == 200
                assert gateway.merge("d", {"b": "x" * size}).status == 200


def test_a_body_has_a_least_rate(place):
    """It is given up before all of its time is over if it doesn't go on."""
    place.format()
    with Gateway(place, "--patience", "30") as gateway, contextlib.ExitStack() as stack:
        clients = stack.enter_context(stalled(gateway, "PATCH", "/documents/d", BODY, 10, 1))
        begin = time.monotonic()
        clients[0].settimeout(PATIENCE)
        assert clients[0].recv(12)[9:] == b"408"
        assert time.monotonic() - begin < 29


def unread(port):
    """The most bytes that the system keeps for one connection of this port, since the client doesn't take them."""
    with open("/proc/net/tcp", encoding="ascii") as opened:
        rows = [line.split() for line in list(opened)[1:]]
    return max(int(row[4].partition(":")[0], 16) for row in rows if int(row[1].partition(":")[2], 16) == port)


def test_the_system_keeps_little_of_an_answer(place):
    place.format(16384)
    with Gateway(place, "--patience", "600") as gateway:
        gateway.put("/documents/d", "x" * 1_000_000)
        clients = [gateway.raw() for _ in range(3)]
        for client in clients:
            client.sendall(request("GET", "/documents/d") * 20)
        most = 0
        until(lambda: unread(gateway.port), "an answer")
        for _ in range(40):
            most = max(most, unread(gateway.port))
            time.sleep(0.05)
        for client in clients:
            client.close()
        assert most < 600 * KIB, most


# Places.

def many_files():
    """Lets this process have some thousand files open."""
    hard = resource.getrlimit(resource.RLIMIT_NOFILE)[1]
    if hard < 4096:
        pytest.skip("this needs 4,096 open files")
    resource.setrlimit(resource.RLIMIT_NOFILE, (4096, hard))


def test_followers_that_take_nothing_give_their_places_up(place):
    many_files()
    place.format(16384)
    with Gateway(place) as gateway, silent(gateway, request("GET", "/changes"), 1000) as clients:
        for client in clients:
            client.settimeout(PATIENCE)
            assert client.recv(12)[9:] == b"200"
        with gateway.raw() as another:
            another.sendall(request("GET", "/changes"))
            assert another.recv(12)[9:] == b"200"
            gateway.put("/documents/d", 1)
            taken = b""
            while b'"seq":1' not in taken:
                taken += another.recv(1 << 16)


def test_exports_that_take_nothing_give_their_places_up(place):
    place.format(65536)
    with Gateway(place, "--patience", "600") as gateway:
        for number in range(9):
            gateway.put(f"/documents/d{number}", "x" * 900_000)
        # Each client keeps 4 KB, and the system some hundred.
        fields = [f"{name}: {value}" for name, value in LINES.items()]
        with silent(gateway, request("GET", "/documents", *fields), 16) as clients:
            for client in clients:
                client.settimeout(PATIENCE)
                assert client.recv(12)[9:] == b"200"
            for _ in range(3):
                answer = gateway.get("/documents", **LINES)
                assert (answer.status, answer.body.count(b"\n")) == (200, 9)


@contextlib.contextmanager
def with_few_files(place, *words):
    """A server that has room for 64 connections beside its own files; the line that it says first."""
    def limit():
        resource.setrlimit(resource.RLIMIT_NOFILE, (128, 128))
    words = place.server_words(place.file, *words)
    with subprocess.Popen(words, stdout=subprocess.PIPE, env=place.environment(), preexec_fn=limit) as server:
        try:
            yield server.stdout.readline()
        finally:
            server.kill()


WAITING = {"nothing": b"", "a line": b"GET /doc", "a body": request("PUT", "/documents/d", body=b"1")[:-1],
           "no more": request("GET", "/documents/d", "Connection: close"), "changes": request("GET", "/changes")}


@pytest.mark.parametrize("sent", WAITING.values(), ids=WAITING)
def test_clients_that_wait_keep_nobody_out(place, sent):
    place.format()
    with with_few_files(place, "--listen", "127.0.0.1:0", "--patience", "600") as said, contextlib.ExitStack() as stack:
        port = int(re.search(rb":(\d+)/\n", said).group(1))
        for _ in range(200):
            client = stack.enter_context(socket.create_connection(("127.0.0.1", port)))
            client.sendall(sent)
        for number in range(3):
            with socket.create_connection(("127.0.0.1", port)) as client:
                client.settimeout(PATIENCE)
                client.sendall(request("PUT", "/documents/d", body=b"%d" % number))
                assert client.recv(12)[9:10] == b"2"


AT_THE_SOCKET = {"nothing": b"", "a line": b'{"cmd":"li', "changes": b'{"cmd":"watch"}\n',
                 "an answer": b'{"cmd":"list"}\n'}


@pytest.mark.parametrize("sent", AT_THE_SOCKET.values(), ids=AT_THE_SOCKET)
def test_clients_that_wait_at_the_socket_keep_nobody_out(place, sent):
    place.format()
    path = place.path("s")
    with with_few_files(place, "--socket", path), contextlib.ExitStack() as stack:
        for _ in range(200):
            client = stack.enter_context(socket.socket(socket.AF_UNIX))
            client.connect(path)
            client.sendall(sent)
        for number in range(3):
            with socket.socket(socket.AF_UNIX) as client:
                client.settimeout(PATIENCE)
                client.connect(path)
                client.sendall(b'{"cmd":"create","doc":1,"name":"d%d","schema":true}\n' % number)
                assert b'"seq":%d' % (number + 1) in client.recv(1 << 12)


# Probes.

def test_a_probe_is_answered_though_the_program_hangs(place):
    place.format()
    with Gateway(place) as gateway:
        program = gateway.program()
        assert gateway.get("/healthz").status == 200
        os.kill(program, signal.SIGSTOP)
        begin = time.monotonic()
        answer = gateway.get("/healthz")
        assert (answer.status, json.loads(answer.body)["name"]) == (503, "unavailable")
        assert time.monotonic() - begin < 40
        os.kill(program, signal.SIGCONT)
        until(lambda: gateway.get("/healthz").status == 200, "the program")


# Threads.

def working(gateway):
    """For how long the server's threads have worked, in ticks, by their names."""
    folder, found = f"/proc/{gateway.process.pid}/task", {"jpstored": 0, "jpstored-large": 0}
    for thread in os.listdir(folder):
        with open(f"{folder}/{thread}/stat", encoding="ascii") as opened:
            name, _, rest = opened.read().partition("(")[2].rpartition(")")
        if name in found and int(thread) != gateway.process.pid:
            found[name] += sum(int(word) for word in rest.split()[11:13])
    return found


def follows(gateway, count, stack):
    """Clients that follow the changes, and have read the head of the answer."""
    clients = [stack.enter_context(gateway.raw()) for _ in range(count)]
    for client in clients:
        client.sendall(request("GET", "/changes"))
    for client in clients:
        taken = b""
        while b"retry" not in taken:
            taken += client.recv(1 << 16)
    return clients


def take(clients, wanted):
    """Has followers take events until each has that."""
    for client in clients:
        taken = b""
        while wanted not in taken:
            taken += client.recv(1 << 16)


def test_a_change_waits_for_no_followers(place):
    """It is answered before many of them are told of it."""
    many_files()
    place.format()
    with Gateway(place) as gateway, contextlib.ExitStack() as stack:
        clients = follows(gateway, 900, stack)
        poll = select.poll()
        for client in clients:
            poll.register(client, select.POLLIN)
        told = []
        with contextlib.closing(gateway.connection()) as connection:
            for number in range(30):
                connection.request("PUT", "/documents/d", str(number), {"Content-Type": "application/json"})
                assert connection.getresponse().read()
                told.append(len(poll.poll(0)))
                take(clients, b'"seq":%d}' % (number + 1))
        assert min(told) < 450, told


def sends(connection, _):
    connection.request("PUT", "/documents/d", b" " * (BODY - 1) + b"1", {"Content-Type": "application/json"})
    assert connection.getresponse().read()


def reads(connection, _):
    connection.request("GET", "/documents/large")
    assert connection.getresponse().read()


def comes_and_goes(_, gateway):
    for _ in range(100):
        gateway.raw().close()


@pytest.mark.parametrize("asks", [sends, reads, comes_and_goes])
def test_what_is_large_has_a_thread_of_its_own(place, asks):
    """So do clients that ask for nothing."""
    place.format(65536)
    with Gateway(place) as gateway, contextlib.closing(gateway.connection()) as connection:
        gateway.put("/documents/large", "x" * 1_000_000)
        before, worked = working(gateway), {}

        def is_enough():
            asks(connection, gateway)
            worked.update({name: ticks - before[name] for name, ticks in working(gateway).items()})
            return sum(worked.values()) >= 50
        until(is_enough, "half a second of work")
    assert worked["jpstored-large"] > worked["jpstored"], worked
