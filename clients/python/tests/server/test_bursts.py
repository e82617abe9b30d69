"""What many clients, or one that does its worst, make of the server: memory, time, and whether it still ends."""
import contextlib
import json
import os
import resource
import select
import shutil
import signal
import socket
import subprocess
import threading
import time

import pytest
from gateways import Gateway
from hubs import Hub
from jpstore import NoMemory, Store, create
from support import PATIENCE, raised, until
from test_limits import answered, most_memory

MIB = 1 << 20
LINE = 1_000_000
IDLE = 10_000


@contextlib.contextmanager
def at(path, count):
    """Connections to a socket."""
    with contextlib.ExitStack() as stack:
        clients = [stack.enter_context(socket.socket(socket.AF_UNIX)) for _ in range(count)]
        for client in clients:
            client.settimeout(PATIENCE)
            client.connect(path)
        yield clients


def all_of(client):
    """What comes until the connection ends."""
    return b"".join(iter(lambda: client.recv(1 << 20), b""))


# Memory.

def test_lines_without_an_end_take_little_memory_of_a_hub(place):
    """Of long lines that don't end, 256 MiB are kept; a client for whose line there is no room is given up."""
    place.format()
    with Hub(place) as hub, at(hub.path, 450) as clients:
        before = most_memory(hub.process.pid)
        for client in clients:
            with contextlib.suppress(BrokenPipeError, ConnectionResetError):
                client.sendall(b"x" * LINE)
        assert most_memory(hub.process.pid) - before < 350 * MIB
        with hub.connect() as store:
            assert store.create("d", 1) == 1


def test_a_long_line_leaves_no_memory_with_its_client(place):
    place.format()
    with Hub(place) as hub, at(hub.path, 100) as clients:
        before = most_memory(hub.process.pid)
        for client in clients:
            client.sendall(b"x" * LINE + b"\n")
            assert b"not-json" in client.recv(1 << 16)
        assert most_memory(hub.process.pid) - before < 60 * MIB


def test_what_a_line_asks_for_takes_little_memory(place):
    """The values of a line may take a hundred times its bytes."""
    place.format()
    line = b'{"cmd":"get","name":"\\n","values":[' + b'{"a":1},' * 120_000 + b"1]}\n"
    with Hub(place) as hub, at(hub.path, 4) as clients:
        before = most_memory(hub.process.pid)
        threads = [threading.Thread(target=client.sendall, args=(line,)) for client in clients]
        for thread in threads:
            thread.start()
        for client in clients:
            assert b"command" in client.recv(1 << 16)
        assert most_memory(hub.process.pid) - before < 60 * MIB


def test_merge_patches_of_many_values_take_little_memory(place):
    """Long ones are taken apart one after the other, and what that took is given back."""
    place.format(65536)
    with Gateway(place) as gateway, contextlib.ExitStack() as stack:
        assert gateway.put("/documents/d", b'{"x":[' + b'{"a":1},' * 60_000 + b"1]}").status == 201
        before = gateway.memory()
        patch = b'{"x":{"y":[' + b'{"a":1},' * 140_000 + b"1]}}"
        head = ("PATCH /documents/d HTTP/1.1\r\nHost: localhost\r\nContent-Type: application/merge-patch+json\r\n"
                f"Content-Length: {len(patch)}\r\n\r\n")
        clients = [stack.enter_context(gateway.raw()) for _ in range(2)]
        for client in clients:
            client.settimeout(2 * PATIENCE)
            client.sendall(head.encode() + patch)
        assert [client.recv(12)[9:] for client in clients] == [b"413"] * 2
        assert (gateway.memory() - before) // MIB < 500


def test_exports_that_nobody_reads_are_few(place):
    """Each may be a file of all documents; beyond 32 of them, one that nobody reads is ended for the next one."""
    place.format(65536)
    asked = b'{"cmd":"export"}\n'
    with Hub(place) as hub:
        with hub.connect() as store:
            store.transaction([create(f"d{number}", "x" * 400_000) for number in range(2)])
        with at(hub.path, 32) as clients:
            for client in clients:
                client.sendall(asked)
                assert client.recv(1)
            with hub.connect() as store:
                assert len(exported(store)) == 2
            # The others get theirs to the end.
            for client in clients:
                client.shutdown(socket.SHUT_WR)
            assert sum(b'"end":true' in all_of(client) for client in clients) == 31


def test_long_heads_leave_room_for_others(place):
    """Anybody may send a head, and only who may ask a body. Heads that go on no more make room for others."""
    place.format()
    head = b"GET / HTTP/1.1\r\nHost: localhost\r\n" + (b"X: " + b"x" * 16_000 + b"\r\n") * 7
    with Gateway(place) as gateway, contextlib.ExitStack() as stack:
        clients = [stack.enter_context(gateway.raw()) for _ in range(900)]
        for client in clients:
            client.sendall(head)
        assert gateway.put("/documents/d", 1).status == 201
        assert answered(gateway.port, head + b"Connection: close\r\n\r\n", PATIENCE)[9:12] == b"200"
        assert {client.recv(12)[9:] for client in select.select(clients, [], [], PATIENCE)[0]} == {b"503"}


@pytest.mark.parametrize("door", ["http", "socket"])
def test_ten_thousand_idle_connections(place, door):
    most = resource.getrlimit(resource.RLIMIT_NOFILE)[1]
    if most < IDLE + 1000:
        pytest.skip(f"only {most} files may be open")
    place.format()
    resource.setrlimit(resource.RLIMIT_NOFILE, (most, most))
    with Gateway(place, "--socket", place.path("s"), "--patience", "600") as gateway, contextlib.ExitStack() as stack:
        gateway.put("/documents/d", 1)
        before, kind = gateway.memory(), socket.AF_INET if door == "http" else socket.AF_UNIX
        for _ in range(most // 2 - 500 if most < 2 * IDLE + 1000 else IDLE):
            client = stack.enter_context(socket.socket(kind))
            client.connect(("127.0.0.1", gateway.port) if door == "http" else place.path("s"))
        begin = time.monotonic()
        assert gateway.get("/documents/d").status == 200
        with Store.connect(place.path("s")) as store:
            assert store.patch("d", [{"op": "replace", "path": "", "value": 2}]) == 2
        assert time.monotonic() - begin < 5
        assert gateway.memory() - before < 200 * MIB


# Time.

def test_a_head_of_too_many_fields_is_refused_before_its_end(place):
    """Else each byte that comes has all lines before it looked at again."""
    place.format()
    with Gateway(place) as gateway:
        answer = answered(gateway.port, b"GET / HTTP/1.1\r\nHost: localhost\r\n" + b"X:\r\n" * 102)
        assert (answer[9:12], b"too many fields" in answer) == (b"431", True)


# The begin and the end.

def large(store):
    """Makes documents that an export has in a file."""
    for number in range(6):
        store.create(f"large-{number}", "x" * 1_000_000)


def exported(store):
    with store.export() as moment:
        return list(moment)


def test_a_server_serves_on_if_nobody_reads_what_it_says(place):
    """A pipe that is full takes nothing, and isn't waited for."""
    place.format(65536)
    path = place.path("s")
    read, write = os.pipe()
    os.set_blocking(write, False)
    with contextlib.suppress(BlockingIOError):
        while True:
            os.write(write, b"x" * 4096)
    os.set_blocking(write, True)
    words = place.server_words(place.file, "--socket", path)
    serving = subprocess.Popen(words, stdout=subprocess.PIPE, stderr=write)
    try:
        assert b"is served" in serving.stdout.readline()
        with Store.connect(path, timeout=PATIENCE) as store:
            large(store)
            # What it then says is that there is no room for an export, since no file can be written.
            resource.prlimit(serving.pid, resource.RLIMIT_FSIZE, (0, resource.RLIM_INFINITY))
            for number in range(3):
                raised(NoMemory, exported, store)
                assert store.put("d", number) == 7 + number
        serving.send_signal(signal.SIGTERM)
        assert serving.wait(PATIENCE) == 0
    finally:
        serving.kill()
        serving.communicate()
        os.close(read)
        os.close(write)


def test_a_gateway_waits_for_the_server_whose_socket_it_serves(place, server):
    place.format()
    path = place.path("s")
    words = [server, path, "--listen", "127.0.0.1:0", "--program", place.program]
    waiting = subprocess.Popen([*words, "--wait", "60"], stdout=subprocess.PIPE, stderr=subprocess.PIPE)
    try:
        time.sleep(0.5)
        with Hub(place, path=path):
            line = waiting.stdout.readline().decode()
            assert line.startswith(f"{path} is served at http://"), waiting.stderr.read()
            port = int(line.rsplit(":", 1)[1].strip("/\n"))
            asked = b"GET /documents HTTP/1.1\r\nHost: localhost\r\nConnection: close\r\n\r\n"
            assert answered(port, asked).endswith(b"\r\n[]\n")
    finally:
        waiting.kill()
        waiting.communicate()
    words[1] = place.path("none")
    ended = subprocess.run([*words, "--wait", "0.2"], stderr=subprocess.PIPE, timeout=PATIENCE, check=False)
    assert (ended.returncode, b"none: No such file or directory" in ended.stderr) == (1, True)
    assert b"if it is the socket of a hub, start that" in ended.stderr


# In the server alone: writes to the file of an export never end.
HANGING = """
#define _GNU_SOURCE
#include <dlfcn.h>
#include <limits.h>
#include <stdio.h>
#include <string.h>
#include <unistd.h>

ssize_t write(int file, const void *bytes, size_t count)
{
    static ssize_t (*real)(int, const void *, size_t);
    char link[64], path[PATH_MAX];
    snprintf(link, sizeof link, "/proc/self/fd/%d", file);
    ssize_t length = readlink(link, path, sizeof path - 1);
    path[length < 0 ? 0 : length] = 0;
    if (strstr(path, "(deleted)") && access("hang", F_OK) == 0)
        for (;;)
            pause();
    if (!real)
        real = (ssize_t (*)(int, const void *, size_t))dlsym(RTLD_NEXT, "write");
    return real(file, bytes, count);
}
"""


def test_a_server_ends_though_the_disk_hangs(place):
    if not shutil.which("cc"):
        pytest.skip("there is no C compiler")
    place.format(65536)
    library, path = place.path("hanging.so"), place.path("s")
    subprocess.run(["cc", "-shared", "-fPIC", "-o", library, place.text("hanging.c", HANGING), "-ldl"], check=True)
    words = place.server_words(place.file, "--socket", path)
    serving = subprocess.Popen(words, stdout=subprocess.PIPE, stderr=subprocess.PIPE, cwd=place.folder,
                               env={**place.environment(), "LD_PRELOAD": library})
    try:
        assert b"is served" in serving.stdout.readline()
        with Store.connect(path) as store:
            large(store)
            store.create("d", 1)
        place.text("hang", "")
        with at(path, 2) as clients:
            for client, line in zip(clients, (b'{"cmd":"export"}\n', b'{"cmd":"list"}\n')):
                client.sendall(line)
                client.settimeout(1)
                with pytest.raises(socket.timeout):
                    client.recv(100)
            serving.send_signal(signal.SIGTERM)
            assert serving.wait(PATIENCE) == 1
        assert b"a disk doesn't answer" in serving.stderr.read()
    finally:
        serving.kill()
        serving.communicate()
    until(lambda: not os.path.exists(place.file + ".lock"), "the end of the program")
    with place.store(wait=PATIENCE) as store:
        assert json.dumps(store.get("d")) == "1"
