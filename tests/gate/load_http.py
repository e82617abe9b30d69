#!/usr/bin/env python3
"""Writers and readers of the gateway over HTTP: with kills, and then at full speed beside etcd's gateway.

    load_http.py PROGRAM [--seconds N] [--writers N] [--readers N] [--no-kills] [--no-rates]

With kills: each writer counts a document of its own up by revisions, while each reader reads documents at random. The
gateway, and the program under it, are killed in turn and started anew. Each answer must be of the document that was
asked for, none may have less than was acknowledged before it was asked for, and after all each count must be exact.

At full speed: reads a second and durable changes a second, of the gateway and then of etcd 3's own gateway (Debian's
etcd-server, if it is there) by the same clients over the same documents. The last line is `N passed, M failed`.
"""
import argparse
import asyncio
import base64
import contextlib
import json
import os
import random
import shutil
import signal
import socket
import subprocess
import sys
import tempfile
import time

sys.path.insert(0, os.path.join(os.path.dirname(os.path.abspath(__file__)), "..", "..", "tools"))
from server import use_server

CLIENTS = os.path.normpath(os.path.join(os.path.dirname(os.path.abspath(__file__)), "..", "..", "clients", "python"))
PATIENCE = 60
PADDING = "x" * 1000


class Lost(Exception):
    """The connection ended before the answer came."""


class Connection:
    """A connection that sends one request after another, and is made again if it was lost."""

    def __init__(self, port):
        self._port, self._reader, self._writer = port, None, None

    async def ask(self, method, path, body=b"", **fields):
        """The status, the fields and the content of the answer; `Lost` if it did not come."""
        try:
            if self._writer is None:
                self._reader, self._writer = await asyncio.open_connection("127.0.0.1", self._port)
            lines = [f"{method} {path} HTTP/1.1", "Host: 127.0.0.1", f"Content-Length: {len(body)}"]
            lines += [f"{name.replace('_', '-')}: {value}" for name, value in fields.items()]
            self._writer.write("\r\n".join(lines).encode() + b"\r\n\r\n" + body)
            return await self._answer()
        except (OSError, asyncio.IncompleteReadError, EOFError) as error:
            self.close()
            raise Lost from error

    async def _answer(self):
        head = (await self._reader.readuntil(b"\r\n\r\n")).decode("latin-1").split("\r\n")
        fields = {name.lower(): value.strip() for name, _, value in (line.partition(":") for line in head[1:])}
        content = await self._reader.readexactly(int(fields.get("content-length", 0)))
        return int(head[0].split()[1]), fields, content

    def close(self):
        """Ends it."""
        if self._writer is not None:
            self._writer.close()
        self._reader = self._writer = None


def free_port():
    """A port at which nobody listens."""
    with socket.socket() as free:
        free.bind(("127.0.0.1", 0))
        return free.getsockname()[1]


class Gateway:
    """The gateway as a process, at the same port each time that it is started."""

    def __init__(self, program, folder):
        self._program, self._file = program, os.path.join(folder, "store")
        self.port, self.process = free_port(), None
        subprocess.run([program, "format", self._file, "--sectors", "16384"], check=True, stdout=subprocess.DEVNULL)

    async def start(self):
        """Starts it, and waits until it serves."""
        words = [sys.executable, "-m", "jpstore", "http", self._file, "--listen", f"127.0.0.1:{self.port}",
                 "--program", self._program, "--wait", str(PATIENCE)]
        self.process = await asyncio.create_subprocess_exec(
            *words, env={**os.environ, "PYTHONPATH": CLIENTS}, stdout=subprocess.PIPE, stderr=subprocess.DEVNULL)
        assert await asyncio.wait_for(self.process.stdout.readline(), PATIENCE), "the gateway does not start"

    async def kill(self, of_program):
        """Kills it, or the program under it, which ends it too."""
        number = self.process.pid
        if of_program:
            with open(f"/proc/{number}/task/{number}/children", encoding="ascii") as opened:
                number = int(opened.read().split()[0])
        os.kill(number, signal.SIGKILL)
        await asyncio.wait_for(self.process.wait(), PATIENCE)

    async def end(self):
        """Ends it."""
        self.process.terminate()
        await asyncio.wait_for(self.process.wait(), PATIENCE)


class Counted:
    """What the writers know, and what the readers found wrong."""

    def __init__(self, writers):
        self.acknowledged = dict.fromkeys(range(writers), 0)
        self.until, self.reads, self.changes, self.lost = 0.0, 0, 0, 0
        self.faults = []

    def goes_on(self):
        """Whether there is time left and nothing is wrong."""
        return time.monotonic() < self.until and not self.faults


def path_of(writer):
    """The document of a writer."""
    return f"/documents/w{writer}"


async def current(connection, writer):
    """The count and the tag of a writer's document, once it is answered."""
    while True:
        with contextlib.suppress(Lost):
            status, fields, content = await connection.ask("GET", path_of(writer))
            if status == 200:
                return json.loads(content)["n"], fields["etag"]
            if status == 404:
                await connection.ask("PUT", path_of(writer), body_of(writer, 0), If_None_Match="*",
                                     Content_Type="application/json")
        await asyncio.sleep(0.02)


def body_of(writer, count):
    """A document of a kilobyte."""
    return json.dumps({"n": count, "writer": writer, "text": PADDING}).encode()


async def write(port, counted, writer):
    """Counts up; after a lost answer the document has the count or does not have it, and nothing else."""
    connection = Connection(port)
    count, tag = await current(connection, writer)
    while counted.goes_on():
        try:
            status, fields, _ = await connection.ask("PUT", path_of(writer), body_of(writer, count + 1), If_Match=tag,
                                                     Content_Type="application/json")
        except Lost:
            status, fields = 502, {}
        if status == 200:
            count, tag = count + 1, fields["etag"]
            counted.acknowledged[writer] = count
            counted.changes += 1
            continue
        if status not in (502, 503, 504):
            counted.faults.append(f"writer {writer} was answered {status}")
            return
        counted.lost += 1
        found, tag = await current(connection, writer)
        if not count <= found <= count + 1:
            counted.faults.append(f"writer {writer} counted to {count}, and {found} is there")
        count = found
        counted.acknowledged[writer] = count
    connection.close()


async def read(port, counted):
    """Reads documents at random, and compares them with what was acknowledged before."""
    connection = Connection(port)
    while counted.goes_on():
        writer = random.choice(list(counted.acknowledged))
        least = counted.acknowledged[writer]
        try:
            status, _, content = await connection.ask("GET", path_of(writer))
        except Lost:
            await asyncio.sleep(0.02)
            continue
        if status != 200:
            if status not in (404, 503) or (status == 404 and least):
                counted.faults.append(f"a reader was answered {status}")
            continue
        found = json.loads(content)
        if found["writer"] != writer:
            counted.faults.append(f"a reader of {writer} was answered the document of {found['writer']}")
        elif found["n"] < least:
            counted.faults.append(f"{writer} had acknowledged {least}, and {found['n']} was read")
        counted.reads += 1
    connection.close()


async def load(port, options, kill=None):
    """Runs the writers and the readers; returns what they counted."""
    counted = Counted(options.writers)
    counted.until = time.monotonic() + options.seconds
    tasks = [write(port, counted, writer) for writer in range(options.writers)]
    tasks += [read(port, counted) for _ in range(options.readers)]
    if kill:
        tasks.append(kill(counted))
    await asyncio.gather(*tasks)
    return counted


async def with_kills(program, folder, options):
    """The gateway and the program are killed in turn; each count is exact at the end."""
    gateway = Gateway(program, folder)
    await gateway.start()
    kills = 0

    async def kill(counted):
        nonlocal kills
        while counted.goes_on():
            await asyncio.sleep(random.uniform(0.5, 2))
            await gateway.kill(of_program=kills % 2 == 1)
            kills += 1
            await gateway.start()
    counted = await load(gateway.port, options, kill)
    for writer, count in counted.acknowledged.items():
        connection = Connection(gateway.port)
        found, _ = await current(connection, writer)
        connection.close()
        if found != count:
            counted.faults.append(f"writer {writer} counted to {count}, and {found} is there")
    await gateway.end()
    print(f"{kills} kills, {counted.changes} changes, {counted.reads} reads, {counted.lost} answers lost")
    return counted.faults


async def rates_of_gateway(program, folder, options):
    """Reads and changes a second."""
    gateway = Gateway(program, folder)
    await gateway.start()
    counted = await load(gateway.port, options)
    await gateway.end()
    print(f"the gateway: {counted.reads / options.seconds:,.0f} reads and {counted.changes / options.seconds:,.0f} "
          "durable changes a second")
    return counted.faults


async def rates_of_etcd(folder, options):
    """The same of etcd, by its own gateway for JSON."""
    port, peer = free_port(), free_port()
    words = ["etcd", "--data-dir", os.path.join(folder, "etcd"), "--listen-client-urls", f"http://127.0.0.1:{port}",
             "--advertise-client-urls", f"http://127.0.0.1:{port}", "--listen-peer-urls", f"http://127.0.0.1:{peer}",
             "--initial-advertise-peer-urls", f"http://127.0.0.1:{peer}", "--initial-cluster",
             f"default=http://127.0.0.1:{peer}"]
    etcd = await asyncio.create_subprocess_exec(*words, stdout=subprocess.DEVNULL, stderr=subprocess.DEVNULL)
    reads = changes = 0
    until = 0.0

    async def ask(connection, path, command):
        status, _, content = await connection.ask("POST", path, json.dumps(command).encode())
        assert status == 200, content
        return content

    async def put(writer):
        nonlocal changes
        connection, count = Connection(port), 0
        while time.monotonic() < until:
            count += 1
            await ask(connection, "/v3/kv/put", {"key": coded(f"w{writer}"), "value": coded(body_of(writer, count))})
            changes += 1

    async def get():
        nonlocal reads
        connection = Connection(port)
        while time.monotonic() < until:
            writer = random.randrange(options.writers)
            content = await ask(connection, "/v3/kv/range", {"key": coded(f"w{writer}")})
            for each in json.loads(content).get("kvs", ()):
                assert json.loads(base64.b64decode(each["value"]))["writer"] == writer
            reads += 1
    try:
        await until_up(port)
        until = time.monotonic() + options.seconds
        await asyncio.gather(*map(put, range(options.writers)), *(get() for _ in range(options.readers)))
    finally:
        etcd.terminate()
        await etcd.wait()
    print(f"etcd:        {reads / options.seconds:,.0f} reads and {changes / options.seconds:,.0f} durable changes a "
          "second")
    return []


def coded(value):
    """A key or a value as etcd's gateway has it."""
    return base64.b64encode(value if isinstance(value, bytes) else value.encode()).decode()


async def until_up(port):
    """Waits until etcd answers."""
    for _ in range(PATIENCE * 10):
        with contextlib.suppress(Lost):
            status, _, _ = await Connection(port).ask("GET", "/health")
            if status == 200:
                return
        await asyncio.sleep(0.1)
    raise AssertionError("etcd does not start")


def main():
    parser = argparse.ArgumentParser(description=__doc__.splitlines()[0])
    parser.add_argument("program")
    parser.add_argument("--seconds", type=float, default=30)
    parser.add_argument("--writers", type=int, default=8)
    parser.add_argument("--readers", type=int, default=100)
    parser.add_argument("--no-kills", action="store_true")
    parser.add_argument("--no-rates", action="store_true")
    options = parser.parse_args()
    use_server()
    program = os.path.abspath(options.program)
    parts = [] if options.no_kills else [lambda folder: with_kills(program, folder, options)]
    if not options.no_rates:
        parts.append(lambda folder: rates_of_gateway(program, folder, options))
        if shutil.which("etcd"):
            parts.append(lambda folder: rates_of_etcd(folder, options))
        else:
            print("etcd is not tried, since the Debian package etcd-server is missing")
    failed = 0
    for part in parts:
        with tempfile.TemporaryDirectory(prefix="jpstore-", dir=os.environ.get("JPSTORE_LOAD_FOLDER")) as folder:
            faults = asyncio.run(part(folder))
        for fault in faults[:20]:
            print(fault)
        failed += bool(faults)
    print(f"{len(parts) - failed} passed, {failed} failed")
    return 1 if failed else 0


if __name__ == "__main__":
    sys.exit(main())
