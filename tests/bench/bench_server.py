#!/usr/bin/env python3
"""Measures the server jpstored, over HTTP and by its socket, etcd's gateway and Redis, by turns over 100 documents of 1 KB.

    bench_server.py PROGRAM [--seconds N] [--rounds N] [--connections N]

Each round asks each server for documents, then changes a member of them (etcd and Redis: puts whole values), and over HTTP asks while
others change them. Each change is on the disk before it is answered; Redis has `appendfsync always`. HTTP is asked by `wrk`, Redis by
`redis-benchmark`, the socket by a loop in Python, which is as fast as the server. Of all rounds the median is shown: a second, the p50 and
the p99 in ms, and how much time of a processor the server and the processes that it has started take for each, which other work on the
machine changes less. `chrt -f 10 ionice -c1` before it lets it run as if alone.

It needs Debian's wrk, etcd-server, redis-server and redis-tools. Files are in the folder that TMPDIR names.
"""
import argparse
import base64
import contextlib
import http.client
import json
import os
import re
import socket
import statistics
import subprocess
import sys
import tempfile
import time

sys.path.insert(0, os.path.join(os.path.dirname(os.path.abspath(__file__)), "..", "..", "tools"))
from server import use_server  # noqa: E402

DOCUMENTS = 100
TEXT = "x" * 1000

# Requests that are the same each time are made once, so that `wrk` is not what is measured.
GET = """
local asked = {}
init = function() for number = 0, 99 do asked[number] = wrk.format("GET", "/documents/d" .. number) end end
request = function() return asked[math.random(0, 99)] end
"""
PATCH = """
wrk.headers["Content-Type"] = "application/json-patch+json"
local count = 0
request = function()
  count = count + 1
  return wrk.format("PATCH", "/documents/d" .. math.random(0, 99), nil, '[{"op":"replace","path":"/n","value":' .. count .. '}]')
end
"""
ETCD = """
local keys, asked = {%s}, {}
init = function()
  for number, key in ipairs(keys) do asked[number] = wrk.format("POST", "/v3/kv/%s", nil, '{"key":"' .. key .. '"%s}') end
end
request = function() return asked[math.random(1, 100)] end
"""


def coded(text):
    return base64.b64encode(text.encode()).decode()


# Sends a line on each connection, and the next one when it is answered; says what `told_by` reads.
SOCKET = """
import random, select, socket, sys, time
path, kind, connections, seconds = sys.argv[1], sys.argv[2], int(sys.argv[3]), float(sys.argv[4])
count = 0
def line():
    global count
    count += 1
    name = random.randrange(100)
    if kind == "get":
        return b'{"cmd":"get","name":"d%d","path":""}\\n' % name
    return b'{"cmd":"patch","name":"d%d","ops":[{"op":"replace","path":"/n","value":%d}]}\\n' % (name, count)
poll, sockets, times = select.epoll(), {}, []
for _ in range(connections):
    client = socket.socket(socket.AF_UNIX)
    client.connect(path)
    sockets[client.fileno()] = [client, 0.0, b""]
    poll.register(client, select.EPOLLIN)
begin = time.perf_counter()
for each in sockets.values():
    each[1] = time.perf_counter()
    each[0].sendall(line())
while time.perf_counter() - begin < seconds:
    for number, _ in poll.poll():
        each = sockets[number]
        each[2] += each[0].recv(1 << 16)
        if each[2].endswith(b"\\n"):
            assert each[2].startswith(b'{"ok":true'), each[2]
            now = time.perf_counter()
            times.append(now - each[1])
            each[1], each[2] = now, b""
            each[0].sendall(line())
times.sort()
print(f"50% {1e3 * times[len(times) // 2]}ms 99% {1e3 * times[len(times) * 99 // 100]}ms")
print(f"Requests/sec: {len(times) / seconds}")
"""


KEYS = ",".join(f'"{coded(f"d{number}")}"' for number in range(DOCUMENTS))
VALUE = coded(json.dumps({"n": 1, "text": TEXT}))


def free_port():
    with socket.socket() as free:
        free.bind(("127.0.0.1", 0))
        return free.getsockname()[1]


class Server:
    """A server as a process, how documents are read and changed, and what was measured."""

    def __init__(self, name, words, port, reading, writing):
        self.name, self.port, self.reading, self.writing = name, port, reading, writing
        self.found = {}
        self._process = subprocess.Popen(words, stdout=subprocess.DEVNULL, stderr=subprocess.DEVNULL)

    def load(self, folder, what, options):
        """A process that reads or changes documents for some seconds, and says how fast that was."""
        script = self.reading if what == "reads" else self.writing
        path = os.path.join(folder, f"{len(os.listdir(folder))}.lua")
        with open(path, "w", encoding="ascii") as opened:
            opened.write(script)
        threads = min(len(os.sched_getaffinity(0)), options.connections)
        words = ["wrk", f"-t{threads}", f"-c{options.connections}", f"-d{options.seconds}s", "--latency", "-s", path, f"http://127.0.0.1:{self.port}"]
        return subprocess.Popen(words, stdout=subprocess.PIPE, text=True)

    def wait(self, path):
        """Waits until it answers."""
        for _ in range(600):
            with contextlib.suppress(OSError):
                if ask(self.port, "GET", path) == 200:
                    return
            time.sleep(0.1)
        raise AssertionError(f"{self.name} does not start")

    def processor_time(self):
        """How much time of a processor the server has taken, and what it has started, in seconds."""
        parents, times = {}, {}
        for number in filter(str.isdigit, os.listdir("/proc")):
            with contextlib.suppress(OSError):
                with open(f"/proc/{number}/stat", encoding="ascii", errors="replace") as opened:
                    # After the name, which is in brackets: the state, the parent, and in time the times.
                    fields = opened.read().rpartition(")")[2].split()
                parents[int(number)], times[int(number)] = int(fields[1]), int(fields[11]) + int(fields[12])
        own = {number for number in times if self._process.pid in (number, parents[number], parents.get(parents[number]))}
        return sum(times[number] for number in own) / os.sysconf("SC_CLK_TCK")

    def end(self):
        self._process.terminate()
        self._process.wait()


def ask(port, method, path, body=None):
    """The status of an answer."""
    with contextlib.closing(http.client.HTTPConnection("127.0.0.1", port, timeout=30)) as connection:
        connection.request(method, path, body, {"Content-Type": "application/json"})
        answer = connection.getresponse()
        answer.read()
        return answer.status


class Socket(Server):
    """A server at its socket."""

    def load(self, folder, what, options):
        words = [sys.executable, "-c", SOCKET, self.port, "get" if what == "reads" else "patch", str(options.connections), str(options.seconds)]
        return subprocess.Popen(words, stdout=subprocess.PIPE, text=True)


class Redis(Server):
    """Redis, of which `redis-benchmark` asks as many requests as it does in a second or more."""

    def load(self, folder, what, options):
        kind = "get" if what == "reads" else "set"
        count = (100_000 if what == "reads" else 20_000) * options.seconds // (1 if options.connections > 8 else 10)
        words = ["redis-benchmark", "-p", str(self.port), "-c", str(options.connections), "-n", str(count), "-r", str(DOCUMENTS), "-d", "1000", "--csv",
                 "-t", kind]
        # Its columns: the test, a second, the mean, least, p50, p95, p99 and greatest time in milliseconds.
        script = "import subprocess, sys; row = subprocess.check_output(sys.argv[1:], text=True).splitlines()[-1].replace('\"', '').split(','); " \
            "print(f'50% {row[4]}ms 99% {row[6]}ms\\nRequests/sec: {row[1]}')"
        return subprocess.Popen([sys.executable, "-c", script, *words], stdout=subprocess.PIPE, text=True)


def told_by(process):
    """Requests a second, and the p50 and the p99 in milliseconds."""
    said = process.communicate()[0]
    errors = re.search(r"Non-2xx or 3xx responses: (\d+)", said)
    assert not errors, said
    units = {"us": 0.001, "ms": 1.0, "s": 1000.0}
    times = [float(number) * units[unit] for number, unit in re.findall(r"(?:50|99)%\s+([\d.]+)(us|ms|s)", said)]
    return (float(re.search(r"Requests/sec:\s+([\d.]+)", said)[1]), *times)


def measured(folder, server, options):
    """One round of a server."""
    def note(what, found, took=0.0, seconds=1.0):
        server.found.setdefault(what, []).append((*found, 1e6 * took / max(found[0] * seconds, 1)))
    for what in ("reads", "changes"):
        before, begin = server.processor_time(), time.monotonic()
        found = told_by(server.load(folder, what, options))
        note(what, found, server.processor_time() - before, time.monotonic() - begin)
    if isinstance(server, (Socket, Redis)):
        return
    writers = server.load(folder, "changes", options)
    note("reads beside changes", told_by(server.load(folder, "reads", options)))
    note("changes beside reads", told_by(writers))


def started(folder, options):
    """The servers, each with its documents."""
    def jpstored(name, *more, kind=Server):
        file, port, path = os.path.join(folder, name.replace(" ", "-")), free_port(), os.path.join(folder, f"{len(os.listdir(folder))}.socket")
        subprocess.run([options.program, "format", file, "--sectors", "131072", "--format", "3"], check=True, stdout=subprocess.DEVNULL)
        words = [os.environ["JPSTORE_SERVER"], file, "--listen", f"127.0.0.1:{port}", "--socket", path, "--program", options.program, *more]
        server = kind(name, words, port, GET, PATCH)
        server.wait("/healthz")
        for number in range(DOCUMENTS):
            assert ask(port, "PUT", f"/documents/d{number}", json.dumps({"n": 0, "text": TEXT})) == 201
        server.port = path if kind is Socket else port
        return server
    yield jpstored("jpstored")
    yield jpstored("jpstored --no-cache", "--no-cache")
    yield jpstored("jpstored, socket", kind=Socket)
    port, peer = free_port(), free_port()
    words = ["etcd", "--data-dir", os.path.join(folder, "etcd"), "--listen-client-urls", f"http://127.0.0.1:{port}", "--advertise-client-urls",
             f"http://127.0.0.1:{port}", "--listen-peer-urls", f"http://127.0.0.1:{peer}", "--initial-advertise-peer-urls",
             f"http://127.0.0.1:{peer}", "--initial-cluster", f"default=http://127.0.0.1:{peer}"]
    etcd = Server("etcd's gateway", words, port, ETCD % (KEYS, "range", ""), ETCD % (KEYS, "put", f',"value":"{VALUE}"'))
    etcd.wait("/health")
    for number in range(DOCUMENTS):
        assert ask(port, "POST", "/v3/kv/put", json.dumps({"key": coded(f"d{number}"), "value": VALUE})) == 200
    yield etcd
    port = free_port()
    yield Redis("Redis", ["redis-server", "--port", str(port), "--dir", folder, "--appendonly", "yes", "--appendfsync", "always", "--save", ""], port, "", "")


def main():
    parser = argparse.ArgumentParser(description=__doc__, formatter_class=argparse.RawDescriptionHelpFormatter)
    parser.add_argument("program")
    parser.add_argument("--seconds", type=int, default=3)
    parser.add_argument("--rounds", type=int, default=3)
    parser.add_argument("--connections", type=int, default=64)
    options = parser.parse_args()
    options.program = os.path.abspath(options.program)
    use_server()
    with tempfile.TemporaryDirectory(prefix="jpstore-") as folder, tempfile.TemporaryDirectory() as scripts:
        servers = []
        try:
            servers.extend(started(folder, options))
            for _ in range(options.rounds):
                for server in servers:
                    measured(scripts, server, options)
        finally:
            for server in servers:
                server.end()
    for what in servers[0].found:
        print(what)
        for server in (server for server in servers if what in server.found):
            middle = [statistics.median(column) for column in zip(*server.found[what])]
            took = f", {middle[3]:6,.0f} us of a processor each" if middle[3] else ""
            print(f"  {server.name:22} {middle[0]:10,.0f} a second, p50 {middle[1]:8.2f} ms, p99 {middle[2]:8.2f} ms{took}")
    return 0


if __name__ == "__main__":
    sys.exit(main())
