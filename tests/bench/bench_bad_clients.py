#!/usr/bin/env python3
"""Measures how long a good client waits for the server jpstored while another one does its worst.

    bench_bad_clients.py PROGRAM [--server PATH] [--beside PROGRAM SERVER] [--seconds N] [--only WORD..]

For each bad client a server is started over a new store of format 3, over HTTP and at a socket. Meanwhile a good client sends a GET of a
document that it has read, one of a value in it, a patch, a merge patch and a PUT of another, by turns, each when the one before was answered.
Shown are the p99 of each in ms, `*` where it is more than five times that without a bad client, and how many were refused or lost.
With --beside a second pair is measured, by turns with the first. Each bad client is a process of its own.

A bad client is another machine's. So one half of the processors is for it, and the other for the server and the good client.

The stores are in the folder that TMPDIR names. `--only` takes the bad clients whose names have one of these words.
"""
import argparse
import contextlib
import json
import os
import resource
import select
import signal
import socket
import subprocess
import sys
import tempfile
import time

ROOT = os.path.join(os.path.dirname(os.path.abspath(__file__)), "..", "..")
sys.path.insert(0, os.path.join(ROOT, "tools"))
from server import use_server  # noqa: E402

FILES = 8192
KINDS = ("cached", "pointer", "patch", "merge", "put")
PATCH, MERGE, JSON, LINES = "application/json-patch+json", "application/merge-patch+json", "application/json", "application/x-ndjson"
# A client that waits for more than this has lost its request.
PATIENCE = 70
BODY = 2 << 20
# The processors of the server and the good client, and those of the bad one: the same if there is one.
PROCESSORS = sorted(os.sched_getaffinity(0))
OURS, THEIRS = PROCESSORS[:(len(PROCESSORS) + 1) // 2], PROCESSORS[(len(PROCESSORS) + 1) // 2:] or PROCESSORS


def request(method, path, body=b"", kind=JSON, length=None):
    """The bytes of a request."""
    head = f"{method} {path} HTTP/1.1\r\nHost: localhost\r\nContent-Type: {kind}\r\nAccept: {kind}\r\n"
    return f"{head}Content-Length: {len(body) if length is None else length}\r\n\r\n".encode() + body


class Client:
    """A client over HTTP that waits for each answer, and connects again if its connection is lost."""

    def __init__(self, port):
        self._port, self._stream = port, None

    def ask(self, sent):
        """The status of the answer; 0 if it was lost."""
        try:
            if self._stream is None:
                connected = socket.create_connection(("127.0.0.1", self._port), timeout=PATIENCE)
                connected.setsockopt(socket.IPPROTO_TCP, socket.TCP_NODELAY, 1)
                self._stream = connected.makefile("rwb", buffering=1 << 16)
            self._stream.write(sent)
            self._stream.flush()
            return self._answered()
        except (OSError, ValueError, IndexError):
            self._stream = None
            return 0

    def _answered(self):
        status, length, closes = int(self._stream.readline().split()[1]), 0, False
        for line in iter(self._stream.readline, b"\r\n"):
            name, _, value = line.lower().partition(b":")
            length = int(value) if name == b"content-length" else length
            closes |= name == b"connection" and b"close" in value
        if len(self._stream.read(length)) != length:
            raise OSError
        if closes:
            self._stream = None
        return status


def be_good(port, seconds):
    """Sends each kind by turns; says how long each took, and what was refused."""
    client, times, refused, count = Client(port), {kind: [] for kind in KINDS}, [], 0
    end = time.monotonic() + seconds
    while time.monotonic() < end:
        count += 1
        asked = {
            "cached": request("GET", "/documents/kept"),
            "pointer": request("GET", "/documents/kept?pointer=/n"),
            "patch": request("PATCH", "/documents/changed", b'[{"op":"replace","path":"/n","value":%d}]' % count, PATCH),
            "merge": request("PATCH", "/documents/changed", b'{"n":%d}' % -count, MERGE),
            "put": request("PUT", "/documents/put", b'{"n":%d}' % count),
        }
        for kind, sent in asked.items():
            begin = time.perf_counter()
            status = client.ask(sent)
            times[kind].append(time.perf_counter() - begin)
            if status not in (200, 201):
                refused.append(f"{kind} {status}")
    print(json.dumps({"times": times, "refused": refused}))


# ---- bad clients: each is called with the port and the socket, says `ready`, and goes on until it is killed


def ready():
    print("ready", flush=True)


def connected(port, received=0):
    """A connection that waits for nothing."""
    client = socket.socket()
    if received:
        client.setsockopt(socket.SOL_SOCKET, socket.SO_RCVBUF, received)
    client.connect(("127.0.0.1", port))
    client.setblocking(False)
    return client


def holding(port, count, sent, received=0):
    """Many connections on each of which this is sent, as far as it is taken; lost ones are made again."""
    clients = [[connected(port, received), sent] for _ in range(count)]
    poll, known = select.epoll(), {}
    for client in clients:
        known[client[0].fileno()] = client
        poll.register(client[0], select.EPOLLOUT | select.EPOLLRDHUP)
    told = False
    while True:
        for number, event in poll.poll(0.5):
            client = known[number]
            try:
                if event & (select.EPOLLRDHUP | select.EPOLLHUP | select.EPOLLERR):
                    raise ConnectionResetError
                client[1] = client[1][client[0].send(client[1]):]
                if not client[1]:
                    poll.modify(client[0], select.EPOLLRDHUP)
            except BlockingIOError:
                pass
            except OSError:
                del known[number]
                client[0].close()
                client[:] = connected(port, received), sent
                known[client[0].fileno()] = client
                poll.register(client[0], select.EPOLLOUT | select.EPOLLRDHUP)
        if not told:
            told = True
            ready()


def repeating(port, count, sent):
    """Many connections on each of which this is sent again when it is answered."""
    for _ in range(count - 1):
        if os.fork() == 0:
            break
    else:
        ready()
    client = Client(port)
    while True:
        client.ask(sent)


def byte_by_byte(port, _):
    clients, head = [connected(port) for _ in range(20)], request("GET", "/documents/kept") * 50
    ready()
    while True:
        for place in range(len(head)):
            for index, client in enumerate(clients):
                try:
                    client.send(head[place:place + 1])
                    with contextlib.suppress(BlockingIOError):
                        client.recv(1 << 16)
                except OSError:
                    clients[index] = connected(port)
            time.sleep(0.001)


def followers_that_read(port, _):
    poll = select.epoll()
    clients = {}
    for _ in range(900):
        client = connected(port)
        client.send(request("GET", "/changes"))
        clients[client.fileno()] = client
        poll.register(client, select.EPOLLIN)
    ready()
    while True:
        for number, _ in poll.poll():
            with contextlib.suppress(OSError):
                if not clients[number].recv(1 << 16):
                    poll.unregister(number)


def connects_and_closes(port, _):
    ready()
    while True:
        with contextlib.suppress(OSError):
            connected(port).close()


def at_the_socket(_, path):
    clients = [socket.socket(socket.AF_UNIX) for _ in range(40)]
    for client in clients:
        client.connect(path)
        client.sendall(b'{"cmd":"get","name":"big","path":""}\n' * 200)
    ready()
    signal.pause()


OPERATIONS = ",".join('{"op":"add","path":"/0","value":0},{"op":"remove","path":"/0"}' for _ in range(2048)).encode()
MEMBERS = ",".join(f'"{number}":{{"a":1}}' for number in range(42_000)).encode()
FIELD = b"X: " + b"x" * 16_000 + b"\r\n"
BAD = {
    "3,000 that begin a head": lambda port, _: holding(port, 3000, b"GET /documents/kept HTTP/1.1\r\nHost: "),
    "400 heads of 112 KB": lambda port, _: holding(port, 400, b"GET / HTTP/1.1\r\nHost: localhost\r\n" + FIELD * 7),
    "20 heads byte by byte": byte_by_byte,
    "1,000 followers, deaf": lambda port, _: holding(port, 1000, request("GET", "/changes"), 4096),
    "900 followers": followers_that_read,
    "4 long patches": lambda port, _: repeating(port, 4, request("PATCH", "/documents/rows", b"[" + OPERATIONS + b"]", PATCH)),
    "4 texts of 900 levels": lambda port, _: repeating(port, 4, request("PUT", "/documents/deep", (b"[" * 900 + b"]" * 900 + b" ") * 1100)),
    "8 refused changes": lambda port, _: repeating(port, 8, request("PATCH", "/documents/typed", b'{"n":"x"}', MERGE)),
    "6 refused long documents": lambda port, _: repeating(port, 6, request("PUT", "/documents/typed", b'{"n":[' + b'"x",' * 20_000 + b"0]}")),
    "8 that pipeline, deaf": lambda port, _: holding(port, 8, request("GET", "/documents/big") * 2000),
    "connects and closes": connects_and_closes,
    "16 that stop sending": lambda port, _: holding(port, 16, request("PUT", "/documents/b", b" " * (BODY - 1), length=BODY)),
    "300 that stop sending": lambda port, _: holding(port, 300, request("PUT", "/documents/b", b" " * 999, length=1000)),
    "400 readers, deaf": lambda port, _: holding(port, 400, request("GET", "/documents/big") * 20, 4096),
    "300 readers of values": lambda port, _: holding(port, 300, request("GET", "/documents/big?pointer=/p") * 20, 4096),
    "20 exports, deaf": lambda port, _: holding(port, 20, request("GET", "/documents", kind=LINES), 4096),
    "4 long merge patches": lambda port, _: repeating(port, 4, request("PATCH", "/documents/middle", b"{" + MEMBERS + b"}", MERGE)),
    "40 at the socket": at_the_socket,
    "5,000 idle": lambda port, _: holding(port, 5000, b""),
}


# ---- the table


@contextlib.contextmanager
def serving(program, server, folder):
    """A server over a new store with the documents that clients ask for; its port and its socket."""
    file, path = os.path.join(folder, "store"), os.path.join(folder, "s")
    subprocess.run([program, "format", file, "--sectors", "131072", "--format", "3"], check=True, stdout=subprocess.DEVNULL)
    words = [server, file, "--listen", "127.0.0.1:0", "--socket", path, "--program", program]
    # The package tells why something is refused.
    environment = {**os.environ, "PYTHONPATH": os.path.join(ROOT, "clients", "python")}
    with subprocess.Popen(words, stdout=subprocess.PIPE, stderr=subprocess.DEVNULL, env=environment,
                          preexec_fn=lambda: files(FILES)) as process:
        try:
            port = next(int(line.split(b":")[-1].strip(b"/\n")) for line in process.stdout if b"http://" in line)
            client = Client(port)
            typed = '?schema={"properties":{"n":{"items":{"type":"integer"},"type":["integer","array"]}}}'
            documents = {"kept": {"n": 1, "text": "x" * 1000}, "changed": {"n": 1, "text": "x" * 1000}, "put": 1, "big": {"p": "x" * 1_000_000},
                         "rows": [0] * 500, "middle": {str(number): {"a": 0} for number in range(20_000)}, "typed" + typed.replace('"', "%22"): {"n": 1}}
            for name, document in documents.items():
                status = client.ask(request("PUT", f"/documents/{name}", json.dumps(document).encode()))
                assert status == 201, f"{name}: {status}"
            client.ask(request("GET", "/documents/kept"))
            yield port, path
        finally:
            process.kill()


def files(most):
    """Lets a process have so many files open."""
    hard = resource.getrlimit(resource.RLIMIT_NOFILE)[1]
    resource.setrlimit(resource.RLIMIT_NOFILE, (min(most, hard), min(most, hard)))


def own(processors, *words):
    """This script again, as a process of its own group on these processors."""
    return subprocess.Popen([sys.executable, os.path.abspath(__file__), *words], stdout=subprocess.PIPE, start_new_session=True,
                            preexec_fn=lambda: os.sched_setaffinity(0, processors))


def measured(program, server, bad, seconds):
    """What a good client sees beside a bad one: the p99 of each kind in ms, and what was refused."""
    with tempfile.TemporaryDirectory(prefix="jpstore-") as folder, serving(program, server, folder) as (port, path), contextlib.ExitStack() as stack:
        if bad:
            other = own(THEIRS, "bad", bad, str(port), path)
            stack.callback(lambda: (os.killpg(other.pid, signal.SIGKILL), other.wait(), other.stdout.close()))
            assert other.stdout.readline() == b"ready\n", bad
        with own(OURS, "good", str(port), str(seconds)) as good:
            found = json.loads(good.stdout.read())
    times = {kind: sorted(found["times"][kind]) for kind in KINDS}
    return {kind: 1e3 * each[len(each) * 99 // 100] for kind, each in times.items()}, found["refused"]


def shown(name, pair, found, without):
    """A line of the table."""
    p99, refused = found
    cells = [f"{p99[kind]:>9,.1f}{'*' if without and p99[kind] > 5 * without[kind] else ' '}" for kind in KINDS]
    return f"{name:<26}{pair:<8}{''.join(cells)}{len(refused):>9}"


def main():
    parser = argparse.ArgumentParser(description=__doc__, formatter_class=argparse.RawDescriptionHelpFormatter)
    parser.add_argument("program")
    parser.add_argument("--server")
    parser.add_argument("--beside", nargs=2, metavar=("PROGRAM", "SERVER"))
    parser.add_argument("--seconds", type=float, default=4)
    parser.add_argument("--only", nargs="*", default=[""])
    words = parser.parse_args()
    if words.server:
        os.environ["JPSTORE_SERVER"] = words.server
    use_server()
    os.sched_setaffinity(0, OURS)
    pairs = {"": (os.path.abspath(words.program), os.environ["JPSTORE_SERVER"])}
    if words.beside:
        pairs = {"beside": [os.path.abspath(word) for word in words.beside], "this": pairs[""]}
    chosen = [name for name in BAD if any(word in name for word in words.only)]
    print(f"{'p99 in ms':<34}{''.join(f'{kind:>9} ' for kind in KINDS)}{'refused':>9}", flush=True)
    without = {}
    for bad in [None, *chosen, None]:
        for pair, (program, server) in pairs.items():
            found = measured(program, server, bad, words.seconds)
            print(shown(bad or "none", pair, found, without.get(pair)), flush=True)
            without.setdefault(pair, found[0])


if __name__ == "__main__":
    if sys.argv[1:2] == ["bad"]:
        files(FILES)
        BAD[sys.argv[2]](int(sys.argv[3]), sys.argv[4])
    elif sys.argv[1:2] == ["good"]:
        be_good(int(sys.argv[2]), float(sys.argv[3]))
    else:
        main()
