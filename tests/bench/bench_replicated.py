#!/usr/bin/env python3
"""Changes and questions a second of a replicated store, by turns with one store and with etcd.

    bench_replicated.py PROGRAM [--seconds N] [--turns N]

One store behind a hub, etcd's own puts by its gateway, and three nodes over three members, all on this machine. Each client
has one request under way; a change replaces a number in a document of 200 bytes, and a put has the bytes of that change.
The clients are one process that waits for all of them. Shown are the median rate of the turns, and of its turn the median
and the 99th percentile of the time of a request, in milliseconds. It passes if 64 clients of nodes make at least 0.7
changes for each put of etcd. It needs what tests/gate/test_replicated.py needs. Files are in the folder that TMPDIR names.
"""
import argparse
import base64
import json
import os
import random
import selectors
import socket
import statistics
import subprocess
import sys
import tempfile
import time

sys.path.insert(0, os.path.join(os.path.dirname(os.path.abspath(__file__)), "..", "gate"))
from test_replicated import prepare

DOCUMENTS = 64
SECTORS = 65536


def change(client, number):
    """The line of a change, different each time."""
    ops = [{"op": "replace", "path": "/v", "value": number}]
    return json.dumps({"cmd": "patch", "name": f"b{client % DOCUMENTS}", "ops": ops}).encode() + b"\n"


def question(client, _):
    """The line of a question."""
    return b'{"cmd":"get","name":"b%d","path":"/v"}\n' % (client % DOCUMENTS)


def put(client, number):
    """A put of etcd's gateway with the bytes of a change."""
    pair = {"key": base64.b64encode(b"bench/%d" % client).decode(), "value": base64.b64encode(change(client, number)).decode()}
    body = json.dumps(pair).encode()
    return b"POST /v3/kv/put HTTP/1.1\r\nHost: etcd\r\nContent-Length: %d\r\n\r\n" % len(body) + body


def is_line(answer):
    """Whether a reply has come whole."""
    assert answer.startswith(b'{"ok":true'), answer
    return answer.endswith(b"\n")


def is_put(answer):
    """Whether the answer to a put has come whole."""
    head, found, body = answer.partition(b"\r\n\r\n")
    assert head.startswith(b"HTTP/1.1 200"), answer
    length = int(head.lower().partition(b"content-length:")[2].split(b"\r")[0])
    return bool(found) and len(body) >= length


REQUESTS = {"change": (change, is_line), "question": (question, is_line), "put": (put, is_put)}


def connected(place):
    """A connection to the socket at a path, or at HOST:PORT."""
    if place.startswith("/"):
        made = socket.socket(socket.AF_UNIX)
        made.connect(place)
        return made
    host, port = place.rsplit(":", 1)
    made = socket.create_connection((host.rpartition("/")[2], int(port)))
    made.setsockopt(socket.IPPROTO_TCP, socket.TCP_NODELAY, 1)
    return made


def load(kind, places, count, seconds):
    """So many clients, spread over these places; prints the rate, the median and the 99th percentile."""
    make, is_whole = REQUESTS[kind]
    waiting, times = selectors.DefaultSelector(), []
    number = random.randrange(1 << 40)
    for client in range(count):
        connection = connected(places[client % len(places)])
        connection.sendall(make(client, number))
        waiting.register(connection, selectors.EVENT_READ, [client, time.monotonic(), b""])
    begin = time.monotonic()
    while time.monotonic() < begin + seconds:
        for key, _ in waiting.select(1):
            state = key.data
            state[2] += key.fileobj.recv(1 << 16)
            if is_whole(state[2]):
                now = time.monotonic()
                times.append(now - state[1])
                number += 1
                state[1], state[2] = now, b""
                key.fileobj.sendall(make(state[0], number))
    rate = len(times) / (time.monotonic() - begin)
    times.sort()
    print(json.dumps([rate, 1000 * times[len(times) // 2], 1000 * times[int(len(times) * 0.99)]]))


def measured(kind, places, count, seconds):
    """What a process of clients measures."""
    words = [sys.executable, os.path.abspath(__file__), "--load", kind, ",".join(places), str(count), str(seconds)]
    return json.loads(subprocess.check_output(words))


def created(ask):
    """Makes the documents."""
    for number in range(DOCUMENTS):
        ask({"cmd": "create", "name": f"b{number}", "doc": {"v": 0, "text": "x" * 180}, "schema": True})


def sync_time(folder):
    """The median time of a sync of a file there, in milliseconds."""
    times = []
    with open(f"{folder}/probe", "wb", buffering=0) as file:
        for _ in range(200):
            file.write(b"x" * 512)
            begin = time.monotonic()
            os.fdatasync(file.fileno())
            times.append(1000 * (time.monotonic() - begin))
    return statistics.median(times)


def bench(program, folder, seconds, turns):
    """Measures all, by turns."""
    import replicas
    from hubs import Hub
    from support import Place
    place = Place(program, folder)
    place.format(SECTORS)
    members = replicas.Members(folder)
    nodes = replicas.Replicas(folder, program, members)
    try:
        with Hub(place) as hub:
            members.start_all()
            nodes.make((SECTORS,) * 3, 8_000_000)
            created(lambda command: nodes.ask("a", command))
            with hub.connect() as store:
                created(lambda command: store.create(command["name"], command["doc"], command["schema"]))
            rows = rows_of(hub, members, nodes)
            found = {what: [] for what, _, _, _ in rows}
            for _ in range(turns):
                for what, kind, places, count in rows:
                    found[what].append(measured(kind, places, count, seconds))
    finally:
        nodes.close()
        members.close()
    return {what: sorted(each)[len(each) // 2] for what, each in found.items()}


def rows_of(hub, members, nodes):
    """What is measured: its name, the kind of requests, where, and by how many clients."""
    etcd, one = members.endpoints.split(","), [nodes.socket("a")]
    all_nodes, local = [nodes.socket(node) for node in "abc"], [nodes.socket("b", True)]
    rows = []
    for count in (1, 6, 64):
        rows += [(f"one store behind a hub, changes, {count}", "change", [hub.path], count),
                 (f"etcd, puts, {count}", "put", etcd, count),
                 (f"nodes, changes at one, {count}", "change", one, count),
                 (f"nodes, changes at all, {count}", "change", all_nodes, count),
                 (f"one store behind a hub, questions, {count}", "question", [hub.path], count),
                 (f"nodes, linearizable questions at one, {count}", "question", [nodes.socket("b")], count),
                 (f"nodes, local questions at one, {count}", "question", local, count)]
    return rows


def main():
    if sys.argv[1:2] == ["--load"]:
        kind, places, count, seconds = sys.argv[2:]
        load(kind, places.split(","), int(count), float(seconds))
        return 0
    parser = argparse.ArgumentParser(description=__doc__, formatter_class=argparse.RawDescriptionHelpFormatter)
    parser.add_argument("program")
    parser.add_argument("--seconds", type=float, default=3.0)
    parser.add_argument("--turns", type=int, default=3)
    words = parser.parse_args()
    prepare()
    with tempfile.TemporaryDirectory(prefix="jpstore-") as folder:
        print(f"load {os.getloadavg()[0]:.1f}, a sync takes {sync_time(folder):.2f} ms; clients at the end of each line")
        found = bench(os.path.abspath(words.program), folder, words.seconds, words.turns)
    for what, (rate, median, most) in found.items():
        print(f"{what:<50} {rate:8.0f} a second  {median:8.2f} ms  {most:8.2f} ms")
    ratio = found["nodes, changes at one, 64"][0] / found["etcd, puts, 64"][0]
    print(f"with 64 clients nodes make {ratio:.2f} changes for each put of etcd")
    print(f"{int(ratio >= 0.7)} passed, {int(ratio < 0.7)} failed")
    return int(ratio < 0.7)


if __name__ == "__main__":
    sys.exit(main())
