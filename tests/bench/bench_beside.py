#!/usr/bin/env python3
"""Three jobs in jpstore, SQLite, Redis and etcd, by turns: changes one after the other, reads, a question over many items.

    bench_beside.py PROGRAM [--rounds N]

Each store has 5,000 items of some 130 bytes. A change takes one from the stock of an item and is on the disk before the
next; a read gets an item; the question is which items are below their own least stock. The clients are Python's, on this
machine: of jpstore over a pipe (format 3, 50 documents) and over a hub, of SQLite in process (a row an item, a log ahead
and `synchronous=FULL`), of Redis over a Unix socket (`appendfsync always`), of etcd over its gateway (one member). Shown is
the best of the rounds. It needs Debian's redis-server, python3-redis and etcd-server. Files are in the folder that TMPDIR
names.
"""
import argparse
import base64
import contextlib
import http.client
import json
import os
import pathlib
import sqlite3
import subprocess
import sys
import tempfile
import time

sys.path.insert(0, str(pathlib.Path(__file__).resolve().parent))
from bench_shelves import QUERY, item, shelf_of, shelves  # noqa: E402

from jpstore import Store, create, format_file, patch  # noqa: E402

ITEMS, SHELVES, CHANGES, READS = 5000, 50, 100, 300
SKUS = [f"SKU-{number:05}" for number in range(ITEMS)]
VALUES = {sku: {**item(number), "stock": 1000 + number % 97, "least": 1005} for number, sku in enumerate(SKUS)}


class Jpstore:
    def __init__(self, store):
        self.store = store

    def change(self, sku):
        shelf, place = shelf_of(sku, SHELVES), f"/{sku}/stock"
        stock = self.store.get(shelf, place)
        self.store.patch(shelf, [{"op": "test", "path": place, "value": stock},
                                 {"op": "replace", "path": place, "value": stock - 1}])

    def read(self, sku):
        return self.store.get(shelf_of(sku, SHELVES), f"/{sku}")

    def low(self):
        return sum(map(len, self.store.query_all(QUERY).values()))


class Sqlite:
    def __init__(self, folder):
        self.base = sqlite3.connect(os.path.join(folder, "sqlite"), isolation_level=None)
        self.base.execute("pragma journal_mode=wal")
        self.base.execute("pragma synchronous=full")
        self.base.execute("create table items (sku text primary key, doc text)")
        self.base.execute("begin")
        self.base.executemany("insert into items values (?, ?)", [(sku, json.dumps(value)) for sku, value in VALUES.items()])
        self.base.execute("commit")

    def change(self, sku):
        self.base.execute("begin immediate")
        self.base.execute("select json_extract(doc, '$.stock') from items where sku = ?", (sku,)).fetchone()
        self.base.execute("update items set doc = json_set(doc, '$.stock', json_extract(doc, '$.stock') - 1) where sku = ?", (sku,))
        self.base.execute("commit")

    def read(self, sku):
        return json.loads(self.base.execute("select doc from items where sku = ?", (sku,)).fetchone()[0])

    def low(self):
        words = "select count(*) from items where json_extract(doc, '$.stock') < json_extract(doc, '$.least')"
        return self.base.execute(words).fetchone()[0]


class Redis:
    TAKE = """local item = cjson.decode(redis.call('get', KEYS[1])); item.stock = item.stock - 1
    redis.call('set', KEYS[1], cjson.encode(item))"""

    def __init__(self, path):
        import redis
        self.base = redis.Redis(unix_socket_path=path)
        self.base.mset({sku: json.dumps(value) for sku, value in VALUES.items()})
        self.take = self.base.register_script(self.TAKE)

    def change(self, sku):
        self.take(keys=[sku])

    def read(self, sku):
        return json.loads(self.base.get(sku))

    def low(self):
        items = map(json.loads, self.base.mget(SKUS))
        return sum(each["stock"] < each["least"] for each in items)


class Etcd:
    def __init__(self, port):
        self.port = port
        self.http = http.client.HTTPConnection("127.0.0.1", port)
        for sku, value in VALUES.items():
            self.put(sku, value)

    def ask(self, what, body):
        self.http.request("POST", f"/v3/kv/{what}", json.dumps(body))
        return json.load(self.http.getresponse())

    def put(self, sku, value):
        self.ask("put", {"key": _coded(sku), "value": _coded(json.dumps(value))})

    def found(self, sku):
        return self.ask("range", {"key": _coded(sku)})["kvs"][0]

    def change(self, sku):
        pair = self.found(sku)
        value = json.loads(base64.b64decode(pair["value"]))
        value["stock"] -= 1
        put = {"key": _coded(sku), "value": _coded(json.dumps(value))}
        asked = {"compare": [{"key": _coded(sku), "target": "MOD", "mod_revision": pair["mod_revision"]}],
                 "success": [{"request_put": put}]}
        assert self.ask("txn", asked)["succeeded"]

    def read(self, sku):
        return json.loads(base64.b64decode(self.found(sku)["value"]))

    def low(self):
        pairs = self.ask("range", {"key": _coded("SKU-"), "range_end": _coded("SKU.")})["kvs"]
        items = [json.loads(base64.b64decode(pair["value"])) for pair in pairs]
        return sum(each["stock"] < each["least"] for each in items)


def _coded(text):
    return base64.b64encode(text.encode()).decode()


def filled(program, file):
    format_file(file, 1 << 15, program, version=3)
    with Store(file, program=program, batch=64) as store:
        maps = shelves(ITEMS, SHELVES)
        store.group(create(name, {sku: VALUES[sku] for sku in shelf}) for name, shelf in maps.items())


@contextlib.contextmanager
def started(words, **how):
    with subprocess.Popen(words, stdout=subprocess.DEVNULL, stderr=subprocess.DEVNULL, **how) as process:
        try:
            yield process
        finally:
            process.terminate()


def until(do):
    """Does it as soon as it can be done."""
    end = time.monotonic() + 60
    while True:
        try:
            return do()
        except Exception:
            if time.monotonic() > end:
                raise
            time.sleep(0.1)


def all_stores(program, folder, stack):
    for name in ("pipe", "hub"):
        filled(program, os.path.join(folder, name))
    pipe = stack.enter_context(Store(os.path.join(folder, "pipe"), program=program))
    path, package = os.path.join(folder, "socket"), str(pathlib.Path(__file__).resolve().parents[2] / "clients" / "python")
    stack.enter_context(started([sys.executable, "-m", "jpstore", "hub", os.path.join(folder, "hub"), "--socket", path,
                                 "--program", program], env={**os.environ, "PYTHONPATH": package}))
    hub = stack.enter_context(until(lambda: Store.connect(path, wait=60)))
    redis = os.path.join(folder, "redis.socket")
    stack.enter_context(started(["redis-server", "--port", "0", "--unixsocket", redis, "--dir", folder, "--appendonly", "yes",
                                 "--appendfsync", "always", "--save", ""]))
    client, peer = 23790, 23800
    stack.enter_context(started(["etcd", "--data-dir", os.path.join(folder, "etcd"), "--listen-client-urls",
                                 f"http://127.0.0.1:{client}", "--advertise-client-urls", f"http://127.0.0.1:{client}",
                                 "--listen-peer-urls", f"http://127.0.0.1:{peer}"]))
    return {"jpstore, pipe": Jpstore(pipe), "jpstore, hub": Jpstore(hub), "SQLite": Sqlite(folder),
            "Redis": until(lambda: Redis(redis)), "etcd": until(lambda: Etcd(client))}


def seconds(do):
    begin = time.perf_counter()
    do()
    return time.perf_counter() - begin


def main():
    parser = argparse.ArgumentParser(description=__doc__.partition("\n")[0])
    parser.add_argument("program")
    parser.add_argument("--rounds", type=int, default=15)
    asked = parser.parse_args()
    program = os.path.abspath(asked.program)
    with tempfile.TemporaryDirectory(prefix="jpstore-") as folder, contextlib.ExitStack() as stack:
        stores = all_stores(program, folder, stack)
        jobs = {name: [[], [], []] for name in stores}
        for number in range(asked.rounds):
            for name, store in stores.items():
                skus = [SKUS[(number * CHANGES + index) * 7 % ITEMS] for index in range(READS)]
                times = jobs[name]
                times[0].append(seconds(lambda: [store.change(sku) for sku in skus[:CHANGES]]) / CHANGES)
                times[1].append(seconds(lambda: [store.read(sku) for sku in skus]) / READS)
                times[2].append(seconds(store.low))
        print(f"{'':14} {'changes a second':>18} {'reads a second':>16} {'question, ms':>14}")
        for name, (changes, reads, questions) in jobs.items():
            print(f"{name:14} {1 / min(changes):18,.0f} {1 / min(reads):16,.0f} {1000 * min(questions):14.1f}")


if __name__ == "__main__":
    main()
