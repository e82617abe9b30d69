#!/usr/bin/env python3
"""Gets and updates a second by the library, by the program over pipes, by SQLite and by LMDB, from C and from Python.

    bench_embedded.py PROGRAM [--object FILE] [--unproved] [--rounds N] [--seconds S] [--folder FOLDER]

The ways take turns: in each of N rounds (5) each of them runs for S seconds (0.3). What is printed is, in thousands a
second, the rate of the best part of a hundredth of that, and in brackets the median of the microseconds of processor
time that a call took, of both processes if there are two: a busy machine changes the rates more. One document has a number
and a text; a get asks for the number, and an update replaces it, durably: SQLite has a write-ahead log and
`synchronous=full`. LMDB has no members, and gets and puts the whole document. The files are in FOLDER (/dev/shm, a file
system in memory; a disk's rate of updates is that of its syncs). It needs the headers of SQLite and LMDB (Debian's
libsqlite3-dev, liblmdb-dev) and Python's.
"""
import argparse
import ctypes
import os
import statistics
import subprocess
import sys
import tempfile
import time

HERE = os.path.dirname(os.path.abspath(__file__))
TOP = os.path.dirname(os.path.dirname(HERE))
SIZES = (100, 1000)

# What a Python process does: a line to make what is called, and the calls.
PYTHON = """
import os, sys, time
way, what, file, size, seconds = sys.argv[1], sys.argv[2], sys.argv[3], int(sys.argv[4]), float(sys.argv[5])
doc = {"n": 0, "t": "0" * size}
if way == "sqlite":
    import json, sqlite3
    base = sqlite3.connect(file, isolation_level=None)
    base.execute("pragma journal_mode=wal")
    base.execute("pragma synchronous=full")
    base.execute("create table docs(name text primary key, doc text not null) without rowid")
    base.execute("insert into docs values('d', ?)", (json.dumps(doc, separators=(",", ":")),))
    get = lambda number: base.execute("select json_extract(doc, '$.n') from docs where name = ?", ("d",)).fetchone()[0]
    update = lambda number: base.execute("update docs set doc = json_set(doc, '$.n', ?) where name = ?", (number, "d"))
elif way == "ctypes":
    import ctypes, json
    from jpstore.embedded import format_embedded
    format_embedded(file, 65536)
    lib = ctypes.CDLL(os.environ["LIBJPSTORE"])
    store, replies, length = ctypes.c_void_p(), ctypes.c_void_p(), ctypes.c_size_t()
    options = (ctypes.c_uint64 * 8)(0, 64)
    assert lib.jpstore_open(file.encode(), options, ctypes.byref(store), None) == 0
    feed, at, to = lib.jpstore_feed, ctypes.byref(replies), ctypes.byref(length)
    def say(line):
        assert feed(store, line, ctypes.c_size_t(len(line)), at, to) == 0
        return json.loads(ctypes.string_at(replies.value, length.value))
    say(json.dumps({"cmd": "create", "name": "d", "doc": doc, "schema": True}).encode() + b"\\n")
    get = lambda number: say(b'{"cmd":"get","name":"d","path":"/n"}\\n')["value"]
    update = lambda number: say(b'{"cmd":"patch","name":"d","ops":[{"op":"replace","path":"/n","value":%d}]}\\n' % number)["seq"]
else:
    from jpstore import Store
    from jpstore.embedded import format_embedded
    format_embedded(file, 65536)
    store = Store(file, embedded=way == "embedded", pump=64)
    store.create("d", doc)
    get = lambda number: store.get("d", "/n")
    update = lambda number: store.patch("d", [{"op": "replace", "path": "/n", "value": number}])
call = get if what == "get" else update
call(0)
number, best, before = 0, 0, os.times()
for part in range(100):
    begin, first = time.perf_counter(), number
    while True:
        number += 1
        call(number)
        took = time.perf_counter() - begin
        if took >= seconds / 100:
            break
    best = max(best, (number - first) / took)
if way == "pipe":
    store.close()
used = sum(os.times()[:4]) - sum(before[:4])
print("%.0f %.2f" % (best, used * 1e6 / number))
"""


def run(words, **more):
    return subprocess.run(words, check=True, stdout=subprocess.PIPE, **more).stdout.decode()


class Bench:
    def __init__(self, words, folder):
        self.words, self.folder = words, folder
        self.program = os.path.abspath(words.program)
        library = os.path.join(folder, "library")
        more = (["--object", words.object] if words.object else []) + (["--unproved"] if words.unproved else [])
        run([os.path.join(TOP, "clients", "c", "build"), "--out", library, *more])
        self.c = os.path.join(folder, "bench")
        run(["cc", "-std=c11", "-O2", "-I", library, os.path.join(TOP, "clients", "c", "tests", "bench.c"), "-o", self.c,
             os.path.join(library, "libjpstore.a"), "-lsqlite3", "-llmdb"])
        package = os.path.join(folder, "python")
        run(["cp", "-r", os.path.join(TOP, "clients", "python", "jpstore"), package + "/"] if os.path.isdir(package)
            else ["sh", "-c", 'mkdir "$1" && cp -r "$2" "$1/"', "sh", package, os.path.join(TOP, "clients", "python", "jpstore")])
        run([os.path.join(TOP, "clients", "python", "build_embedded"), "--library", library, "--out", package + "/jpstore",
             "--python", sys.executable])
        self.env = {**os.environ, "PYTHONPATH": package, "LIBJPSTORE": os.path.join(library, "libjpstore.so.1"),
                    "PATH": os.path.dirname(self.program) + os.pathsep + os.environ["PATH"]}

    def once(self, language, way, what, size):
        """The rate of the best part, and the processor time of a call."""
        with tempfile.TemporaryDirectory(dir=self.words.folder) as folder:
            words = [way, what, os.path.join(folder, "s"), str(size), str(self.words.seconds)]
            words = [self.c, *words, self.program] if language == "C" else [sys.executable, "-c", PYTHON, *words]
            return tuple(map(float, run(words, env=self.env).split()))

    def row(self, language, ways, what, size):
        found = {way: [] for way in ways}
        for _ in range(self.words.rounds):
            for way in ways:
                found[way].append(self.once(language, way, what, size))
        cells = ["%.1f (%.1f)" % (max(best for best, _ in found[way]) / 1000,
                                  statistics.median(used for _, used in found[way])) if way in found else "" for way in WAYS]
        print("| %ss from %s, %d bytes | %s |" % (what, language, size, " | ".join(cells)), flush=True)


WAYS = ("embedded", "ctypes", "pipe", "sqlite", "lmdb")


def main():
    parser = argparse.ArgumentParser(description=__doc__, formatter_class=argparse.RawDescriptionHelpFormatter)
    parser.add_argument("program")
    parser.add_argument("--object")
    parser.add_argument("--unproved", action="store_true")
    parser.add_argument("--rounds", type=int, default=5)
    parser.add_argument("--seconds", type=float, default=0.3)
    parser.add_argument("--folder", default="/dev/shm")
    words = parser.parse_args()
    import sqlite3
    print("%d processors, load %.1f, Python %s, SQLite %s in Python" % (
        os.cpu_count(), os.getloadavg()[0], sys.version.split()[0], sqlite3.sqlite_version))
    with tempfile.TemporaryDirectory() as folder:
        bench = Bench(words, folder)
        print("| thousands a second (microseconds) | embedded | by ctypes | by a pipe | SQLite | LMDB |\n|---|---|---|---|---|---|")
        for what in ("get", "update"):
            for size in SIZES:
                bench.row("C", ("embedded", "pipe", "sqlite", "lmdb"), what, size)
                bench.row("Python", ("embedded", "ctypes", "pipe", "sqlite"), what, size)
        print("load %.1f at the end" % os.getloadavg()[0])


if __name__ == "__main__":
    main()
