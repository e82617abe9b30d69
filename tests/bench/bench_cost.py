"""What a patch costs in documents of 1 KB to 1 MB, beside SQLite's `json_set` and nlohmann's patch, by turns.

A patch replaces the number of one member. What is compared:

- The store's figure is a whole change over the pipe: its line is read and judged, the document is changed in memory,
  the frame is made and committed to the device in memory (`mem`), and the reply is written.
- SQLite keeps the text in a table of a database in memory. A prepared statement replaces it by `json_set`, which parses
  the text and writes it anew. Python calls it.
- nlohmann's library is called from C++, and judges and commits nothing; `bench_cost.cpp` says what its three ways do.
  Without its header (Debian's nlohmann-json3-dev) its columns are left out.

Then patches of six operations of different kinds, and of one operation of each kind. Each figure is the least of the
turns, in microseconds a patch.
"""
import json
import os
import sqlite3
import subprocess
import tempfile
import time

from bench_lines import create, in_memory, patch, replace

SIZES = (1_000, 10_000, 100_000, 1_000_000)
TURNS = 7
PATCHES = 10_000
# The bytes of documents that the others go through in a turn, so that a turn of each takes a moment.
BYTES = 20_000_000
# The seconds of a turn of patches whose cost is not known before.
MOMENT = 0.1
HEADER = "/usr/include/nlohmann/json.hpp"
SOURCE = os.path.join(os.path.dirname(os.path.abspath(__file__)), "bench_cost.cpp")

TEXT = {"type": "string", "maxLength": 100}
ELEMENT = {"type": "object", "required": ["a"], "properties": {"a": {"type": "integer"}, "b": TEXT}}
SCHEMA = {
    "type": "object", "required": ["counter"],
    "properties": {"counter": {"type": "integer", "minimum": 0}, "items": {"type": "array", "items": ELEMENT}},
}


def compact(value):
    return json.dumps(value, separators=(",", ":"))


def document(size):
    """A document of about this many bytes: each element takes 40 with its comma."""
    return {"counter": 0, "items": [{"a": 100_000 + number, "b": "x" * 20} for number in range(size // 40)]}


def replacements(count):
    return [[replace("/counter", number)] for number in range(count)]


def six_operations(count):
    """Patches of six operations that leave the document as large as it was."""
    return [[
        {"op": "test", "path": "/items/0/a", "value": 100_000},
        replace("/counter", number),
        {"op": "add", "path": "/items/0", "value": {"a": 7, "b": "y" * 20}},
        {"op": "copy", "from": "/items/1", "path": "/last"},
        {"op": "move", "from": "/last", "path": "/kept"},
        {"op": "remove", "path": "/items/0"},
    ] for number in range(count)]


class Sqlite:
    """SQLite's `json_set` of a text in memory."""

    def __init__(self, doc):
        self.base = sqlite3.connect(":memory:", isolation_level=None)
        self.base.execute("create table docs(name text primary key, doc text not null) without rowid")
        self.base.execute("insert into docs values('d', ?)", (compact(doc),))

    def seconds(self, count):
        """The seconds of one of this many patches."""
        start = time.perf_counter()
        for number in range(count):
            self.base.execute("update docs set doc = json_set(doc, '$.counter', ?) where name = 'd'", (number,))
        return (time.perf_counter() - start) / count


class Nlohmann:
    """The compiled `bench_cost.cpp`, or nothing if the header is missing."""

    def __init__(self, folder):
        self.built = os.path.join(folder, "bench_cost") if os.path.exists(HEADER) else None
        if self.built:
            subprocess.run(["c++", "-std=c++17", "-O2", SOURCE, "-o", self.built], check=True)
        else:
            print(f"nlohmann's columns are left out: there is no {HEADER}")

    def measures(self, doc, patches, count, ways):
        """A measure for each way, by name."""
        given = "\n".join(map(compact, [doc, *patches])) + "\n"

        def seconds(way):
            words = [self.built, way, str(count)]
            return float(subprocess.run(words, input=given, stdout=subprocess.PIPE, text=True, check=True).stdout) / 1e9

        return {f"nlohmann, {way}": lambda way=way: seconds(way) for way in ways if self.built}


def least_of(measures):
    """The least of each measure in turns, by name."""
    times = {name: [] for name in measures}
    for _ in range(TURNS):
        for name, measure in measures.items():
            times[name].append(measure())
    return {name: min(column) for name, column in times.items()}


def count_of(size):
    """How many patches a turn has of those that go through a document of this size."""
    return max(10, min(PATCHES, BYTES // size))


def shown(times):
    return "; ".join(f"{name} {took * 1e6:.1f}" for name, took in times.items())


def of_store(served, name, patches):
    """The seconds of one of these patches of a document of this name."""
    lines = [patch(name, ops) for ops in patches]
    return lambda: served.seconds(*lines) / len(lines)


def measure_sizes(served, nlohmann):
    """One replaced member by size, and how many times the least of them the largest takes."""
    found = {}
    for size in SIZES:
        doc, patches = document(size), replacements(PATCHES)
        count = count_of(size)
        names = {"under true": f"t{size}", "under a schema": f"s{size}"}
        served.do(create(names["under true"], doc), create(names["under a schema"], doc, SCHEMA))
        measures = {what: of_store(served, name, patches) for what, name in names.items()}
        measures["SQLite"] = lambda base=Sqlite(doc), count=count: base.seconds(count)
        found[size] = least_of({**measures, **nlohmann.measures(doc, patches[:100], count, ("tree", "place"))})
        print(f"one replaced member of {len(compact(doc)):,} bytes, us: {shown(found[size])}", flush=True)
    for what in ("under true", "under a schema"):
        largest = found[SIZES[-1]][what] / found[SIZES[0]][what]
        sqlite = ", ".join(f"{found[size]['SQLite'] / found[size][what]:.1f}" for size in SIZES)
        print(f"{what}, the largest document divided by the smallest: {largest:.2f}; SQLite divided by it: {sqlite}")


def measure_six(served, nlohmann, size):
    """Six operations of different kinds in one patch."""
    count = count_of(size)
    doc, patches, true, schema = document(size), six_operations(count), f"six-t{size}", f"six-s{size}"
    served.do(create(true, doc), create(schema, doc, SCHEMA))
    measures = {"under true": of_store(served, true, patches), "under a schema": of_store(served, schema, patches)}
    times = least_of({**measures, **nlohmann.measures(doc, patches[:100], count, ("text", "tree", "place"))})
    print(f"six operations of {len(compact(doc)):,} bytes, us: {shown(times)}")
    if nlohmann.built:
        print(f"nlohmann's text divided by under true: {times['nlohmann, text'] / times['under true']:.2f}")


def kinds_of(doc):
    """Patches of one operation each, by what they do together. They leave a document as it was, with `/last` in it."""
    end = f"/items/{len(doc['items'])}"
    return {
        "replace": [replace("/counter", 1)],
        "test": [{"op": "test", "path": "/counter", "value": 1}],
        "add over a member": [{"op": "add", "path": "/last", "value": 3}],
        "copy over a member": [{"op": "copy", "from": "/items/0", "path": "/last"}],
        "add and remove a member": [{"op": "add", "path": "/new", "value": 3}, {"op": "remove", "path": "/new"}],
        "add and remove at the list's end": [
            {"op": "add", "path": end, "value": {"a": 1}}, {"op": "remove", "path": end},
        ],
        "add and remove at the list's front": [
            {"op": "add", "path": "/items/0", "value": {"a": 1}}, {"op": "remove", "path": "/items/0"},
        ],
        "move there and back": [
            {"op": "move", "from": "/last", "path": "/there"}, {"op": "move", "from": "/there", "path": "/last"},
        ],
    }


def of_kind(served, name, operations):
    """The seconds of a patch of one operation, of as many as take a moment."""
    lines = [patch(name, [operation]) for operation in operations]
    repeated = max(3, min(PATCHES, int(MOMENT / served.seconds(*lines)))) * lines
    return lambda: served.seconds(*repeated) / len(repeated)


def measure_kinds(served, size):
    """Each kind of operation, alone in its patch."""
    doc, true, schema = document(size), f"kinds-t{size}", f"kinds-s{size}"
    served.do(create(true, doc), create(schema, doc, SCHEMA))
    for what, operations in kinds_of(doc).items():
        times = least_of({
            "under true": of_kind(served, true, operations), "under a schema": of_kind(served, schema, operations),
        })
        print(f"{what}, in {len(compact(doc)):,} bytes, us a patch: {shown(times)}", flush=True)


def measure_cost(program, _folder):
    with tempfile.TemporaryDirectory() as made, in_memory(program, 262_144) as served:
        nlohmann = Nlohmann(made)
        measure_sizes(served, nlohmann)
        for size in (SIZES[0], SIZES[-1]):
            measure_six(served, nlohmann, size)
            measure_kinds(served, size)
