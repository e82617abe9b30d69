#!/usr/bin/env python3
"""How long the built program takes for what its users ask of it.

    bench.py PROGRAM [cost|many|opening|patches|queries|schemas|store|updates ..] [--folder FOLDER] [--slow MS]
    bench.py PROGRAM --beside OTHER [--folder FOLDER] [--slow MS]

PROGRAM is a built `jpstore`. Each figure is the time from the first byte of the lines that were sent to the last byte
of their replies: it has the reading of a line and the writing of its reply in it. Without words all is measured.

- patches: a patch of 4,096 one-member changes of a document of 1 MB beside a patch of one, 2,048 moves of a long text
  to and fro, as many removals and insertions at the front of a long list, and as many copies and removals of half a
  document;
- queries: `$..*` and a filter of two comparisons in a document of 1 MB, flat and 60 levels deeper, as the argument of
  `count`, so that no long reply is written;
- schemas: a patch of one member of a document of 1 KB under `true`, under a schema of 20 positions, and with and
  without 1,000 unused definitions;
- cost: one replaced member in documents of 1 KB to 1 MB, beside SQLite and nlohmann's library; six operations, and each
  kind of operation, in the smallest and the largest;
- updates: durable updates of a file, single and in groups, in format 2 and in format 3, beside floors and SQLite;
- opening: `check` of a store with 8 MB of small patches;
- many: a store of format 3 with 50,000 documents of 1 KB under one schema: memory, opening, a change, `list`, a snapshot
  in steps beside changes, deletions;
- store: 64 updates in one transaction beside a batch of 64; the opening of a store of 1,000 documents of 1,000 bytes;
  that of the same store in format 1, which is brought to format 2 then, beside as many writes and syncs of another
  file; and 1,000 steps of one sector of a copied snapshot of it.

With --beside two programs take turns: creations of records in memory, and durable updates of a file, single and in groups.

Files are in FOLDER, or else in a temporary folder. With --slow each sync of a file takes MS milliseconds more, in all
programs that are measured. On a busy machine `chrt -f 10 ionice -c1` in front of the command lets it run as if alone.
"""
import argparse
import os
import subprocess
import sys
import tempfile

from bench_cost import measure_cost
from bench_lines import create, in_memory, least, line_of, milliseconds, patch, replace
from bench_many import measure_many
from bench_store import measure_opening, measure_store
from bench_turns import measure_turns
from bench_updates import measure_updates


# ---- patches


def measure_patches(program, _folder):
    members = {f"m{number:04}": "a" * 111 for number in range(8_192)}
    there = {"op": "move", "from": "/a", "path": "/b"}
    back = {"op": "move", "from": "/b", "path": "/a"}
    away = {"op": "remove", "path": "/0"}
    again = {"op": "add", "path": "/0", "value": 0}
    copied = {"op": "copy", "from": "/a", "path": "/b"}
    gone = {"op": "remove", "path": "/b"}
    with in_memory(program, 262_144) as served:
        served.do(
            create("members", members), create("text", {"a": "a" * 1_048_000}), create("list", [0] * 500_000),
            create("half", {"a": "a" * 500_000}),
        )
        one = patch("members", [replace("/m0000", 1)])
        many = patch("members", [replace(f"/m{number:04}", number) for number in range(4_096)])
        for_one, for_many = least(15, lambda: served.seconds(one), lambda: served.seconds(many))
        moves = served.seconds(patch("text", [there, back] * 2_048))
        fronts = served.seconds(patch("list", [away, again] * 2_048))
        copies = served.seconds(patch("half", [copied, gone] * 2_048))
    print(f"a patch of 4,096 changes of a document of 1 MB: {milliseconds(for_many)}, of one: {milliseconds(for_one)}")
    print(f"4,096 moves of a text of 1 MB: {milliseconds(moves)}")
    print(f"4,096 changes at the front of a list of 500,000 numbers: {milliseconds(fronts)}")
    print(f"2,048 copies of half a document of 1 MB, each removed: {milliseconds(copies)}")


# ---- queries

LEVELS = 60


def body(padding):
    return {"a": padding, "items": [{"b": number % 10, "c": "c" * 19} for number in range(30_000)]}


def below(levels, value):
    for _ in range(levels):
        value = {"d": value}
    return value


def measure_queries(program, _folder):
    with in_memory(program) as served:
        served.do(create("flat", body("a" * 6 * LEVELS)), create("deep", below(LEVELS, body(""))))

        def counted(name, query):
            path = f"$[?count({query}) == 0]"
            return lambda: served.seconds(line_of({"cmd": "query", "name": name, "path": path}))

        chosen = ".items[?@.b > 2 && @.b < 8]"
        names = [
            "`$..*`, flat", "60 levels deeper", "a filter of two comparisons, flat", "60 levels deeper", "`$..a`, flat",
        ]
        times = least(
            15, counted("flat", "$..*"), counted("deep", "$..*"), counted("flat", "$" + chosen),
            counted("deep", "$" + ".d" * LEVELS + chosen), counted("flat", "$..a"),
        )
    for name, took in zip(names, times):
        print(f"{name}: {milliseconds(took)}")


# ---- schemas

SHELF = {
    "type": "object",
    "required": ["id", "name", "parts"],
    "additionalProperties": False,
    "properties": {
        "id": {"type": "integer", "minimum": 0},
        "name": {"type": "string", "maxLength": 40},
        "tags": {"type": "array", "items": {"type": "string"}},
        "address": {"$ref": "#/$defs/address"},
        "parts": {"type": "array", "minItems": 1, "items": {"$ref": "#/$defs/part"}},
        "note": {"anyOf": [{"type": "string"}, {"type": "null"}]},
    },
    "$defs": {
        "address": {
            "type": "object",
            "properties": {"street": {"type": "string"}, "city": {"type": "string"}, "zip": {"type": "string"}},
        },
        "part": {
            "type": "object",
            "required": ["code"],
            "properties": {
                "code": {"type": "string"}, "count": {"type": "integer", "minimum": 0}, "size": {"type": "integer"},
            },
        },
    },
}


def shelf():
    return {
        "id": 12, "name": "shelf", "note": None, "tags": ["a", "b", "c"],
        "address": {"street": "1 Long Lane", "city": "Ames", "zip": "50010"},
        "parts": [{"code": f"p{part:03}", "count": part, "size": 7} for part in range(24)],
    }


def measure_schemas(program, _folder):
    changes = 1_000
    unused = {"type": "object", "$defs": {f"d{number}": {"type": "string"} for number in range(1_000)}}
    schemas = {
        "true": True, "20 positions": SHELF, "an object": {"type": "object"},
        "that and 1,000 unused definitions": unused,
    }
    with in_memory(program, 262_144) as served:
        for number, schema in enumerate(schemas.values()):
            served.do(create(f"d{number}", shelf(), schema))
        measures = [
            lambda name=f"d{number}": served.seconds(*[patch(name, [replace("/id", 13)])] * changes) / changes
            for number in range(len(schemas))
        ]
        times = least(20, *measures)
    for name, took in zip(schemas, times):
        print(f"a patch of a document of 1 KB, {name}: {took * 1e6:.1f} us")


PARTS = {
    "patches": measure_patches, "queries": measure_queries, "schemas": measure_schemas, "cost": measure_cost,
    "updates": measure_updates, "opening": measure_opening, "store": measure_store,
    "many": measure_many,
}


def begin_again_slowly(wait):
    """Runs this script again with a library that makes each sync of a file wait, in the programs that it starts too."""
    with tempfile.TemporaryDirectory() as made:
        library = os.path.join(made, "slow_syncs.so")
        source = os.path.join(os.path.dirname(os.path.abspath(__file__)), "slow_syncs.c")
        subprocess.run(["cc", "-O2", "-shared", "-fPIC", source, "-o", library], check=True)
        env = {**os.environ, "LD_PRELOAD": library, "SLOW_SYNCS": str(round(wait * 1_000))}
        return subprocess.run([sys.executable, *sys.argv], env=env).returncode


def main():
    parser = argparse.ArgumentParser(description=__doc__, formatter_class=argparse.RawDescriptionHelpFormatter)
    parser.add_argument("program")
    parser.add_argument("parts", nargs="*", metavar="PART")
    parser.add_argument("--beside", metavar="OTHER")
    parser.add_argument("--folder")
    parser.add_argument("--slow", type=float, metavar="MS")
    given = parser.parse_args()
    for part in given.parts:
        if part not in PARTS:
            parser.error(f"no part {part}")
    if given.slow and "SLOW_SYNCS" not in os.environ:
        return begin_again_slowly(given.slow)
    if given.beside:
        if given.parts:
            parser.error("--beside has parts of its own")
        measure_turns(os.path.abspath(given.program), os.path.abspath(given.beside), given.folder)
        return 0
    for part in given.parts or list(PARTS):
        PARTS[part](os.path.abspath(given.program), given.folder)
    return 0


if __name__ == "__main__":
    sys.exit(main())
