#!/usr/bin/env python3
"""Measures a question over many items, and a change of one, by how many documents share them.

    bench_shelves.py PROGRAM [ITEMS]

The items, 5,000 if no number is given, lie as maps in so many documents, each item in the one that the CRC-32 of its
number chooses. A row has how many bytes a document has at most, the time of one query over all documents, the time and
the bytes of a change that takes one from the stock of an item if it is what was read, and the memory of the program as
a multiple of the texts. docs/use/MODELLING.md has the times. The time of a change is that of the disk, too.
"""
import pathlib
import re
import subprocess
import sys
import tempfile
import time
import zlib

sys.path.insert(0, str(pathlib.Path(__file__).resolve().parents[2] / "clients" / "python"))

from jpstore import Store, create, patch  # noqa: E402
from jpstore.wire.values import text_of  # noqa: E402

SHELVES = (10, 50, 200, 1000)
QUERY = "$[?@.stock < @.least]"
ROUNDS, CHANGES = 20, 40


def item(number):
    return {"name": f"bolt M{number % 20}, steel", "stock": number % 97, "least": 5, "price_e2": 10 + number % 500,
            "supplier": f"S{number % 40:02}", "tags": ["steel", "metric"] if number % 3 else ["brass"]}


def shelf_of(sku, count):
    return f"shelf-{zlib.crc32(sku.encode()) % count:04}"


def shelves(items, count):
    """The documents by name."""
    found = {}
    for number in range(items):
        sku = f"SKU-{number:05}"
        found.setdefault(shelf_of(sku, count), {})[sku] = item(number)
    return found


def resident(pid):
    status = pathlib.Path(f"/proc/{pid}/status").read_text(encoding="ascii")
    return 1024 * int(re.search(r"^VmRSS:\s*(\d+) kB$", status, re.M)[1])


def least(do, rounds):
    """The least time of something that is done so often, in milliseconds: other work on the machine only adds to it."""
    times = []
    for number in range(rounds):
        begin = time.perf_counter()
        do(number)
        times.append(1000 * (time.perf_counter() - begin))
    return min(times)


def take_one(store, count, number):
    sku = f"SKU-{number:05}"
    name, place = shelf_of(sku, count), f"/{sku}/stock"
    stock = store.get(name, place)
    store.patch(name, [{"op": "test", "path": place, "value": stock},
                       {"op": "replace", "path": place, "value": stock - 1}])


def row(program, items, count):
    documents = shelves(items, count)
    texts = {name: len(text_of(doc)) for name, doc in documents.items()}
    with tempfile.TemporaryDirectory(prefix="jpstore-") as folder:
        file = f"{folder}/store"
        subprocess.run([program, "format", file, "--sectors", "32768"], check=True, stdout=subprocess.DEVNULL)
        with Store(file, program=program) as store:
            before = resident(store.pid)
            for name, doc in documents.items():
                store.transaction([create(name, {}), patch(name, [{"op": "replace", "path": "", "value": doc}])])
            memory = (resident(store.pid) - before) / sum(texts.values())
            found = sum(map(len, store.query_all(QUERY).values()))
            asked = least(lambda _: store.query_all(QUERY), ROUNDS)
            used = store.status().used
            changed = least(lambda number: take_one(store, count, number), CHANGES)
            size = (store.status().used - used) / CHANGES
    return [len(documents), max(texts.values()), found, f"{asked:.0f} ms", f"{changed:.1f} ms", f"{size:.0f}", f"{memory:.0f}"]


def main():
    if len(sys.argv) not in (2, 3):
        print(__doc__, file=sys.stderr)
        return 2
    items = int(sys.argv[2]) if len(sys.argv) == 3 else 5000
    print("| Documents | Bytes of the largest | Found | A query over all | A change | Its bytes in the file | Memory |")
    print("|---|---|---|---|---|---|---|")
    for count in SHELVES:
        cells = row(sys.argv[1], items, count)
        print("| " + " | ".join(f"{cell:,}" if isinstance(cell, int) else cell for cell in cells) + " |", flush=True)
    return 0


if __name__ == "__main__":
    sys.exit(main())
