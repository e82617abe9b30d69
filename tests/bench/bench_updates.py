"""Durable updates in format 2 and in format 3, beside two floors and SQLite, by turns in one run.

- An update replaces a text in a document. Its frame in the journal has 112 bytes, 700, or 7,168, as 64 small ones have.
- The floors are files that `format` made, too. Each commit of a floor writes the sectors that the store's commit
  writes, at the same places, and those that follow one another in one call. The floor of two syncs waits for the disk
  after the journal and after sector 0, as format 2 does. The floor of one sync writes whole blocks and two copies of a
  slot, and waits once, as format 3 does.
- SQLite is Python's, with a write-ahead log and `synchronous=FULL`. It replaces the same text in the same document by
  a prepared statement with `json_set`. A group is a transaction.
- `format` writes these files full, so that no write has to find room on the disk. SQLite's log gets its length first.
- A turn has so few commits that most turns are short. Each figure is the median of the turns, and in brackets the turn
  that a tenth of them beat: a disk and processors that others use are slow now and then. A ratio is the median of the
  ratios of turns side by side, and in brackets that of the two figures in brackets.
"""
import json
import os
import sqlite3
import statistics
import tempfile
import time

from bench_lines import Program, create, formatted, in_memory, line_of, patch, replace

SECTOR, BLOCK = 512, 4_096
# The first sector after the slots, the sectors of a slot, and the bytes of the tail in its first sector and in each other.
SLOTS_END, SLOT, FIRST_BYTES, SECTOR_BYTES = 128, 32, 424, 484
# The bytes of a frame before its body.
FRAME_HEAD = 12
NUMBERS = 900_000
# How long a turn of the floor of two syncs takes, and how many commits a turn has at least and, by group, at most.
TURN_SECONDS, FEWEST, MOST = 0.05, 10, {1: 400, 64: 50}
# The bytes of an update's frame, and how many updates a commit has.
SHAPES = ((112, 1), (700, 1), (7_168, 1), (112, 64))
# How long all turns of a group take, and how many each has at least.
SECONDS, TURNS = 40, 15
ONE, TWO = "the floor of one sync", "the floor of two syncs"
RATIOS = (
    ("format 2", TWO), ("format 3", ONE), ("format 2", "SQLite"), ("format 3", "SQLite"), ("format 3", "format 2"),
)


def line_with(value):
    return patch("d", [replace("/a", value)])


def value_of(update, size):
    """The text that an update writes, so that its frame has this size."""
    number = str(100_000 + update % NUMBERS)
    return number.ljust(len(number) + size - FRAME_HEAD - len(line_with(number).rstrip()), "-")


class Store:
    """A store that serves, from a file or in memory."""

    def __init__(self, served, group, size=112):
        self.served, self.group, self.size, self.updates = served, group, size, 0
        served.do(create("d", {"a": value_of(0, size)}), line_of({"cmd": "status"}))

    def used(self):
        return self.served.do(line_of({"cmd": "status"}))["used"]

    def seconds(self, commits):
        """How long this many commits take. The question at the end is answered after the last of them."""
        numbers = range(self.updates, self.updates + commits * self.group)
        self.updates += len(numbers)
        lines = [line_with(value_of(number, self.size)) for number in numbers]
        return self.served.seconds(*lines, line_of({"cmd": "status"}))

    def close(self):
        self.served.__exit__()


class Floor:
    """The writes and syncs of a commit alone: of this many bytes, the first of them at `used`."""

    def __init__(self, path, used, adds):
        self.file, self.used, self.adds = os.open(path, os.O_RDWR), used, adds
        self.capacity = os.fstat(self.file).st_size // 2 - SLOTS_END * SECTOR

    def write(self, sector, count):
        if count:
            os.pwrite(self.file, b"\1" * (count * SECTOR), sector * SECTOR)

    def commit(self):
        self.write_all()
        os.fdatasync(self.file)
        self.used += self.adds
        if self.used + self.adds > self.capacity:
            self.used = 0

    def seconds(self, commits):
        start = time.perf_counter()
        for _ in range(commits):
            self.commit()
        return time.perf_counter() - start

    def close(self):
        os.close(self.file)


class TwoSyncs(Floor):
    """As format 2 does it: the journal's sectors, a sync, and sector 0."""

    def write_all(self):
        first, end = self.used // SECTOR, -(-(self.used + self.adds) // SECTOR)
        self.write(1 + first, end - first)
        os.fdatasync(self.file)
        self.write(0, 1)


class OneSync(Floor):
    """As format 3 does it: the blocks that are whole now, and two copies of a slot with what was after them."""

    pair = 0

    def write_all(self):
        first, tail = self.used // BLOCK, self.used % BLOCK + self.adds
        self.write(SLOTS_END + first * (BLOCK // SECTOR), tail // BLOCK * (BLOCK // SECTOR))
        count = 1 + max(0, -(-(tail - FIRST_BYTES) // SECTOR_BYTES))
        for copy in (0, 1):
            self.write((2 * self.pair + copy) * SLOT, count)
        self.pair = 1 - self.pair


class Sqlite:
    """The same updates by SQLite."""

    def __init__(self, path, group, size):
        self.base, self.group, self.size, self.updates = sqlite3.connect(path, isolation_level=None), group, size, 0
        self.base.execute("pragma journal_mode=wal")
        self.base.execute("pragma synchronous=full")
        self.base.execute("create table docs(name text primary key, doc text not null) without rowid")
        self.base.execute("insert into docs values('d', ?)", (json.dumps({"a": value_of(0, size)}),))
        self.base.execute("pragma synchronous=off")
        self.seconds(1_100)  # as many pages as the log has at most
        self.base.execute("pragma synchronous=full")

    def update(self):
        self.updates += 1
        value = value_of(self.updates, self.size)
        self.base.execute("update docs set doc = json_set(doc, '$.a', ?) where name = 'd'", (value,))

    def commit(self):
        self.base.execute("begin immediate")
        for _ in range(self.group):
            self.update()
        self.base.execute("commit")

    def seconds(self, commits):
        commit = self.update if self.group == 1 else self.commit
        start = time.perf_counter()
        for _ in range(commits):
            commit()
        return time.perf_counter() - start

    def close(self):
        self.base.close()


def contenders(program, folder, group, size):
    """All that take turns, by name."""
    words = ["--batch", str(group)] if group > 1 else []
    paths = {f"format {n}": formatted(program, os.path.join(folder, n), "--format", n) for n in "23"}
    floors = {name: formatted(program, os.path.join(folder, name)) for name in (TWO, ONE)}
    stores = {name: Store(Program([program, "serve", path, *words]), group, size) for name, path in paths.items()}
    before = stores["format 2"].used()
    stores["format 2"].seconds(1)
    adds = stores["format 2"].used() - before
    if adds != group * size:
        raise SystemExit(f"bench.py: a commit has {adds} bytes, not {group} x {size}")
    return {
        **stores,
        TWO: TwoSyncs(floors[TWO], before, adds), ONE: OneSync(floors[ONE], before, adds),
        "SQLite": Sqlite(os.path.join(folder, "sqlite"), group, size),
        "in memory, each a commit of its own": Store(in_memory(program), group, size),
    }


def rates_by_turn(by_name, group):
    """The updates a second of each in each turn, and the commits of a turn."""
    commits = int(min(max(FEWEST, TURN_SECONDS * FEWEST / by_name[TWO].seconds(FEWEST)), MOST[group]))
    turns, end = {name: [] for name in by_name}, time.monotonic() + SECONDS
    while time.monotonic() < end or len(turns[TWO]) < TURNS:
        for name, each in by_name.items():
            turns[name].append(commits * group / each.seconds(commits))
    return turns, commits


def measure_shape(program, folder, group, size):
    by_name = contenders(program, folder, group, size)
    turns, commits = rates_by_turn(by_name, group)
    for each in by_name.values():
        each.close()
    print(f"durable updates of {size} bytes in groups of {group}, {len(turns[TWO])} turns of {commits} commits:")
    best = {name: statistics.quantiles(rates, n=10)[-1] for name, rates in turns.items()}
    for name, rates in turns.items():
        print(f"  {name}: {statistics.median(rates):,.0f} a second ({best[name]:,.0f})")
    for over, under in RATIOS:
        ratio = statistics.median(mine / other for mine, other in zip(turns[over], turns[under]))
        print(f"  {over} divided by {under}: {ratio:.2f} ({best[over] / best[under]:.2f})")


def measure_updates(program, folder):
    """Single updates of both sizes, and small ones in groups."""
    with tempfile.TemporaryDirectory(prefix="bench-", dir=folder) as made:
        for size, group in SHAPES:
            place = os.path.join(made, f"{size}-{group}")
            os.mkdir(place)
            measure_shape(program, place, group, size)
