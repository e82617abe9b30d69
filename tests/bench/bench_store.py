"""The store in a file: transactions beside batches, openings, a migration, and the steps of a copied snapshot."""
import json
import os
import pathlib
import statistics
import struct
import subprocess
import tempfile
import time

from bench_lines import Program, create, formatted, line_of, milliseconds, patch, replace

JOURNAL_BYTES = 8 << 20


def updates(count):
    return [patch("d", [replace("/a", number)]) for number in range(count)]


def transaction(lines):
    return line_of({"cmd": "transaction", "changes": [json.loads(line) for line in lines]})


def measure_transactions(program, folder, group, commits):
    """So many updates in one transaction beside a batch of as many, in turns: the medians of 15 rounds of commits."""
    lines, took = updates(commits * group), []
    batched = [*lines, line_of({"cmd": "status"})]
    together = [transaction(lines[begin:begin + group]) for begin in range(0, len(lines), group)]
    batched_path, together_path = (formatted(program, folder / f"{what}-{group}") for what in ("batched", "together"))
    in_batches, singly = [program, "serve", batched_path, "--batch", str(group)], [program, "serve", together_path]
    with Program(in_batches) as batches, Program(singly) as each:
        for served in (batches, each):
            served.do(create("d", {"a": 0}), line_of({"cmd": "status"}))
        for _ in range(15):
            took.append((batches.seconds(*batched), each.seconds(*together)))
    of_batch, of_transaction = (statistics.median(column) for column in zip(*took))
    print(f"{group} updates in one transaction: {milliseconds(of_transaction / commits)}; in a batch of {group}: "
          f"{milliseconds(of_batch / commits)}; quotient {of_transaction / of_batch:.2f}")


def seconds_of_opening(program, path):
    """How long the program takes from its start until it has answered a line."""
    start = time.perf_counter()
    with Program([program, "serve", path]) as served:
        served.do(line_of({"cmd": "status"}))
        return time.perf_counter() - start


def measure_documents(program, folder):
    path = formatted(program, folder / "documents")
    with Program([program, "serve", path]) as served:
        served.do(*[create(f"d{number}", "a" * 998) for number in range(1_000)])
    times = [seconds_of_opening(program, path) for _ in range(15)]
    print(f"a store of 1,000 documents of 1,000 bytes opened, with the program's start: {milliseconds(min(times))}")
    with Program([program, "serve", path]) as served:
        served.do(line_of({"cmd": "status"}))
        first = served.seconds(line_of({"cmd": "pump", "max": 1}))
        steps = served.seconds(*[line_of({"cmd": "pump", "max": 1})] * 999)
    sectors = os.open(folder / "sectors", os.O_RDWR | os.O_CREAT)
    start = time.perf_counter()
    for number in range(3_000):
        os.pwrite(sectors, b"\1" * 512, number * 512)
    floor = time.perf_counter() - start
    os.close(sectors)
    print(f"1,000 steps of one sector: {milliseconds(first + steps)}, the first {milliseconds(first)}; "
          f"3,000 sectors: {milliseconds(floor)}")


def format_1_image(documents, sectors):
    """The bytes of a store of format 1 with these documents under `true`, up to its last frame."""
    commands = [{"cmd": "create", "doc": doc, "name": name, "schema": True} for name, doc in documents]
    bodies = [line_of(command)[:-1] for command in commands]
    frames = b"".join(struct.pack(">I", len(body)) + body for body in bodies)
    fields = b"JPSTORE1" + struct.pack(">IIQQQQ", 1, 0, len(frames), len(documents), 1, sectors)
    return fields.ljust(512, b"\0") + frames


def measure_migration(program, folder):
    image = format_1_image([(f"d{number}", "a" * 998) for number in range(1_000)], 65_536)
    times, floors = [], []
    for number in range(5):
        path = str(folder / f"format-1-{number}")
        with open(path, "wb") as file:
            file.write(image)
            file.truncate(65_536 * 512)
            os.fsync(file.fileno())
        times.append(seconds_of_opening(program, path))
        floors.append(seconds_of_sectors(folder / f"floor-of-migration-{number}", len(image) // 512 + 16))
    print(f"the same store in format 1 brought to format 2: {milliseconds(min(times))}; "
          f"as many sectors and syncs: {milliseconds(min(floors))}")


def seconds_of_sectors(path, count):
    """How long this many writes of one sector take, a sync before and after them, and a write and a sync more."""
    file = os.open(path, os.O_RDWR | os.O_CREAT)
    start = time.perf_counter()
    os.fdatasync(file)
    for number in range(count):
        os.pwrite(file, b"\1" * 512, number * 512)
    os.fdatasync(file)
    os.pwrite(file, bytes(512), 0)
    os.fdatasync(file)
    took = time.perf_counter() - start
    os.close(file)
    return took


def store_of_patches(program, path):
    """A store of format 2 with a snapshot of one small document, and then 8 MB of patches of one member."""
    formatted(program, path)
    with Program([program, "serve", path, "--batch", "1024"]) as served:
        served.do(create("d", {"counter": 0}), line_of({"cmd": "snapshot"}))
        number, used = 0, 0
        while used < JOURNAL_BYTES:
            served.do(*[patch("d", [replace("/counter", value)]) for value in range(number, number + 1_024)])
            number, used = number + 1_024, served.do(line_of({"cmd": "status"}))["used"]
    return number, used


def measure_opening(program, folder):
    """The least time of five of `check`, from the program's start to its end."""
    with tempfile.TemporaryDirectory(prefix="bench-", dir=folder) as made:
        path, times = os.path.join(made, "store"), []
        patches, used = store_of_patches(program, path)
        for _ in range(5):
            start = time.perf_counter()
            subprocess.run([program, "check", path], check=True, stdout=subprocess.DEVNULL)
            times.append(time.perf_counter() - start)
    took = min(times)
    print(f"`check` of a store with {patches:,} patches of one member, {used:,} bytes: {milliseconds(took)}, "
          f"{took / patches * 1e6:.2f} us a patch")


def measure_store(program, folder):
    with tempfile.TemporaryDirectory(prefix="bench-", dir=folder) as made:
        measure_transactions(program, pathlib.Path(made), 64, 50)
        measure_documents(program, pathlib.Path(made))
        measure_migration(program, pathlib.Path(made))
