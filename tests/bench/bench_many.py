"""A store of format 3 with very many documents under one schema: its memory, and what its calls take."""
import os
import pathlib
import re
import statistics
import tempfile
import time

from bench_lines import Program, create, formatted, line_of, milliseconds, patch, replace
from bench_store import seconds_of_opening

DOCUMENTS = 50_000
SECTORS = 524_288
# The sectors that a step of the copied snapshot writes.
STEP = 1_024

SCHEMA = {
    "type": "object",
    "required": ["id", "note", "count"],
    "additionalProperties": False,
    "properties": {
        "id": {"type": "integer", "minimum": 0},
        "count": {"type": "integer", "minimum": 0},
        "note": {"type": "string", "maxLength": 2_000},
    },
}


def created(number):
    return create(f"d{number:05}", {"id": number, "count": 0, "note": "a" * 960}, SCHEMA)


def changed(number, value):
    return patch(f"d{number * 7_919 % DOCUMENTS:05}", [replace("/count", value)])


def resident(pid):
    status = pathlib.Path(f"/proc/{pid}/status").read_text(encoding="ascii")
    return 1024 * int(re.search(r"^VmRSS:\s*(\d+) kB$", status, re.M)[1])


def told(times):
    """The median and the 99th percentile."""
    cuts = statistics.quantiles(times, n=100)
    return f"{milliseconds(statistics.median(times))}, p99 {milliseconds(cuts[98])}"


def measure_creations(program, path):
    with Program([program, "serve", path, "--batch", "1024"]) as served:
        served.do(line_of({"cmd": "status"}))
        before = resident(served.process.pid)
        took = served.seconds(*[created(number) for number in range(DOCUMENTS)], line_of({"cmd": "status"}))
        memory = resident(served.process.pid) - before
    print(f"{DOCUMENTS:,} creations of documents of 1 KB under one schema: {took:.1f} s; memory a document: "
          f"{memory / DOCUMENTS:,.0f} bytes")


def measure_calls(served):
    changes = [served.seconds(changed(number, number)) for number in range(1_000)]
    listed, status = (min(served.seconds(line_of({"cmd": what})) for _ in range(5)) for what in ("list", "status"))
    print(f"a change: {told(changes)}; `list`: {milliseconds(listed)}; `status`: {milliseconds(status)}")


def step(served):
    """How long a step of the copied snapshot takes, and what it left."""
    begin = time.perf_counter()
    copy = served.do(line_of({"cmd": "pump", "max": STEP}))["copy"]
    return time.perf_counter() - begin, copy


def measure_steps(served):
    """Changes, each after a step of the copied snapshot, until that counts."""
    steps, changes, copy = [], [], "running"
    while copy == "running":
        took, copy = step(served)
        steps.append(took)
        changes.append(served.seconds(changed(len(changes), 1)))
    print(f"a snapshot in {len(steps):,} steps of {STEP} sectors: a step {told(steps)}, the first "
          f"{milliseconds(steps[0])}; a change meanwhile: {told(changes)}")


def measure_deletions(served):
    """The first documents, which all others follow, and the last."""
    firsts = [served.seconds(line_of({"cmd": "delete", "name": f"d{number:05}"})) for number in range(300)]
    lasts = [served.seconds(line_of({"cmd": "delete", "name": f"d{DOCUMENTS - 1 - number:05}"})) for number in range(300)]
    print(f"a deletion of the first document: {told(firsts)}, of the last: {told(lasts)}")


def measure_many(program, folder):
    with tempfile.TemporaryDirectory(prefix="bench-", dir=folder) as made:
        path = formatted(program, os.path.join(made, "store"), "--format", "3", "--sparse", sectors=SECTORS)
        measure_creations(program, path)
        print(f"opened, with the program's start: {seconds_of_opening(program, path):.2f} s")
        with Program([program, "serve", path]) as served:
            measure_calls(served)
            measure_steps(served)
            measure_deletions(served)
