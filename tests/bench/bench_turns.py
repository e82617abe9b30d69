"""Two programs by turns, as one commit and another build them: durable changes of a file, and creations of records.

- Updates replace a text in a file of format 2 or 3. A frame has 112 bytes or 700, a commit one of them or 64 small ones.
  The file was written full.
- Records are objects of three small members in a list, created and removed in memory, so that the store doesn't grow. The
  members of lines and records are in byte order, as clients write them, and in the last comparison they are not.
- Each turn of one program is followed by the same turn of the other. A rate is the median of the turns, by the clock and
  by the processor's time of the program alone; a ratio is the median of the ratios of turns side by side, and in brackets
  that of the tenths of turns that were the fastest.
"""
import os
import statistics
import tempfile
import time

from bench_lines import Program, formatted, in_memory, line_of
from bench_updates import SHAPES, Store

SECONDS, TURNS = 20, 15
# How long a turn takes, and how many jobs tell how long one takes, once the program has begun.
TURN_SECONDS, TRIED = 0.05, 20
RECORDS = (1_000, 10_000, 100_000)


def processor_seconds(program):
    """The processor's time that a program took so far, by its clock as clock_getcpuclockid(3) has it."""
    return time.clock_gettime(~program.process.pid << 3 | 2)


class Updates(Store):
    """Updates of a file, in groups."""

    def __init__(self, program, path, group, size, *words):
        super().__init__(Program([program, "serve", formatted(program, path, *words), "--batch", str(group)]), group, size)


class Creations:
    """Creations in memory of a document of records, each removed at once."""

    def __init__(self, program, size, is_in_order=True):
        self.served = in_memory(program)
        records = [{"id": number, "name": f"item {number:06}", "stock": number % 97} for number in range(size // 43)]
        made = {"cmd": "create", "doc": records, "name": "d", "schema": True}
        if not is_in_order:
            made = dict(reversed(made.items()))
        self.lines = [line_of(made), line_of({"cmd": "delete", "name": "d"})]

    def seconds(self, times):
        return self.served.seconds(*self.lines * times)

    def close(self):
        self.served.__exit__()


def turn(contender, times):
    """How many jobs a second a turn did, by the clock and by the processor."""
    before = processor_seconds(contender.served)
    took = contender.seconds(times)
    return times / took, times / (processor_seconds(contender.served) - before)


def ratios(mine, other):
    """The median of the ratios of turns side by side, and the ratio of the fastest tenths."""
    best, of_other = (statistics.quantiles(rates, n=10)[-1] for rates in (mine, other))
    return f"{statistics.median(map(lambda a, b: a / b, mine, other)):.2f} ({best / of_other:.2f})"


def compare(what, factor, contenders):
    """Has two contenders take turns, and shows what each does a second. A job of a turn counts `factor` times."""
    for contender in contenders:
        contender.seconds(TRIED)
    times = max(TRIED, int(TURN_SECONDS * TRIED / contenders[0].seconds(TRIED)))
    turns, end = ([], []), time.monotonic() + SECONDS
    while time.monotonic() < end or len(turns[0]) < TURNS:
        for contender, rates in zip(contenders, turns):
            rates.append(turn(contender, times))
    for contender in contenders:
        contender.close()
    told = []
    for clock, mine, other in zip(("clock", "processor"), zip(*turns[0]), zip(*turns[1])):
        rates = [f"{factor * statistics.median(each):,.0f}" for each in (mine, other)]
        told.append(f"{clock} {rates[0]}, other {rates[1]}, ratio {ratios(mine, other)}")
    print(f"{what}, a second, {len(turns[0])} turns of {times}: {'; '.join(told)}", flush=True)


def measure_turns(program, other, folder):
    """All comparisons of a program with another."""
    both = (program, other)
    for size in RECORDS:
        compare(f"creations of records of {size:,} bytes", 1, [Creations(each, size) for each in both])
    compare("the same with members in another order", 1, [Creations(each, RECORDS[-1], False) for each in both])
    with tempfile.TemporaryDirectory(prefix="bench-", dir=folder) as made:
        for size, group in SHAPES:
            for version in "23":
                path = os.path.join(made, f"{size}-{group}-{version}")
                contenders = [
                    Updates(each, f"{path}-{number}", group, size, "--format", version) for number, each in enumerate(both)
                ]
                compare(f"durable updates of {size} bytes in groups of {group}, format {version}", group, contenders)
