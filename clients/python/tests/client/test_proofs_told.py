"""What ./build and ./test say of the proofs meanwhile: how many crates, and how many minutes more."""
import os
import sys

import pytest
from support import PACKAGE

TOOLS = os.path.join(PACKAGE, "..", "..", "tools")


@pytest.fixture
def told(monkeypatch):
    """What is said of lines that come at these seconds, by crates of these sizes."""
    monkeypatch.syspath_prepend(TOOLS)
    from progress import Progress

    def told(sizes, lines):
        said, clock = [], [0.0]
        heard = Progress(sizes, said.append, lambda: clock[0])
        for second, line in lines:
            clock[0] = second
            heard.hear(line + "\n")
        return said
    yield told
    sys.modules.pop("progress")


def test_the_minutes_that_are_left_go_by_the_sizes_of_the_crates(told):
    lines = [(600, "rt: small proved"), (1200, "rt: middle proved"), (1210, "fn middle::a: proved"),
             (4800, "rt: large proved")]
    assert told({"small": 100, "middle": 100, "large": 600}, lines) == [
        "1 of 3 crates are proved, after 10 minutes; about 70 more",
        "2 of 3 crates are proved, after 20 minutes; about 60 more",
        "3 of 3 crates are proved, after 80 minutes; then their tests are"]


def test_what_is_kept_says_nothing_of_the_time(told):
    lines = [(1, "rt: a is kept: its sources are the same"), (2, "rt: b is kept: its sources are the same"),
             (62, "rt: c proved"), (63, "rt: other proved")]
    assert told({"a": 500, "b": 500, "c": 100, "d": 300}, lines) == [
        "1 of 4 crates are proved, after 0 minutes", "3 of 4 crates are proved, after 1 minutes; about 3 more"]


def test_a_line_comes_each_half_minute_at_most(told):
    lines = [(second, f"rt: c{second} proved") for second in range(100)]
    assert len(told({f"c{number}": 10 for number in range(101)}, lines)) == 4
