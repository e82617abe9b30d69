"""The script that measures the stack of a library: a busy machine is no fault of the library."""
import os
import subprocess
import sys

import pytest
from support import PACKAGE, PATIENCE

STACK = os.path.join(PACKAGE, "..", "..", "tests", "gate", "stack.py")


@pytest.mark.parametrize("commands, seconds, status, said", [
    # It waits 1 second for a processor, as beside others, and then says what no line is answered.
    ("sleep 1; exit 3", 0.5, 1, "FAILED: ended with status 3"),
    ("exec sleep 60", 0.1, 2, "FAILED: over 1 seconds on the clock"),
    ("while :; do :; done", 0.5, 2, "FAILED: over 0.5 seconds of a processor"),
])
def test_a_case_has_seconds_of_a_processor(place, commands, seconds, status, said):
    library = place.script("deep", commands)
    words = [sys.executable, STACK, library, "--library", "--only", "17500", "--seconds", str(seconds)]
    ended = subprocess.run(words, stdout=subprocess.PIPE, timeout=PATIENCE, check=False)
    assert (ended.returncode, ended.stdout.decode().count(said)) == (status, 1), ended
