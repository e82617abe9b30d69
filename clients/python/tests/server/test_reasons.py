"""Why something is refused is told within a second, or left out: no refusal waits for a process, or starts one."""
import os
import time

import pytest
from gateways import Gateway, Server
from support import until

INVALID = "/documents/d?schema=false"


def starts(path):
    """How often the Python of a test was started."""
    with open(path, encoding="ascii") as opened:
        return opened.read().count("+")


@pytest.mark.parametrize("python", ["exit 1", "exec sleep 600"], ids=["without the package", "that hangs"])
def test_a_process_that_does_not_begin_holds_no_refusal_up(place, python):
    place.format()
    log = place.text("log", "")
    script = place.script("python", f'printf + >> "{log}"\n{python}')
    with Server(place, "--python", script) as server:
        # It begins without any refusal.
        until(lambda: starts(log) == 1, "the first start")
        for _ in range(20):
            begin = time.monotonic()
            answer = server.put(INVALID, 1)
            # It took as long as the process might take to begin.
            assert time.monotonic() - begin < 10
            assert (answer.status, "errors" in answer.json()) == (422, False)
            assert answer.json()["number"] == 45
        assert starts(log) <= 2


def test_without_python_refusals_are_told(place):
    place.format()
    with Server(place, "--python", place.path("none")) as server:
        for _ in range(3):
            assert server.put(INVALID, 1).json()["number"] == 45


def test_a_process_begins_with_the_server_and_after_one_that_has_gone(place):
    pytest.importorskip("jsonschema")
    place.format()
    with Gateway(place) as gateway:
        program = gateway.program()
        child, = until(lambda: set(gateway.children()) - {program}, "the process")
        gateway.told(lambda told: "errors" in told, "PUT", INVALID, 1)
        os.kill(child, 9)
        gateway.told(lambda told: "errors" in told, "PUT", INVALID, 1)
        assert child not in gateway.children()
