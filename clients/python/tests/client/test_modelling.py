"""What docs/use/MODELLING.md shows is what happens: its blocks are run one after another, as they stand.

A Python block may use what an earlier one of the page has defined, as in one session.
"""
import contextlib
import os
import re
import signal
import socket
import subprocess
import sys

import pytest
from pages import blocks_of, clone, how_to_run, page
from support import PATIENCE

_PAGE = page("use", "MODELLING.md")
_SHOWN = "127.0.0.1:8080"


def _definitions(text):
    """What a Python block defines and later ones use: all of it before its first `with`, `print` or `for`."""
    return re.split(r"^(?:with |print\(|for )", text, maxsplit=1, flags=re.M)[0]


@pytest.mark.time_limit(5 * PATIENCE)
def test_the_blocks_of_the_page_run(place):
    for library in ("aiohttp", "jsonschema", "jsonpatch", "requests"):
        pytest.importorskip(library)
    try:
        run_blocks(place)
    finally:
        end_servers(place)


def end_servers(place):
    """Ends what a block has started, if no later one has ended it."""
    for name in ("hub.pid", "http.pid"):
        with contextlib.suppress(OSError, ValueError), open(place.path(name), encoding="ascii") as opened:
            os.kill(int(opened.read()), signal.SIGKILL)


def run_blocks(place):
    """Runs each block of the page, and holds what it writes against the one after it."""
    environment, before, said = {**clone(place), "NO_PROXY": "*", "no_proxy": "*"}, "", None
    with socket.socket() as free:
        free.bind(("127.0.0.1", 0))
        host = "127.0.0.1:%d" % free.getsockname()[1]
    for kind, text in blocks_of(_PAGE.replace("http shop >", f"http shop --listen {host} >").replace(_SHOWN, host)):
        if not kind:
            assert said == text
            continue
        if kind == "text":
            # Lines and their replies, which are read alone.
            continue
        words, given = how_to_run(kind, text, "shop")
        if kind == "python":
            words = [sys.executable, "-c", before + text]
            before += _definitions(text)
        ended = subprocess.run(words, input=given, stdout=subprocess.PIPE, stderr=subprocess.PIPE, cwd=place.folder,
                               env=environment, timeout=PATIENCE, check=False)
        assert (ended.returncode, ended.stderr) == (0, b""), (text, ended)
        said = ended.stdout.decode()
