"""What docs/use/HTTP.md shows is what happens: its blocks are run one after another, as they are."""
import importlib.util
import os
import re
import shutil
import subprocess
import sys

import pytest
from gateways import Gateway
from pages import without_names
from support import PACKAGE, PATIENCE

_PAGE = os.path.join(PACKAGE, "..", "..", "docs", "use", "HTTP.md")
_SHOWN = "127.0.0.1:8080"

# How a block of each kind is run; a block without a kind is what the one before it writes.
_RUN = {
    "sh": lambda text: ["sh", "-e", "-c", text],
    "javascript": lambda text: ["node", "--input-type=module", "-e", text],
    "python": lambda text: [sys.executable, "-c", text],
}


def _blocks():
    with open(_PAGE, encoding="utf-8") as opened:
        return re.findall(r"^```(\w*)\n(.*?)^```$", opened.read(), re.M | re.S)


def _environment(place):
    """The folder of the place, in which the program and the package are as in a clone after a build."""
    out = place.path("crates/jpstore/out")
    os.makedirs(out)
    os.symlink(place.program, os.path.join(out, "jpstore"))
    os.symlink(os.environ["JPSTORE_SERVER"], os.path.join(out, "jpstored"))
    os.makedirs(place.path("clients"))
    os.symlink(PACKAGE, place.path("clients/python"))
    path = os.pathsep.join([out, os.path.dirname(sys.executable), os.environ["PATH"]])
    return {**place.environment(), "PATH": path, "NO_PROXY": "*", "no_proxy": "*"}


def without_errors(text):
    """The page's answer to a refused request without the reason."""
    return re.sub(r',\n    "errors": \[.*?\n    \]', "", text, flags=re.S)


def test_the_blocks_of_the_page_run(place):
    missing = [library for library in ("requests", "jsonschema", "jsonpatch")
               if importlib.util.find_spec(library) is None]
    missing += ["curl"] if shutil.which("curl") is None else []
    if missing:
        pytest.skip(f"this needs {', '.join(missing)}")
    environment = _environment(place)
    blocks = _blocks()
    assert blocks[0][0] == "sh" and blocks[1][0] == "console"
    subprocess.run(["sh", "-e", "-c", blocks[0][1]], cwd=place.folder, env=environment, check=True,
                   stdout=subprocess.DEVNULL)
    with Gateway(place, store=place.path("inventory")) as gateway:
        said = None
        for kind, text in blocks[2:]:
            if not kind:
                # The reason of a refusal is left out if it takes over a second.
                shown = text if '"errors"' in said else without_errors(text)
                assert without_names(said) == without_names(shown)
                continue
            words = _RUN[kind]
            if kind == "javascript" and not _has_fetch():
                # The same by curl, so that what follows finds the document as it would be.
                said = f"{gateway.merge('shelf-1', {'nuts': 9}).json()['seq']}\n"
                continue
            ended = subprocess.run(words(text.replace(_SHOWN, gateway.host)), stdout=subprocess.PIPE, cwd=place.folder,
                                   stderr=subprocess.PIPE, env=environment, timeout=PATIENCE, check=False)
            if ended.returncode:
                pytest.fail(f"{text}\n{ended}")
            said = ended.stdout.decode()


def _has_fetch():
    """Whether there is a node with `fetch`, which version 18 has; the browser's test runs the block too."""
    if shutil.which("node") is None:
        return False
    told = subprocess.run(["node", "--version"], stdout=subprocess.PIPE, check=False).stdout.decode()
    found = re.match(r"v(\d+)", told)
    return found is not None and int(found.group(1)) >= 18
