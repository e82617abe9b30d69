"""The program and the server that the tests run, and the folder that each test has."""
import os
import shutil
import signal
import tempfile
from typing import Iterator

import pytest

pytest.register_assert_rewrite("support")

from support import PACKAGE, PATIENCE, Place  # noqa: E402

_BUILT = os.path.join(PACKAGE, "..", "..", "crates", "jpstore", "out", "jpstore")
_SERVER_BUILT = os.path.join(PACKAGE, "..", "server", "target", "release", "jpstored")


def pytest_addoption(parser: pytest.Parser) -> None:
    """The option `--program`."""
    where = "the program jpstore; else JPSTORE_PROGRAM, the built one, or that on PATH"
    parser.addoption("--program", metavar="PATH", help=where)


@pytest.fixture(scope="session")
def program(request: pytest.FixtureRequest) -> str:
    """The path of the program: by `--program`, by JPSTORE_PROGRAM, the one that was built here, or the one on PATH."""
    named = request.config.getoption("--program") or os.environ.get("JPSTORE_PROGRAM")
    found = shutil.which(named or _BUILT) or (None if named else shutil.which("jpstore"))
    if found is None:
        pytest.exit(f"there is no program {named or 'jpstore'}: build it, or name it by --program", returncode=2)
    return os.path.abspath(found)


@pytest.fixture(scope="session", autouse=True)
def server(program: str) -> str:
    """The path of the server: by JPSTORE_SERVER, the one beside the program, or the one that cargo built here.

    By JPSTORE_SERVER, `hub` and `http` of the package find it too.
    """
    beside = os.path.join(os.path.dirname(program), "jpstored")
    named = os.environ.get("JPSTORE_SERVER") or shutil.which(beside) or _SERVER_BUILT
    found = shutil.which(named)
    if found is None:
        pytest.exit(f"there is no server {named}: tools/server.py builds it", returncode=2)
    os.environ["JPSTORE_SERVER"] = os.path.abspath(found)
    return os.environ["JPSTORE_SERVER"]


@pytest.fixture
def place(program: str) -> Iterator[Place]:
    """A folder of the test's own, with the program."""
    # A short path: that of a Unix socket has at most 107 bytes.
    with tempfile.TemporaryDirectory(prefix="jpstore-") as folder:
        yield Place(program, folder)


def pytest_configure(config: pytest.Config) -> None:
    """The marks of this folder."""
    config.addinivalue_line("markers", "time_limit(seconds): how long this test may take")


@pytest.fixture(autouse=True)
def time_limit(request: pytest.FixtureRequest) -> Iterator[None]:
    """No test takes longer than twice the patience, or than its mark says."""
    def too_long(*_: object) -> None:
        pytest.fail("it takes too long")
    mark = request.node.get_closest_marker("time_limit")
    before = signal.signal(signal.SIGALRM, too_long)
    signal.alarm(max(2 * PATIENCE, mark.args[0] if mark else 0))
    yield
    signal.alarm(0)
    signal.signal(signal.SIGALRM, before)
