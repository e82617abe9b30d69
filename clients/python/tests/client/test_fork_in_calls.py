"""A fork in the midst of each public call of a client: no process is told what belongs to the other, and none hangs.

The methods are taken from the classes. The shell is not tried: it makes these calls, and has no way to fork in one.
"""
import contextlib
import tempfile

import pytest
from forking import OverFile, OverHub, calls_of, close_beside, try_call
from hubs import Hub
from jpstore import AsyncStore, Store
from support import Place


class Over:
    """What is tried: a class of stores over a kind of place, in a format."""

    def __init__(self, kind, cls, version):
        self.kind, self.cls, self.version = kind, cls, version

    def __str__(self):
        return f"{self.cls.__name__}-{self.kind.__name__}-{self.version}"

    def begun(self, place, block):
        """An open store; the block ends what it needs."""
        if self.kind is OverFile:
            return OverFile(self.cls, place, self.version)
        place.format(version=self.version)
        return OverHub(self.cls, block.enter_context(Hub(place)))


CASES = [pytest.param(over, call, id=f"{over}-{call}")
         for over in [Over(kind, cls, version) for kind in (OverFile, OverHub) for cls in (Store, AsyncStore)
                      for version in (2, 3)]
         for call in calls_of(over.cls)]


@pytest.fixture(scope="module")
def tried(request, program):
    """A store and its children, for all calls: it is closed while all of them are there."""
    with tempfile.TemporaryDirectory(prefix="jpstore-") as folder, contextlib.ExitStack() as block:
        over = request.param.begun(Place(program, folder), block)
        with contextlib.ExitStack() as children:
            yield over, children
            close_beside(over)


@pytest.mark.parametrize("tried, call", CASES, indirect=["tried"], scope="module")
def test_a_fork_in_the_midst_of(tried, call):
    over, children = tried
    try_call(over, call, children)
