"""The changes that a hub sends, and hubs that end, or are killed, at a chosen moment."""
import contextlib
import json

from hubs import Hub
from support import PATIENCE

# A hub that was killed leaves a program that ends with its input.
WAIT = ("--wait", "10")


class Told:
    """The changes after number `base` that a hub tells, and the name of the history that came with each number."""

    def __init__(self, hub):
        self.base, self.last = _ends(hub)
        begun, *lines = hub.lines(asked(self.base), 1 + self.last - self.base)
        assert [line["seq"] for line in lines] == list(range(self.base + 1, self.last + 1))
        self.changes = {line["seq"]: line["change"] for line in lines}
        self.names = {self.base: begun["history"], **{line["seq"]: line["history"] for line in lines}}
        self.spans = {line["seq"]: (line["first"], line["last"]) for line in lines if "first" in line}

    def goes_on(self, hub, seq):
        """Whether a watcher that was told this much may go on at a hub."""
        begun, = hub.lines(asked(seq, self.names[seq]), 1)
        assert begun["ok"] or begun["number"] == 80
        return begun["ok"]


def asked(seq, name=None):
    """The line that asks for the changes after a number."""
    history = {} if name is None else {"history": name}
    return json.dumps({"cmd": "watch", "from": seq, **history}).encode() + b"\n"


def _ends(hub):
    """The number after which it tells changes, and that of the last one."""
    begun, = hub.lines(asked(0), 1)
    if begun["ok"]:
        return 0, begun["seq"]
    again, = hub.lines(asked(begun["from"]), 1)
    return begun["from"], again["seq"]


@contextlib.contextmanager
def ended_hub(place):
    """A hub that ends as it is asked to at the end of the block."""
    with Hub(place, options=WAIT) as hub:
        yield hub
        hub.process.terminate()
        hub.process.wait(PATIENCE)


def opened(place):
    """What a hub tells that is started anew."""
    with ended_hub(place) as hub:
        return Told(hub)


def ended(place, *groups):
    """A hub makes changes, and ends; answers what it told. A group that is a function does something else."""
    with ended_hub(place) as hub:
        return _done(hub, groups)


def killed(place, *groups):
    """As `ended`, of a hub that is killed."""
    with Hub(place, options=WAIT) as hub:
        return _done(hub, groups)


def _done(hub, groups):
    with hub.connect() as store:
        for group in groups:
            do(store, group)
    return Told(hub)


def do(store, what):
    """Makes changes, or what a function does."""
    if callable(what):
        what(store)
    elif what:
        store.group(what)


def elsewhere(place, *groups):
    """Another process opens the file for each group of changes."""
    for group in groups:
        with place.store(wait=PATIENCE) as store:
            do(store, group)


def snapshot(store):
    store.snapshot()
