"""The nodes compare what they have, by digests that each tells etcd."""
import asyncio
import contextlib
import os
import time
from typing import Any, Callable, Dict, List, Optional, Set, Tuple

from ..wire.standard_streams import complain
from .digest import Digest
from .engine import NoAnswer, Rejected
from .errors import Astray
from .log import DIGESTS, EntryKind, Log

__all__ = ["Comparing", "VOTES", "alike", "is_outvoted", "unlike"]

#: How long the others have to tell what they have, in seconds.
VOTES = 5.0

#: How digests are made. Those of nodes that make them in another way are not compared.
_VERSION = 2

_LEAST_PAUSE = 0.05

Told = Dict[str, Dict[str, Any]]


def _votes(n: int, told: Told) -> Dict[str, str]:
    """The digests of entry n by nodes."""
    return {node: each["digest"] for node, each in told.items()
            if (each.get("n"), each.get("version")) == (n, _VERSION)}


def alike(n: int, told: Told) -> List[List[str]]:
    """The nodes that have told a digest of entry n, those with one digest together, the most first."""
    groups: Dict[str, List[str]] = {}
    for node, digest in sorted(_votes(n, told).items()):
        groups.setdefault(digest, []).append(node)
    return sorted(groups.values(), key=len, reverse=True)


def is_outvoted(node: str, n: int, told: Told) -> bool:
    """Whether more than half of the nodes that have told a digest of entry n have another one than this node."""
    most, *others = alike(n, told) or [[]]
    return any(node in nodes for nodes in others) and 2 * len(most) > len(most) + sum(map(len, others))


def unlike(told: Told) -> Tuple[int, List[List[str]]]:
    """The last entry that several nodes have compared, and the nodes that are alike there; none if all are."""
    for n in sorted({each.get("n", 0) for each in told.values()}, reverse=True):
        groups = alike(n, told)
        if sum(map(len, groups)) > 1:
            return n, groups if len(groups) > 1 else []
    return 0, []


class Comparing:
    """Has all nodes compare what they have, now and then, and votes for this one."""

    def __init__(self, node: str, every: float, logs: Callable[[], Log]) -> None:
        self._node, self._every, self._logs = node, every, logs
        self._last = time.monotonic()
        self._votes: "Set[asyncio.Future[None]]" = set()
        self._astray: Optional[Astray] = None
        self._differing: List[str] = []

    async def run(self) -> None:
        """Appends an entry at which all compare, if no other node has done that in time."""
        log = self._logs()
        while True:
            # Not all nodes at once.
            pause = self._every * (1 + os.urandom(1)[0] / 512)
            await asyncio.sleep(max(_LEAST_PAUSE, self._last + pause - time.monotonic()))
            if time.monotonic() - self._last >= self._every:
                self.seen()
                with contextlib.suppress(Rejected):
                    name = await log.register(self._node + "/compare")
                    await log.append(f"{self._node}.{name}.compare", [], EntryKind.COMPARE)

    def seen(self) -> None:
        """The nodes compare now: the next time is later."""
        self._last = time.monotonic()

    def compare(self, digest: Digest, judged: Callable[[], None]) -> None:
        """Compares what this node has with the others, beside all else. `judged` is called at the end."""
        vote = asyncio.ensure_future(self._vote(digest))
        self._votes.add(vote)
        vote.add_done_callback(self._votes.discard)
        vote.add_done_callback(lambda _: judged())

    def check(self) -> None:
        """Raises `Astray` if this node was outvoted."""
        if self._astray is not None:
            raise self._astray

    async def _vote(self, digest: Digest) -> None:
        with contextlib.closing(self._logs()) as log, contextlib.suppress(Rejected, NoAnswer):
            await log.tell(DIGESTS, self._node, {"digest": digest.text, "n": digest.n, "version": _VERSION})
            await asyncio.sleep(min(VOTES, self._every / 2))
            told = await log.told(DIGESTS)
            if is_outvoted(self._node, digest.n, told):
                self._astray = Astray(f"most nodes have other documents at entry {digest.n} than this one")
            groups = alike(digest.n, told)
            if any(self._node in nodes for nodes in groups):
                # Else it has told the digest of a later entry since.
                self._say(digest.n, groups)

    def _say(self, n: int, groups: List[List[str]]) -> None:
        """Says that other nodes differ from this one, or that they don't any more."""
        others = sorted(node for nodes in groups if self._node not in nodes for node in nodes)
        if others != self._differing and sum(map(len, groups)) > 1:
            self._differing = others
            complain(f"at entry {n} this node has other documents than {' and '.join(others)}" if others
                     else f"at entry {n} this node has the same documents as the others again")
