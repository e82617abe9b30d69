"""Runs a node over a file until it is ended."""
import asyncio
import contextlib
import faulthandler
import os
import signal
import sys
from functools import partial
from typing import Any, Awaitable, Dict, List

from ..errors import Ended, JpstoreError
from ..refusals import DAMAGED
from ..wire.standard_streams import announce, complain
from .applying import Applier
from .clients import Clients
from .errors import ANEW, Astray, Changed, Damaged
from .log import PLACES
from .node import Node, Settings
from .place import begin_of, furthest
from .store import ReplicaStore, judge_of
from .tasks import end_tasks, started
from .unix_socket import Listening, check_free

__all__ = ["run_node"]

_BACKLOG = 1024

# How long the end of a node may take after a signal, in seconds.
_FAREWELL = 5.0

# From Python 3.13 on, asyncio would remove what has the path and the number of the socket, be it a socket or not.
_OURS: Dict[str, Any] = {"cleanup_socket": False} if sys.version_info >= (3, 13) else {}


class _Sockets:
    """The sockets of a node, and those who are connected to them."""

    def __init__(self, node: Node, settings: Settings) -> None:
        self._paths = [(settings.socket, True)] + ([(settings.local, False)] if settings.local else [])
        self._clients = Clients(node)
        self._servers: List[asyncio.AbstractServer] = []
        self._listening: List[Listening] = []

    async def open(self) -> None:
        for path, linear in self._paths:
            self._listening.append(Listening(path))
            self._servers.append(await asyncio.start_unix_server(
                partial(self._clients.welcome, linear), sock=self._listening[-1].socket, backlog=_BACKLOG, **_OURS))

    async def close(self) -> None:
        for server in self._servers:
            server.close()
        for listening in self._listening:
            listening.remove()
        await self._clients.close()


async def _made(settings: Settings, store: ReplicaStore) -> Node:
    """The node, after its file was found to be one of the log."""
    with contextlib.closing(settings.new_log()) as log:
        agreed, nodes = await log.agreed(None), await log.told(PLACES, None)
    stored = await store.place(agreed)
    if store.status["capacity"] < agreed.capacity:
        raise JpstoreError(f"{store.file} has halves of {store.status['capacity']:,} bytes, and the nodes have "
                           f"agreed on {agreed.capacity:,} at least: make the store in a larger file by `replica join`")
    place = furthest(stored or begin_of(agreed), nodes.get(settings.node, {}), agreed.log, store.status["seq"])
    return Node(settings, store, Applier(store, agreed, stored, place, judge_of(settings.program)))


async def _run(settings: Settings, store: ReplicaStore) -> None:
    """Runs the node, once etcd answers, until it is cancelled or something fails."""
    node = await _made(settings, store)
    sockets = _Sockets(node, settings)

    async def begun() -> None:
        await sockets.open()
        place = f"entry {node.told()['applied']}"
        announce(f"{settings.file} is served as node {settings.node} at {settings.socket}, from {place} on")
    try:
        await node.run(begun)
    finally:
        await sockets.close()


async def _opened(settings: Settings) -> ReplicaStore:
    """The store of the node. `Damaged` if the file is: what it has lost is in the log, or in another node's file."""
    try:
        return await ReplicaStore.open(settings.file, settings.program, settings.pump, settings.wait)
    except Ended as ended:
        if ended.number != DAMAGED:
            raise
        raise Damaged(f"{settings.file} is damaged ({DAMAGED}): {ANEW}") from None


async def _serve(settings: Settings) -> None:
    check_free(settings.socket)
    store = await _opened(settings)
    try:
        await _until_stopped(_run(settings, store), store)
    finally:
        ended = await store.close()
    if ended.status != 0:
        raise ended


async def _until_stopped(run: Awaitable[None], store: ReplicaStore) -> None:
    """Runs until a signal comes, something fails, or the program ends."""
    running = started(run)
    stopped: "asyncio.Future[None]" = asyncio.get_running_loop().create_future()
    ending = asyncio.ensure_future(store.process.wait())
    for number in (signal.SIGINT, signal.SIGTERM):
        asyncio.get_running_loop().add_signal_handler(number, _stop, stopped)
    waited: List["asyncio.Future[Any]"] = [running, stopped, ending]
    await asyncio.wait(waited, return_when=asyncio.FIRST_COMPLETED)
    ended = running.done()
    await end_tasks([running, ending])
    if ended:
        running.result()


def _stop(stopped: "asyncio.Future[None]") -> None:
    """Ends the node. What holds that up for too long is named on standard error and cut off, as by a kill."""
    stopped.cancel()
    faulthandler.dump_traceback_later(_FAREWELL, exit=True)


def _mark(astray: str, error: JpstoreError) -> None:
    """Writes that the store of a node can't go on, so that no start tries it."""
    try:
        with open(astray, "w", encoding="utf-8") as opened:
            opened.write(f"{error}\n")
    except OSError as failed:
        complain(f"{astray} cannot be written: {failed.strerror}")


def run_node(settings: Settings) -> int:
    """Serves a node until it is ended by SIGTERM or SIGINT; returns 0.

    `Astray`, `WrongLog`, `Trimmed` and `Changed` are raised if the store can't go on, and must be made anew. After any
    other error a new start may go on.
    """
    astray = settings.file + ".astray"
    if os.path.lexists(astray):
        raise Astray(f"the store in {settings.file} has left the log, as {astray} tells. Move both aside: {ANEW}")
    try:
        asyncio.run(_serve(settings))
    except (Astray, Changed) as error:
        _mark(astray, error)
        raise
    finally:
        faulthandler.cancel_dump_traceback_later()
    return 0
