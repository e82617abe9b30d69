"""The beginnings: a log is made from a file, and a node's file from that of another node."""
import asyncio
import contextlib
import json
import os
import uuid
from typing import Any, Dict, Optional, Sequence

from ..errors import JpstoreError
from ..larger import give_name, sync_folder
from ..wire.commands import get, line_of
from ..wire.program import check_file, copy_file
from ..wire.standard_streams import complain
from .capacity import LEAST_CAPACITY, room_of
from .copying import receive_copy
from .engine import Member
from .errors import OLDER
from .log import PLACES, Agreed, Log
from .place import as_told, place_in
from .store import ReplicaStore, judge_of

__all__ = ["init", "join"]


async def init(file: str, members: Sequence[Member], name: str, capacity: Optional[int], program: Optional[str],
               wait: float) -> Agreed:
    """Makes a log whose first state is that of the store in `file`, which stays as it is; returns what is agreed on.

    It may be called again, as long as nothing was appended.
    """
    store = await ReplicaStore.open(file, program, wait=wait)
    try:
        await _check_older(store)
        capacity = store.status["capacity"] if capacity is None else capacity
        await _check_capacity(store, capacity)
        wanted = Agreed(uuid.uuid4().hex, capacity, await store.digest(), judge_of(program))
    finally:
        ended = await store.close()
    if ended.status != 0:
        raise ended
    return await _agree(Log(members, name), wanted)


async def _check_older(store: ReplicaStore) -> None:
    """Refuses the file of a node that kept its place in a document."""
    reply, = await store.ask([line_of(get("_log", "/chain"))])
    if json.loads(reply)["ok"]:
        raise JpstoreError(f"{store.file} is of an older node: {OLDER}")


async def _check_capacity(store: ReplicaStore, capacity: int) -> None:
    if not LEAST_CAPACITY <= capacity <= store.status["capacity"]:
        raise JpstoreError(f"the halves of {store.file} have {store.status['capacity']:,} bytes: agree on a capacity "
                           f"up to that, and of {LEAST_CAPACITY:,} at least")
    length = await store.snapshot_length()
    if length > room_of(capacity).documents:
        raise JpstoreError(f"the documents have {length:,} bytes, and nodes of this capacity have room for "
                           f"{room_of(capacity).documents:,}: make a larger store by `grow`")


async def _agree(log: Log, wanted: Agreed) -> Agreed:
    with contextlib.closing(log):
        agreed, others = await log.agree(wanted), await log.others()
        head = await log.head()
    if head.n:
        raise JpstoreError(f"the log exists already, and has {head.n} entries: make a further node by `replica join`")
    if (agreed.digest, agreed.capacity) != (wanted.digest, wanted.capacity):
        raise JpstoreError("the log exists already, and was made from another file: choose another name by --log")
    if agreed.log != wanted.log:
        complain("the log exists already, without an entry. It was made from this file, or from one of the same state")
    if others:
        complain(f"this etcd has other logs too: {', '.join(others)}. A trim of one drops what the nodes of all have")
    return agreed


def join(new: str, node: str, source: str, members: Sequence[Member], name: str, sectors: Optional[int],
         program: Optional[str]) -> Dict[str, Any]:
    """Makes the file `new`, which must not exist, for a node, from that of the node at the socket `source`.

    The log is kept for the new node from before the copy on. Returns the place of the copy in the log.
    """
    part, whole = new + ".copied", new + ".joining"
    for path in (new, part, whole):
        if os.path.lexists(path):
            raise JpstoreError(f"{path} exists already, and is left as it is: move it aside, or choose another name")
    before = asyncio.run(_kept(members, name, node))
    try:
        asyncio.run(_hold(members, name, node))
        size, place = receive_copy(source, part)
        copy_file(part, whole, sectors or size, program)
        status = check_file(whole, program)
        asyncio.run(_begin(whole, program, members, name, node, place))
        give_name(whole, new)
        sync_folder(new)
    except BaseException:
        _let_go(members, name, node, before)
        raise
    finally:
        for path in (part, whole):
            with contextlib.suppress(FileNotFoundError):
                os.unlink(path)
    return {"entry": place_in(place).n, "sectors": status.sectors, "seq": status.seq}


async def _kept(members: Sequence[Member], name: str, node: str) -> Optional[Dict[str, Any]]:
    """For which place of a node of this name the log is kept, if there is one."""
    with contextlib.closing(Log(members, name)) as log:
        await log.agreed()
        return (await log.told(PLACES)).get(node)


async def _hold(members: Sequence[Member], name: str, node: str) -> None:
    """Keeps the log from its beginning on, until it is known from which place the node needs it.

    An error doesn't tell that it isn't kept: the answer may be lost, and etcd refuses what crosses its quota when it
    has made it.
    """
    with contextlib.closing(Log(members, name)) as log:
        await log.tell(PLACES, node, {"n": 0, "r": 0})


def _let_go(members: Sequence[Member], name: str, node: str, before: Optional[Dict[str, Any]]) -> None:
    """Keeps the log as it was before a join that has failed; says so if that can't be done."""
    async def let_go() -> None:
        with contextlib.closing(Log(members, name)) as log:
            await (log.forget(node) if before is None else log.tell(PLACES, node, before))
    try:
        asyncio.run(let_go())
    except JpstoreError as error:
        complain(f"the log is kept for {node} until it is joined, or `replica forget {node}`: {error}")


async def _begin(file: str, program: Optional[str], members: Sequence[Member], name: str, node: str,
                 place: str) -> None:
    """Keeps the log from the place of a copy on; an error if the file belongs to another log, or is too small."""
    store = await ReplicaStore.open(file, program)
    with contextlib.closing(Log(members, name)) as log:
        try:
            agreed = await log.agreed()
            await store.place(agreed)
            if store.status["capacity"] < agreed.capacity:
                raise JpstoreError(f"the nodes have agreed on halves of {agreed.capacity:,} bytes: choose more sectors")
            await log.tell(PLACES, node, as_told(place_in(place), agreed.log, store.status["seq"]))
        finally:
            await store.close()
