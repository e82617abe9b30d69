"""Three nodes append 60 entries each, and lose four answers in ten; prints the names of the entries in the log.

    replica_losing.py MEMBERS
"""
import asyncio
import json
import random
import sys

from jpstore.replica.engine import Engine, members_in
from jpstore.replica.log import Log

MEMBERS = members_in(sys.argv[1])
ONCE = Engine._once


async def lossy(engine, path, sent):
    """Does a call, and loses its answer now and then."""
    answer = await ONCE(engine, path, sent)
    if path == "/kv/txn" and random.random() < 0.4:
        raise OSError("lost")
    return answer


async def append(node):
    """Appends the entries of a node."""
    log = Log(MEMBERS, "test")
    await log.register(node)
    for number in range(60):
        await log.append(f"{node}.{number}", [b"{}\n"])


async def run():
    """Appends, and reads the log."""
    log = Log(MEMBERS, "test")
    await log.head(20.0)
    Engine._once = lossy
    await asyncio.gather(*[append(node) for node in "abc"])
    Engine._once = ONCE
    count, seen = (await log.head()).n, []
    async for entry in log.watch().entries(0, 0, ""):
        seen.append(entry.id)
        if len(seen) == count:
            return seen


print(json.dumps(asyncio.run(run())))
