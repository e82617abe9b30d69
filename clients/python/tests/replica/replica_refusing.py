"""Many append to a log, and lose answers, until etcd refuses entries for want of space that it has made; says how many.

    replica_refusing.py MEMBERS PID PID PID
"""
import asyncio
import json
import os
import random
import signal
import sys
import time
from types import SimpleNamespace

from jpstore.replica.engine import Engine, NoSpace, members_in, packed, unpacked
from jpstore.replica.log import Log, Unknown
from replica_cases import made_room

LOG, WRITERS = "test", 12

# How many of the answers to appends are lost.
LOST = 0.2


class Refusing:
    """Many append at once, and some are refused by etcd, though their entries are in the log."""

    def __init__(self, endpoints, pids):
        self._endpoints, self._pids, self._all = endpoints, pids, members_in(endpoints)
        #: The names of entries that etcd has refused for want of space, of those that are told as made, and how many
        #: are told as refused.
        self._refused, self._made, self._out = set(), set(), 0

    async def run(self):
        """Goes on until etcd has refused what it took, and what it did not take."""
        once = Engine._once

        async def heard(engine, path, sent):
            try:
                answer = await once(engine, path, sent)
            except NoSpace:
                if path == "/kv/txn":
                    self._refused.add(unpacked(json.loads(sent)["success"][0]["request_put"]["value"]).decode())
                answer = None
            if path == "/kv/txn" and random.random() < LOST:
                raise OSError("lost")
            if answer is None:
                raise NoSpace
            return answer
        Engine._once = heard
        try:
            leader = await self._leader()
            logs = [Log([self._all[leader]], LOG) for _ in range(WRITERS)]
            for number, log in enumerate(logs):
                await log.register(f"n{number}")
            while not self._refused & self._made or not self._out:
                await self._append(logs, leader)
        finally:
            Engine._once = once
        return f"{len(self._refused & self._made)} made of {len(self._refused)} refused"

    async def _leader(self):
        """Which of the members leads."""
        while True:
            told = [await Engine([member]).call("/maintenance/status", {}) for member in self._all]
            leading = [each["header"]["member_id"] == each.get("leader") for each in told]
            if any(leading):
                return leading.index(True)
            await asyncio.sleep(0.1)

    async def _append(self, logs, leader):
        """All append at once. What comes while the other members hang passes etcd's first look at its quota."""
        others = [pid for index, pid in enumerate(self._pids) if index != leader]
        names = [f"{time.monotonic_ns()}.{number}" for number in range(WRITERS)]
        hang(others, signal.SIGSTOP)
        tries = [asyncio.ensure_future(log.append(name, [b"x" * 200_000 + b"\n"])) for log, name in zip(logs, names)]
        await asyncio.sleep(1)
        hang(others, signal.SIGCONT)
        told = await asyncio.gather(*tries, return_exceptions=True)
        assert all(each is True or isinstance(each, (NoSpace, Unknown)) for each in told), told
        made = await self._names()
        for name, each in zip(names, told):
            assert isinstance(each, Unknown) or (name in made) == (each is True), (name, each)
        self._made |= {name for name, each in zip(names, told) if each is True}
        self._out += sum(isinstance(each, NoSpace) for each in told)
        if any(each is not True for each in told):
            # What is in the log from here on is another one.
            await self._emptied()

    async def _names(self):
        """The names of all entries since the log was emptied."""
        log = Log(self._all, LOG)
        head, names = await log.head(), set()
        if head.n:
            async for entry in log.watch().entries():
                names.add(entry.id)
                if entry.n == head.n:
                    break
        log.close()
        return names

    async def _emptied(self):
        """Deletes the log, and gives its space back."""
        answer = await Engine(self._all).call("/kv/deleterange", {"key": packed(f"{LOG}/log".encode())})
        body = {"revision": answer["header"]["revision"], "physical": True}
        await Engine(self._all).call("/kv/compaction", body)
        await made_room(SimpleNamespace(endpoints=self._endpoints))


def hang(pids, number):
    """Stops processes, or lets them go on."""
    for pid in pids:
        os.kill(pid, number)


print(asyncio.run(Refusing(sys.argv[1], list(map(int, sys.argv[2:]))).run()))
