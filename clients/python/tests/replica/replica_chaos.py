"""Chaos of nodes: in each round something is killed or stopped, while clients read and write; then all is judged."""
import asyncio
import contextlib
import json
import os
import random
import signal
import subprocess
import sys
import threading
import time
from collections import Counter
from itertools import chain

from jpstore import JpstoreError
from jpstore.replica.engine import Engine, members_in
from jpstore.replica.log import PLACES, Log
from replica_check import Judge, operations_in, state_of
from replicas import BOUND, Members, Replicas, crashing_program
from support import PATIENCE

HERE = os.path.dirname(os.path.abspath(__file__))
CLIENTS = 6

# The sizes of the nodes' files, so different that they make snapshots at different times, and what they agree on.
# The least file has hardly room for the capacity in format 3, whose slots take 152 sectors.
SECTORS, CAPACITY = (768, 1200, 4096), 150_000

# The same where values are long, the bytes that are added to some, and the quota of etcd, which they use up.
LONG_SECTORS, LONG_CAPACITY, PAD, QUOTA = (17_000, 18_000, 24_000), 4_000_000, 40_000, 2_500_000

# The log beside, with its nodes and how many clients it has.
BESIDE, NODES_BESIDE, CLIENTS_BESIDE = "beside", "pq", 3

# How often it is told how far the log was read, in seconds.
_TELL = 0.3


class Observer:
    """Reads the whole log as it is made, so that it is known after it was trimmed; the log is kept for it till then."""

    def __init__(self, endpoints, log):
        self.entries, self.failed = [], None
        self._members, self._log = members_in(endpoints), log
        self._loop = asyncio.new_event_loop()
        self._watched = None
        self._thread = threading.Thread(target=self._run, daemon=True)
        self._thread.start()

    def _run(self):
        try:
            self._loop.run_until_complete(self._read())
        except (Exception, asyncio.CancelledError) as error:
            self.failed = error

    async def _read(self):
        telling = asyncio.ensure_future(self._tell())
        self._watched = Log(self._members, self._log).watch()
        async for entry in self._watched.entries(0, 0, ""):
            self.entries.append(entry)
        await telling

    async def _tell(self):
        log = Log(self._members, self._log)
        while True:
            last = self.entries[-1] if self.entries else None
            with contextlib.suppress(JpstoreError):
                await log.tell(PLACES, "observer", {"n": last.n if last else 0, "r": last.r if last else 0})
            await asyncio.sleep(_TELL)

    def kick(self):
        """Reads on at another member."""
        if self._watched is not None:
            self._loop.call_soon_threadsafe(self._watched.kick)


class Crowd:
    """The nodes of a log, and clients who read and write at them; in the end all is judged."""

    def __init__(self, program, seed, nodes, sectors, capacity, clients, pad):
        self.nodes, self.sectors = nodes, dict(zip(nodes.names, sectors))
        self._program, self._seed, self._capacity, self._pad = program, seed, capacity, pad
        self._count, self._clients, self._observer = clients, [], None
        self._crashing = crashing_program(nodes.folder, program, 1 / 150)

    def make(self):
        """Makes the nodes, and starts them."""
        self.nodes.make(tuple(self.sectors.values()), self._capacity)
        for node in self.nodes.names[1:]:
            self.nodes.stop(node)
            self.nodes.start(node, *(["--pump", "16"] if node == "b" else []), program=self._crashing)

    def begin(self):
        """Starts the clients, and who looks on."""
        self._observer = Observer(self.nodes.members.endpoints, self.nodes.log)
        self._clients = [self._client(number) for number in range(self._count)]

    def _client(self, number):
        sockets = [self.nodes.socket(node) for node in self.nodes.names]
        words = [*BOUND, sys.executable, f"{HERE}/replica_client.py", str(number), str(self._seed), self._out(number)]
        return subprocess.Popen([*words, str(self._pad), *sockets], stdin=subprocess.PIPE)

    def _out(self, number):
        return f"{self.nodes.folder}/client{number}"

    def close(self):
        """Ends all."""
        for client in self._clients:
            client.kill()
            client.wait()
        self.nodes.close()

    def hold(self, number):
        """Stops the clients, or lets them go on."""
        for client in self._clients:
            client.send_signal(number)

    def rest(self):
        """Lets the clients end, and what dies at random live."""
        with open(f"{self.nodes.folder}/calm", "w", encoding="utf-8"):
            pass
        for client in self._clients:
            client.stdin.close()
        for client in self._clients:
            client.wait(PATIENCE)

    def judge(self):
        """What is wrong, and some counts."""
        states, head = self._settled()
        end = time.monotonic() + PATIENCE
        while len(self._observer.entries) < head:
            assert not self._observer.failed and time.monotonic() < end, f"the observer ended: {self._observer.failed}"
            time.sleep(0.05)
        entries = [entry.lines for entry in self._observer.entries[:head]]
        operations = [each for number in range(self._count) for each in operations_in(self._out(number))]
        judge = Judge(self._program, entries, states, operations).judge()
        self.nodes.check_said()
        starts = sum(self.nodes.output(node).count(" is served as node ") for node in self.nodes.names)
        counts = {"entries": len(entries), "lines": sum(map(len, entries)), "starts": starts}
        return judge.problems, {**counts, **judge.counts}

    def wait(self, lost):
        """Waits until all but a lost node have told etcd that they have the whole log, and who looks on too."""
        head, names = self._status()["head"], {*self.nodes.names, "observer"} - {lost}
        end = time.monotonic() + PATIENCE
        while True:
            # A program or a member may die again meanwhile, or a member may have been too slow to get space.
            self.nodes.members.revive()
            for node in self.nodes.revive(lost):
                raise AssertionError(f"node {node}: {self.nodes.output(node)[-400:]}")
            assert not self._observer.failed, f"the observer ended: {self._observer.failed}"
            told = self._status()["nodes"]
            behind = {name: told.get(name) for name in names if told.get(name, {"n": -1})["n"] < head}
            if not behind:
                return
            said = {name: self.nodes.output(name)[-400:] for name in behind if name in self.nodes.names}
            assert time.monotonic() < end, f"entry {head} is missing: {behind}, {said}"
            if asyncio.run(is_without_space(self.nodes.members)):
                asyncio.run(given_space(self.nodes.members))
            time.sleep(0.05)

    def _settled(self):
        """What each node has when all have done the whole log, and how many entries that has."""
        for node in self.nodes.names:
            # Nobody appends from here on, not even to compare.
            self.nodes.kill(node)
            self.nodes.start(node, "--compare", "100000")
        while True:
            head, states = self._status()["head"], {}
            for node in self.nodes.names:
                self.nodes.wait(node, head)
                states[node] = state_of(lambda command, node=node: self.nodes.ask(node, command)[0])
            if head == self._status()["head"]:
                return states, head

    def _status(self):
        return json.loads(self.nodes.run("status", "--json"))


class Chaos:
    """A run of rounds, over one log, or over two in an etcd that has little space."""

    def __init__(self, folder, program, rounds, seed, package=None, members=None, within=None, events=None,
                 quota=False):
        self._rounds, self._random = rounds, random.Random(seed)
        self.members = members or Members(folder, options=quota_of(QUOTA) if quota else [])
        # Often enough that they are compared in a short run too.
        options = ["--compare", "2", "--patience", "6"]
        how = (LONG_SECTORS, LONG_CAPACITY) if quota else (SECTORS, CAPACITY)
        nodes = Replicas(folder, program, self.members, package, options, within)
        self.crowds = [Crowd(program, seed, nodes, *how, CLIENTS, PAD if quota else 0)]
        if quota:
            os.mkdir(f"{folder}/{BESIDE}")
            beside = Replicas(f"{folder}/{BESIDE}", program, self.members, package, options, None, BESIDE, NODES_BESIDE)
            self.crowds.append(Crowd(program, f"{seed}b", beside, *how, CLIENTS_BESIDE, PAD))
        self._quota, self._holding = quota, 0
        self.events = Counter()
        self._more = events or {}

    def run(self):
        """Does all rounds and judges them; returns what is wrong, and some counts."""
        try:
            self.members.start_all()
            for crowd in self.crowds:
                crowd.make()
            for crowd in self.crowds:
                crowd.begin()
            for _ in range(self._rounds):
                self._round()
                lost = [f"node {node}: {nodes.output(node)[-400:]}" for nodes in self._all() for node in nodes.revive()]
                if lost:
                    return lost, dict(self.events)
            return self._judge()
        finally:
            for crowd in self.crowds:
                crowd.close()
            self.members.close()

    def _all(self):
        return [crowd.nodes for crowd in self.crowds]

    def of(self, node):
        """The nodes of the same log."""
        return next(nodes for nodes in self._all() if node in nodes.names)

    def _round(self):
        events = {**EVENTS, **self._more}
        word = self._random.choice(list(events))
        self.events[word] += 1
        node = self._random.choice(self._random.choice(self._all()).names)
        events[word](self, node, self._random.randrange(len(self.members.processes)))
        time.sleep(self._random.random() * 0.3)
        self.revive()
        if self._random.random() < 0.5:
            self.make_room()
        time.sleep(0.1 + self._random.random() * 0.3)

    def revive(self, lost=None):
        """Starts all that has ended, but no node whose file is lost."""
        self.members.revive()
        for nodes in self._all():
            nodes.revive(lost)

    def make_room(self, lost=None):
        """If etcd has no space any more, has it get some, as the page says; a lost node has no file to be kept for."""
        if self._quota and asyncio.run(is_without_space(self.members)):
            self.events["no space"] += 1
            self._trim_either()
            if asyncio.run(used(self.members)) > QUOTA // 2:
                self.events["larger quota"] += 1
                self._trim_in_more_space(lost)
            asyncio.run(given_space(self.members))

    def _trim_either(self):
        """Trims one of the logs, which drops what the nodes of all have."""
        self.trim(self._random.choice([crowd.nodes.names[0] for crowd in self.crowds]))

    def _trim_in_more_space(self, lost):
        """Trims after nodes that were away have told that they have all now, which takes space too."""
        with self._without_clients():
            self.members.restart(quota_of(4 * QUOTA))
            asyncio.run(given_space(self.members))
            self.revive(lost)
            for crowd in self.crowds:
                crowd.wait(lost)
            self._trim_either()
            asyncio.run(given_space(self.members))
            self.members.restart(quota_of(QUOTA))

    def _judge(self):
        for crowd in self.crowds:
            crowd.rest()
        self.revive()
        while self._quota and asyncio.run(is_without_space(self.members)):
            self.make_room()
        problems, counts = zip(*(crowd.judge() for crowd in self.crowds))
        refused = dict(sum((each.pop("refused") for each in counts), Counter()))
        told = {key: sum(each[key] for each in counts) for key in counts[0]}
        return list(chain.from_iterable(problems)), {**told, "refused": refused, "events": dict(self.events)}

    def kill_members(self):
        """Kills all members."""
        for member in range(len(self.members.processes)):
            self.members.kill(member)

    def kill_nodes(self):
        """Kills all nodes."""
        for nodes in self._all():
            for node in nodes.names:
                nodes.kill(node)

    def kill_programs(self):
        """Kills the programs under all nodes."""
        for nodes in self._all():
            for node in nodes.names:
                self.kill_program(node)

    def pause(self, pid, seconds):
        """Stops a process for a while."""
        # By another process: what is stopped would stay so, whatever it is sent, if this one were killed meanwhile.
        subprocess.run(["sh", "-c", 'kill -STOP "$0" && sleep "$1" && kill -CONT "$0"', str(pid),
                        str(self._random.random() * seconds)], stderr=subprocess.DEVNULL, start_new_session=True,
                       check=False)

    def kill_program(self, node):
        """Kills the program under a node."""
        with contextlib.suppress(ProcessLookupError, TypeError):
            os.kill(self.of(node).program_of(node), signal.SIGKILL)

    def make_anew(self, node):
        """A machine is lost with its file, which is made anew from another node's."""
        nodes = self.of(node)
        other = self._random.choice([each for each in nodes.names if each != node])
        nodes.kill(node)
        with contextlib.suppress(FileNotFoundError):
            os.unlink(nodes.file(node))
        sectors = next(crowd.sectors[node] for crowd in self.crowds if node in crowd.sectors)
        with self._without_clients() if self._quota else contextlib.nullcontext():
            self._join(nodes, node, other, sectors)

    @contextlib.contextmanager
    def _without_clients(self):
        """Nobody uses up the space meanwhile, however slow the machine is."""
        self._holding += 1
        for crowd in self.crowds:
            crowd.hold(signal.SIGSTOP)
        try:
            yield
        finally:
            self._holding -= 1
            for crowd in self.crowds if not self._holding else ():
                crowd.hold(signal.SIGCONT)

    def _join(self, nodes, node, other, sectors):
        end = time.monotonic() + PATIENCE
        while True:
            try:
                nodes.run("join", nodes.file(node), "--node", node, "--from", nodes.socket(other), "--sectors",
                          str(sectors))
                return
            except AssertionError:
                # The other node may be down too, or etcd without space, since the log is kept for the lost one.
                if time.monotonic() > end:
                    raise
                self.members.revive()
                if self._quota:
                    with contextlib.suppress(AssertionError):
                        nodes.run("forget", node, timeout=0)
                self.make_room(lost=node)
                if nodes.processes[other].poll() is not None:
                    nodes.start(other)
                time.sleep(0.1)

    def trim(self, node):
        """Trims the log of a node; perhaps there is no majority now."""
        with contextlib.suppress(AssertionError):
            self.of(node).run("trim", timeout=0)


def quota_of(most):
    """The options by which etcd has this quota."""
    return ["--quota-backend-bytes", str(most)]


async def is_without_space(members):
    """Whether etcd says that its quota is used up."""
    for member in members_in(members.endpoints):
        with contextlib.suppress(JpstoreError):
            answer = await Engine([member]).call("/maintenance/alarm", {"action": "GET"}, 1.0)
            return any(alarm.get("alarm") == "NOSPACE" for alarm in answer.get("alarms", ()))
    return False


async def used(members):
    """How many bytes the members use at least; 0 if none answers."""
    found = []
    for member in members_in(members.endpoints):
        with contextlib.suppress(JpstoreError):
            found.append(int((await Engine([member]).call("/maintenance/status", {}, 1.0)).get("dbSizeInUse", 0)))
    return min(found, default=0)


async def given_space(members):
    """Gives what was trimmed back to the disk of each member, and ends the alarms; perhaps a member is down."""
    for member in members_in(members.endpoints):
        with contextlib.suppress(JpstoreError):
            await Engine([member]).call("/maintenance/defragment", {}, 10.0)
    with contextlib.suppress(JpstoreError):
        engine = Engine(members_in(members.endpoints))
        for alarm in (await engine.call("/maintenance/alarm", {"action": "GET"}, 10.0)).get("alarms", ()):
            await engine.call("/maintenance/alarm", {"action": "DEACTIVATE", **alarm}, 10.0)


EVENTS = {
    "program": lambda chaos, node, member: chaos.kill_program(node),
    "node": lambda chaos, node, member: chaos.of(node).kill(node),
    "member": lambda chaos, node, member: chaos.members.kill(member),
    "machine": lambda chaos, node, member: (chaos.members.kill(member), chaos.of(node).kill(node)),
    "programs": lambda chaos, node, member: chaos.kill_programs(),
    "nodes": lambda chaos, node, member: chaos.kill_nodes(),
    "members": lambda chaos, node, member: chaos.kill_members(),
    "everything": lambda chaos, node, member: (chaos.kill_members(), chaos.kill_nodes()),
    "pause member": lambda chaos, node, member: chaos.pause(chaos.members.processes[member].pid, 2),
    "pause node": lambda chaos, node, member: chaos.pause(chaos.of(node).processes[node].pid, 1),
    "pause program": lambda chaos, node, member: chaos.pause(chaos.of(node).program_of(node), 0.5),
    "made anew": lambda chaos, node, member: chaos.make_anew(node),
    "trim": lambda chaos, node, member: chaos.trim(node),
}
