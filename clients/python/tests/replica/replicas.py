"""Three members of etcd and nodes on loopback, for the tests; ends only what it started."""
import asyncio
import contextlib
import json
import os
import random
import shlex
import shutil
import signal
import socket
import subprocess
import sys
import time

from jpstore.replica.engine import Engine, members_in, packed
from support import PACKAGE, PATIENCE

HERE = os.path.dirname(os.path.abspath(__file__))
LOG = "test"

# The folder of the package that nodes run; a wrong one takes its place.
DEFAULT_PACKAGE = PACKAGE
NODES = "abc"

# What is started ends with the process that has started it, even if that is killed, as by a time limit.
BOUND = ["setpriv", "--pdeathsig", "KILL"]

# etcd judges who leads sooner than by default, since the members are on one machine.
_TIMES = ["--heartbeat-interval", "50", "--election-timeout", "500"]


def crashing_program(folder, program, chance):
    """A program that dies after a transaction with this chance, until there is a file `calm` in the folder."""
    return _standing_in(f"{folder}/crashing", "crashing", chance, f"{folder}/calm", program)


def lacking_program(folder, program, text):
    """A program that has no memory for lines with a text, as a machine with little memory."""
    return _standing_in(f"{folder}/lacking", "lacking", text, program)


def _standing_in(path, *words):
    """A script that takes the place of a program."""
    given = shlex.join([sys.executable, f"{HERE}/replica_program.py", *map(str, words)])
    with open(path, "w", encoding="utf-8") as file:
        file.write(f'#!/bin/sh\nexec {given} "$@"\n')
    os.chmod(path, 0o700)
    return path


# How long a node may take to end in good order, in seconds: longer than by itself, since a machine may be slow.
FAREWELL = 60

# `python3 -m jpstore replica serve` with that.
_SERVE = f"""import sys
import jpstore.replica.running
from jpstore.cli.command_line import main
jpstore.replica.running._FAREWELL = {FAREWELL}
sys.exit(main())
"""


def free_ports(count):
    """Ports at which nobody listens, and which no connection gets by chance later."""
    ports = []
    while len(ports) < count:
        port = random.randrange(12_000, 32_000)
        with socket.socket() as tried, contextlib.suppress(OSError):
            tried.bind(("127.0.0.1", port))
            ports += [port] if port not in ports else []
    return ports


class Members:
    """The members of a cluster of etcd. `within` are the words before those of each member, such as a namespace's."""

    def __init__(self, folder, count=3, options=(), addresses=None, within=None, scheme="http"):
        ports = free_ports(2 * count)
        hosts = addresses or ["127.0.0.1"] * count
        self._clients = [f"{scheme}://{hosts[index]}:{ports[index]}" for index in range(count)]
        self._peers = [f"http://{hosts[index]}:{ports[count + index]}" for index in range(count)]
        self._folder, self._options, self._within = folder, list(options), within or [[]] * count
        self.processes = [None] * count
        self.endpoints = ",".join(self._clients)
        #: The files for TLS: of the authority, a certificate, and its key.
        self.tls = ()

    def start(self, index):
        """Starts a member, which goes on with what it has."""
        cluster = ",".join(f"m{number}={peer}" for number, peer in enumerate(self._peers))
        words = [*BOUND, *self._within[index], shutil.which("etcd"), "--name", f"m{index}",
                 "--data-dir", f"{self._folder}/m{index}", "--initial-cluster", cluster,
                 "--listen-client-urls", self._clients[index], "--advertise-client-urls", self._clients[index],
                 "--listen-peer-urls", self._peers[index], "--initial-advertise-peer-urls", self._peers[index],
                 "--log-level", "error", "--logger", "zap", *_TIMES, *self._options]
        with open(f"{self._folder}/m{index}.log", "ab") as log:
            self.processes[index] = subprocess.Popen(words, stdin=subprocess.DEVNULL, stdout=log, stderr=log,
                                                     start_new_session=True)

    def start_all(self):
        """Starts all members, and waits until they answer."""
        for index in range(len(self.processes)):
            self.start(index)
        asyncio.run(asyncio.wait_for(self._answer(), PATIENCE))

    async def _answer(self):
        engine = Engine(members_in(self.endpoints, *self.tls))
        await engine.call("/kv/range", {"key": packed(b"\0")})
        engine.close()

    def restart(self, options):
        """Ends the members, and starts them with these options."""
        self.close()
        self._options = list(options)
        self.start_all()

    def kill(self, index):
        kill(self.processes[index])

    def save(self):
        """Ends the members, keeps a copy of what they have, and starts them again."""
        self.close()
        for index in range(len(self.processes)):
            shutil.copytree(f"{self._folder}/m{index}", f"{self._folder}/m{index}.saved")
        self.start_all()

    def put_back(self):
        """Ends the members, and starts them with what was kept."""
        self.close()
        for index in range(len(self.processes)):
            shutil.rmtree(f"{self._folder}/m{index}")
            os.rename(f"{self._folder}/m{index}.saved", f"{self._folder}/m{index}")
        self.start_all()

    def revive(self):
        for index, process in enumerate(self.processes):
            if process is not None and process.poll() is not None:
                self.start(index)

    def close(self):
        for process in self.processes:
            kill(process)


def waited(holds, what):
    """What something is, as soon as it holds."""
    end = time.monotonic() + PATIENCE
    while True:
        found = holds()
        if found:
            return found
        assert time.monotonic() < end, f"waited in vain for {what}"
        time.sleep(0.05)


def kill(process):
    """Ends a process at once, and waits for its end."""
    if process is not None and process.poll() is None:
        with contextlib.suppress(ProcessLookupError):
            os.kill(process.pid, signal.SIGCONT)
        process.kill()
        process.wait()


# What Python says of an error that nobody has taken, and of what nobody has closed.
_INSIDE = ("Traceback", "never retrieved", "never awaited", "was destroyed", "jpstore.replica.")


class NotMade(Exception):
    """The first node's file isn't fit to be one, which says nothing of the nodes: the test is wrong."""


class Replicas:
    """Nodes by name, each with a file of its own."""

    def __init__(self, folder, program, members, package=None, options=(), within=None, log=LOG, names=NODES):
        self.folder, self.program, self.members, self.log, self.names = folder, program, members, log, names
        self._package, self._options = package or DEFAULT_PACKAGE, list(options)
        self._within = within or {}
        self.processes, self._started = {}, {}

    def file(self, node):
        return f"{self.folder}/{node}.store"

    def socket(self, node, local=False):
        return f"{self.folder}/{node}.{'local' if local else 'socket'}"

    def output(self, node):
        with open(f"{self.folder}/{node}.log", encoding="utf-8", errors="replace") as log:
            return log.read()

    def check_said(self):
        """Whatever has happened, no node may have shown how it is made inside."""
        for node in self._started:
            said = self.output(node)
            assert not any(word in said for word in _INSIDE), f"node {node}: {said[-4000:]}"

    def words(self, *words, program=None):
        """The words of a command about replicas."""
        how = ["-c", _SERVE] if words[0] == "serve" else ["-m", "jpstore"]
        return [sys.executable, *how, "replica", *words, "--etcd", self.members.endpoints, "--log", self.log,
                "--program", program or self.program]

    def run(self, *words, status=0, timeout=PATIENCE):
        """Runs a command about replicas to its end, and returns what it wrote. It is run again if etcd is too slow."""
        end = time.monotonic() + timeout
        while True:
            ended = subprocess.run(self.words(*words), stdout=subprocess.PIPE, stderr=subprocess.STDOUT, text=True,
                                   env=self.environment(), timeout=PATIENCE, check=False)
            if ended.returncode == status:
                return ended.stdout
            slow = "etcd does not answer" in ended.stdout and time.monotonic() < end
            assert slow, (words, ended.returncode, ended.stdout)

    def environment(self):
        return {**os.environ, "PYTHONPATH": self._package}

    def format(self, node, sectors, number=3):
        words = [self.program, "format", self.file(node), "--sectors", str(sectors), "--format", str(number)]
        subprocess.run(words, check=True, stdout=subprocess.DEVNULL)

    def make(self, sectors, capacity):
        """The first nodes: the first by `init`, the others from its file in files of other sizes, so that they make
        snapshots at different times."""
        first, *others = self.names
        self.format(first, sectors[0])
        try:
            self.run("init", self.file(first), "--capacity", str(capacity))
        except AssertionError as error:
            raise NotMade(*error.args) from error
        self.start(first)
        self.wait(first)
        for node, count in zip(others, sectors[1:]):
            self.run("join", self.file(node), "--node", node, "--from", self.socket(first), "--sectors", str(count))
            self.start(node)
        for node in others:
            self.wait(node)

    def start(self, node, *options, program=None):
        """Starts a node."""
        self._started[node] = (options, program)
        words = self.words("serve", self.file(node), "--node", node, "--socket", self.socket(node), "--local",
                           self.socket(node, True), "--first", str(self.names.find(node) % 3),
                           # No answer of a slow machine is taken for one that doesn't come.
                           "--patience", str(PATIENCE), *self._options, *options, program=program)
        with open(f"{self.folder}/{node}.log", "ab") as log:
            self.processes[node] = subprocess.Popen([*BOUND, *self._within.get(node, []), *words],
                                                    stdin=subprocess.DEVNULL, stdout=log, stderr=log,
                                                    env=self.environment(), start_new_session=True)

    def revive(self, lost=None):
        """Starts what has ended, as systemd would; returns the nodes that are not to be started again."""
        for node, process in self.processes.items():
            if process is not None and process.poll() not in (None, 12) and node != lost:
                options, program = self._started[node]
                self.start(node, *options, program=program)
        return [node for node, process in self.processes.items() if process is not None and process.poll() == 12]

    def program_of(self, node):
        """The process of the program under a node, or None."""
        pid = self.processes[node].pid
        with contextlib.suppress(OSError, ValueError):
            with open(f"/proc/{pid}/task/{pid}/children", encoding="ascii") as children:
                for child in children.read().split():
                    with open(f"/proc/{child}/cmdline", "rb") as words:
                        if self.file(node).encode() in words.read().split(b"\0"):
                            return int(child)
        return None

    def ask(self, node, *commands, local=True, timeout=PATIENCE):
        """The replies to commands."""
        with socket.socket(socket.AF_UNIX) as connected:
            connected.settimeout(timeout)
            connected.connect(self.socket(node, local))
            connected.sendall(b"".join(json.dumps(command).encode() + b"\n" for command in commands))
            with connected.makefile("rb") as lines:
                replies = [lines.readline() for _ in commands]
        if not replies[-1].endswith(b"\n"):
            raise ConnectionError(f"node {node} closed the connection")
        return [json.loads(reply) for reply in replies]

    def wait(self, node, n=0, seconds=PATIENCE):
        """What a node tells of itself, once it has done the log up to entry n."""
        end = time.monotonic() + seconds
        while True:
            with contextlib.suppress(OSError):
                told, = self.ask(node, {"cmd": "node"})
                if told["applied"] >= n:
                    return told
            if time.monotonic() > end or self.processes[node].poll() == 12:
                raise AssertionError(f"node {node} does not get to entry {n}:\n{self.output(node)[-2000:]}")
            time.sleep(0.02)

    def ended(self, node, seconds=PATIENCE):
        """The status with which a node ends by itself."""
        return self.processes[node].wait(seconds)

    def stop(self, node):
        """Ends a node as systemd does."""
        self.processes[node].terminate()
        assert self.processes[node].wait(PATIENCE) == 0, self.output(node)[-800:]
        self.processes[node] = None

    def kill(self, node):
        kill(self.processes[node])

    def close(self):
        for process in self.processes.values():
            kill(process)
