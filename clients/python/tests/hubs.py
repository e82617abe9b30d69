"""A hub as a process of its own, for the tests that need one."""
import contextlib
import fcntl
import json
import os
import signal
import socket
import subprocess
import threading
import time

from jpstore import Conflict, Ended, Store
from support import PATIENCE


def wait_until_free(file):
    """Waits until no program has the store: one whose hub was killed seals the store before it ends."""
    with open(file, "rb") as opened:
        fcntl.flock(opened, fcntl.LOCK_SH)


class Hub:
    """A hub over the file of a place, which it serves when this object is made."""

    def __init__(self, place, program=None, options=(), path=None):
        self.path = path or place.path("socket")
        words = place.server_words(place.file, "--socket", self.path, *options)
        if program:
            words[-1] = program
        self.process = subprocess.Popen(words, stdout=subprocess.PIPE, stderr=subprocess.PIPE, env=place.environment())
        line = self.process.stdout.readline().decode()
        assert line == f"{place.file} is served at {self.path}\n", self.process.stderr.read()

    def __enter__(self):
        return self

    def __exit__(self, *_):
        self.kill()
        self.process.stdout.close()
        self.process.stderr.close()

    def kill(self):
        self.process.kill()
        self.process.wait()

    def connect(self, **how):
        return Store.connect(self.path, **how)

    def connected(self):
        """A bare connection."""
        client = socket.socket(socket.AF_UNIX)
        client.settimeout(PATIENCE)
        client.connect(self.path)
        return client

    def raw(self, sent):
        """What the hub answers to these bytes and the end of input."""
        def send():
            # The hub may end the connection before it has all.
            with contextlib.suppress(OSError):
                client.sendall(sent)
                client.shutdown(socket.SHUT_WR)
        with self.connected() as client:
            threading.Thread(target=send).start()
            return b"".join(iter(lambda: client.recv(1 << 16), b""))

    def lines(self, sent, count):
        """The first lines that the hub answers to these bytes, read as JSON; what comes after them is not read."""
        with self.connected() as client, client.makefile("rb") as replies:
            client.sendall(sent)
            return [json.loads(replies.readline()) for _ in range(count)]

    def told(self, since, count):
        """The lines by which it tells the changes after a number, as they are."""
        with self.connected() as client, client.makefile("rb") as lines:
            client.sendall(b'{"cmd":"watch","from":%d}\n' % since)
            return [lines.readline().decode() for _ in range(count + 1)][1:]

    def program(self):
        """The process of the program that it serves by."""
        return self.programs()[0]

    def programs(self):
        """The processes of its programs, of which there is one, unless the store grows."""
        # While it looks, another program may take the place of the one that was there.
        for _ in range(20):
            found = self._children()
            if found:
                return found
        raise AssertionError("the hub has no program")

    def _children(self):
        found = []
        for process in filter(str.isdigit, os.listdir("/proc")):
            with contextlib.suppress(OSError):
                with open(f"/proc/{process}/stat", encoding="ascii", errors="replace") as opened:
                    # After the name, which is in brackets: the state and the parent.
                    if int(opened.read().rpartition(")")[2].split()[1]) == self.process.pid:
                        found.append(int(process))
        return found

    def ends(self, status):
        """Waits for its end, and returns what it wrote to standard error."""
        assert self.process.wait(PATIENCE) == status
        return self.process.stderr.read().decode()


def count_up(hub, name, acknowledged):
    """Counts a document of its own up, and notes each count that was acknowledged, until the hub ends."""
    try:
        with hub.connect() as store:
            try:
                store.create(name, {"n": 0})
                acknowledged[name] = 0
            except Conflict:
                acknowledged[name] = store.get(name, "/n")
            while True:
                count = acknowledged[name] + 1
                store.patch(name, [{"op": "replace", "path": "/n", "value": count}])
                acknowledged[name] = count
    except (Ended, OSError):
        pass


def count_until_a_kill(place, clients, seconds, of_hub, acknowledged):
    """Clients count at once until the hub or the program is killed: each finds its last count, or the one under way."""
    with Hub(place) as hub:
        threads = [threading.Thread(target=count_up, args=(hub, f"c{number}", acknowledged), daemon=True)
                   for number in range(clients)]
        for thread in threads:
            thread.start()
        time.sleep(seconds)
        os.kill(hub.process.pid if of_hub else hub.program(), signal.SIGKILL)
        for thread in threads:
            thread.join()
    # A hub that was killed leaves a program that ends with its input; this opening waits for that.
    with place.store(wait=PATIENCE) as store:
        found = {name: store.get(name, "/n") for name in store.names()}
    for name, count in acknowledged.items():
        assert count <= found[name] <= count + 1, f"{name} was acknowledged {count}, and has {found[name]}"


class Writers:
    """Clients of a hub, each of which counts two documents of its own up, one after the other, until the block ends.

    So at each moment the first has the count of the second, or one more.
    """

    def __init__(self, hub, number, room=0):
        self._hub, self._text = hub, "x" * room
        self._stop = threading.Event()
        self._threads = [threading.Thread(target=self._write, args=(f"w{index}",), daemon=True)
                         for index in range(number)]
        self.written = 0

    def __enter__(self):
        for thread in self._threads:
            thread.start()
        return self

    def __exit__(self, *_):
        self._stop.set()
        for thread in self._threads:
            thread.join()

    def _write(self, name):
        with self._hub.connect() as store:
            for part in "ab":
                store.create(f"{name}-{part}", {"n": 0, "text": self._text})
            count = 0
            while not self._stop.is_set():
                count += 1
                for part in "ab":
                    store.patch(f"{name}-{part}", [{"op": "replace", "path": "/n", "value": count}])
                    self.written += 1


def check_moment(counts, where):
    """The counts of the documents of `Writers` are those of one moment."""
    for name, count in counts.items():
        if name.endswith("-a"):
            other = counts.get(name[:-1] + "b", count)
            assert count - other in (0, 1), f"{where}: {name} {count}, the other {other}"
        else:
            assert name[:-1] + "a" in counts, f"{where}: {name} alone"


def counts_at(changes, seq):
    """The counts that changes, from the first one on, leave after number `seq`, and each document's revision."""
    counts = {}
    for change in changes:
        if change.seq > seq:
            break
        command = change.command
        count = command["doc"]["n"] if command["cmd"] == "create" else command["ops"][0]["value"]
        counts[command["name"]] = (count, change.seq)
    return counts
