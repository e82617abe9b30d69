#!/usr/bin/env python3
"""Kills a server with both doors, the program under it, and its clients, while these count, read and follow.

    kill_servers.py PROGRAM [--kills N] [--formats 2 3] [--seed S]

In each format N kills, 150 if not said, as kill_hubs.py makes them. Meanwhile:

  - three clients over HTTP count a document of their own each by `If-Match`, one of them a process that is killed too;
  - two count the one of all over HTTP, by `Idempotency-Key`;
  - three at the socket count a document of their own and the one of all by `once`, one of them a process that is killed too;
    in format 2, whose stores have no marks, these five count a document of their own by its revision instead;
  - three readers over HTTP and one at the socket never read a count below one that was acknowledged before;
  - three follow the changes: over HTTP a thread, and a process that is killed and goes on after what it has written, and a
    watcher at the socket. If changes are gone, as in format 2 after each start, they read all documents and go on from there.

In the end each count is the number of increments, each follower has each change once, in order, but for those that were gone,
and what they were sent makes the documents that are stored.

It needs pytest and jsonpatch, and makes its stores in the folder that TMPDIR names. The last line is `N passed, M failed`.
"""
import argparse
import contextlib
import functools
import http.client
import json
import os
import random
import signal
import socket
import subprocess
import sys
import tempfile
import threading
import time
import traceback

HERE = os.path.dirname(os.path.abspath(__file__))
CLIENTS = os.path.join(HERE, "..", "..", "clients", "python")
sys.path[:0] = [HERE, CLIENTS, os.path.join(CLIENTS, "tests"), os.path.join(HERE, "..", "..", "tools")]
sys.dont_write_bytecode = True

from jpstore import Ended, Gone, JpstoreError, Outdated, Store, create  # noqa: E402
from kill_hubs import (  # noqa: E402
    BEGIN, Counter, CountingProcess, changes_in, formatted, logged, one_life, until, watched,
)
from server import use_server  # noqa: E402
from support import PATIENCE, Place  # noqa: E402

SECTORS = 2048
PAUSE = 0.02
BY_TAG, BY_KEY, BY_ONCE = ["h0", "h1", "h2"], ["k0", "k1"], ["c0", "c1", "c2"]
HTTP_READERS = 3

# A client that counts by `If-Match`, in a process of its own: it goes on after what it has written down.
TAG_COUNTER = """
import os, sys
sys.path.insert(0, sys.argv[1])
from kill_servers import Door, count_by_tag
port, name, log, stop = sys.argv[2:]
with open(log, "ab+") as file:
    file.seek(0)
    whole = file.read().split(b"\\n")[:-1]
    begun = int(whole[-1].split()[1]) if whole else 0
    done = not whole or whole[-1].startswith(b"done")
    door = Door(int(port))
    while not (done and os.path.exists(stop)):
        begun += done
        os.write(file.fileno(), b"begun %d\\n" % begun)
        count_by_tag(door, name, begun)
        os.write(file.fileno(), b"done %d\\n" % begun)
        done = True
"""

# A follower over HTTP, in a process of its own: what it has written says from which event it goes on.
FOLLOWER = """
import json, os, sys
sys.path.insert(0, sys.argv[1])
from kill_servers import follow
port, log = sys.argv[2:]
with open(log, "ab+") as file:
    file.seek(0)
    whole = file.read()
    whole = whole[:whole.rfind(b"\\n") + 1]
    file.truncate(len(whole))
    last = json.loads(whole.splitlines()[-1])["id"] if whole else "0"
    for line in follow(int(port), last):
        os.write(file.fileno(), json.dumps(line).encode() + b"\\n")
"""


class Door:
    """The way to the server over HTTP, which is made anew after a connection was lost."""

    def __init__(self, port):
        self._port, self._connection = port, None

    def ask(self, method, path, body=None, **fields):
        """The status, the tag and the content of the answer; 0 as the status if it was lost."""
        if self._connection is None:
            self._connection = http.client.HTTPConnection("127.0.0.1", self._port, timeout=PATIENCE)
        fields = {name.replace("_", "-"): value for name, value in fields.items()}
        try:
            self._connection.request(method, path, body, {"Content-Type": "application/json", **fields})
            answer = self._connection.getresponse()
            return answer.status, answer.headers["ETag"], answer.read()
        except (OSError, http.client.HTTPException):
            self._connection.close()
            self._connection = None
            time.sleep(PAUSE)
            return 0, None, b""


def count_by_tag(door, name, number):
    """Counts up a document of its own to this number. After a lost answer it has the number or does not have it, and no other."""
    while True:
        status, tag, content = door.ask("GET", f"/documents/{name}")
        if status != 200:
            assert status in (0, 503), f"{name}: a question is answered {status} {content}"
            continue
        found = json.loads(content)
        assert found in (number - 1, number), f"{name}: {found} is stored, and {number - 1} was counted"
        if found == number:
            return
        status, _, content = door.ask("PUT", f"/documents/{name}", str(number), If_Match=tag)
        if status == 200:
            return
        assert status in (0, 412, 502, 503, 504), f"{name}: a change is answered {status} {content}"


def count_by_key(door, name, number):
    """Counts up the one of all, once for this number: after a lost answer the same is sent again, or what is right by now."""
    asked = None
    while True:
        if asked is None or random.random() < 0.3:
            status, tag, content = door.ask("GET", "/documents/all")
            if status != 200:
                assert status in (0, 503), f"all: a question is answered {status} {content}"
                continue
            asked = str(json.loads(content) + 1), tag
        status, _, content = door.ask("PUT", "/documents/all", asked[0], If_Match=asked[1], Idempotency_Key=f'"{name}-{number}"')
        if status == 200:
            return
        if status == 422:
            # What was sent before has been made.
            assert json.loads(content)["name"] == "idempotency-key-reused", content
            return
        assert status in (0, 412, 502, 503, 504), f"all: a change is answered {status} {content}"
        asked = None if status == 412 else asked


def count_by_rev(store, name, number):
    """Counts up a document of its own to this number at the socket, as `count_by_tag` does over HTTP."""
    while True:
        with contextlib.suppress(Outdated, Ended):
            rev, found = store.rev(name), store.get(name)
            assert found in (number - 1, number), f"{name}: {found} is stored, and {number - 1} was counted"
            if found != number:
                store.patch(name, [{"op": "replace", "path": "", "value": number}], if_rev=rev)
            return


def follow(port, last="0"):
    """The changes over HTTP after an event, over all ends of the server, or all documents if some are gone."""
    while True:
        try:
            for event in events(port, last):
                last = event["id"]
                yield event
        except Gone as gone:
            read = {**read_over_http(port), "gone": gone.since}
            last = read["id"]
            yield read
        time.sleep(PAUSE)


def events(port, last):
    """The changes after an event, until the connection is lost."""
    connection = http.client.HTTPConnection("127.0.0.1", port, timeout=PATIENCE)
    with contextlib.suppress(OSError, http.client.HTTPException), contextlib.closing(connection):
        connection.request("GET", "/changes", headers={"Last-Event-ID": last})
        answer = connection.getresponse()
        if answer.status == 410:
            raise Gone(None, json.loads(answer.read())["from"])
        assert answer.status in (200, 503), f"a follower is answered {answer.status} {answer.read()}"
        event = {}
        for line in answer if answer.status == 200 else ():
            field, _, value = line.decode().rstrip("\n").partition(": ")
            if field in ("event", "id", "data"):
                event[field] = value
            elif not field and "data" in event:
                data = json.loads(event["data"])
                if "event" in event:
                    assert event["event"] == "gone", f"a follower is told {event}"
                    raise Gone(None, data["from"])
                yield {"id": event["id"], "seq": data["seq"], "command": data["change"]}
                event = {}


def read_over_http(port):
    """All documents of one moment."""
    while True:
        connection = http.client.HTTPConnection("127.0.0.1", port, timeout=PATIENCE)
        with contextlib.suppress(OSError, http.client.HTTPException), contextlib.closing(connection):
            connection.request("GET", "/documents", headers={"Accept": "application/x-ndjson"})
            answer = connection.getresponse()
            lines = answer.read().splitlines()
            if answer.status == 200:
                seq = answer.headers["Jpstore-Seq"]
                return {"id": seq, "seq": int(seq), "documents": {each["name"]: each["doc"] for each in map(json.loads, lines)}}
            assert answer.status == 503, f"a reader of all documents is answered {answer.status}"
        time.sleep(PAUSE)


class Task:
    """Something that is done again and again in a thread, until it is to stop."""

    def __init__(self, name, stop, step):
        self.name, self.count, self.done, self.failed = name, 0, 0, None
        self._stop, self._step = stop, step
        self._thread = threading.Thread(target=self._run, daemon=True)
        self._thread.start()

    def _run(self):
        try:
            while not self._stop.is_set():
                self.count += 1
                self._step(self)
                self.done = self.count
        except Exception as error:
            self.failed = error

    def join(self):
        self._thread.join()
        if self.failed:
            raise self.failed


def by_tag(port):
    """A step that counts by `If-Match`."""
    door = Door(port)
    return lambda task: count_by_tag(door, task.name, task.count)


def by_key(port):
    """A step that counts by `Idempotency-Key`."""
    door = Door(port)
    return lambda task: count_by_key(door, task.name, task.count)


def by_rev(path):
    """A step that counts by revisions at the socket."""
    opened = functools.lru_cache(None)(lambda: Store.connect(path, wait=600))
    return lambda task: count_by_rev(opened(), task.name, task.count)


def reading(tasks, ask):
    """A step that reads the count of a task, which is never below the one that was acknowledged before."""
    def step(_):
        task = random.choice(tasks)
        least = task.done
        found = ask(task.name)
        assert found is None or found >= least, f"{task.name}: {least} was acknowledged, and {found} was read"
    return step


def over_http(port):
    """The count that is read over HTTP; None if there was no answer."""
    door = Door(port)

    def ask(name):
        status, _, content = door.ask("GET", f"/documents/{name}")
        assert status in (0, 200, 503), f"a reader is answered {status}"
        return json.loads(content) if status == 200 else None
    return ask


def at_socket(path):
    """The count that is read at the socket; None if there was no answer."""
    def ask(name):
        with contextlib.suppress(JpstoreError, OSError), Store.connect(path, wait=PATIENCE) as store:
            return store.get(name)
        return None
    return ask


class Process:
    """A client in a process, which is killed and started anew."""

    def __init__(self, place, code, *words):
        self._words = [sys.executable, "-c", code, HERE, *words]
        self._place, self.kills = place, 0
        self._process = subprocess.Popen(self._words, env=place.environment())

    def kill(self):
        """Kills it, and starts it again."""
        assert self._process.poll() is None, "a client ended by itself"
        self.end()
        self.kills += 1
        self._process = subprocess.Popen(self._words, env=self._place.environment())

    def end(self):
        self._process.kill()
        self._process.wait()

    def join(self):
        assert self._process.wait() == 0, "a client ended with an error"


def free_port():
    """A port at which nobody listens."""
    with socket.socket() as free:
        free.bind(("127.0.0.1", 0))
        return free.getsockname()[1]


def start_server(place, port):
    """Starts a server, whose first line of output says that it serves."""
    words = place.server_words(place.file, "--socket", place.path("socket"), "--listen", f"127.0.0.1:{port}", "--wait", "30",
                               *random.choice([(), ("--pump", "2"), ("--no-cache",), ("--cache", "1"), ("--cache", "3000")]))
    return subprocess.Popen(words, stdout=subprocess.PIPE, stderr=subprocess.DEVNULL, env=place.environment())


def tried(place, rounds, number):
    formatted(place, SECTORS, number)
    with place.store() as store:
        store.transaction([create(name, 0) for name in ["all", *BY_TAG, *BY_KEY, *BY_ONCE]])
    port, path, stop, log, has_marks = free_port(), place.path("socket"), threading.Event(), place.path("log"), number > 2
    told = [], []
    with contextlib.ExitStack() as block:
        own = [Task(name, stop, by_tag(port)) for name in BY_TAG[1:]]
        processes = {BY_TAG[0]: Process(place, TAG_COUNTER, str(port), BY_TAG[0], place.path("log-h0"), place.path("stop"))}
        follower = Process(place, FOLLOWER, str(port), log)
        if has_marks:
            counters = [*(Task(name, stop, by_key(port)) for name in BY_KEY), *(Counter(path, name, stop) for name in BY_ONCE[1:])]
            processes[BY_ONCE[0]] = CountingProcess(place, BY_ONCE[0], place.path("stop"))
        else:
            counters = [*(Task(name, stop, by_tag(port)) for name in BY_KEY), *(Task(name, stop, by_rev(path)) for name in BY_ONCE)]
        readers = [Task("", stop, reading(own, over_http(port))) for _ in range(HTTP_READERS)]
        readers.append(Task("", stop, reading(own, at_socket(path))))
        for process in (follower, *processes.values()):
            block.callback(process.end)
        following(told, port, path)
        ends = []
        while len(ends) - ends.count("term") < rounds:
            ends.append(one_life(place, lambda: start_server(place, port)))
            if random.random() < 0.3:
                random.choice([follower, *processes.values()]).kill()
            failed = [each.failed for each in [*own, *counters, *readers] if each.failed]
            assert not failed, failed
        server = start_server(place, port)
        block.callback(server.kill)
        assert b"is served" in server.stdout.readline()
        stop.set()
        place.text("stop", "")
        for client in [*own, *counters, *readers, *processes.values()]:
            client.join()
        counts = {each.name: each.count for each in [*own, *counters]}
        counts.update({name: counted_in(place.path(f"log-{name}")) for name in processes})
        gone = judge(path, counts, has_marks, [*told, lambda: logged(log)])
        server.send_signal(signal.SIGTERM)
        assert server.wait(PATIENCE) == 0
    killed = sum(each.kills for each in (follower, *processes.values()))
    print(f"{rounds} kills ({ends.count('hub')} of the server, {ends.count('start')} while it started, {ends.count('program')} of its "
          f"program), {ends.count('term')} ends by SIGTERM, {killed} kills of clients: {sum(counts.values())} increments, each counted "
          f"once; {sum(each.count for each in readers)} reads, none below what was acknowledged; three followers with each change, but for "
          f"those that were gone {gone} times")


def counted_in(log):
    """The number up to which a process has counted."""
    with open(log, "rb") as opened:
        lines = opened.read().splitlines()
    return int(lines[-1].split()[1]) if lines else 0


def following(told, port, path):
    """Lets two threads follow all changes, and note them."""
    threading.Thread(target=lambda: told[0].extend(follow(port)), daemon=True).start()
    threading.Thread(target=lambda: told[1].extend(watched(path, BEGIN)), daemon=True).start()


def judge(path, counts, has_marks, followers):
    """Each count is the number of increments, and what each follower has makes what is stored; how often changes were gone."""
    with Store.connect(path) as store:
        seq, stored = store.status().seq, {name: store.get(name) for name in store.names()}
    shared = BY_KEY if has_marks else []
    wrong = {name: (count, stored[name]) for name, count in counts.items() if name not in shared and stored[name] != count}
    assert not wrong, f"counted, and stored: {wrong}"
    total = sum(counts[name] for name in BY_KEY + BY_ONCE) if has_marks else 0
    assert stored["all"] == total, f"all: {stored['all']} is stored, and {total} were counted"
    gone = []
    for follower in followers:
        taken = follower if callable(follower) else lambda follower=follower: follower
        until(lambda taken=taken: taken() and taken()[-1]["seq"] == seq, "the last change")
        lines = taken()
        changes_in(lines, seq, stored, 3 if has_marks else 2)
        gone.append(sum("documents" in line for line in lines))
    return gone


def main():
    parser = argparse.ArgumentParser(description=__doc__, formatter_class=argparse.RawDescriptionHelpFormatter)
    parser.add_argument("program")
    parser.add_argument("--kills", type=int, default=150)
    parser.add_argument("--formats", type=int, nargs="+", default=[2, 3])
    parser.add_argument("--seed", type=int, default=random.randrange(1 << 32))
    words = parser.parse_args()
    random.seed(words.seed)
    use_server()
    print(f"seed {words.seed}", flush=True)
    passed = 0
    for number in words.formats:
        print(f"format {number}", flush=True)
        with tempfile.TemporaryDirectory(prefix="jpstore-", ignore_cleanup_errors=True) as folder:
            try:
                tried(Place(os.path.abspath(words.program), folder), words.kills, number)
                passed += 1
            except Exception:  # Whatever is raised, the other format is tried too.
                print(traceback.format_exc(), flush=True)
    print(f"{passed} passed, {len(words.formats) - passed} failed", flush=True)
    os._exit(passed != len(words.formats))


if __name__ == "__main__":
    main()
