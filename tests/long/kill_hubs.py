#!/usr/bin/env python3
"""Kills hubs, the programs under them, and those who watch, while clients write; and dumps a store that is being changed.

    kill_hubs.py PROGRAM [--kills N] [--formats 2 3] [--seed S] [PART..]

The parts, all of them if none is named, `kills` and `once` with N kills in each format:

  kills   8 clients write through a hub that is started again and again. Each time it is killed by signal 9, or the program
          under it is, also while it starts; now and then it is ended by SIGTERM. The clients connect again by themselves. Two
          of them are processes that are killed too, and go on after what they had noted. Meanwhile the store grows again and
          again. One watcher lives through all of it, another is a process that is killed too and goes on after what it had
          written. If changes are gone, a watcher reads all documents and goes on from there: in format 2 after each start of a
          hub, and in format 3 only if a snapshot took them out of the file. In the end each acknowledged change is stored under
          its number. Each watcher has each change once, but for those that were gone, and those of a transaction one after
          another and none of them alone. What it has makes the documents that are stored. In format 3 each transaction sets
          the mark of its client, which in the end is that of the last one that is stored.
  once    8 clients count up by `once` while hubs and programs are killed as in `kills`: each a document of its own, and one of
          all. Two of them are processes that are killed too, and go on with the key that they had begun. In the end each count
          is the number of increments, exactly. It is done in format 3 alone, whose stores have marks.
  dumps   Ten dumps beside 8 writers: each has the documents of one moment.
  pause   How long a change waits at most while 1,000 documents of 1 KB are exported.
  rates   How many changes 1 and 100 clients of a hub make in a second.

It needs jsonpatch, and pytest, whose helpers it shares with the tests in clients/python/tests. It makes its stores in the folder
that TMPDIR names. The last line is `N passed, M failed`.
"""
import argparse
import collections
import contextlib
import json
import os
import random
import signal
import statistics
import subprocess
import sys
import tempfile
import threading
import time
import traceback

HERE = os.path.dirname(os.path.abspath(__file__))
TOP = os.path.join(HERE, "..", "..")
CLIENTS = os.path.join(TOP, "clients", "python")
sys.path[:0] = [CLIENTS, os.path.join(CLIENTS, "tests"), os.path.join(TOP, "tools")]
sys.dont_write_bytecode = True

import jsonpatch  # noqa: E402
from hubs import Hub, Writers, check_moment, count_until_a_kill, counts_at  # noqa: E402
from jpstore import (  # noqa: E402
    Conflict, Ended, Gone, JpstoreError, NotFound, Outdated, Store, create, delete, patch, set_schema,
)
from jpstore.moment import moment_of_hub  # noqa: E402
from jpstore.once import Once  # noqa: E402
from jpstore.watch import Watch  # noqa: E402
from server import use_server  # noqa: E402
from support import Place  # noqa: E402

CLIENT_COUNT = 8
# The fewest that a store of format 3 has, so that there are many snapshots.
SECTORS = 160
LIFE = 0.5

# How many of the clients that write are processes.
WRITING_PROCESSES = 2

# How many of the clients that count are processes, and how large their store is.
COUNTING_PROCESSES = 2
COUNTING_SECTORS = 512

# A watcher in a process of its own: what it has written says where it goes on.
WATCHER = """
import json, os, sys
sys.path.insert(0, sys.argv[1])
from kill_hubs import BEGIN, watched
path, log = sys.argv[2:]
with open(log, "ab+") as file:
    file.seek(0)
    whole = file.read()
    whole = whole[:whole.rfind(b"\\n") + 1]
    file.truncate(len(whole))
    for line in watched(path, json.loads(whole.splitlines()[-1]) if whole else BEGIN):
        os.write(file.fileno(), json.dumps(line).encode() + b"\\n")
"""

# What a watcher of an empty store has.
BEGIN = {"seq": 0, "history": None}


# A client that counts, in a process of its own: what it has begun and written down says with which key it goes on.
COUNTER = """
import os, sys
sys.path.insert(0, sys.argv[1])
from kill_hubs import count_once
from jpstore import Store
path, name, log, stop = sys.argv[2:]
with open(log, "ab+") as file:
    file.seek(0)
    whole = file.read().split(b"\\n")[:-1]
    begun = int(whole[-1].split()[1]) if whole else 0
    done = not whole or whole[-1].startswith(b"done")
    with Store.connect(path, wait=600) as store:
        while not (done and os.path.exists(stop)):
            begun += done
            os.write(file.fileno(), b"begun %d\\n" % begun)
            count_once(store, name, begun)
            os.write(file.fileno(), b"done %d\\n" % begun)
            done = True
"""


# A client that writes, in a process of its own: it has noted what it sent and what was acknowledged.
WRITER = """
import os, sys
sys.path.insert(0, sys.argv[1])
from kill_hubs import Client, StopFile
Client(sys.argv[2], sys.argv[3], StopFile(sys.argv[4]), sys.argv[5], sys.argv[6] == "marks").join()
"""


def watched(path, last):
    """What a watcher gets after the line `last`, over all ends of hubs: changes, or all documents if some are gone."""
    while True:
        try:
            for change in Watch(path, last["seq"], history=last["history"], wait=600):
                last = {"seq": change.seq, "command": change.command, "history": change.history}
                yield last
        except Gone as gone:
            last = {**read_anew(path), "gone": gone.since}
            yield last


def read_anew(path):
    """All documents of one moment, of the hub that is there or comes."""
    while True:
        with contextlib.suppress(JpstoreError, OSError), moment_of_hub(path) as moment:
            return {"seq": moment.seq, "documents": {each.name: each.doc for each in moment}, "history": None}
        time.sleep(0.05)


class StopFile:
    """Says by a file that clients in other processes have to end."""

    def __init__(self, path):
        self._path = path

    def is_set(self):
        """Whether they have to end."""
        return os.path.exists(self._path)


class Notes:
    """What a client sent and what was acknowledged, with its number; also in a file, for one that is killed."""

    def __init__(self, file=None):
        self.sent, self.acknowledged, self.transactions = [], {}, []
        for line in logged(file) if file else ():
            self._take(line)
        self._file = file and os.open(file, os.O_WRONLY | os.O_CREAT | os.O_APPEND, 0o600)
        if file:
            with open(file, "rb+") as opened:
                opened.truncate(opened.read().rfind(b"\n") + 1)

    def note(self, what, number, changes):
        """Notes changes: `sent` each by itself, `together` as a transaction, or `acknowledged` from this number on."""
        self._take([what, number, changes])
        if self._file:
            os.write(self._file, json.dumps([what, number, changes]).encode() + b"\n")

    def _take(self, line):
        what, number, changes = line
        if what == "acknowledged":
            self.acknowledged.update(enumerate(changes, number))
        else:
            self.sent.extend(changes)
            self.transactions.extend([changes] if what == "together" else [])


class Client:
    """A client that changes a document of its own, and notes what it sent and what was acknowledged, with its number."""

    def __init__(self, path, index, stop, file=None, has_marks=False):
        self.notes, self.lost = Notes(file), 0
        self._name, self._stop, self._has_marks = f"c{index}", stop, has_marks
        self._random = random.Random(random.random())
        self.failed = None
        self._thread = threading.Thread(target=self._run, args=(path,), daemon=True)
        self._thread.start()

    def join(self):
        self._thread.join()
        if self.failed:
            raise self.failed

    def _run(self, path):
        try:
            with Store.connect(path, wait=600) as store:
                while not self._stop.is_set():
                    self._step(store)
        except JpstoreError as error:
            if not self._stop.is_set():
                self.failed = error

    def _step(self, store):
        number = len(self.notes.sent)
        self._change(store, create(self._name, {"n": number, "by": self._name}), Conflict)
        for _ in range(self._random.randrange(40)):
            number = len(self.notes.sent)
            kind = self._random.random()
            if kind < 0.7:
                self._change(store, self._patch(number), NotFound)
            elif kind < 0.9:
                self._transact(store, [self._patch(number + place) for place in range(self._random.randrange(1, 5))])
            elif kind < 0.97:
                self._change(store, set_schema(self._name, {"$comment": f"{self._name} {number}"}), NotFound)
            else:
                self._asked(store.snapshot if self._random.random() < 0.5 else lambda: store.pump(1))
        self._change(store, delete(self._name), NotFound)

    def _change(self, store, command, may_be):
        self.notes.note("sent", 0, [command])
        try:
            self.notes.note("acknowledged", store.group([command])[0], [command])
        except may_be:
            # As the change before it was stored, or was not, though its reply was lost.
            pass
        except Ended:
            self.lost += 1

    def _patch(self, number):
        value = "x" * self._random.randrange(60) + str(number)
        return patch(self._name, [{"op": "add", "path": "/n", "value": value}])

    def _transact(self, store, changes):
        self.notes.note("together", 0, changes)
        try:
            last = store.transaction(changes, mark=(self._name, value_of(changes)) if self._has_marks else None)
            self.notes.note("acknowledged", last - len(changes) + 1, changes)
        except NotFound:
            pass
        except Ended:
            self.lost += 1

    def _asked(self, call):
        try:
            call()
        except Ended:
            pass


def value_of(changes):
    """A text that only this transaction of its client has, which is the value of its mark."""
    return changes[0]["ops"][0]["value"]


def count_once(store, name, number):
    """Counts up the document of this name and the one of all clients; a number that was counted before changes nothing."""
    while True:
        try:
            counts = [(each, store.rev(each), store.get(each)) for each in (name, "all")]
            changes = [patch(each, [{"op": "replace", "path": "", "value": value + 1}], rev) for each, rev, value in counts]
            return store.once(f"{name}-{number}", changes, by=name)
        except (Outdated, Ended):
            # Others counted up meanwhile, or an answer was lost again and again.
            pass


class Counter:
    """A client that counts in a thread, over all restarts of the hub."""

    def __init__(self, path, name, stop):
        self.name, self.count, self.failed = name, 0, None
        self._stop = stop
        self._thread = threading.Thread(target=self._run, args=(path,), daemon=True)
        self._thread.start()

    def join(self):
        self._thread.join()
        if self.failed:
            raise self.failed

    def _run(self, path):
        try:
            with Store.connect(path, wait=600) as store:
                while not self._stop.is_set():
                    self.count += 1
                    count_once(store, self.name, self.count)
        except Exception as error:
            self.failed = error


class ClientProcess:
    """A client in a process, which is killed and started anew."""

    def __init__(self, place, code, name, *words):
        self.name, self.kills = name, 0
        self._place, self._code = place, code
        self._words = [HERE, place.path("socket"), name, *words]
        self._start()

    def _start(self):
        self._process = subprocess.Popen([sys.executable, "-c", self._code, *self._words], env=self._place.environment())

    def kill(self):
        """Kills it, and starts it again."""
        self.end()
        self.kills += 1
        self._start()

    def end(self):
        self._process.kill()
        self._process.wait()

    def join(self):
        assert self._process.wait() == 0, f"{self.name} ended by itself"


class CountingProcess(ClientProcess):
    """A client that counts in a process."""

    def __init__(self, place, name, stop):
        self._log = place.path(f"log-{name}")
        super().__init__(place, COUNTER, name, self._log, stop)

    @property
    def count(self):
        with open(self._log, "rb") as log:
            return int(log.read().splitlines()[-1].split()[1])


@contextlib.contextmanager
def found_by_marks():
    """A list that gets the number of each call of this process whose changes were found made."""
    found, made = [], Once.made

    def looked(work, present):
        number = made(work, present)
        found.extend([number] if number is not None else [])
        return number
    Once.made = looked
    yield found
    Once.made = made


def once(place, rounds, number):
    formatted(place, COUNTING_SECTORS, number)
    names = [f"c{index}" for index in range(CLIENT_COUNT)]
    with place.store() as store:
        store.transaction([create(name, 0) for name in ["all", *names]])
    path, stop, ends = place.path("socket"), threading.Event(), []
    with contextlib.ExitStack() as block:
        found = block.enter_context(found_by_marks())
        processes = [CountingProcess(place, name, place.path("stop")) for name in names[:COUNTING_PROCESSES]]
        for process in processes:
            block.callback(process.end)
        counters = [Counter(path, name, stop) for name in names[COUNTING_PROCESSES:]]
        while len(ends) - ends.count("term") < rounds:
            ends.append(one_life(place))
            if random.random() < 0.3:
                random.choice(processes).kill()
        hub = start_hub(place, ())
        block.callback(hub.kill)
        assert b"is served" in hub.stdout.readline()
        stop.set()
        place.text("stop", "")
        for client in [*counters, *processes]:
            client.join()
        judge_counts(path, {client.name: client.count for client in [*counters, *processes]})
        hub.send_signal(signal.SIGTERM)
        assert hub.wait() == 0
    total = sum(client.count for client in [*counters, *processes])
    print(f"{rounds} kills of hubs and programs, {ends.count('term')} ends by SIGTERM, and {sum(each.kills for each in processes)} "
          f"kills of clients: {total} increments of {CLIENT_COUNT} clients, each counted once; {len(found)} whose answer was lost "
          "were found by their mark, beside those of the clients that were killed")


def judge_counts(path, counts):
    """Each client is counted as often as it asked for, and all of them together; and its mark has its last key."""
    with Store.connect(path) as store:
        stored = {name: store.get(name) for name in counts}
        total, marks = store.get("all"), {name: store.mark(name).value for name in counts}
    assert stored == counts, f"counted {stored}, and {counts} were asked for"
    assert total == sum(counts.values()), f"all: {total}, and {sum(counts.values())} were asked for"
    assert marks == {name: f"{name}-{count}" for name, count in counts.items()}, marks


def formatted(place, sectors, number):
    """Makes the store in this format."""
    words = [place.program, "format", place.file, "--sectors", str(sectors), "--format", str(number)]
    subprocess.run(words, check=True, stdout=subprocess.DEVNULL)


def start_hub(place, words):
    return subprocess.Popen(place.server_words(place.file, "--socket", place.path("socket"), "--wait", "30", *words),
                            stdout=subprocess.PIPE, env=place.environment())


def one_life(place, start=None):
    """A hub from its start to its end; answers how it ended."""
    hub = start() if start else start_hub(place, random.choice([(), (), ("--pump", "2"), ("--cache", "1"), ("--cache", "3000")]))
    how = "start" if random.random() < 0.15 else random.choice(["hub", "hub", "program", "program", "term"])
    if how == "start":
        time.sleep(random.uniform(0, 0.25))
    else:
        assert b"is served" in hub.stdout.readline(), "a hub does not begin"
        time.sleep(random.uniform(0, LIFE))
    try:
        if how == "program":
            kill_programs(hub)
        else:
            hub.send_signal(signal.SIGTERM if how == "term" else signal.SIGKILL)
    except AssertionError:
        hub.kill()
    status = hub.wait()
    hub.stdout.close()
    assert status in {"program": (1,), "term": (0,), "hub": (-9,), "start": (-9,)}[how], f"{how}: status {status}"
    return how


def kill_programs(hub):
    """Kills the programs of a hub, of which there are several while its store grows, until it ends for that.

    One that was begun after they were looked for may have taken their place.
    """
    end = time.monotonic() + 120
    while hub.poll() is None:
        if time.monotonic() > end:
            raise AssertionError("a hub lives on without its program")
        for program in programs_of(hub):
            with contextlib.suppress(ProcessLookupError):
                os.kill(program, signal.SIGKILL)
        with contextlib.suppress(subprocess.TimeoutExpired):
            hub.wait(20)


def programs_of(hub):
    holder = object.__new__(Hub)
    holder.process = hub
    return holder.programs()


def kills(place, rounds, number):
    with contextlib.ExitStack() as block:
        kill_among_writers(place, rounds, number, block)


def kill_among_writers(place, rounds, number, block):
    formatted(place, SECTORS, number)
    path, log = place.path("socket"), place.path("log")
    stop = threading.Event()
    first = start_hub(place, ())
    assert b"is served" in first.stdout.readline()
    told = []
    threading.Thread(target=lambda: told.extend(watched(path, BEGIN)), daemon=True).start()
    clients = [Client(path, index, stop, has_marks=number > 2) for index in range(CLIENT_COUNT)]
    growths = []
    threading.Thread(target=grow_again, args=(path, stop, growths), daemon=True).start()
    time.sleep(LIFE)
    first.kill()
    first.wait()
    ends, watchers, watcher = ["hub"], 0, None
    files = [place.path(f"notes-{index}") for index in range(WRITING_PROCESSES)]
    words = ["marks" if number > 2 else ""]
    processes = [ClientProcess(place, WRITER, f"p{index}", place.path("stop"), file, *words) for index, file in enumerate(files)]
    for process in processes:
        block.callback(process.end)
    block.callback(lambda: watcher and watcher.kill())
    while len(ends) - ends.count("term") < rounds:
        if random.random() < 0.3:
            random.choice(processes).kill()
        if watcher is None or random.random() < 0.5:
            if watcher is not None:
                watcher.kill()
                watcher.wait()
                watchers += 1
            watcher = subprocess.Popen([sys.executable, "-c", WATCHER, HERE, path, log], env=place.environment())
        ends.append(one_life(place))
    hub = start_hub(place, ())
    assert b"is served" in hub.stdout.readline()
    stop.set()
    place.text("stop", "")
    for client in [*clients, *processes]:
        client.join()
    notes = [*(client.notes for client in clients), *map(Notes, files)]
    with Store.connect(path) as store:
        seq = store.status().seq
        documents = {name: store.get(name) for name in store.names()}
        marks = {name: store.mark(name) for name in names_of(notes)} if number > 2 else {}
    until(lambda: (told or [BEGIN])[-1]["seq"] == seq, "the last change at the watcher that lives")
    until(lambda: (logged(log) or [BEGIN])[-1]["seq"] == seq, "the last change at the other watcher")
    watcher.kill()
    watcher.wait()
    hub.send_signal(signal.SIGTERM)
    assert hub.wait() == 0
    lines = [told, logged(log)]
    for each in lines:
        judge(*changes_in(each, seq, documents, number), notes)
    judge_marks(changes_in(told, seq, documents, number)[0], notes, marks)
    acknowledged, lost = sum(len(each.acknowledged) for each in notes), sum(client.lost for client in clients)
    print(f"{rounds} kills ({ends.count('hub')} of the hub, {ends.count('start')} of the hub while it started, "
          f"{ends.count('program')} of its program), and {ends.count('term')} ends by SIGTERM; {watchers} kills of a watcher, "
          f"{sum(each.kills for each in processes)} of clients")
    gone = [sum("documents" in line for line in each) for each in lines]
    had = [len(each) - count for each, count in zip(lines, gone)]
    print(f"{seq} changes, {acknowledged} acknowledged, {lost} replies lost, {len(growths)} growths answered: each acknowledged change is "
          f"stored under its number, and both watchers were told {had} changes, each once, in order; {gone} times some were gone")


def grow_again(path, stop, growths):
    """Lets the store grow again and again by a few sectors, and notes each growth that was answered."""
    while not stop.is_set():
        with contextlib.suppress(JpstoreError):
            with Store.connect(path, wait=1) as store:
                growths.append(store.grow(store.status().sectors + 2).sectors)
        time.sleep(random.random() / 4)


def logged(log):
    if not os.path.exists(log):
        return []
    with open(log, "rb") as file:
        whole = file.read()
    return [json.loads(line) for line in whole[:whole.rfind(b"\n") + 1].splitlines()]


def changes_in(lines, seq, documents, number):
    """The changes that a watcher was sent, by their numbers, and the numbers after which some were gone. With the documents that
    it read then, they make those that are stored; the numbers have no gaps, and none comes twice."""
    changes, ends, made, last = {}, set(), {}, 0
    for line in lines:
        if "documents" in line:
            # In format 3 a watcher goes on as long as the file has the change that it had last.
            assert line["seq"] >= last and (number == 2 or line["gone"] >= last), f"after {last} come the documents of {line['seq']}"
            ends.add(last)
            made = dict(line["documents"])
        else:
            assert line["seq"] == last + 1, f"after {last} comes {line['seq']}"
            changes[line["seq"]] = line["command"]
            make(made, line["command"])
        last = line["seq"]
    assert (last, made) == (seq, documents), "what was told makes other documents"
    return changes, ends


def make(made, command):
    """Makes a change of documents, by RFC 6902."""
    name = command["name"]
    if command["cmd"] == "create":
        made[name] = command["doc"]
    elif command["cmd"] == "patch":
        made[name] = jsonpatch.apply_patch(made[name], command["ops"])
    elif command["cmd"] == "delete":
        del made[name]


def judge(told, ends, clients):
    """What a watcher was sent is what clients sent, as it was acknowledged, and no transaction in part, unless the rest was gone."""
    for client in clients:
        for number, command in client.acknowledged.items():
            assert told.get(number, command) == command, f"{number} was {command}, and is told as {told[number]}"
    sent = collections.Counter(json.dumps(command, sort_keys=True) for client in clients for command in client.sent)
    places = {number: json.dumps(command, sort_keys=True) for number, command in told.items()}
    more = collections.Counter(places.values()) - sent
    assert not more, f"told and never sent, or told more often: {more}"
    numbers_of = {text: number for number, text in places.items()}
    for changes in (changes for client in clients for changes in client.transactions):
        numbers = [numbers_of.get(json.dumps(change, sort_keys=True)) for change in changes]
        some = [number for number in numbers if number is not None]
        follow = numbers[:len(some)] == some == list(range(some[0], some[0] + len(some))) if some else True
        assert follow and (len(some) in (0, len(numbers)) or some[-1] in ends), f"of the transaction {changes} was told {numbers}"


def names_of(clients):
    """The names of the clients that sent transactions."""
    return {changes[0]["name"] for client in clients for changes in client.transactions}


def judge_marks(told, clients, marks):
    """The mark of each client is that of its last transaction that is stored, with its number, if that was told."""
    numbers, last = {json.dumps(command, sort_keys=True): number for number, command in told.items()}, {}
    for changes in (changes for client in clients for changes in client.transactions):
        number, name = numbers.get(json.dumps(changes[-1], sort_keys=True)), changes[0]["name"]
        if number is not None:
            last[name] = max(last.get(name, (0, "")), (number, value_of(changes)))
    for name, mark in marks.items():
        found, wanted = mark and (mark.seq, mark.value), last.get(name)
        was_gone = found and found[0] not in told and found > (wanted or (0, ""))
        assert found == wanted or was_gone, f"the mark of {name} is {found}, and of its last transaction {wanted}"


def until(holds, what):
    end = time.monotonic() + 60
    while not holds():
        assert time.monotonic() < end, f"waited in vain for {what}"
        time.sleep(0.05)


def dumps(place, _):
    place.format(4096)
    with Hub(place) as hub, Watch(hub.path, 0) as watch:
        with Writers(hub, CLIENT_COUNT, 1000) as writers:
            time.sleep(0.5)
            moments, written = [], writers.written
            for number in range(10):
                *lines, end = [json.loads(line) for line in place.run("dump", "socket").stdout.splitlines()]
                assert end["lines"] == len(lines)
                assert len(lines) == 2 * CLIENT_COUNT
                check_moment({line["name"]: line["doc"]["n"] for line in lines}, f"dump {number}")
                with moment_of_hub(hub.path) as moment:
                    moments.append((moment.seq, {each.name: (each.doc["n"], each.rev) for each in moment}))
            written = writers.written - written
        with hub.connect() as store:
            changes = [next(watch) for _ in range(store.status().seq)]
        for seq, counts in moments:
            assert counts == counts_at(changes, seq), f"the export at {seq} is not what the changes make"
    print(f"10 dumps and 10 exports beside {CLIENT_COUNT} writers, which made {written} changes meanwhile: each is of one moment")


def pause(place, _):
    place.format(16384)
    with Hub(place) as hub, hub.connect() as store:
        store.group([create(f"n{number}", {"n": 0, "text": "x" * 970}) for number in range(1000)])
        waits, begun = {"alone": [], "beside exports": []}, {}
        for what in waits:
            stop = threading.Event()
            exporting = threading.Thread(target=export_until, args=(hub.path, stop, begun), daemon=True)
            if what != "alone":
                exporting.start()
            for number in range(400):
                begin = time.monotonic()
                store.patch(f"n{number}", [{"op": "replace", "path": "/n", "value": number}])
                waits[what].append(1000 * (time.monotonic() - begin))
            stop.set()
            if what != "alone":
                exporting.join()
        took = [1000 * seconds for seconds in begun["took"]]
        print("a change waits, in milliseconds (median, longest): " + "; ".join(
            f"{what} {statistics.median(some):.1f}, {max(some):.1f}" for what, some in waits.items()))
        print(f"an export of 1,000 documents of 1 KB takes {statistics.median(took):.0f} ms to its first line (median of "
              f"{len(took)}, longest {max(took):.0f})")


def export_until(path, stop, begun):
    begun["took"] = []
    while not stop.is_set():
        begin = time.monotonic()
        with moment_of_hub(path) as moment:
            begun["took"].append(time.monotonic() - begin)
            assert sum(1 for _ in moment) == 1000


def rates(place, _):
    shown = []
    for clients, seconds in ((1, 3.0), (100, 10.0)):
        place.file = place.format(file=place.path(f"of-{clients}"))
        acknowledged = {}
        count_until_a_kill(place, clients, seconds, False, acknowledged)
        shown.append(f"{sum(acknowledged.values()) / seconds:.0f} of {clients} clients")
    print("changes a second through a hub: " + ", ".join(shown))


# These are done in each format.
KILLING = {"kills": kills, "once": once}
PARTS = {"kills": kills, "once": once, "dumps": dumps, "pause": pause, "rates": rates}


def main():
    parser = argparse.ArgumentParser(description=__doc__, formatter_class=argparse.RawDescriptionHelpFormatter)
    parser.add_argument("program")
    parser.add_argument("parts", nargs="*", metavar="PART", help=", ".join(PARTS))
    parser.add_argument("--kills", type=int, default=200)
    parser.add_argument("--formats", type=int, nargs="+", default=[2, 3])
    parser.add_argument("--seed", type=int, default=random.randrange(1 << 32))
    words = parser.parse_args()
    random.seed(words.seed)
    use_server()
    print(f"seed {words.seed}", flush=True)
    failed = 0
    named = words.parts or list(PARTS)
    parts = [(part, number) for part in named for number in (words.formats if part in KILLING else [None])
             if (part, number) != ("once", 2)]
    for part, number in parts:
        with tempfile.TemporaryDirectory(prefix="jpstore-") as folder:
            try:
                place = Place(os.path.abspath(words.program), folder)
                if part in KILLING:
                    print(f"{part}, format {number}")
                    KILLING[part](place, words.kills, number)
                else:
                    PARTS[part](place, words.kills)
            except Exception:  # Whatever a part raises, the others go on.
                failed += 1
                print(f"{part}:\n{traceback.format_exc()}")
            sys.stdout.flush()
    print(f"{len(parts) - failed} passed, {failed} failed")
    return 1 if failed else 0


if __name__ == "__main__":
    sys.exit(main())
