"""What single nodes do: each case is a function of a folder and a program, and raises if something else happens."""
import asyncio
import contextlib
import json
import os
import re
import signal
import socket
import subprocess
import sys
import threading
import time

import replicas
from jpstore import JpstoreError, Store
from jpstore.replica.engine import Engine, members_in, packed, unpacked
from jpstore.replica.log import DIGESTS, EntryKind, Log
from jpstore.replica.capacity import room_of
from jpstore.wire.values import canonical
from replica_check import played, state_of
from replicas import LOG, NODES, Members, Replicas, crashing_program, lacking_program, waited
from support import PATIENCE, raised

SECTORS, CAPACITY = (4096, 4096, 8192), 1_000_000

# The same where documents are long.
LONG = (24_000, 24_000, 30_000)


@contextlib.contextmanager
def cluster(folder, program, sectors=SECTORS, capacity=CAPACITY, options=(), etcd=(), package=None, **how):
    """Three members and three nodes."""
    members = Members(folder, options=etcd, **how)
    nodes = Replicas(folder, program, members, package, ["--compare", "100000", "--patience", str(PATIENCE), *options])
    try:
        members.start_all()
        nodes.make(sectors, capacity)
        yield nodes
        nodes.check_said()
    finally:
        nodes.close()
        members.close()


def head(nodes):
    return json.loads(nodes.run("status", "--json"))["head"]


def states(nodes, names=NODES):
    """What the nodes have when each has done the whole log."""
    n = head(nodes)
    for node in names:
        nodes.wait(node, n)
    return [state_of(lambda command, node=node: nodes.ask(node, command)[0]) for node in names]


def are_same(nodes, names=NODES):
    first, *others = states(nodes, names)
    assert all(each == first for each in others), (first, others)
    return first


def told_all(nodes, names=NODES, n=0):
    """Waits until nodes have told etcd that they have done all entries that there are now, or up to entry n."""
    n, end = n or head(nodes), time.monotonic() + PATIENCE
    while True:
        told = json.loads(nodes.run("status", "--json"))["nodes"]
        if all(told.get(node, {}).get("n", -1) >= n for node in names):
            return
        assert time.monotonic() < end, (n, told)
        time.sleep(0.1)


def entries_of(nodes):
    """All entries of the log."""
    return asyncio.run(asyncio.wait_for(read_entries(nodes), PATIENCE))


async def read_entries(nodes):
    log = Log(members_in(nodes.members.endpoints), LOG)
    count, entries = (await log.head()).n, []
    async for entry in log.watch().entries():
        entries.append(entry)
        if len(entries) == count:
            return entries


def create(name, doc=0, schema=True):
    return {"cmd": "create", "doc": doc, "name": name, "schema": schema}


def put(name, value, **more):
    return {"cmd": "patch", "name": name, "ops": [{"op": "replace", "path": "", "value": value}], **more}


def delete(name):
    return {"cmd": "delete", "name": name}


def get(name):
    return {"cmd": "get", "name": name, "path": ""}


def served(program, file, *commands):
    """Has a program do commands over a file, without any node."""
    given = b"".join(json.dumps(command).encode() + b"\n" for command in commands)
    subprocess.run([program, "serve", file], input=given, stdout=subprocess.DEVNULL, check=True)


def several(*changes):
    return {"changes": list(changes), "cmd": "transaction"}


def refused(number, **more):
    return {**more, "number": number, "ok": False}


def same(reply, wanted):
    """A reply without the name of its refusal."""
    told = {name: value for name, value in reply.items() if name != "error"}
    assert told == wanted, (reply, wanted)


def refusals_in_one_entry(folder, program):
    """Lines that are sent at once are one entry; each is answered as if it had come alone."""
    with cluster(folder, program) as nodes:
        lines = [create("x", 1), create("x", 2), several(put("x", 3), create("y", 4)),
                 several(put("x", 5), create("y", 6)), put("z", 0), put("x", 7, if_rev=99), delete("y"),
                 several(delete("y")), create("y", 8), put("y", 9, if_rev=1),
                 {"cmd": "patch", "name": "x", "ops": [{"op": "test", "path": "", "value": 0}]}, put("x", 10)]
        replies = nodes.ask("a", *lines)
        entries = entries_of(nodes)
        assert len(entries) < len(lines), "lines should share entries"
        answers, state = played(program, [entry.lines for entry in entries])
        assert [reply for entry in answers for reply in entry] == replies
        assert are_same(nodes) == state
        # Each line was read anew by the program alone above; some of the refusals are also told here.
        same(replies[1], refused(20))
        same(replies[3], refused(20, change=1))
        same(replies[7], refused(21, change=0))


def odd_lines(folder, program):
    """Lines with two readings, without form, too deep or too long are refused alike, and reach no log."""
    lines = [b'{"cmd":"get","cmd":"delete","name":"x"}', b'{"cmd":"delete","name":"x","name":"y"}', b'{"cmd":"delete"}',
             b'{"cmd":"delete","name":5}', b'not json', b'{"cmd":"delete","name":"\xff"}', b'[1]', b'5', b'{"cmd":1.5}',
             b'{"cmd":"put","name":"x"}', b'{"cmd":"patch","name":"x","ops":[],"if_rev":-1}',
             b'{"cmd":"list","x":99999999999999999999}', b'{"cmd":"transaction","changes":[]}',
             b'{"cmd":"transaction","changes":[{"cmd":"get","name":"x","path":""}]}',
             b'{"cmd":"delete","name":"\\ud800"}',
             b'{"cmd":"pump","max":0}', b'{"cmd":"create","doc":NaN,"name":"x","schema":true}']
    with cluster(folder, program) as nodes:
        nodes.ask("a", create("x", 1))
        with socket.socket(socket.AF_UNIX) as connected:
            connected.connect(nodes.socket("a"))
            connected.sendall(b"\n".join(lines) + b"\n" + b" " * 1048577 + b"x\n")
            with connected.makefile("rb") as replies:
                told = [json.loads(replies.readline())["number"] for _ in range(len(lines) + 1)]
        alone = subprocess.run([program, "mem", "--sectors", "16"], input=b"\n".join(lines[2:]), stdout=subprocess.PIPE,
                               check=True).stdout.splitlines()
        # A name that comes twice is refused here, and not by the program; `x` is there.
        assert told == [14, 14, *[json.loads(reply)["number"] for reply in alone], 10], (told, alone)
        deep = json.loads("[" * 126 + "]" * 126)
        same(nodes.ask("a", create("y", deep))[0], refused(11))
        assert head(nodes) == 1 and nodes.ask("a", {"cmd": "list"}) == [{"names": ["x"], "ok": True}]


def one_number_a_change(folder, program):
    """Each accepted change counts one, and nothing else does: no refused line, no comparing, and no new start."""
    with cluster(folder, program, options=("--compare", "0.5")) as nodes:
        assert nodes.ask("a", create("_log"), create("_log"), several(put("_log", 1), create("x")))[2]["seq"] == 3
        assert nodes.ask("b", create("x"), delete("y"), local=False)[1]["number"] == 21
        for node in NODES:
            nodes.kill(node)
            nodes.start(node)
        rows, seq = are_same(nodes)
        assert [row[:2] for row in rows] == [["_log", 2], ["x", 3]] and seq == 3, (rows, seq)
        assert nodes.ask("c", put("x", 2))[0]["seq"] == 4
        are_same(nodes)
        words = [sys.executable, "-m", "jpstore", "dump", nodes.socket("b")]
        dumped = subprocess.check_output(words, env=nodes.environment()).splitlines()
        assert [json.loads(line).get("name") for line in dumped] == ["_log", "x", None], dumped


def trimmed_without_changes(folder, program):
    """What changes nothing is trimmed too: a node and a new one go on after it, though no store has it."""
    with cluster(folder, program, options=("--compare", "0.3")) as nodes:
        nodes.ask("a", create("x", 0))
        states(nodes)
        stored = entries_of(nodes)[0].r
        # Entries at which they compare.
        told_all(nodes, n=5)
        nodes.ask("b", create("x", 1))
        told_all(nodes)
        until = json.loads(nodes.run("trim", "--json"))["revision"]
        assert until > stored, (until, stored)
        for node in NODES:
            nodes.kill(node)
            nodes.start(node)
        nodes.wait("a")
        nodes.run("join", nodes.file("d"), "--node", "d", "--from", nodes.socket("a"))
        nodes.start("d")
        nodes.wait("d")
        assert nodes.ask("d", put("x", 2))[0]["seq"] == 2
        are_same(nodes, "abcd")


def clients_of_all_kinds(folder, program):
    """The shell, the package's client, a watcher, and the gateway over HTTP work at a node as at a hub."""
    with cluster(folder, program) as nodes:
        words = [sys.executable, "-m", "jpstore"]
        environment = nodes.environment()
        given = b"new d {\"v\": 1}\nset d /v 2\nls\n"
        shown = subprocess.run([*words, nodes.socket("a")], input=given, env=environment, stdout=subprocess.PIPE,
                               stderr=subprocess.STDOUT, check=False)
        assert shown.returncode == 0 and shown.stdout.endswith(b"\nd\n"), shown.stdout
        assert subprocess.check_output([*words, "get", nodes.socket("c"), "d", "/v"], env=environment) == b"2\n"
        with Store.connect(nodes.socket("b")) as store:
            assert store.get("d") == {"v": 2}
            # Nodes take no marks of clients.
            told = str(raised(JpstoreError, store.once, "key", [put("d", {"v": 3})]))
            assert "a node of a replicated store: a transaction has one mark, and that is the node's place" in told
            assert store.update("d", lambda _: [{"op": "add", "path": "/w", "value": 4}]) and store.get("d", "/w") == 4
            assert store.snapshot() > 0
        at = nodes.wait("c", head(nodes))["seq"]
        watching = subprocess.Popen([*words, "watch", nodes.socket("c"), "--since", str(at)], env=environment,
                                    stdout=subprocess.PIPE)
        try:
            nodes.ask("a", put("d", {"v": 5}))
            change = json.loads(watching.stdout.readline())
            assert change["seq"] == at + 1 and change["change"]["ops"][0]["value"] == {"v": 5}
        finally:
            watching.kill()
            watching.wait()
        gateway_of_a_node(nodes, words, environment)
        are_same(nodes)
        as_one_store(nodes)


def as_one_store(nodes):
    """All nodes tell the log's identity as theirs, and the changes of clients as these made them."""
    log = json.loads(nodes.run("status", "--json"))["log"]
    seq = nodes.ask("a", {"cmd": "status"}, create("p"), several(put("p", 1), put("p", 2)), delete("p"))[0]["seq"]
    asked = [{"cmd": "changes", "from": seq, "max": 100_000}, {"cmd": "status"}]
    for node in NODES:
        changes, status = nodes.ask(node, *asked, local=False)
        assert status["id"] == changes["identity"] == log and status["seq"] == changes["seq"] == seq + 4
        spans = [(each["first"] - seq, each["last"] - seq, len(each)) for each in changes["changes"]]
        assert spans == [(1, 1, 3), (2, 3, 3), (4, 4, 3)], changes


def gateway_of_a_node(nodes, words, environment):
    """Documents are made, read, followed and exported over HTTP."""
    gateway = subprocess.Popen([*words, "http", nodes.socket("b"), "--listen", "127.0.0.1:0"], env=environment,
                               stdout=subprocess.PIPE, stderr=subprocess.STDOUT, text=True)
    try:
        said = gateway.stdout.readline()
        assert "is served" in said, said
        curl, base = ["curl", "-s", "-m", str(PATIENCE)], said.split()[-1].rstrip("/")
        made = subprocess.check_output([*curl, "-X", "PUT", f"{base}/documents/h", "-d", "[1]", "-H",
                                        "Content-Type: application/json"])
        assert "seq" in json.loads(made), made
        assert subprocess.check_output([*curl, f"{base}/documents/h"]) == b"[1]"
        listed = subprocess.check_output([*curl, f"{base}/documents", "-H", "Accept: application/x-ndjson"])
        assert [json.loads(line)["name"] for line in listed.splitlines()] == ["d", "h"], listed
        again = subprocess.check_output([*curl, "-X", "PUT", f"{base}/documents/h", "-d", "[2]", "-H",
                                         "Content-Type: application/json", "-H", 'Idempotency-Key: "k"'])
        assert json.loads(again)["name"] == "idempotency-key-unsupported", again
        seq = json.loads(made)["seq"]
        with subprocess.Popen([*curl, "-N", f"{base}/changes?from={seq - 1}"], stdout=subprocess.PIPE) as following:
            assert any(b"id: %d-" % seq in line for line in following.stdout)
            following.kill()
    finally:
        gateway.terminate()
        gateway.wait()
        gateway.stdout.close()


def one_order_in_a_connection(folder, program):
    """A question comes after the changes before it, and before those after it."""
    with cluster(folder, program) as nodes:
        nodes.ask("a", create("x", 0))
        for number in range(1, 30, 3):
            lines = [put("x", number), get("x"), put("x", number + 1), put("x", number + 2), get("x")]
            replies = nodes.ask("b", *lines, local=False)
            assert [replies[1]["value"], replies[4]["value"]] == [number, number + 2], replies


def reads_at_another_node(folder, program):
    """What was acknowledged at one node is read at the other's socket right after it."""
    with cluster(folder, program) as nodes:
        nodes.ask("a", create("x", 0))
        with Store.connect(nodes.socket("a")) as one, Store.connect(nodes.socket("b")) as other:
            for number in range(1, 200):
                one.patch("x", [{"op": "replace", "path": "", "value": number}])
                found = other.get("x")
                assert found == number, f"{found} was read after {number} was acknowledged"


def lost_answers(folder, program):
    """Appends whose answers are lost after they were committed are in the log once, in each node's order."""
    members = Members(folder)
    try:
        members.start_all()
        script = os.path.join(os.path.dirname(os.path.abspath(__file__)), "replica_losing.py")
        environment = {**os.environ, "PYTHONPATH": replicas.DEFAULT_PACKAGE}
        told = subprocess.check_output([sys.executable, script, members.endpoints], env=environment, timeout=PATIENCE)
    finally:
        members.close()
    ids = json.loads(told)
    assert len(ids) == 180, f"{len(ids)} entries of 180"
    for node in NODES:
        assert [id for id in ids if id.startswith(node)] == [f"{node}.{number}" for number in range(60)]


def late_append_of_a_killed_node(folder, program):
    """What a killed node left on its way is shut out by its next registration."""
    members = Members(folder)

    async def run():
        log, later = Log(members_in(members.endpoints), LOG), Log(members_in(members.endpoints), LOG)
        await log.head(20.0)
        await log.register("a")
        await later.register("a")
        await later.append("new", [])
        try:
            await log.append("old", [])
        except Exception as error:
            assert "another process" in str(error), error
        return (await log.head()).n
    try:
        members.start_all()
        assert asyncio.run(asyncio.wait_for(run(), PATIENCE)) == 1
    finally:
        members.close()


def trimmed_log(folder, program):
    """A trim heeds a node that is away, and one that is being made. A node after a trim ends, and is made anew."""
    with cluster(folder, program) as nodes:
        nodes.ask("a", create("x", 0), create("y", 0))
        told_all(nodes)
        nodes.stop("c")
        for number in range(10):
            nodes.ask("b", put("x", number))
        told_all(nodes, "ab")
        nodes.run("trim")
        nodes.start("c")
        are_same(nodes)
        told_all(nodes)
        nodes.stop("c")
        for number in range(10):
            nodes.ask("b", put("x", -number))
        told_all(nodes, "ab")
        nodes.run("forget", "c")
        assert "dropped" in nodes.run("trim")
        nodes.start("c")
        assert nodes.ended("c") == 12 and "trimmed" in nodes.output("c")
        os.unlink(nodes.file("c"))
        with between(nodes, "a", lambda: trimmed_meanwhile(nodes)) as source:
            nodes.run("join", nodes.file("c"), "--node", "c", "--from", source, "--sectors", "5000")
        nodes.ask("a", put("x", "after the copy"))
        told_all(nodes, "ab")
        nodes.run("trim")
        nodes.start("c")
        are_same(nodes)
        # A fourth node.
        nodes.run("join", nodes.file("d"), "--node", "d", "--from", nodes.socket("b"))
        nodes.start("d")
        nodes.wait("d")
        nodes.ask("d", create("four", 4))
        are_same(nodes, "abcd")


def trimmed_meanwhile(nodes):
    nodes.ask("a", put("x", "before the copy"))
    told_all(nodes, "ab")
    assert "nothing" in nodes.run("trim"), "the log is kept for a node that is being made"


@contextlib.contextmanager
def between(nodes, node, do):
    """A socket to that of a node, at which something is done before the first client is handed on."""
    path, failed = f"{nodes.folder}/between", []

    def hand_on(listening):
        client, _ = listening.accept()
        with client, socket.socket(socket.AF_UNIX) as other:
            try:
                do()
            except AssertionError as error:
                failed.append(error)
            other.connect(nodes.socket(node))
            other.sendall(client.recv(1 << 16))
            other.shutdown(socket.SHUT_WR)
            for piece in iter(lambda: other.recv(1 << 16), b""):
                client.sendall(piece)
    with socket.socket(socket.AF_UNIX) as listening:
        listening.bind(path)
        listening.listen()
        handing = threading.Thread(target=hand_on, args=(listening,))
        handing.start()
        yield path
        handing.join()
    assert not failed, failed


def foreign_changes(folder, program):
    """A store that somebody else changed, even by one change, and one of another log, are found."""
    with cluster(folder, program) as nodes:
        nodes.ask("a", create("x", 0))
        states(nodes)
        nodes.stop("c")
        served(program, nodes.file("c"), delete("x"))
        nodes.start("c")
        assert nodes.ended("c") == 12 and "somebody else" in nodes.output("c")
        nodes.start("c")
        assert nodes.ended("c") == 12
        # As many changes as one that is at the place of the others, and as the first state, have.
        for name, changes in (("e", [create("x", 0)]), ("f", [create("x", 0), delete("x")])):
            nodes.format(name, 4096)
            served(program, nodes.file(name), *changes)
            nodes.start(name)
            assert nodes.ended(name) == 12 and "of no node" in nodes.output(name)
        assert "exists already" in nodes.run("init", nodes.file("e"), status=1)
        for more, told in (({"version": "1"}, "of no node of the log another"), ({}, "log of older nodes: stop all")):
            agreed = {"log": "another", "capacity": CAPACITY, "digest": "", **more}
            value = packed(json.dumps(agreed).encode())
            engine = Engine(members_in(nodes.members.endpoints))
            asyncio.run(engine.call("/kv/put", {"key": packed(f"{LOG}/agreed".encode()), "value": value}))
            nodes.kill("b")
            nodes.start("b")
            assert nodes.ended("b") == 12 and told in nodes.output("b")
        engine = Engine(members_in(nodes.members.endpoints))
        asyncio.run(engine.call("/kv/deleterange", {"key": packed(f"{LOG}/log".encode())}))
        assert nodes.ended("a") == 12


def unfit_files(folder, program):
    """Files of format 2 and those of older nodes are refused, with what to do."""
    with cluster(folder, program) as nodes:
        nodes.format("e", 4096, 2)
        nodes.start("e")
        assert nodes.ended("e") == 1
        for told in (nodes.output("e"), nodes.run("init", nodes.file("e"), status=1)):
            assert "format 2" in told and "`jpstore upgrade`" in told, told
        note = {"chain": "", "entry": 0, "id": "", "log": "0", "next": -1, "out": [], "revision": 0, "version": "1"}
        served(program, nodes.file("e"), create("_log", note))
        subprocess.run([program, "upgrade", nodes.file("e")], check=True, stdout=subprocess.DEVNULL)
        assert "delete the document `_log`" in nodes.run("init", nodes.file("e"), status=1)


def older_log(folder, program):
    """A log with another entry at the same place, as after a restore of etcd, is found by the name of the entry."""
    with cluster(folder, program) as nodes:
        for number in range(6):
            nodes.ask("a", create(f"x{number}", 0))
        states(nodes)
        for node in NODES:
            nodes.stop(node)
        os.mkdir(f"{folder}/restored")
        restored = Members(f"{folder}/restored", 1)
        try:
            restored.start_all()
            asyncio.run(another_log(nodes, members_in(restored.endpoints)))
            nodes.members.endpoints, before = restored.endpoints, nodes.members.endpoints
            nodes.start("b")
            assert nodes.ended("b") == 12 and "an older copy" in nodes.output("b"), nodes.output("b")
            nodes.members.endpoints = before
        finally:
            restored.close()


async def another_log(nodes, members):
    """Makes a log of the same name at other members, with other entries at the same numbers and revisions."""
    entries = await read_entries(nodes)
    last = entries[-1]
    engine, agreed = Engine(members), await Log(members_in(nodes.members.endpoints), LOG).agreed()
    value = packed(json.dumps(agreed._asdict()).encode())
    answer = await engine.call("/kv/put", {"key": packed(f"{LOG}/agreed".encode()), "value": value}, 20.0)
    for _ in range(last.r - int(answer["header"]["revision"]) - last.n):
        await engine.call("/kv/put", {"key": packed(b"other"), "value": ""})
    for entry in entries:
        value = json.dumps({"id": f"other.{entry.n}", "kind": "compare"}).encode() + b"\n"
        answer = await engine.call("/kv/put", {"key": packed(f"{LOG}/log".encode()), "value": packed(value)})
    assert int(answer["header"]["revision"]) == last.r


def put_back_log(folder, program):
    """An etcd that was put back to an older state is noticed by all nodes that run, though new entries fill the gap."""
    for entries in (1, 3):
        place = f"{folder}/{entries}"
        os.mkdir(place)
        with cluster(place, program) as nodes:
            nodes.ask("a", create("x", 0))
            states(nodes)
            nodes.stop("c")
            nodes.members.save()
            # It is answered, and node c never sees it.
            asked(nodes, "b", create("lost"))
            states(nodes, "ab")
            pause(nodes, "ab", signal.SIGSTOP)
            nodes.members.put_back()
            asyncio.run(asyncio.wait_for(appended(nodes, entries), PATIENCE))
            pause(nodes, "ab", signal.SIGCONT)
            for node in "ab":
                assert nodes.ended(node) == 12 and "an older copy" in nodes.output(node), nodes.output(node)
            nodes.start("c")
            nodes.wait("c", head(nodes))
            assert nodes.ask("c", {"cmd": "list"})[0]["names"] == ["x", *[f"late{n}" for n in range(entries)]]
            # Nor do they start again.
            nodes.start("b")
            assert nodes.ended("b") == 12


def asked(nodes, node, command):
    """The reply to a line that is sent until it has one, since members that begin must choose a leader."""
    def reply():
        with contextlib.suppress(ConnectionError):
            found, = nodes.ask(node, command, local=False)
            return found if found.get("number") not in (60, 82) else None
    return waited(reply, "an answer")


def pause(nodes, names, number):
    for node in names:
        os.kill(nodes.processes[node].pid, number)


async def appended(nodes, count):
    """Appends entries, as changes of clients that were on their way when etcd was put back."""
    await appended_lines(nodes, *[[create(f"late{number}")] for number in range(count)])


async def appended_lines(nodes, *entries, kind=EntryKind.LINES):
    """Appends entries of these commands, as another node."""
    log = Log(members_in(nodes.members.endpoints), LOG)
    name = await log.register("late")
    for number, commands in enumerate(entries):
        await log.append(f"late.{name}.{number}", [canonical(command) + b"\n" for command in commands], kind)
    log.close()


def full_store(folder, program):
    """A change without room is refused by the log at every node, and none of them ends; a delete makes room again."""
    capacity = 66_000
    room = room_of(capacity)
    # The first file has little more room than that.
    with cluster(folder, program, (416, 600, 4096), capacity) as nodes:
        text, made = "x" * 3000, 0
        replies = nodes.ask("a", *[create(f"n{number}", text) for number in range(30)])
        made = sum(reply["ok"] for reply in replies)
        assert 0 < made < 30 and 3000 * made < room.documents
        for reply in replies[made:]:
            same(reply, refused(60))
        # Copies make a document much longer than its change.
        doubling = {"cmd": "patch", "name": "n0", "ops": [{"op": "copy", "from": "", "path": ""}]}
        assert nodes.ask("b", doubling)[0]["number"] == 60
        assert nodes.ask("b", delete("n0"), delete("n1"))[1]["ok"]
        assert nodes.ask("c", create("again", text))[0]["ok"]
        assert nodes.ask("c", create("long", "x" * room.changes))[0]["number"] == 60
        for number in range(200):
            nodes.ask("abc"[number % 3], put("n2", ["y" * 2900, number]), put(f"n{number % 30}", ["z" * 2950, number]))
        are_same(nodes)
        assert all(process.poll() is None for process in nodes.processes.values())


def heavy_entries(folder, program):
    """An entry whose documents are too heavy for one transaction is done line by line; a heavy line is refused."""
    with cluster(folder, program, LONG, 6_000_000) as nodes:
        text = "x" * 1_000_000
        assert all(reply["ok"] for reply in nodes.ask("a", *[create(f"n{number}", [text, 0]) for number in range(3)]))
        touch = [{"cmd": "schema", "name": f"n{number % 3}", "schema": True} for number in range(60)]
        replies = nodes.ask("b", *touch, several(*touch), several(*touch[:20]))
        assert all(reply["ok"] for reply in replies[:60]) and replies[61]["ok"], replies
        same(replies[60], refused(65))
        are_same(nodes)


def stopped_line_by_line(folder, program):
    """A node that dies in the midst of an entry that it does line by line goes on after the last line that is done."""
    script = crashing_program(folder, program, 0.25)
    with cluster(folder, program) as nodes:
        nodes.ask("a", create("x", 0))
        states(nodes)
        nodes.stop("c")
        lines = []
        for number in range(12):
            lines += [put("x", number, if_rev=1), put("x", number), several(put("x", number), create(f"y{number}", 1))]
        nodes.ask("a", *lines)
        entries = entries_of(nodes)
        assert max(len(entry.lines) for entry in entries) > 6
        deaths = 0
        for _ in range(30):
            nodes.start("c", program=script)
            if done_or_ended(nodes, "c", len(entries)):
                break
            deaths += 1
        nodes.kill("c")
        nodes.start("c")
        answers, state = played(program, [entry.lines for entry in entries])
        assert are_same(nodes) == state
        assert deaths, "the program should have died"
        return f"{deaths} deaths"


def done_or_ended(nodes, node, n):
    """Waits until a node has done entry n, or has ended."""
    while nodes.processes[node].poll() is None:
        with contextlib.suppress(OSError):
            if nodes.ask(node, {"cmd": "node"})[0]["applied"] >= n:
                return True
        time.sleep(0.02)
    return False


def without_space(folder, program):
    """An etcd whose quota is used up: changes are refused, questions are answered, and it goes on after a trim."""
    with cluster(folder, program, etcd=("--quota-backend-bytes", "2500000")) as nodes:
        nodes.ask("a", create("x", ""))
        reply = {"ok": True}
        for number in range(200):
            # If etcd's answers come late, it isn't known whether a change is made, and the connection is closed.
            with contextlib.suppress(ConnectionError):
                reply, = nodes.ask("a", put("x", f"{number} " + "x" * 100_000), local=False)
            if not reply["ok"]:
                break
            # One entry each, and no more than one over the quota.
            time.sleep(0.1)
        same(reply, refused(60))
        found, = nodes.ask("b", {"cmd": "rev", "name": "x"}, local=False)
        assert found["ok"] and all(process.poll() is None for process in nodes.processes.values())
        states(nodes)
        nodes.stop("c")
        nodes.start("c")
        nodes.wait("c")
        found, = nodes.ask("c", {"cmd": "rev", "name": "x"}, local=False)
        assert found["ok"], "a node that starts without space answers questions"
        nodes.run("trim")
        # Over the gateway too, since not every machine has etcdctl.
        asyncio.run(made_room(nodes.members))
        asked(nodes, "a", put("x", "again"))
        are_same(nodes)


async def made_room(members):
    """Gives what was trimmed back to the disk of each member, and ends the alarm."""
    for member in members_in(members.endpoints):
        await Engine([member]).call("/maintenance/defragment", {})
    engine = Engine(members_in(members.endpoints))
    for alarm in (await engine.call("/maintenance/alarm", {"action": "GET"})).get("alarms", []):
        await engine.call("/maintenance/alarm", {"action": "DEACTIVATE", **alarm})


def without_majority(folder, program):
    """Without a majority changes and questions are refused after the patience, local questions are answered, and the
    change whose append is under way is not answered."""
    with cluster(folder, program, options=("--patience", "2")) as nodes:
        asked(nodes, "a", create("x", 1))
        states(nodes)
        nodes.members.kill(1), nodes.members.kill(2)
        assert nodes.ask("a", get("x")) == [{"ok": True, "value": 1}]
        reply, = nodes.ask("b", get("x"), local=False)
        same(reply, refused(82))
        try:
            reply, = nodes.ask("a", put("x", 2))
            raise AssertionError(f"{reply} without a majority")
        except ConnectionError:
            pass
        reply, = nodes.ask("a", put("x", 3))
        same(reply, refused(82))
        nodes.members.revive()
        n = head(nodes)
        nodes.wait("a", n)
        assert asked(nodes, "b", get("x"))["value"] in (1, 2)
        asked(nodes, "c", put("x", 4))
        are_same(nodes)


def differing_nodes(folder, program):
    """A node that has other documents than the others finds that by comparing, and does not start again."""
    found_by_comparing(folder, program, "w", lambda place: place)


def differing_entries(folder, program):
    """A node that has done other entries than the others finds that by comparing, though its documents are the same."""
    found_by_comparing(folder, program, "x", lambda place: re.sub(" [0-9a-f]{16} ", " " + "0" * 16 + " ", place))


def found_by_comparing(folder, program, name, changed):
    """A node whose file has something else, by a fault of a disk or of a program, finds that by comparing."""
    with cluster(folder, program) as nodes:
        stopped_with_another(nodes, "c", create(name, {"v": 1}), changed)
        for node in NODES:
            nodes.start(node, "--compare", "1")
        assert nodes.ended("c") == 12, nodes.output("c")
        assert "have other documents" in nodes.output("c")
        assert [nodes.processes[node].poll() for node in "ab"] == [None, None]
        nodes.start("c")
        assert nodes.ended("c") == 12 and "has left the log" in nodes.output("c")


def stopped_with_another(nodes, node, creation, changed):
    """Stops all nodes, one of which has another document then in place of `x`, or another place."""
    nodes.ask("a", create("x", {"v": 1}), create("y", 1))
    states(nodes)
    key = "log-" + json.loads(nodes.run("status", "--json"))["log"]
    place = nodes.ask(node, {"cmd": "mark", "key": key})[0]["mark"]
    for each in NODES:
        nodes.stop(each)
    os.unlink(nodes.file(node))
    nodes.format(node, 4096)
    served(nodes.program, nodes.file(node), creation,
           {**create("y", 1), "mark": {"key": key, "value": changed(place)}})


def two_that_differ(folder, program):
    """Two nodes that differ while the third is away go on and say so, and the third one decides which ends."""
    with cluster(folder, program) as nodes:
        stopped_with_another(nodes, "b", create("x", {"v": 2}), lambda place: place)
        for node in "ab":
            nodes.start(node, "--compare", "1")
        for node, other in ("ab", "ba"):
            waited(lambda node=node, other=other: f"has other documents than {other}\n" in nodes.output(node), "a word")
        # While they compare anew, one has told what it has, and the other hasn't yet.
        waited(lambda: "the documents of a differ from those of b" in nodes.run("status"), "a word of the status")
        waited(lambda: json.loads(nodes.run("status", "--json"))["unlike"] == [["a"], ["b"]], "its groups")
        assert nodes.ask("b", put("y", 2))[0]["ok"] and nodes.ask("a", put("y", 3))[0]["ok"]
        assert [nodes.processes[node].poll() for node in "ab"] == [None, None]
        nodes.start("c", "--compare", "1")
        assert nodes.ended("b") == 12 and "most nodes have other documents" in nodes.output("b"), nodes.output("b")
        waited(lambda: "as the others again" in nodes.output("a"), "the end of the difference")
        assert "differ" not in nodes.run("status")
        are_same(nodes, "ac")


def compared_once(folder, program):
    """A node that was away compares what it has once, however often the others have done that meanwhile."""
    with cluster(folder, program, options=("--compare", "0.2")) as nodes:
        nodes.ask("a", create("x"))
        states(nodes)
        nodes.stop("c")
        n = head(nodes)
        waited(lambda: head(nodes) >= n + 8, "comparisons")
        for node in "ab":
            nodes.stop(node)
            nodes.start(node, "--compare", "100000")
        before = asyncio.run(told_of(nodes, "c"))[1]
        nodes.start("c", "--compare", "100000")
        nodes.wait("c", head(nodes))
        n, more = head(nodes), 0
        while asyncio.run(told_of(nodes, "c"))[0] <= n:
            # A node that is behind for a moment makes the next one.
            asyncio.run(appended_lines(nodes, [], kind=EntryKind.COMPARE))
            more += 1
            nodes.wait("c", n + more)
            time.sleep(0.5)
        assert asyncio.run(told_of(nodes, "c"))[1] <= before + 1 + more
        return f"{more} comparisons after"


async def told_of(nodes, node):
    """Of which entry a node has told a digest last, and how often it has told one."""
    engine = Engine(members_in(nodes.members.endpoints))
    answer = await engine.call("/kv/range", {"key": packed(f"{LOG}/{DIGESTS}/{node}".encode())})
    engine.close()
    found = answer.get("kvs")
    return (json.loads(unpacked(found[0]["value"]))["n"], int(found[0]["version"])) if found else (0, 0)


def large_patterns(folder, program):
    """A schema whose patterns are too large is refused for its line alone, before the log and in it."""
    with cluster(folder, program) as nodes:
        nodes.ask("a", create("x"))
        heavy = [{"pattern": r"^\w{1,255}$"}, {"items": {"patternProperties": {r"^\p{L}{1,100}$": True}}}]
        for schema in heavy:
            lines = [put("x", 1), create("y", 0, schema), create("z", 0, {"pattern": "^a$"}), delete("z"),
                     several(put("x", 2), {"cmd": "schema", "name": "x", "schema": schema}), put("x", 3)]
            replies = nodes.ask("a", *lines)
            assert [reply.get("number") for reply in replies] == [None, 44, None, None, 44, None], replies
        seq = replies[-1]["seq"]
        # Lines of the log are judged in the same way.
        both = several(put("x", 5), create("y", 0, heavy[1]))
        entries = [[create("y", 0, heavy[0])], [put("x", 4)], [both, put("x", 6)], [put("x", 7)]]
        nodes.stop("c")
        asyncio.run(appended_lines(nodes, *entries))
        for node in "bc":
            nodes.kill(node)
            nodes.start(node)
        assert nodes.ask("a", put("x", 8))[0]["seq"] == seq + 4
        rows, _ = are_same(nodes)
        assert [row[0] for row in rows] == ["x"] and all(process.poll() is None for process in nodes.processes.values())


def without_memory(folder, program):
    """A line that no machine has the memory for is refused before it is in the log, and no node ends."""
    script = lacking_program(folder, program, "heavy")
    with cluster(folder, program, LONG, 6_000_000) as nodes:
        nodes.ask("a", create("x", ["heavy"]), *[create(name, "x" * 600_000) for name in ("long1", "long2")])
        states(nodes)
        for node in NODES:
            nodes.stop(node)
            nodes.start(node, program=script)
            nodes.wait(node)
        copy = {"cmd": "patch", "name": "x", "ops": [{"op": "copy", "from": "/0", "path": "/-"}]}
        checked = {**copy, "ops": [*copy["ops"], {"op": "test", "path": "/1", "value": "heavy"}]}
        lines = [create("heavy", 0, {"pattern": "^a$"}), checked, create("heavy", "x" * 200_000),
                 several(put("x", 1), {"cmd": "schema", "name": "x", "schema": {"patternProperties": {"heavy": True}}}),
                 # Short, and without a word that tells it, but for long documents.
                 several(*[{"cmd": "schema", "name": f"long{at}", "schema": {"title": "heavy"}} for at in (1, 2)])]
        before = head(nodes)
        for node in NODES:
            for reply in nodes.ask(node, *lines):
                same(reply, refused(63))
        assert head(nodes) == before
        # What is tried and refused for another reason is judged as if it had come alone.
        tried = [create(name, doc, {"pattern": "^a$"}) for name, doc in (("x", 0), ("y", "b"), ("y", "a"))]
        replies = nodes.ask("a", *tried, create("z", "x" * 200_000), copy)
        assert [reply.get("number") for reply in replies] == [20, 45, None, None, None], replies
        assert [row[0] for row in are_same(nodes)[0]] == ["x", "long1", "long2", "y", "z"]
        # What one node has the memory for ends the others until they have it too.
        nodes.stop("a")
        nodes.start("a")
        nodes.wait("a")
        assert nodes.ask("a", put("x", "heavy"), create("last"))[1]["ok"]
        for node in "bc":
            assert nodes.ended(node) == 1 and '"number":63' in nodes.output(node), nodes.output(node)
            nodes.start(node)
        assert [row[0] for row in are_same(nodes)[0]][-1] == "last"


def other_version(folder, program):
    """A node of another version tells the log so, the others end until they have that version, and all are the same."""
    script = f"{folder}/newer"
    with open(script, "w", encoding="utf-8") as file:
        file.write(f'#!/bin/sh\n[ "$1" = --version ] && echo jpstore 99 && exit\nexec {program} "$@"\n')
    os.chmod(script, 0o700)
    with cluster(folder, program) as nodes:
        nodes.ask("a", create("x", 1))
        states(nodes)
        nodes.stop("c")
        nodes.ask("a", put("x", 2))
        # What is refused is judged by the older version too, though nothing of it is stored.
        nodes.ask("b", create("x", 3))
        nodes.start("c", program=script)
        assert nodes.ended("c") == 1 and "is for jpstore" in nodes.output("c"), nodes.output("c")
        nodes.start("c")
        told_all(nodes)
        nodes.stop("c")
        nodes.start("c", program=script)
        nodes.wait("c")
        for node in "ab":
            assert nodes.ended(node) == 1 and "is for jpstore 99" in nodes.output(node)
            nodes.start(node, program=script)
        for _ in range(2):
            told_all(nodes)
            for node in NODES:
                nodes.kill(node)
                nodes.start(node, program=script)
        states(nodes)
        assert nodes.ask("b", put("x", 3))[0]["ok"]
        are_same(nodes)


def begun_with_documents(folder, program):
    """A store with documents may be the first state; it keeps their revisions at all nodes."""
    members, nodes = Members(folder), None
    try:
        members.start_all()
        nodes = Replicas(folder, program, members, None, ["--compare", "100000"])
        nodes.format("a", 4096)
        mark = {"key": "k", "value": "v" * 99}
        served(program, nodes.file("a"), create("x", [1]), {**create("y", {"v": 2}), "mark": mark}, put("x", [3]))
        assert "exists already" not in nodes.run("init", nodes.file("a"))
        # It may be called again, as after a stop in its midst.
        assert "the log exists already, without an entry" in nodes.run("init", nodes.file("a"))
        nodes.start("a")
        nodes.wait("a")
        for node in "bc":
            nodes.run("join", nodes.file(node), "--node", node, "--from", nodes.socket("a"), "--sectors", "9000")
            nodes.start(node)
        nodes.wait("b"), nodes.wait("c")
        nodes.ask("b", put("y", 5, if_rev=2))
        state = are_same(nodes)
        assert [row[:3] for row in state[0]] == [["x", 3, [3]], ["y", 4, 5]], state
        assert nodes.ask("c", {"cmd": "mark", "key": "k"}) == [{"mark": "v" * 99, "ok": True, "seq": 2}]
        members_of_too_small_a_file(nodes)
    finally:
        if nodes:
            nodes.close()
        members.close()


def members_of_too_small_a_file(nodes):
    """A file that is smaller than agreed on is refused, and nothing is left of it, nor is the log kept for it."""
    told = nodes.run("join", nodes.file("e"), "--node", "e", "--from", nodes.socket("a"), "--sectors", "1000", status=1)
    assert "choose more sectors" in told, told
    assert [name for name in os.listdir(nodes.folder) if name.startswith("e.store")] == []
    told = nodes.run("forget", "e", status=1)
    assert "no node e has told its place" in told, told


def stopped_node(folder, program):
    """A node that was stopped for a while answers nothing at its socket that is old."""
    with cluster(folder, program) as nodes:
        nodes.ask("a", create("x", 1))
        states(nodes)
        os.kill(nodes.processes["c"].pid, signal.SIGSTOP)
        late = []
        asking = threading.Thread(target=lambda: late.extend(nodes.ask("c", get("x"), local=False)))
        asking.start()
        nodes.ask("a", put("x", 2))
        # Long enough to be noticed, and the answer is right without it.
        time.sleep(0.5)
        os.kill(nodes.processes["c"].pid, signal.SIGCONT)
        asking.join()
        assert late[0]["value"] in (1, 2)
        assert nodes.ask("c", get("x"), local=False)[0]["value"] == 2


CASES = [(case.__doc__.partition("\n")[0].rstrip("."), case) for case in (
    refusals_in_one_entry, odd_lines, one_number_a_change, clients_of_all_kinds, one_order_in_a_connection,
    reads_at_another_node, lost_answers, late_append_of_a_killed_node, trimmed_log, trimmed_without_changes,
    foreign_changes, unfit_files, older_log, put_back_log, full_store, heavy_entries, stopped_line_by_line,
    without_space, without_majority, differing_nodes, differing_entries, two_that_differ, compared_once, large_patterns,
    without_memory, other_version, begun_with_documents, stopped_node)]
