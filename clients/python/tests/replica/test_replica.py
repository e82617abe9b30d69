"""What a node takes a line for, and what it reckons by, compared with the program. The nodes themselves need etcd:
tests/gate/test_replicated.py runs them."""
import asyncio
import contextlib
import json
import random
import ssl
import subprocess
import time

import pytest
from jpstore import JpstoreError
from jpstore.replica import init_join, node, running
from jpstore.replica.changes import MOST_MARK, line_in
from jpstore.replica.certificates import Secure, warning_of
from jpstore.replica.engine import Engine, Member, NoAnswer, NoSpace, Trimmed, packed
from jpstore.replica.errors import Astray
from jpstore.replica.line_reader import MOST_TEXT, read_line
from jpstore.replica.log import Agreed, Log
from jpstore.replica.node import Settings
from jpstore.replica.reach import Reach
from jpstore.replica.capacity import LEAST_CAPACITY, Need, Reckoning, room_of
from jpstore.replica.tasks import end_tasks
from jpstore.wire.commands import STATUS
from jpstore.wire.forms import Kind
from replica_check import Alone
from replica_wrong import WRONG
from replicas import crashing_program, lacking_program
from support import PATIENCE, raised

DEEP = b"[" * 130 + b"]" * 130

REFUSED = [
    b"not json", b"", b"[1]", b"5", b'"x"', b"null", b'{"cmd":1}', b'{"cmd":"put"}', b'{"cmd":"delete","name":"\xff"}',
    b'{"cmd":"delete","name":"x"', b'{"cmd":"delete","name":"x"} x', b'{"cmd":"delete","name":5}', b'{"cmd":"delete"}',
    b'{"cmd":"delete","name":"x","more":1}', b'{"cmd":"list","x":1.5}', b'{"cmd":"list","x":1e2}', b'{"cmd":1.5',
    b'{"cmd":"list","x":9223372036854775808}', b'{"cmd":"list","x":-9223372036854775809}', b'{"cmd":"list","x":01}',
    b'{"cmd":"list","x":NaN}', b'{"cmd":"list","x":Infinity}', b'{"cmd":"list","x":"\\ud800"}',
    b'\xef\xbb\xbf{"cmd":"list"}',
    b'{"cmd":"create","doc":1,"name":"x"}', b'{"cmd":"patch","name":"x"}', b'{"cmd":"get","name":"x","path":1}',
    b'{"cmd":"patch","if_rev":-1,"name":"x","ops":[]}', b'{"cmd":"patch","if_rev":"1","name":"x","ops":[]}',
    b'{"cmd":"patch","if_rev":true,"name":"x","ops":[]}', b'{"cmd":"pump","max":0}', b'{"cmd":"pump","max":1000001}',
    b'{"cmd":"pump"}', b'{"cmd":"transaction","changes":[]}', b'{"cmd":"transaction","changes":{}}',
    b'{"cmd":"transaction","changes":[{"cmd":"list"}]}', b'{"cmd":"transaction","changes":[1]}',
    b'{"cmd":"transaction","changes":[{"cmd":"delete","name":5}]}', b'{"cmd":"list","x":"\x01"}',
    b'{"cmd":"create","doc":-0,"name":"x","schema":true}', b'{"changes":[],"cmd":"list"}',
    b'{"cmd":"delete","mark":{"key":"k","value":"v"},"name":"x"}',
    b'{"changes":[{"cmd":"delete","name":"x"}],"cmd":"transaction","if_mark":null,"mark":{"key":"k","value":"v"}}',
    b'{"cmd":"create","doc":%b,"name":"x","schema":true}' % DEEP,
]

TAKEN = [
    b'{"cmd":"delete","name":"x"}', b' {"name" : "x", "cmd" : "del\\u0065te"}\r', b'{"cmd":"delete","name":"no name"}',
    b'{"cmd":"patch","name":"x","ops":5,"if_rev":0}',
    b'{"cmd":"schema","name":"x","schema":null}', b'{"cmd":"transaction","changes":[{"cmd":"delete","name":"x"}]}',
    b'{"cmd":"create","doc":"\\u00e9\\u0001\\/\\ud83d\\ude00","name":"x","schema":true}',
]


@pytest.fixture
def alone(program):
    """A program over an empty store in memory."""
    made = Alone(program, 64)
    yield made
    made.close()


@pytest.mark.parametrize("line", REFUSED)
def test_a_line_is_refused_as_the_program_refuses_it(alone, line):
    asked = read_line(line + b"\n")
    assert asked.kind is None
    if line:
        assert json.loads(asked.text) == alone.ask(line + b"\n")


@pytest.mark.parametrize("line", TAKEN)
def test_the_compact_text_of_a_line_is_the_same_change(alone, program, line):
    asked, other = read_line(line + b"\n"), Alone(program, 64)
    assert asked.kind is Kind.CHANGE
    assert len(asked.text) <= len(line) + 1
    try:
        assert alone.ask(asked.text) == other.ask(line + b"\n")
        get = {"cmd": "get", "name": "x", "path": ""}
        assert alone.ask(get) == other.ask(get)
    finally:
        other.close()


def test_a_node_seals_its_own_file(alone):
    asked = read_line(b'{ "cmd": "seal" }\n')
    assert (asked.kind, asked.text) == (Kind.SNAPSHOT, b'{"cmd":"seal"}\n')
    assert alone.ask(asked.text) == {"ok": True}


def test_a_name_that_comes_twice_has_two_readings():
    for line in (b'{"cmd":"get","cmd":"delete","name":"x"}', b'{"cmd":"schema","name":"x","schema":{"a":1,"a":2}}'):
        assert json.loads(read_line(line + b"\n").text)["number"] == 14


def test_a_line_may_be_as_long_as_its_transaction_allows(alone):
    for length in (MOST_TEXT, MOST_TEXT + 1):
        line = b'{"cmd":"create","doc":"%b","name":"x","schema":true}\n'
        line = line % (b"x" * (length - len(line) + 2))
        assert len(line) == length
        asked = read_line(line)
        assert (asked.kind is Kind.CHANGE) == (length == MOST_TEXT)
    assert json.loads(asked.text)["number"] == 10


def grown(choose, name):
    """A change of a document at random, which makes it longer or shorter."""
    odd = "\u00e9\u0001\n\"\\/" * choose.randrange(30)
    text = choose.choice(["", "x" * choose.randrange(200), odd, "\U0001f600" * 9])
    places = ["/a", "/b/-", "/c", "/" + text.replace("~", "~0").replace("/", "~1"), ""]
    values = [text, [text], {text: [text]}, 5, None]
    word = choose.choice(["add", "replace", "remove", "copy", "move", "schema", "create", "delete"])
    if word == "schema":
        return {"cmd": "schema", "name": name, "schema": {"title": text}}
    if word == "create":
        return {"cmd": "create", "doc": {"a": text, "b": []}, "name": name, "schema": {"title": text}}
    if word == "delete":
        return {"cmd": "delete", "name": name}
    operation = {"op": word, "path": choose.choice(places)}
    if word in ("copy", "move"):
        operation["from"] = choose.choice(places)
    elif word != "remove":
        operation["value"] = choose.choice(values)
    return {"cmd": "patch", "name": name, "ops": [operation] * choose.randrange(1, 3)}


def test_no_change_adds_more_to_a_snapshot_than_is_reckoned(place):
    choose = random.Random(5)
    accepted = 0
    with place.made(65536) as store:
        before = store.snapshot()
        for _ in range(800):
            command = grown(choose, choose.choice("pq"))
            line = read_line(json.dumps(command).encode() + b"\n").text
            accepted += store.group([command], check=False)[0].__class__ is int
            after = store.snapshot()
            assert after - before <= line_in(line).growth, command
            before = after
    assert accepted > 100


def test_a_store_of_the_agreed_capacity_has_room():
    for capacity in (LEAST_CAPACITY, 100_000, 1 << 20, 1 << 24):
        room = room_of(capacity)
        # The mark of a transaction, and by how much that of a snapshot is longer than the one before.
        assert room.documents + room.changes <= capacity - 2 * 253
        assert room.documents > 0 and room.changes > 0


def test_a_bound_that_does_not_decide_is_measured():
    line = line_in(read_line(b'{"cmd":"create","doc":"x","name":"x","schema":true}\n').text)
    reckoning = Reckoning(LEAST_CAPACITY)
    assert raised(Need, reckoning.verdict, [line]).total


@pytest.mark.parametrize("mark", (0, 100, MOST_MARK))
def test_a_verdict_counts_the_longest_mark_whatever_mark_a_node_has(mark):
    reckoning, room = Reckoning(LEAST_CAPACITY), room_of(LEAST_CAPACITY).documents
    line = {"cmd": "create", "doc": "", "name": "x", "schema": True}
    less = line_in(read_line(json.dumps(line).encode() + b"\n").text)
    for room_left in (MOST_MARK, MOST_MARK - 1):
        snapshot = room - 2 * less.growth - room_left + mark
        asyncio.run(reckoning.measure(Need(True, set()), Measured(snapshot), mark))
        assert reckoning.verdict([less, less]) == (({}, True) if room_left == MOST_MARK else ({1: 60}, True))
        reckoning.count([less])
        if room_left == MOST_MARK:
            assert reckoning.verdict([less]) == ({}, True)
        else:
            # The line that is done may have added less than it might.
            assert raised(Need, reckoning.verdict, [less]).total


class Measured:
    """A store whose documents have 1,000 bytes each."""

    def __init__(self, length=0):
        self._length = length

    async def snapshot_length(self):
        return self._length

    async def lengths(self, names):
        return {name: 1000 for name in names}


def test_documents_count_as_the_longest_until_they_are_read():
    reckoning = Reckoning(1 << 31)
    assert reckoning.length([]) == 0 and reckoning.length("ab") == 2 << 20
    assert asyncio.run(reckoning.length_now("ab", Measured())) == reckoning.length("ba") == 2000
    line = line_in(read_line(b'{"cmd":"patch","name":"a","ops":[]}\n').text)
    reckoning.count([line])
    assert reckoning.length("ab") == 2000 + line.growth and reckoning.length("ac") == 1000 + line.growth + (1 << 20)
    assert asyncio.run(reckoning.length_now("ab", Measured())) == 2000


def verdict_of(*commands):
    lines = [line_in(read_line(json.dumps(each).encode() + b"\n").text) for each in commands]
    reckoning = Reckoning(1 << 31)
    while True:
        try:
            return reckoning.verdict(lines)
        except Need as need:
            asyncio.run(reckoning.measure(need, Measured(), 0))


def test_lines_weigh_what_they_may_copy():
    def patch(name, *operations):
        return {"cmd": "patch", "name": name, "ops": operations}

    def together(*changes):
        return {"changes": changes, "cmd": "transaction"}
    copy, take = {"op": "copy", "from": "/a", "path": "/b"}, {"op": "remove", "path": "/0"}
    # Copies of 1,000 bytes at most, and elements that go from lists of fewer than 500.
    assert verdict_of(together(*[patch(f"d{number}", copy) for number in range(1000)])) == ({}, True)
    assert verdict_of(together(*[patch(f"d{number}", *[take] * 30) for number in range(500)])) == ({}, True)
    # Each may be doubled up to 1 MiB: 32 of them weigh 32 MiB, and 33 do not fit.
    often = [patch(f"d{number}", *[copy] * 20) for number in range(33)]
    assert verdict_of(*often[:32]) == ({}, True)
    assert verdict_of(*often) == ({}, False)
    assert verdict_of(together(*often), patch("e")) == ({0: 65}, True)


async def cancelled_after(steps):
    """Whether a call that nobody answers ends when it is cancelled after this many steps of the loop."""
    call = asyncio.ensure_future(Engine([Member("127.0.0.1", 1)]).call("/kv/range", {}))
    for _ in range(steps):
        await asyncio.sleep(0)
    call.cancel()
    await asyncio.wait([call], timeout=PATIENCE)
    return call.cancelled()


def test_a_call_is_cancelled_at_any_moment():
    assert [steps for steps in range(60) if not asyncio.run(cancelled_after(steps))] == []


def test_tasks_are_ended_though_they_go_on_and_the_end_is_cancelled():
    async def deaf():
        for _ in range(3):
            with contextlib.suppress(asyncio.CancelledError):
                await asyncio.sleep(60)

    async def run():
        task = asyncio.ensure_future(deaf())
        await asyncio.sleep(0)
        ending = asyncio.ensure_future(end_tasks([task]))
        await asyncio.sleep(0)
        ending.cancel()
        await asyncio.wait([ending], timeout=PATIENCE)
        return task.done(), ending.cancelled()
    assert asyncio.run(run()) == (True, True)


@pytest.mark.parametrize("wrong", WRONG, ids=lambda wrong: wrong.what)
def test_each_fault_that_must_be_found_has_its_place(wrong, tmp_path):
    wrong.planted(tmp_path)


def test_a_compaction_that_takes_longer_than_a_try_has_dropped_something():
    async def dropped(*answers):
        log, left = Log([Member("127.0.0.1", 1)], "test"), list(answers)

        async def call(path, body, patience=None):
            answer = left.pop(0)
            if isinstance(answer, Exception):
                raise answer
            return answer
        log._engine.call = call
        places = {"key": packed(b"test/nodes/a"), "value": packed(b'{"r": 9}')}
        left[:0] = [{"header": {"revision": "20"}, "kvs": [{"key": packed(b"test/agreed")}]}, {"kvs": [places]}]
        return await log.trim()
    assert asyncio.run(dropped({})) == 8
    assert asyncio.run(dropped(Trimmed())) is None
    assert asyncio.run(dropped(NoAnswer(), Trimmed())) == 8


def test_a_log_is_trimmed_no_further_than_the_logs_were_looked_up():
    async def trimmed(now, *revisions):
        log, asked = Log([Member("127.0.0.1", 1)], "test"), []

        async def call(path, body, patience=None):
            asked.append(body)
            if path == "/kv/compaction":
                return {}
            if "keys_only" in body:
                return {"header": {"revision": str(now)}, "kvs": [{"key": packed(b"test/agreed")}]}
            return {"kvs": [{"key": packed(b"test/nodes/%d" % number), "value": packed(b'{"r": %d}' % revision)}
                            for number, revision in enumerate(revisions)]}
        log._engine.call = call
        return await log.trim()
    assert asyncio.run(trimmed(20, 15, 30)) == 14
    # What another log has appended since 20 is not known.
    assert asyncio.run(trimmed(20, 25, 30)) == 19
    assert asyncio.run(trimmed(20, 0, 30)) is None
    assert asyncio.run(trimmed(20)) is None


@pytest.mark.parametrize("before", [{}, {"e": {"n": 3, "r": 9}}])
def test_a_join_lets_go_though_etcd_has_refused_what_it_took(before, monkeypatch, tmp_path):
    kept = dict(before)

    class Full:
        """A log whose etcd refuses what crosses its quota when it has made it."""

        def __init__(self, members, name):
            pass

        async def agreed(self):
            """Nothing of it matters."""

        async def told(self, what):
            return dict(kept)

        async def tell(self, what, node, told):
            kept[node] = told
            if not told["n"]:
                raise NoSpace("no space")

        async def forget(self, node):
            del kept[node]

        def close(self):
            """It has no connection."""
    monkeypatch.setattr(init_join, "Log", Full)
    raised(NoSpace, init_join.join, str(tmp_path / "new"), "e", "nothing", [], "test", None, None)
    assert kept == before


@pytest.mark.parametrize("answers", (True, False))
def test_a_node_that_begins_keeps_no_connection_that_it_asks_nothing_more_of(monkeypatch, answers):
    opened = []

    class Noted:
        """A log whose connections are noted."""

        def __init__(self, *_):
            opened.append(self)

        async def agreed(self, _):
            if not answers:
                raise JpstoreError("no such log")
            return Agreed("0" * 32, 2_000_000, "", "1")

        async def told(self, *_):
            return {}

        def close(self):
            opened.remove(self)

    class Small:
        """A store that is smaller than what was agreed on."""

        file, status = "store", {"capacity": 1_000_000}

        async def place(self, _):
            return None
    monkeypatch.setattr(node, "Log", Noted)
    raised(JpstoreError, asyncio.run, running._made(Settings("a", "store", [], "test", "socket"), Small()))
    assert not opened


def test_a_node_ends_for_good_though_nothing_can_be_written_about_it(capsys, monkeypatch, tmp_path):
    async def ended(_):
        raise Astray("other documents")
    monkeypatch.setattr(running, "_serve", ended)
    # With `.astray` it is longer than a name may be.
    settings = Settings("a", str(tmp_path / ("f" * 250)), [], "test", str(tmp_path / "socket"))
    raised(Astray, running.run_node, settings)
    assert "f.astray cannot be written: File name too long" in capsys.readouterr().err


@pytest.mark.parametrize("made, more", [(crashing_program, 0), (lacking_program, "heavy")])
def test_what_stands_in_for_a_program_ends_with_it_and_with_a_node_that_was_killed(program, tmp_path, made, more):
    file, streams = str(tmp_path / "store"), {"stdin": subprocess.PIPE, "stdout": subprocess.PIPE}
    subprocess.run([program, "format", file, "--sectors", "4096"], check=True, stdout=subprocess.DEVNULL)
    words = ["serve", file]
    with subprocess.Popen([made(str(tmp_path), program, more), *words], **streams) as first:
        first.stdin.write(STATUS)
        first.stdin.flush()
        assert json.loads(first.stdout.readline())["ok"]
        in_use = subprocess.run([program, *words], stdin=subprocess.DEVNULL, stderr=subprocess.DEVNULL, check=False)
        with subprocess.Popen([str(tmp_path / f"{made.__name__.partition('_')[0]}"), *words], **streams,
                              stderr=subprocess.DEVNULL) as second:
            second.stdin.write(STATUS)
            second.stdin.flush()
            assert second.wait(PATIENCE) == in_use.returncode != 0
        # The rest of the line never comes.
        first.stdin.write(STATUS[:9])
        first.stdin.close()
        assert first.wait(PATIENCE) == 0
    subprocess.run([program, *words], stdin=subprocess.DEVNULL, check=True)


def test_what_is_said_of_an_etcd_that_does_not_answer(capsys):
    reach = Reach(["a:1", "b:2"], True)
    reach.failed(0, ConnectionRefusedError(111, "refused"), time.monotonic())
    reach.failed(0, ConnectionRefusedError(111, "refused"), time.monotonic())
    assert capsys.readouterr().err == "", "it may answer soon"
    reach.answered()
    long_ago = time.monotonic() - 4
    reach.failed(0, ssl.SSLError(1, "[SSL: TLSV1_ALERT_UNKNOWN_CA] tlsv1 alert unknown ca"), long_ago)
    assert capsys.readouterr().err == "", "one failure may be that of this side"
    reach.failed(0, ConnectionResetError(104, "reset"), long_ago)
    told = "etcd does not answer; a:1: refused certificate: it does not take that of this node: "
    said = capsys.readouterr().err
    assert said.startswith(told) and said.endswith("; b:2: not asked yet\n")
    reach.failed(1, asyncio.TimeoutError(), long_ago)
    assert capsys.readouterr().err == "" and reach.told().endswith("; b:2: no answer in time")
    reach.answered()
    assert capsys.readouterr().err == "etcd answers again\n"


def test_a_warning_comes_thirty_days_before_a_certificate_ends():
    day = 86_400
    assert warning_of("a", None) == warning_of("a", int(time.time()) + 31 * day) == []
    assert warning_of("a", int(time.time()) + 7 * day) == ["a: a certificate ends in 7 days: renew it"]
    assert warning_of("a", int(time.time()) - 1) == ["a: a certificate has ended: renew it"]


@pytest.mark.parametrize("days", [2, 40_000])
def test_the_end_of_a_certificate_is_that_which_openssl_tells(tmp_path, days):
    made = ["openssl", "req", "-x509", "-newkey", "ec", "-pkeyopt", "ec_paramgen_curve:prime256v1", "-nodes", "-subj",
            "/CN=a", "-keyout", "a.key", "-out", "a.crt", "-days", str(days)]
    subprocess.run(made, cwd=tmp_path, check=True, stderr=subprocess.DEVNULL)
    told = subprocess.check_output(["openssl", "x509", "-in", tmp_path / "a.crt", "-noout", "-enddate"], text=True)
    path = str(tmp_path / "a.crt")
    assert Secure(path, path, str(tmp_path / "a.key")).end == ssl.cert_time_to_seconds(told.strip().partition("=")[2])
