"""The gateway with clients that mean ill or go away, and with a store that goes away: nothing is lost or mixed up."""
import contextlib
import http.client
import json
import os
import re
import resource
import select
import signal
import socket
import threading
import time
import types
from urllib.parse import quote

import pytest
from gateways import Events, Gateway
from hubs import Hub
from support import PACKAGE, PATIENCE, until

TOKEN = "correct-horse-battery-staple"


@pytest.fixture
def gateway(place):
    place.format()
    with Gateway(place) as running:
        yield running


def responses_in(raw):
    """The status, the fields and the content of each response in a stream of bytes (RFC 9112)."""
    found = []
    while raw:
        head, _, raw = raw.partition(b"\r\n\r\n")
        status, *fields = head.decode("latin-1").split("\r\n")
        headers = {name.lower(): value.strip() for name, _, value in (field.partition(":") for field in fields)}
        length = int(headers.get("content-length", 0))
        found.append((int(status.split()[1]), headers, raw[:length]))
        raw = raw[length:]
    return found


def request(method, path, body=b"", **fields):
    lines = [f"{method} {path} HTTP/1.1", "Host: 127.0.0.1"]
    lines += [f"{name.replace('_', '-')}: {value}" for name, value in fields.items()]
    if body:
        lines += ["Content-Type: application/json", f"Content-Length: {len(body)}"]
    return "\r\n".join(lines).encode() + b"\r\n\r\n" + body


# Who may ask.

def test_a_token(place):
    place.format()
    file = place.secret("token", TOKEN + "\n")
    with Gateway(place, "--token-file", file) as gateway:
        for fields in ({}, {"Authorization": "Bearer wrong"}, {"Authorization": f"Basic {TOKEN}"},
                       {"Authorization": f"Bearer {TOKEN}x"}, {"Authorization": TOKEN},
                       {"Authorization": "Bearer \xe9"}):
            for method, path in (("GET", "/documents"), ("PUT", "/documents/a"), ("GET", "/changes"),
                                 ("POST", "/transactions"), ("GET", "/metrics"), ("GET", "/nothing")):
                answer = gateway.ask(method, path, b"1" if method[0] == "P" else None, **fields)
                assert (answer.status, answer.json()["name"]) == (401, "token"), (path, fields)
                assert answer.headers["WWW-Authenticate"].startswith("Bearer")
        known = {"Authorization": f"Bearer {TOKEN}"}
        assert gateway.put("/documents/a", 1, **known).status == 201
        assert gateway.get("/documents/a", **known).json() == 1
        # The page and what shows nothing of the store.
        for path in ("/", "/page.js", "/page.css", "/healthz", "/openapi.json"):
            assert gateway.get(path).status == 200


def test_another_address_needs_a_token(place):
    place.format()
    ended = place.run("http", place.file, "--listen", "0.0.0.0:0", status=1)
    assert b"needs a token (--token-file)" in ended.stderr
    short = place.secret("short", "abc")
    assert b"16 or more" in place.run("http", place.file, "--token-file", short, status=1).stderr
    for listen in ("8080", "127.0.0.1", "127.0.0.1:99999", ":80", "::1:80"):
        assert b"is not HOST:PORT" in place.run("http", place.file, "--listen", listen, status=1).stderr


def test_pages_of_other_origins(place, gateway):
    own = gateway.url
    assert gateway.put("/documents/a", 1, Origin=own).status == 201
    for origin in ("http://example.org", "null", "http://127.0.0.1", own + "1"):
        for method, path in (("GET", "/documents"), ("PUT", "/documents/a"), ("OPTIONS", "/documents/a"),
                             ("POST", "/transactions")):
            answer = gateway.ask(method, path, Origin=origin)
            assert (answer.status, answer.json()["name"]) == (403, "origin"), origin
            assert answer.headers["Access-Control-Allow-Origin"] is None
    # A name of another page that leads here.
    refused = gateway.get("/documents", Host="example.org")
    assert refused.status == 421 and "--token-file" in refused.json()["advice"]
    for host in (gateway.host, "localhost:80", "LOCALHOST"):
        assert gateway.get("/documents", Host=host).status == 200, host


def test_an_origin_that_is_let_in(place):
    place.format()
    asked = "https://example.org"
    with Gateway(place, "--origin", asked, "--token-file", place.secret("token", TOKEN)) as gateway:
        answer = gateway.ask("OPTIONS", "/documents/a", Origin=asked, Access_Control_Request_Method="PUT",
                             Access_Control_Request_Headers="authorization,if-match")
        assert (answer.status, answer.headers["Access-Control-Allow-Origin"]) == (204, asked)
        assert {"PUT", "POST"} <= set(answer.headers["Access-Control-Allow-Methods"].split(", "))
        assert "If-Match" in answer.headers["Access-Control-Allow-Headers"]
        known = {"Authorization": f"Bearer {TOKEN}", "Origin": asked}
        answer = gateway.put("/documents/a", 1, **known)
        assert (answer.status, answer.headers["Access-Control-Allow-Origin"]) == (201, asked)
        assert "ETag" in answer.headers["Access-Control-Expose-Headers"]
        assert gateway.put("/documents/a", 1, Origin=asked).status == 401
        assert gateway.get("/documents", Origin="https://example.com").status == 403


# Bodies.

def test_a_body_over_the_limit(gateway):
    gateway.put("/documents/a", 1)
    before = gateway.memory()
    with gateway.raw() as client:
        client.sendall(request("PUT", "/documents/a", Content_Length=1 << 40, Content_Type="application/json"))
        assert client.recv(1 << 16).startswith(b"HTTP/1.1 413 ")
    # In chunks, without an end.
    with gateway.raw() as client:
        client.sendall(request("PUT", "/documents/a", Transfer_Encoding="chunked", Content_Type="application/json"))
        with contextlib.suppress(OSError):
            for _ in range(40):
                client.sendall(b"10000\r\n" + b" " * 65536 + b"\r\n")
        assert client.recv(1 << 16).startswith(b"HTTP/1.1 413 ")
    assert gateway.get("/documents/a").json() == 1
    assert gateway.memory() - before < 50 << 20


def test_a_body_of_very_many_values_holds_nobody_up_for_long(gateway):
    members = ",".join(f'"k{number}":1' for number in range(100000))
    # A name that is there twice, too, since that is looked for.
    for body, status in ((f'{{{members},"k0":2}}', 413), ("[" + "[]," * 600000 + "[]]", 413), ("{" + members, 400)):
        begin = time.monotonic()
        assert gateway.put("/documents/many", body.encode()).status == status
        assert time.monotonic() - begin < 15


def test_many_long_bodies_at_once_have_bounded_memory(gateway):
    before = gateway.memory()
    clients = [gateway.raw() for _ in range(64)]
    for client in clients:
        client.sendall(request("PUT", "/documents/a", Content_Length=1 << 21, Content_Type="application/json"))
        with contextlib.suppress(OSError):
            client.sendall(b" " * ((1 << 21) - 1))
    assert gateway.get("/status").status == 200
    readable, _, _ = select.select(clients, [], [], PATIENCE)
    assert readable
    for client in readable:
        assert client.recv(1 << 16).startswith(b"HTTP/1.1 503 ")
    assert gateway.memory() - before < 200 << 20
    for client in clients:
        client.close()
    until(lambda: gateway.put("/documents/a", "x" * 100000).status in (200, 201), "room for a body")


# Connections.

def test_a_thousand_connections(gateway):
    _, hard = resource.getrlimit(resource.RLIMIT_NOFILE)
    if hard < 4096:
        pytest.skip("this needs 4,096 open files")
    resource.setrlimit(resource.RLIMIT_NOFILE, (4096, hard))
    gateway.put("/documents/a", 1)
    clients = [gateway.raw() for _ in range(1000)]
    # Half requests of each kind: a line, some fields, a part of a body.
    for index, client in enumerate(clients):
        client.sendall((b"GET /doc", b"GET / HTTP/1.1\r\nHost: x\r\n",
                        request("PUT", "/documents/a", Content_Length=9, Content_Type="application/json") + b"12",
                        b"")[index % 4])
    assert gateway.get("/documents/a").json() == 1
    # Those that go on are answered.
    for client in clients[3::4]:
        client.sendall(request("GET", "/documents/a"))
    for client in clients[3::4]:
        with client.makefile("rb") as lines:
            while lines.readline() != b"\r\n":
                pass
            assert lines.read(1) == b"1"
    for client in clients:
        client.close()
    assert gateway.get("/documents/a").json() == 1


def test_pipelined_requests_are_answered_in_order(gateway):
    for index in range(20):
        gateway.put(f"/documents/d{index}", {"n": index})
    with gateway.raw() as client:
        asked = [request("GET", f"/documents/d{index % 20}") for index in range(200)]
        changes = [request("PUT", f"/documents/e{index}", b"%d" % index) for index in range(20)]
        client.sendall(b"".join(asked + changes + [request("GET", "/documents/e19", Connection="close")]))
        found = responses_in(b"".join(iter(lambda: client.recv(1 << 16), b"")))
    assert [json.loads(content) for _, _, content in found[:200]] == [{"n": index % 20} for index in range(200)]
    assert [status for status, _, _ in found[200:]] == [201] * 20 + [200]
    assert found[-1][2] == b"19"


def test_a_storm_of_pipelined_requests(gateway):
    gateway.put("/documents/a", "x" * 500000)
    before = gateway.memory()
    with gateway.raw() as client:
        client.settimeout(2)
        storm = request("GET", "/documents/a") * 1000
        # Nothing is read: the gateway stops reading too, or closes the connection.
        with contextlib.suppress(OSError):
            for _ in range(200):
                client.sendall(storm)
        assert gateway.get("/healthz").status == 200
    assert gateway.memory() - before < 100 << 20


def test_a_client_that_never_reads_is_not_read_further(gateway):
    before = gateway.memory()
    with gateway.raw() as client:
        client.settimeout(2)
        storm = request("GET", "/page.css") * 1000
        with pytest.raises(OSError):
            for _ in range(1000):
                client.sendall(storm)
        assert gateway.get("/healthz").status == 200
    assert gateway.memory() - before < 100 << 20


@pytest.mark.parametrize("method, fields", [
    ("GET", {}), ("GET", {"Content_Length": "1"}), ("PUT", {"Content_Length": "1"}),
    ("PUT", {"Content_Length": "1", "Connection": "upgrade", "Upgrade": "x"})])
def test_what_is_sent_while_the_store_is_slow_has_bounded_memory(gateway, method, fields):
    gateway.put("/documents/a", 1)
    program = gateway.program()
    os.kill(program, signal.SIGSTOP)
    before = gateway.memory()
    with gateway.raw() as client:
        client.settimeout(2)
        sent = request(method, "/documents/a", Content_Type="application/json", **fields)
        client.sendall(sent + b"2" * ("Content_Length" in fields))
        with pytest.raises(OSError):
            for _ in range(1000):
                client.sendall(request("GET", "/page.css") * 1000)
        assert gateway.memory() - before < 50 << 20
        os.kill(program, signal.SIGCONT)
        client.settimeout(PATIENCE)
        assert client.recv(12) == b"HTTP/1.1 200"
    assert gateway.get("/documents/a").json() == (1 if method == "GET" else 2)


def test_slow_readers_do_not_hold_others_up(gateway):
    gateway.put("/documents/a", "x" * 1000000)
    before = gateway.memory()
    clients = [gateway.raw() for _ in range(50)]
    for client in clients:
        client.sendall(request("GET", "/documents/a"))
    assert gateway.get("/healthz").status == 200
    assert len(gateway.get("/documents/a").json()) == 1000000
    assert gateway.memory() - before < 200 << 20
    for client in clients:
        client.close()


def test_a_follower_that_is_too_slow_is_told(place):
    place.format(16384)
    # On a slow machine the changes take longer than a client has for a piece of an answer.
    with Gateway(place, "--patience", "600") as gateway, gateway.raw() as client:
        client.setsockopt(socket.SOL_SOCKET, socket.SO_RCVBUF, 1 << 16)
        client.sendall(request("GET", "/changes?from=0", Connection="close"))
        before = gateway.memory()
        # More than the hub keeps: 16 MiB.
        for index in range(80):
            assert gateway.put("/documents/a", chr(97 + index % 26) * 500000).status in (200, 201)
        assert gateway.memory() - before < 100 << 20
        taken = b"".join(iter(lambda: client.recv(1 << 20), b""))
        last = int(re.findall(rb"^id: (\d+)-", taken, re.M)[-1])
        kept = int(re.search(rb'event: gone\ndata: {"from":(\d+)}\n\n', taken).group(1))
        # Who comes again from there has to read the documents first.
        answer = gateway.get("/changes", Last_Event_ID=str(last))
        assert (answer.status, answer.json()["number"], answer.json()["from"], last < kept) == (410, 80, kept, True)
        with Events(gateway, f"/changes?from={kept}") as events:
            assert events.next()[2] == str(kept + 1)


def test_a_client_that_goes_away_is_done_with(gateway):
    gateway.put("/documents/mine", "mine")
    for index in range(30):
        with gateway.raw() as client:
            client.sendall(request("PUT", f"/documents/left-{index}", b'"left"'))
            # Without waiting for the answer, and with a reset.
            client.setsockopt(socket.SOL_SOCKET, socket.SO_LINGER, b"\1\0\0\0\0\0\0\0")
        assert gateway.get("/documents/mine").json() == "mine"
    assert all(gateway.get(f"/documents/{name}").json() == "left" for name in
               gateway.get("/documents?prefix=left-").json())


def test_what_is_no_http_is_refused(gateway):
    long = b"GET / HTTP/1.1\r\nHost: x\r\n" + b"a: b\r\n" * 3 + b"c" * 100000 + b": d\r\n\r\n"
    for sent, status in ((b"\x16\x03\x01\x02\x00\x01\x00\x01\xfc\x03\x03", 400), (b"GET / HTTP/9.9\r\n\r\n", 505),
                         (b"nonsense\r\n\r\n", 400), (long, 431)):
        with gateway.raw() as client:
            with contextlib.suppress(OSError):
                client.sendall(sent)
                client.shutdown(socket.SHUT_WR)
            answer = b""
            with contextlib.suppress(OSError):
                answer = b"".join(iter(lambda: client.recv(1 << 16), b""))
            assert not answer or answer.startswith(b"HTTP/1.1 %d " % status), answer
    assert gateway.get("/healthz").status == 200


def test_a_field_without_a_name_is_refused(gateway):
    """RFC 9110, 5.1: the name of a field is a token, which has a character or more."""
    with gateway.raw() as client, client.makefile("rb") as answer:
        client.sendall(b'PUT /documents/none HTTP/1.1\r\nHost: localhost\r\n:IF-MATCH:\t"1"\r\n'
                       b'CONTENT-LENGTH:1\r\nConnection: close\r\n\r\n1')
        assert answer.readline() == b"HTTP/1.1 400 Bad Request\r\n"
    assert gateway.get("/documents/none").status == 404


# With eight branches at each of eight levels the library looks at the innermost value 16,777,216 times.
BRANCHES = {"$ref": "#/$defs/a", "$defs": {"a": {"anyOf": [
    {"properties": {"x": {"$ref": "#/$defs/a"}, "n": {"type": "integer"}}, "minProperties": number}
    for number in range(2)] * 4}}}
VALID, INVALID = [b'{"x":' * 8 + b'{"n":%b}' % number + b"}" * 8 for number in (b"1", b'"no"')]


def made_long(gateway):
    """Makes a document whose faults take the library very long."""
    assert gateway.put(f"/documents/long?schema={quote(json.dumps(BRANCHES))}", VALID).status == 201


def test_a_document_whose_faults_are_long_to_find_holds_nobody_up(place):
    pytest.importorskip("jsonschema")
    place.format()
    with Gateway(place) as gateway:
        made_long(gateway)
        assert gateway.put("/documents/short?schema=%7B%22type%22:%22integer%22%7D", 1).status == 201
        told = gateway.told(lambda told: "errors" in told, "PUT", "/documents/short", "x").json()
        assert [fault["keyword"] for fault in told["errors"]] == ["/type"]
        files = len(os.listdir(f"/proc/{gateway.process.pid}/fd"))

        def refused():
            answer = gateway.put("/documents/long", INVALID)
            assert (answer.status, "errors" in answer.json()) == (422, False)
        for _ in range(3):
            asking = threading.Thread(target=refused)
            asking.start()
            slowest = 0.0
            while asking.is_alive():
                begin = time.monotonic()
                assert gateway.get("/documents/short").status == 200
                slowest = max(slowest, time.monotonic() - begin)
            assert slowest < 10
        # A process that took too long is gone, with its pipes, and another one looks.
        gateway.told(lambda again: again.get("errors") == told["errors"], "PUT", "/documents/short", "x")
        # There may be two of them, each with two pipes.
        until(lambda: len(os.listdir(f"/proc/{gateway.process.pid}/fd")) <= files + 2, "the end of the pipes")
        until(lambda: all(state_of(child) != "Z" for child in gateway.children()), "the end of the processes")
        with gateway.raw() as client:
            client.sendall(request("PUT", "/documents/long", INVALID))
            until(lambda: len(gateway.children()) > 1, "the process that looks, or another one that begins")
            children, begin = gateway.children(), time.monotonic()
            assert gateway.end() == (0, "")
            assert time.monotonic() - begin < 10
            assert not any(os.path.exists(f"/proc/{child}") for child in children)


def state_of(process):
    """The letter that tells the state of a process; none if it has gone."""
    return (fields_of(process) or [""])[0]


def fields_of(process):
    """What the system tells of a process after its name, from its state on; nothing if it has gone."""
    with contextlib.suppress(OSError):
        with open(f"/proc/{process}/stat", encoding="ascii", errors="replace") as opened:
            return opened.read().rpartition(")")[2].split()
    return []


def test_a_look_for_faults_ends_though_its_gateway_is_killed(place):
    pytest.importorskip("jsonschema")
    place.format()
    with Gateway(place) as gateway:
        made_long(gateway)
        program = gateway.program()
        with gateway.raw() as client:
            client.sendall(request("PUT", "/documents/long", INVALID))
            others = until(lambda: set(gateway.children()) - {program}, "the process that looks")
            gateway.kill()
            for child in others:
                until(lambda: state_of(child) in ("", "Z"), "the end of the process")


# The store goes away.

@pytest.mark.parametrize("version", [2, 3])
def test_the_store_of_a_hub(place, version):
    place.format(version=version)
    with Hub(place) as hub, Gateway(place, store=hub.path) as gateway:
        assert gateway.put("/documents/a", 1).status == 201
        with hub.connect() as store, Events(gateway, "/changes?from=1") as events:
            store.create("b", 2)
            assert json.loads(events.next()[1])["change"]["name"] == "b"
            hub.kill()
            for path in ("/documents/a", "/documents", "/healthz", "/changes"):
                answer = gateway.get(path)
                assert (answer.status, answer.json()["name"]) == (503, "unavailable"), path
                assert answer.headers["Retry-After"]
            assert gateway.put("/documents/a", 2).status == 503
            assert b"jpstore_up 0\n" in gateway.get("/metrics").body
            with Hub(place, options=("--wait", "30")):
                assert gateway.get("/documents/a").json() == 1
                assert gateway.put("/documents/a", 2).status == 200
                # The stream has gone on by itself, or says that it can't.
                told = events.next()
                assert told[0] == "message" and json.loads(told[1])["seq"] == int(told[2]) == 3 if version == 3 else \
                    told[:2] == ("gone", '{"from":2}')
        status, errors = gateway.end()
        assert (status, errors) == (0, "")


def test_a_gateway_ends_though_its_hub_hangs(place):
    place.format()
    with Hub(place) as hub, Gateway(place, store=hub.path) as gateway, gateway.raw() as client:
        assert gateway.put("/documents/a", 1).status == 201
        os.kill(hub.process.pid, signal.SIGSTOP)
        # More than the socket of the hub takes.
        client.sendall(request("PUT", "/documents/b", b'"%b"' % (b"x" * 1_000_000)))
        time.sleep(1)
        begin = time.monotonic()
        assert gateway.end() == (0, "")
        assert time.monotonic() - begin < 10


def test_a_gateway_with_a_hub_of_its_own(place):
    place.format()
    path = place.path("hub")
    with Gateway(place, "--socket", path) as gateway:
        from jpstore import Store
        with Store.connect(path) as store, Events(gateway, "/changes") as events:
            store.create("a", 1)
            assert json.loads(events.next()[1])["change"]["name"] == "a"
            assert gateway.get("/documents/a").json() == 1
            begin = time.monotonic()
            status, errors = gateway.end()
            # Its streams do not hold its end up.
            assert (status, errors, events.next()) == (0, "", None)
            assert time.monotonic() - begin < 10
        assert not os.path.exists(path)
    with place.store(wait=PATIENCE) as store:
        assert store.get("a") == 1


def test_a_gateway_whose_program_is_killed_ends(place):
    place.format()
    with Gateway(place) as gateway:
        gateway.put("/documents/a", 1)
        gateway.kill_program()
        assert gateway.process.wait(PATIENCE) == 1
        assert re.search("ended by signal 9", gateway.process.stderr.read().decode())


def test_what_a_killed_program_has_not_answered_is_told(place):
    place.format()
    asked = [("PUT", "/documents/a", b"2"), ("POST", "/transactions", b'{"changes":[{"cmd":"delete","name":"a"}]}'),
             ("GET", "/documents/a", None), ("GET", "/healthz", None)]
    told = []
    with Gateway(place) as gateway:
        gateway.put("/documents/a", 1)
        program = gateway.program()
        os.kill(program, signal.SIGSTOP)

        def ask(*request):
            answer = gateway.ask(*request)
            told.append((request[0], answer.status, answer.json()["name"]))
        threads = [threading.Thread(target=ask, args=request, daemon=True) for request in asked]
        for thread in threads:
            thread.start()
        # Until the program has been sent the lines of all.
        time.sleep(1.5)
        os.kill(program, signal.SIGKILL)
        for thread in threads:
            thread.join(PATIENCE)
    assert sorted(told) == [("GET", 503, "unavailable"), ("GET", 503, "unavailable"), ("POST", 502, "answer-lost"),
                            ("PUT", 502, "answer-lost")]


def test_a_lost_answer_is_told(place):
    from serving import FakeHub
    path = place.path("socket")
    with FakeHub(path, None, {"ok": True, "rev": 1}, None, None) as hub, Gateway(place, store=path) as gateway:
        answer = gateway.patch("a", [])
        assert (answer.status, answer.json()["name"]) == (502, "answer-lost")
        assert "may or may not be stored" in answer.json()["detail"]
        # A change is not sent a second time.
        assert [line["cmd"] for line in hub.lines] == ["patch"]
    transaction = {"changes": [{"cmd": "delete", "name": "a"}, {"cmd": "delete", "name": "b"}]}
    with FakeHub(path, None, {"ok": True, "rev": 1}, None) as hub, Gateway(place, store=path) as gateway:
        for answer in (gateway.ask("POST", "/transactions", transaction),
                       gateway.ask("DELETE", "/documents/a", If_Match='"1"')):
            assert (answer.status, answer.json()["name"]) == (502, "answer-lost")
        assert [line["cmd"] for line in hub.lines] == ["transaction", "rev", "transaction"]
        assert hub.lines[0]["changes"] == transaction["changes"]


def test_counts_are_exact_over_kills_of_the_gateway(place):
    place.format()
    acknowledged = {}
    for seconds in (0.4, 0.3):
        with Gateway(place, "--wait", "30") as gateway:
            threads = [threading.Thread(target=_count, args=(gateway, f"c{index}", acknowledged), daemon=True)
                       for index in range(4)]
            for thread in threads:
                thread.start()
            until(lambda: len(acknowledged) == 4, "the first count of each")
            time.sleep(seconds)
            gateway.kill()
            for thread in threads:
                thread.join()
    with place.store(wait=PATIENCE) as store:
        for name, count in acknowledged.items():
            assert count <= store.get(name, "/n") <= count + 1


def _recipe(url):
    """The `send` that docs/use/MODELLING.md shows, for the gateway at this address, and without its long pauses."""
    with open(os.path.join(PACKAGE, "..", "..", "docs", "use", "MODELLING.md"), encoding="utf-8") as opened:
        page = opened.read()
    text = re.search(r"^```python\n(import time\n\nimport requests\n.*?)^def keep_order", page, re.M | re.S).group(1)
    known = {"print": lambda *_: None}
    exec(text.replace("http://127.0.0.1:8080", url), known)
    known["time"] = types.SimpleNamespace(sleep=lambda _: time.sleep(0.02), monotonic=time.monotonic)
    return known["send"]


def _added(send, value):
    """The answer to a change that adds a text to a list, with that text as its key."""
    ops = [{"op": "add", "path": "/-", "value": value}]
    return send("PATCH", "/documents/all", value, "application/json-patch+json", json=ops)


def test_what_the_page_sends_again_is_made_once(place):
    requests = pytest.importorskip("requests")
    place.format(version=3)
    with Gateway(place) as gateway:
        gateway.put("/documents/all?schema=" + quote('{"maxItems":2}'), [])
        send = _recipe(gateway.url)

        def losing(*words, **named):
            """Sends it, and answers that it may be stored or not."""
            answer = requests.request(*words, **named)
            sent.append(answer.status_code)
            answer.status_code = statuses.pop() if statuses else answer.status_code
            return answer
        statuses, sent = [504, 503, 502, 500], []
        send.__globals__["requests"] = types.SimpleNamespace(**{**vars(requests), "request": losing})
        assert (_added(send, "a").json(), sent) == ({"seq": 2}, [200] * 5)
        assert [_added(send, value).status_code for value in "bcc"] == [200, 422, 422]
        assert (len(sent), gateway.get("/documents/all").json()) == (8, ["a", "b"])


def test_what_the_page_sends_is_made_once_over_kills_of_the_gateway(place):
    pytest.importorskip("requests")
    place.format(version=3)
    asked, wrong, stop = {}, [], threading.Event()

    def add(name, send):
        try:
            while not stop.is_set():
                asked[name] = asked.get(name, 0) + 1
                assert _added(send, f"{name}-{asked[name]}").status_code == 200
        except Exception as error:
            wrong.append(error)
    with Hub(place) as hub:
        with hub.connect() as store:
            store.create("all", [])
        gateway = Gateway(place, store=hub.path)
        threads = [threading.Thread(target=add, args=(f"c{index}", _recipe(gateway.url)), daemon=True)
                   for index in range(3)]
        for thread in threads:
            thread.start()
        for _ in range(3):
            time.sleep(0.4)
            gateway.kill()
            gateway = Gateway(place, "--listen", gateway.host, store=hub.path)
        until(lambda: wrong or (len(asked) == 3 and min(asked.values()) > 1), "the second change of each")
        stop.set()
        for thread in threads:
            thread.join()
        gateway.kill()
        with hub.connect() as store:
            wanted = [f"{name}-{number}" for name, count in asked.items() for number in range(1, count + 1)]
            assert (wrong, sorted(store.get("all"))) == ([], sorted(wanted))


def _count(gateway, name, acknowledged):
    """Counts a document up by revisions, and notes what was acknowledged, until the gateway is gone."""
    with contextlib.suppress(OSError, http.client.HTTPException):
        gateway.put(f"/documents/{name}", {"n": 0}, If_None_Match="*")
        answer = gateway.get(f"/documents/{name}")
        count, tag = answer.json()["n"], answer.tag()
        while True:
            answer = gateway.put(f"/documents/{name}", {"n": count + 1}, If_Match=tag)
            if answer.status != 200:
                return
            count, tag = count + 1, answer.tag()
            acknowledged[name] = count
