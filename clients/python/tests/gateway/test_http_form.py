"""The form of requests and answers, to the letter: RFC 8288, 9110 and 9112."""
import contextlib
import socket

import pytest
from gateways import Events, Gateway

TOKEN = "correct-horse-battery-staple"
ORIGIN = "https://example.org"
TYPED = {"type": "integer"}


@pytest.fixture(scope="module")
def gateway(program):
    """One gateway, which lets a page of another origin in, with a document that has a schema."""
    import tempfile

    from support import Place
    with tempfile.TemporaryDirectory(prefix="jpstore-") as folder:
        place = Place(program, folder)
        place.format(version=3)
        with Gateway(place, "--origin", ORIGIN) as running:
            assert running.put("/documents/typed?schema=%7B%22type%22:%22integer%22%7D", 1).status == 201
            yield running


def is_refused(answer, status, name):
    """It is Problem Details of this status and this name."""
    assert (answer.status, answer.headers["Content-Type"]) == (status, "application/problem+json"), answer.body
    assert answer.json()["name"] == name, answer.body


def answers_to(gateway, sent):
    """The status, the fields and the content of each answer to these bytes, as long as the connection lasts."""
    with gateway.raw() as client:
        with contextlib.suppress(OSError):
            client.sendall(sent)
            client.shutdown(socket.SHUT_WR)
        told = b"".join(iter(lambda: client.recv(1 << 16), b""))
    found = []
    while told:
        head, _, told = told.partition(b"\r\n\r\n")
        line, *lines = head.decode().split("\r\n")
        fields = dict(field.split(": ", 1) for field in lines)
        length = 0 if sent.startswith(b"HEAD") else int(fields.get("Content-Length", 0))
        found.append((int(line.split()[1]), fields, told[:length]))
        told = told[length:]
    return found


# Links: RFC 8288.

@pytest.mark.parametrize("link", [
    '</schemas/typed>; rel="describedby"; type="application/schema+json"',
    '</schemas/typed>; type="application/schema+json"; rel="describedby"',
    '</schemas/typed>; rel="describedby self"',
    '</schemas/typed>;rel=describedby;title="a, b; rel=\\"next\\""',
    '</schemas/a,b>; rel=next, , </schemas/typed>; REL=DescribedBy',
    '</schemas/%74yped>; rel="describedby"',
    '<http://127.0.0.1:{port}/schemas/typed>; rel="describedby"',
])
def test_a_link_is_read_whole(gateway, link):
    link = link.replace("{port}", str(gateway.port))
    assert gateway.put("/documents/linked", 1, Link=link).status == 201
    assert gateway.get("/schemas/linked").json() == TYPED
    assert gateway.ask("DELETE", "/documents/linked").status == 200


@pytest.mark.parametrize("link", [
    '</schemas/typed; rel="describedby"', '/schemas/typed; rel="describedby"', '</schemas/typed> rel="describedby"',
    '</schemas/typed>; rel="describedby', '</schemas/typed>; rel="describedby"; anchor="#a"',
    '</schemas/typed>; rev="describedby"', '</schemas/typed>; rel=next; rel=describedby', '<typed>; rel="describedby"',
    '</schemas/typed#/items>; rel="describedby"', '<http://127.0.0.1:1/schemas/typed>; rel="describedby"',
    '</schemas/typed>; rel="describedby", </schemas/typed>; rel="describedby"',
])
def test_a_link_that_is_not_understood_is_not_ignored(gateway, link):
    is_refused(gateway.put("/documents/linked", 1, Link=link), 400, "link")
    assert gateway.get("/documents/linked").status == 404


def test_other_links_mean_nothing(gateway):
    link = '</schemas/typed>; rel="next"; title="describedby", </schemas/describedby>; rel="self"'
    assert gateway.put("/documents/other", "x", Link=link).status == 201
    assert gateway.get("/schemas/other").json() is True


# What is no request: RFC 9112, sections 3 and 5.4, and RFC 6585, section 5.

@pytest.mark.parametrize("status, sent", [
    (414, b"GET /" + b"x" * 70_000 + b" HTTP/1.1\r\nHost: localhost\r\n%b\r\n"),
    (414, b"HEAD /" + b"x" * 70_000 + b" HTTP/1.1\r\nHost: localhost\r\n%b\r\n"),
    (431, b"GET / HTTP/1.1\r\nHost: localhost\r\nX: " + b"x" * 20_000 + b"\r\n%b\r\n"),
    (431, b"GET / HTTP/1.1\r\n%bHost: localhost\r\n" + b"X: 1\r\n" * 200 + b"\r\n"),
    (505, b"GET / HTTP/2.0\r\nHost: localhost\r\n%b\r\n"),
    (400, b"GET / HTTP/x\r\nHost: localhost\r\n%b\r\n"),
    (400, b"GET / HTTP/1.1\r\nHost : localhost\r\n%b\r\n"),
], ids=["line", "line of HEAD", "field", "fields", "version", "no version", "blank"])
def test_what_is_no_request_is_told_as_a_problem(gateway, status, sent):
    method = sent.split()[0].decode()
    before = counted(gateway, method, status)
    (found, fields, content), = answers_to(gateway, sent.replace(b"%b", b"Origin: %b\r\n" % ORIGIN.encode()))
    assert found == status
    assert (fields["Content-Type"], fields["X-Content-Type-Options"]) == ("application/problem+json", "nosniff")
    assert (fields["Access-Control-Allow-Origin"], fields["Connection"]) == (ORIGIN, "close")
    assert method == "HEAD" or b'"name": "request"' in content or b'"name":"request"' in content
    assert counted(gateway, method, status) == before + 1


def counted(gateway, method, status):
    """How many answers of this status are counted in the figures."""
    for line in gateway.get("/metrics").body.decode().splitlines():
        if line.startswith(f'jpstore_http_requests_total{{method="{method}",status="{status}"}} '):
            return int(line.split()[-1])
    return 0


def test_a_later_minor_version_and_empty_lines_are_taken(gateway):
    for begin, version in ((b"\r\n\r\n\r\n", b"1.1"), (b"", b"1.7")):
        sent = begin + b"GET /documents/" + b"x" * 20_000 + b" HTTP/" + version + b"\r\nHost: localhost\r\n\r\n"
        (status, fields, _), = answers_to(gateway, sent)
        assert (status, fields["Content-Type"]) == (400, "application/problem+json")
        assert fields["Vary"] == "Origin"


# Fields: RFC 9110, sections 5.6.1, 9.3.7, 11.4 and 12.5.

@pytest.mark.parametrize("accept, kind", [
    ("application/x-ndjson", "application/x-ndjson"),
    ("application/json;q=0.5, application/x-ndjson", "application/x-ndjson"),
    ("application/json, application/x-ndjson;q=0", "application/json"),
    ("application/x-ndjson;q=0.4, application/json;q=0.5", "application/json"),
    ('text/plain;x="application/x-ndjson"', "application/json"),
    ("*/*", "application/json"),
])
def test_the_lines_are_sent_to_who_wants_them(gateway, accept, kind):
    assert gateway.ask("HEAD", "/documents", Accept=accept).headers["Content-Type"] == kind


@pytest.mark.parametrize("path", ["*", "/documents", "/documents/d", "/schemas/d", "/transactions", "/changes",
                                  "/status", "/healthz", "/metrics", "/", "/openapi.json"])
def test_each_path_tells_what_may_be_asked(gateway, path):
    told = gateway.ask("OPTIONS", path)
    assert (told.status, told.body) == (204, b"")
    assert "OPTIONS" in told.headers["Allow"].split(",")
    assert gateway.ask("BREW", path).status == (400 if path == "*" else 405)


def test_the_head_of_the_changes(gateway):
    last = gateway.get("/status").json()["seq"]
    head = gateway.ask("HEAD", f"/changes?from={last}")
    with Events(gateway, f"/changes?from={last}") as events:
        for field in ("Content-Type", "Cache-Control"):
            assert head.headers[field] == events.response.headers[field]
    assert (head.status, head.body) == (200, b"")
    assert gateway.ask("HEAD", f"/changes?from={last + 9}").status == 410


def test_each_answer_tells_that_it_is_for_an_origin(gateway):
    for path in ("/", "/documents", "/documents/typed", "/documents/none", "/nothing", "/status"):
        assert "Origin" in gateway.get(path).headers.get_all("Vary"), path
    assert gateway.get("/documents", Origin="https://example.com").headers["Vary"] == "Origin"


def test_blanks_before_a_token_are_passed_over(place):
    place.format()
    with Gateway(place, "--token-file", place.secret("token", TOKEN)) as gateway:
        for scheme in ("Bearer ", "bearer   "):
            assert gateway.get("/documents", Authorization=scheme + TOKEN).status == 200
        for wrong in ("Bearer" + TOKEN, "Bearer \t" + TOKEN, f"Bearer {TOKEN} x"):
            assert gateway.get("/documents", Authorization=wrong).status == 401


def test_parameters_of_a_key_mean_nothing(gateway):
    """A key is a string of structured fields with any parameters. These have no blank before a semicolon."""
    made = [gateway.put("/documents/keyed", 1, Idempotency_Key=key) for key in ('"k1"', '"k1";x=1', '"k1";  y;z="a;b"')]
    assert [(answer.status, answer.body) for answer in made] == [(201, made[0].body)] * 3
    for key in ('"k1"x', '"k1";', '"k1";=', '"k1", "k2"', '"k1";x="', '"k1" ;x=1', '"k1";X=1'):
        assert gateway.put("/documents/keyed", 1, Idempotency_Key=key).status == 400, key


CHUNKED = (b"PUT /documents/chunked HTTP/1.1\r\nHost: localhost\r\nContent-Type: application/json\r\n"
           b"Transfer-Encoding:%b\r\n\r\n%b")


@pytest.mark.parametrize("codings, content, status", [
    (b", chunked", b"1\r\n1\r\n0\r\n\r\n", 201), (b"chunked,,", b"1;a=b\r\n1\r\n0\r\nX: 1\r\n\r\n", 200),
    (b"gzip, chunked", b"1\r\n1\r\n0\r\n\r\n", 501), (b"chunked, chunked", b"1\r\n1\r\n0\r\n\r\n", 400),
    (b"chunked", b"1;a=\0\r\n1\r\n0\r\n\r\n", 400), (b"chunked", b"1\r\n1\r\n0\r\nX\r\n\r\n", 400),
    (b"chunked", b"1\r\n1\r\n0\r\nX : 1\r\n\r\n", 400), (b"chunked", b"1\r\n1\r\n0\r\nX: \0\r\n\r\n", 400),
])
def test_chunks_are_well_formed(gateway, codings, content, status):
    if status == 200:
        gateway.put("/documents/chunked", 1)
    elif status == 201:
        gateway.ask("DELETE", "/documents/chunked")
    assert answers_to(gateway, CHUNKED % (codings, content))[0][0] == status


@pytest.mark.parametrize("name", [".", "..", "%2e", ".%2E"])
def test_no_document_is_made_to_which_no_path_leads(gateway, name):
    is_refused(gateway.put(f"/documents/{name}", 1), 400, "request")
    create = {"cmd": "create", "doc": 1, "name": name.lower().replace("%2e", "."), "schema": True}
    answer = gateway.ask("POST", "/transactions", {"changes": [{"cmd": "delete", "name": "typed"}, create]})
    is_refused(answer, 400, "request")
    assert answer.json()["change"] == 1
    for name in (".a", "...", "a.."):
        assert gateway.put(f"/documents/{name}", 1).status in (200, 201)
