"""The server jpstored by its own name and options: copies of documents, slow clients, both doors at once."""
import contextlib
import json
import os
import socket
import subprocess
import threading
import time

import pytest
from gateways import Events, Gateway, Server
from hubs import Hub
from jpstore import check_file
from support import PATIENCE, until


def request(method, path, *fields, body=b""):
    """The bytes of a request."""
    lines = [f"{method} {path} HTTP/1.1", "Host: 127.0.0.1", "Content-Type: application/json", *fields]
    return "\r\n".join(lines).encode() + b"\r\n\r\n" + body


def closed_after(server, sent):
    """How long it takes until the server ends a connection, and what it has sent before."""
    begin = time.monotonic()
    with server.raw() as client:
        client.sendall(sent)
        taken = b"".join(iter(lambda: client.recv(1 << 16), b""))
    return time.monotonic() - begin, taken


# Copies of documents.

@pytest.mark.parametrize("options", [[], ["--no-cache"], ["--cache", "3000"]], ids=["copies", "no copies", "few"])
def test_nobody_reads_less_than_was_answered(place, options):
    """Writers count documents up, by both doors, while readers compare with what was answered before they asked."""
    place.format(16384)
    with Server(place, "--socket", place.path("socket"), *options) as server:
        counts, wrong, stop = {f"d{number}": 0 for number in range(6)}, [], threading.Event()

        def write(name, is_hub):
            with contextlib.closing(server.connection()) as connection, hub_of(place) as store:
                while not stop.is_set():
                    doc = {"n": counts[name] + 1, "text": "x" * 500}
                    if is_hub:
                        store.put(name, doc)
                    else:
                        ask(connection, "PUT", f"/documents/{name}", doc)
                    counts[name] += 1

        def read(seed):
            with contextlib.closing(server.connection()) as connection:
                while not stop.is_set():
                    name = f"d{(seed := seed * 5 + 1) % 6}"
                    least = counts[name]
                    status, found = ask(connection, "GET", f"/documents/{name}")
                    if (status, found["n"] if status == 200 else 0) < (200, least) and least:
                        wrong.append((name, least, status, found))
        threads = [threading.Thread(target=write, args=(name, number % 2)) for number, name in enumerate(counts)]
        threads += [threading.Thread(target=read, args=(number,)) for number in range(4)]
        for thread in threads:
            thread.start()
        until(lambda: wrong or min(counts.values()) > 10, "the changes")
        stop.set()
        for thread in threads:
            thread.join()
        assert not wrong


@contextlib.contextmanager
def hub_of(place):
    from jpstore import Store
    with Store.connect(place.path("socket")) as store:
        yield store


def ask(connection, method, path, doc=None):
    """The status and the value of an answer over a connection that is kept."""
    connection.request(method, path, None if doc is None else json.dumps(doc), {"Content-Type": "application/json"})
    answer = connection.getresponse()
    return answer.status, json.loads(answer.read())


def test_a_copy_ends_with_its_document(place):
    place.format()
    with Server(place) as server:
        for count in range(3):
            assert server.put("/documents/d", count).status == 201
            assert [server.get("/documents/d").json() for _ in range(2)] == [count, count]
            changes = [{"cmd": "patch", "name": "d", "ops": [{"op": "replace", "path": "", "value": -1}]}]
            assert server.ask("POST", "/transactions", {"changes": changes}).status == 200
            assert server.get("/documents/d").json() == -1
            assert server.ask("DELETE", "/documents/d").status == 200
            assert server.get("/documents/d").status == 404


# Clients that do nothing.

def test_a_client_that_takes_too_long_is_given_up(place):
    place.format(16384)
    with Server(place, "--patience", "0.6") as server:
        assert server.put("/documents/d", "x" * 1_000_000).status == 201
        for sent in (b"", b"GET / HT", request("GET", "/page.css")):
            seconds, _ = closed_after(server, sent)
            assert 0.5 < seconds < 10
        seconds, taken = closed_after(server, request("PUT", "/documents/e", "Content-Length: 9", body=b"12"))
        assert taken.startswith(b"HTTP/1.1 408 ") and seconds < 10
        with socket.socket() as client:
            client.setsockopt(socket.SOL_SOCKET, socket.SO_RCVBUF, 4096)
            client.connect(("127.0.0.1", server.port))
            client.sendall(request("GET", "/documents/d") * 20)
            time.sleep(3)
            client.settimeout(PATIENCE)
            taken = b""
            with contextlib.suppress(ConnectionError):
                taken = b"".join(iter(lambda: client.recv(1 << 16), b""))
            assert len(taken) < 20_000_000


def test_followers_that_leave_leave_their_places(place):
    place.format()
    with Server(place) as server:
        for _ in range(3):
            followers = [server.raw() for _ in range(500)]
            for client in followers:
                client.sendall(request("GET", "/changes"))
            for client in followers:
                assert client.recv(12) == b"HTTP/1.1 200"
            for client in followers:
                client.close()
            begin = time.monotonic()
            with Events(server, "/changes?from=0") as events:
                assert events.response.status == 200
            assert time.monotonic() - begin < 5


# What is asked.

def test_a_request_has_a_host(place):
    """RFC 9112, 3.2: an HTTP/1.1 request that lacks the field is answered 400."""
    place.format()
    with Server(place) as server:
        for sent, status in ((b"GET / HTTP/1.1\r\n\r\n", b"400"), (b"GET / HTTP/1.0\r\n\r\n", b"421"),
                             (b"GET / HTTP/1.1\r\nHost: localhost\r\n\r\n", b"200"),
                             (b"GET / HTTP/1.1\r\nHost: localhost\r\nHost: localhost\r\n\r\n", b"400"),
                             (b"GET http://localhost/ HTTP/1.1\r\nHost: evil.example\r\n\r\n", b"200"),
                             (b"GET http://evil.example/ HTTP/1.1\r\nHost: localhost\r\n\r\n", b"421")):
            assert status_of(server, sent) == status, sent


def test_with_a_token_any_host_is_asked(place):
    place.format()
    with Server(place, "--token-file", place.secret("token", "correct-horse-battery-staple")) as server:
        for sent, status in ((b"GET / HTTP/1.1\r\n\r\n", b"400"), (b"GET / HTTP/1.0\r\n\r\n", b"200"),
                             (b"GET / HTTP/1.1\r\nHost: other.example\r\n\r\n", b"200"),
                             (b"GET /x HTTP/1.1\r\nOrigin: http://localhost\r\n\r\n", b"400")):
            assert status_of(server, sent) == status, sent


def status_of(server, sent):
    with server.raw() as client:
        client.sendall(sent)
        return client.recv(1 << 16)[9:12]


def test_a_client_that_asks_first_is_told_to_go_on(place):
    """RFC 9110, 10.1.1."""
    place.format()
    with Server(place) as server, server.raw() as client:
        head = request("PUT", "/documents/d", "Content-Length: 1", "Expect: 100-continue")
        client.sendall(head)
        assert client.recv(1 << 16) == b"HTTP/1.1 100 Continue\r\n\r\n"
        client.sendall(b"1")
        assert client.recv(1 << 16).startswith(b"HTTP/1.1 201 ")
        # One that would be refused in any case isn't asked for its body.
        client.sendall(request("PUT", "/documents/d?x=1", "Content-Length: 1", "Expect: 100-continue"))
        assert client.recv(1 << 16).startswith(b"HTTP/1.1 400 ")


def test_a_body_that_is_not_asked_for_is_no_request(place):
    place.format()
    with Server(place) as server, server.raw() as client:
        hidden = request("PUT", "/documents/hidden", "Content-Length: 1", body=b"1")
        client.sendall(request("GET", "/status", f"Content-Length: {len(hidden)}", body=hidden)
                       + request("GET", "/healthz", "Connection: close"))
        taken = b"".join(iter(lambda: client.recv(1 << 16), b""))
        assert taken.count(b"HTTP/1.1 200 OK") == 2
        assert server.get("/documents").json() == []


# Both doors at once.

def test_both_doors_lead_to_one_store(place):
    place.format()
    with Server(place, "--socket", place.path("socket")) as server, hub_of(place) as store, \
            Events(server, "/changes?from=0") as events:
        assert server.put("/documents/a", 1).status == 201
        assert store.create("b", 2) == 2
        assert [json.loads(events.next()[1])["change"]["name"] for _ in range(2)] == ["a", "b"]
        assert (server.get("/documents/b").json(), store.get("a")) == (2, 1)
        server.process.terminate()
        assert server.process.wait(PATIENCE) == 0
    assert not os.path.exists(place.path("socket"))


def test_a_store_that_is_not_there_is_made_if_that_is_asked(place):
    with Server(place, "--new", "--size=1M") as server:
        assert server.put("/documents/d", 1).status == 201
    # One that is there is served as it is.
    with Server(place, "--size", "2M", "--new") as server:
        assert server.get("/documents/d").json() == 1
    assert os.stat(place.file).st_size == 1 << 20
    # In format 3, since it has an identity.
    assert check_file(place.file, place.program).id


def test_a_store_that_cannot_be_made_is_told(place, server):
    for store, options, told in (
            ("folder/store", ["--new"], b"No such file or directory"),
            ("store", ["--new", "--size", "79K"], b"small (71)"),
            ("store", ["--new", "--size", "16MB"], b"the value of '--size'"),
            ("store", ["--size", "16M"], b"--size is the size of a new store"),
            ("store", [], b"No such file or directory")):
        words = place.server_words(place.path(store), "--listen", "127.0.0.1:0", "--wait", "0", *options)
        ended = subprocess.run(words, stdout=subprocess.PIPE, stderr=subprocess.PIPE, timeout=PATIENCE, check=False)
        assert ended.returncode and told in ended.stderr and not ended.stdout, ended
        assert not os.path.exists(place.file)


def test_wrong_words_are_told(place, server):
    rows = [(["--help"], 0, b""), (["--version"], 0, b""), ([], 2, b"which store?"), ([""], 2, b"which store?"),
            (["a", "--none", "1"], 2, b"--none is no option"), (["a", "b"], 2, b"one word too many"),
            ([place.path("none"), "--socket", place.path("s"), "--program", place.program], 1,
             b"none: No such file or directory (")]
    for words, status, told in rows:
        check_refused(server, words, status, told)


def check_refused(server, words, status, told):
    """The server ends with this status at once, and says these words."""
    ended = subprocess.run([server, *words], stdout=subprocess.PIPE, stderr=subprocess.PIPE, timeout=PATIENCE,
                           check=False)
    assert (ended.returncode, told in ended.stderr) == (status, True), (words, ended)


def test_a_store_that_is_not_opened_is_told_with_what_to_do(place, server):
    words = [place.text("text", "no store" * 1000), "--listen", "127.0.0.1:0", "--program", place.program]
    check_refused(server, words, 1, b"text: not-a-store (72): the file does not begin as a store does")
    check_refused(server, words, 1, b")\n  what to do: check that it is the right file\n")
    place.format()
    with open(place.file, "r+b") as file:
        file.seek(16)
        file.write(b"\xff" * 8)
    words[0] = place.file
    check_refused(server, words, 1, b"store: damaged (73): the file begins as a store, but what follows is not one")
    check_refused(server, words, 1, b"restore it from a copy or a dump")


def test_advice_names_commands_as_they_can_be_called(place, server, monkeypatch):
    """Without an installation there is no `jpstore-cli`."""
    folder = place.path("bin")
    os.mkdir(folder)
    monkeypatch.setenv("PATH", folder)
    rows = [["--socket", place.path("s"), "--program", place.program], ["--listen", "127.0.0.1:0", "--wait", "0"]]
    for options in rows:
        check_refused(server, [place.path("none"), *options], 1, b"`python3 -m jpstore ")
    place.text("bin/jpstore-cli", "")
    for options in rows:
        check_refused(server, [place.path("none"), *options], 1, b"`jpstore-cli ")


VALUES = {
    "--origin": ["evil", "null", "*", "https://example.org/", "https://example.org/page", "https://", "http://a b"],
    "--patience": ["0", "-1", "x", "nan", "1e99", "0.05"],
    "--wait": ["-1", "x", "inf"],
    "--cache": ["-1", "1e6", "18446744073709551616", "64MiB"],
    "--pump": ["-1", "1000001", "x"],
    "--listen": ["8080", "127.0.0.1", "127.0.0.1:65536", "127.0.0.1:-1", ":80", "::1:80", "[::1:80"],
    "--socket": ["s" * 108],
    "--token-file": ["no-such-file", "."],
    "--program": ["no-such-program", "/"],
}


@pytest.mark.parametrize("option", VALUES)
def test_a_value_that_an_option_cannot_have_is_told(place, server, option):
    place.format()
    for value in ["", *VALUES[option]]:
        words = [place.file, "--listen", "127.0.0.1:0", "--program", place.program, f"{option}={value}"]
        shown = value.encode() if value and option != "--socket" else option.encode()
        if option == "--socket":
            shown = b"a socket has at most 107 bytes, and this has 108" if value else b"--socket"
        ended = subprocess.run([server, *words], stdout=subprocess.PIPE, stderr=subprocess.PIPE, timeout=PATIENCE,
                               check=False)
        assert (ended.returncode in (1, 2), ended.stderr.count(b"\n"), shown in ended.stderr) == (True, 1, True), ended


def test_a_token_is_read_by_its_owner_alone(place, server):
    place.format()
    path = place.secret("token", "correct-horse-battery-staple")
    words = [place.file, "--listen", "127.0.0.1:0", "--program", place.program, "--token-file", path]
    for rights in (0o604, 0o644, 0o602, 0o666, 0o640, 0o620, 0o660):
        os.chmod(path, rights)
        check_refused(server, words, 1, f"other users can read or write this token: `chmod go= {path}`".encode())
    for text in ("", "\n", "short", "with a blank in its midst"):
        check_refused(server, [*words[:-1], place.secret("other", text)], 1, b"16 or more visible ASCII characters")
    os.chmod(path, 0o400)
    with Server(place, "--token-file", path) as running:
        assert running.get("/documents").status == 401


def test_a_credential_of_systemd_is_a_token(place, server, monkeypatch):
    """Its mode shows the mask of an access control list as the rights of the group."""
    place.format()
    os.mkdir(place.path("credentials"))
    path = place.secret("credentials/token", "correct-horse-battery-staple")
    monkeypatch.setenv("CREDENTIALS_DIRECTORY", place.path("credentials"))
    os.chmod(path, 0o440)
    with Server(place, "--token-file", path) as running:
        assert running.get("/documents").status == 401
    os.chmod(path, 0o444)
    words = [place.file, "--listen", "127.0.0.1:0", "--program", place.program, "--token-file", path]
    check_refused(server, words, 1, b"other users can read or write this token")


def test_an_origin_is_the_same_in_capitals_and_with_its_port(place):
    place.format()
    with Server(place, "--origin", "HTTPS://Example.org:443") as server:
        assert server.get("/documents", Origin="https://example.org").status == 200
        assert server.get("/documents", Origin="https://example.org:444").status == 403


def test_a_port_that_another_program_has_is_told(place, server):
    place.format()
    with socket.create_server(("127.0.0.1", 0)) as other:
        at = f"127.0.0.1:{other.getsockname()[1]}"
        told = f"another program listens at {at}: end it, or choose another port".encode()
        check_refused(server, [place.file, "--listen", at, "--program", place.program, "--wait", "0"], 1, told)


def test_a_port_is_waited_for(place):
    """A server that was killed may have a child that still holds it."""
    place.format()
    with socket.create_server(("127.0.0.1", 0)) as other:
        port = other.getsockname()[1]
        threading.Timer(1, other.close).start()
        with Server(place, "--listen", f"127.0.0.1:{port}", "--wait", "60") as server:
            assert (server.port, server.get("/documents").json()) == (port, [])


def test_a_socket_at_which_another_program_listens_is_waited_for(place):
    place.format()
    with socket.socket(socket.AF_UNIX) as other:
        other.bind(place.path("socket"))
        other.listen()
        threading.Timer(1, other.close).start()
        with Hub(place, options=("--wait", "60")) as hub, hub.connect() as store:
            assert store.names() == []


def test_a_follower_of_a_hub_that_is_away_waits_longer_each_time(place):
    place.format()
    path = place.path("socket")
    with contextlib.ExitStack() as stack:
        hub = stack.enter_context(Hub(place, path=path))
        gateway = stack.enter_context(Gateway(place, store=path))
        stack.enter_context(Events(gateway, "/changes"))
        hub.kill()
        os.unlink(path)
        attempts = []
        with socket.socket(socket.AF_UNIX) as away:
            away.bind(path)
            away.listen()
            away.settimeout(PATIENCE)
            # A twentieth of a second, and twice as long each time up to two seconds, make over 8 in all.
            while len(attempts) < 9:
                away.accept()[0].close()
                attempts.append(time.monotonic())
        assert attempts[-1] - attempts[0] > 5


def test_slow_readers_of_lines_and_changes_have_the_time_of_each_piece(place):
    """Who takes 64 KiB in time gets a line or an event of a megabyte, though that takes longer."""
    place.format(65536)
    with Server(place, "--patience", "8") as server:
        for number in range(6):
            assert server.put(f"/documents/d{number}", str(number) + "x" * 1_000_000).status == 201
        found = {}

        def read(path, *fields):
            found[path] = read_slowly(server, request("GET", path, *fields), 12)
        threads = [threading.Thread(target=read, args=("/documents", "Accept: application/x-ndjson")),
                   threading.Thread(target=read, args=("/changes?from=0",))]
        for thread in threads:
            thread.start()
        for thread in threads:
            thread.join()
        assert found == {"/documents": 6, "/changes?from=0": 6}


def read_slowly(server, sent, seconds):
    """How many texts of a megabyte a client is sent that takes some 100 kB a second for so long, and then the rest."""
    answer = b""
    with socket.socket() as client, contextlib.suppress(ConnectionResetError):
        client.setsockopt(socket.SOL_SOCKET, socket.SO_RCVBUF, 1 << 14)
        client.settimeout(PATIENCE)
        client.connect(("127.0.0.1", server.port))
        client.sendall(sent)
        end = time.monotonic() + seconds
        while time.monotonic() < end:
            answer += client.recv(1 << 14)
            time.sleep(0.15)
        client.setsockopt(socket.SOL_SOCKET, socket.SO_RCVBUF, 1 << 20)
        while len(answer) < 6_000_000 or answer.count(b"x" * 1_000_000) < 6:
            piece = client.recv(1 << 20)
            if not piece:
                break
            answer += piece
    return answer.count(b"x" * 1_000_000)


def test_a_hub_without_http_listens_nowhere_else(place):
    place.format()
    with Hub(place) as hub:
        with open(f"/proc/{hub.process.pid}/net/tcp", encoding="ascii") as opened:
            listening = {line.split()[9] for line in opened if line.split()[3] == "0A"}
        sockets = set()
        for number in os.listdir(f"/proc/{hub.process.pid}/fd"):
            with contextlib.suppress(OSError):
                sockets.add(os.readlink(f"/proc/{hub.process.pid}/fd/{number}").strip("socket:[]"))
        assert not listening & sockets
