"""A gateway as a process of its own, for the tests that need one."""
import contextlib
import http.client
import json
import os
import re
import signal
import socket
import subprocess

from support import PATIENCE, until


class Answer:
    """What a request was answered."""

    def __init__(self, response):
        self.status, self.headers, self.body = response.status, response.headers, response.read()

    def json(self):
        return json.loads(self.body)

    def tag(self):
        return self.headers["ETag"]


class Gateway:
    """A gateway over the file of a place, or over another store."""

    def __init__(self, place, *options, store=None):
        words = place.server_words(store or place.file, "--listen", "127.0.0.1:0", *options)
        self.process = subprocess.Popen(words, stdout=subprocess.PIPE, stderr=subprocess.PIPE, env=place.environment())
        line = self.process.stdout.readline().decode()
        found = re.fullmatch(r".* is served at (http://127\.0\.0\.1:(\d+))/\n", line)
        assert found, self.process.stderr.read()
        self.url, self.port = found.group(1), int(found.group(2))
        self.host = f"127.0.0.1:{self.port}"

    def __enter__(self):
        return self

    def __exit__(self, *_):
        self.kill()

    def kill(self):
        self.process.kill()
        self.process.wait()
        self.process.stdout.close()
        self.process.stderr.close()

    def end(self):
        """Ends it, and returns its status and what it wrote to standard error."""
        self.process.send_signal(signal.SIGTERM)
        status = self.process.wait(PATIENCE)
        return status, self.process.stderr.read().decode()

    def connection(self):
        return http.client.HTTPConnection("127.0.0.1", self.port, timeout=PATIENCE)

    def ask(self, method, path, body=None, **headers):
        """The answer to a request; a body that is not bytes is sent as JSON."""
        fields = {name.replace("_", "-"): value for name, value in headers.items()}
        if body is not None and not isinstance(body, bytes):
            body = json.dumps(body).encode()
        if body is not None:
            fields.setdefault("Content-Type", "application/json")
        with contextlib.closing(self.connection()) as connection:
            connection.request(method, path, body, fields)
            return Answer(connection.getresponse())

    def get(self, path, **headers):
        return self.ask("GET", path, **headers)

    def put(self, path, body, **headers):
        return self.ask("PUT", path, body, **headers)

    def patch(self, name, ops, **headers):
        return self._patch(name, ops, "application/json-patch+json", headers)

    def merge(self, name, patch, **headers):
        return self._patch(name, patch, "application/merge-patch+json", headers)

    def _patch(self, name, patch, kind, headers):
        body = patch if isinstance(patch, bytes) else json.dumps(patch).encode()
        return self.ask("PATCH", f"/documents/{name}", body, Content_Type=kind, **headers)

    def raw(self):
        """A bare connection."""
        connected = socket.create_connection(("127.0.0.1", self.port))
        connected.settimeout(PATIENCE)
        return connected

    def memory(self):
        """The most memory that the process has had, in bytes."""
        with open(f"/proc/{self.process.pid}/status", encoding="ascii") as opened:
            return int(re.search(r"VmHWM:\s*(\d+) kB", opened.read()).group(1)) * 1024

    def children(self):
        """The processes that it has started."""
        with open(f"/proc/{self.process.pid}/task/{self.process.pid}/children", encoding="ascii") as opened:
            return [int(word) for word in opened.read().split()]

    def program(self):
        """The process of the program that it serves by."""
        return next(child for child in self.children() if words_of(child)[1:2] == [b"serve"])

    def kill_program(self):
        os.kill(self.program(), signal.SIGKILL)

    def told(self, holds, method, path, body=None, **headers):
        """The answer to a refused request, once what it tells holds: a reason is left out if it takes over a second."""
        def found():
            answer = self.ask(method, path, body, **headers)
            return answer if holds(answer.json()) else None
        return until(found, "the reason of a refusal")


class Server(Gateway):
    """A server that is started by its own name, with options that the gateway doesn't have."""

    def __init__(self, place, *options):
        words = [os.environ["JPSTORE_SERVER"], place.file, "--listen", "127.0.0.1:0", "--program", place.program,
                 *options]
        self.process = subprocess.Popen(words, stdout=subprocess.PIPE, stderr=subprocess.PIPE, env=place.environment())
        line = self.process.stdout.readline().decode()
        assert " is served at http://127.0.0.1:" in line, self.process.stderr.read()
        self.port = int(line.rsplit(":", 1)[1].strip("/\n"))
        self.host = f"127.0.0.1:{self.port}"
        self.url = f"http://{self.host}"


def words_of(process):
    """The words by which a process was started."""
    with contextlib.suppress(OSError):
        with open(f"/proc/{process}/cmdline", "rb") as opened:
            return opened.read().split(b"\0")
    return []


def without_history(data):
    """A change as an event has it, but for the name of the history up to it."""
    told = json.loads(data)
    assert told.pop("history")
    return told


class Events:
    """A stream of server-sent events, read as HTML says (section 9.2.6)."""

    def __init__(self, gateway, path, **headers):
        self._connection = gateway.connection()
        fields = {name.replace("_", "-"): value for name, value in headers.items()}
        self._connection.request("GET", path, headers=fields)
        self.response = self._connection.getresponse()
        self.last_id = ""

    def __enter__(self):
        return self

    def __exit__(self, *_):
        self._connection.close()

    def next(self):
        """The type, the data and the number in the last identifier of the next event that has data; None at the end."""
        kind, data = "message", []
        while True:
            line = self.response.readline().decode()
            if not line:
                return None
            line = line.rstrip("\n")
            field, _, value = line.partition(":")
            value = value[1:] if value.startswith(" ") else value
            if not line:
                if data:
                    return kind, "\n".join(data), self.last_id.partition("-")[0]
                kind = "message"
            elif field == "data":
                data.append(value)
            elif field == "event":
                kind = value
            elif field == "id":
                self.last_id = value
