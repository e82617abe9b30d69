#!/usr/bin/env python3
"""Sends random requests to the gateway, and compares each answer with a model of the store.

    fuzz_http.py PROGRAM [--requests N] [--damaged SHARE] [--seed S] [--formats 2 3] [--caches 1 3000 67108864]

Eight clients send requests whose answers are known exactly, over names of their own: with any framing, chunks, many at once, percent-
encoding, escapes, members that are there twice, conditions, patches, merge patches, transactions, and what is no JSON; in format 3 also
with keys, by which they are sent again. Others send requests that were damaged: bytes changed, cut out, doubled, or the connection ended
or reset meanwhile. One follows the changes.

In the end each change that was answered has been sent under its number, as the model made it, and no other of these names. What was sent
makes the documents that are stored, with their schemas and revisions. Of what damaged requests were answered, each number is that of a
change of theirs.

The N requests, 20,000 if not said, are shared among gateways over a file of format 2 and of format 3, with each of these caches, and over
a hub of each. The stores are made in the folder that TMPDIR names. The last line is `N passed, M failed`.
"""
import argparse
import asyncio
import contextlib
import importlib.util
import json
import os
import random
import re
import subprocess
import sys
import tempfile
import time
import traceback

sys.path[:0] = [os.path.join(os.path.dirname(os.path.abspath(__file__)), "..", *names) for names in (["long"], ["..", "tools"])]
from http_requests import Difference, Requests, accepted, expect
from server import use_server
from store_model import same, told

CLIENTS = os.path.normpath(os.path.join(os.path.dirname(os.path.abspath(__file__)), "..", "..", "clients", "python"))
DEBIAN_PYTHON = "/usr/bin/python3"
PATIENCE = 60
EXACT_CLIENTS, DAMAGING_CLIENTS = 8, 24

# How long an answer to a damaged request is waited for, in seconds.
SOON = 1.0

# No change of a few bytes of a damaged request leads to the names of the others.
EXACT_NAMES, DAMAGED_NAMES = "exactly-", "0000000"

# What a gateway may answer to anything.
STATUSES = {200, 201, 204, 304, 400, 403, 404, 405, 409, 410, 411, 412, 413, 414, 415, 417, 421, 422, 431, 501, 505}


class Answer:
    """The status, the fields and the content of an answer; no content if the request was `HEAD` or the status has none."""

    def __init__(self, status, fields, content):
        self.status, self.fields, self.content = status, fields, content


# ---- requests as bytes


def framed(choose, asked, last):
    """The bytes of a request in one of the ways in which it may be written, and whether the connection ends with it."""
    version = "1.0" if last and choose.random() < 0.3 else "1.1"
    fields = dict([("Host", choose.choice(["127.0.0.1", "localhost", "LOCALHOST:80", "127.0.0.1:8080"])), *asked.fields])
    if last and version == "1.1":
        fields["Connection"] = "close"
    body = b"" if asked.body is None else asked.body
    if asked.body is not None and version == "1.1" and choose.random() < 0.4:
        fields["Transfer-Encoding"], body = "chunked", chunked(choose, body)
    elif asked.body is not None:
        fields["Content-Length"] = str(len(body))
    if choose.random() < 0.1:
        fields["X-" + "y" * choose.randrange(1, 40)] = "z" * choose.randrange(2000)
    lines = [f"{asked.method} {asked.target} HTTP/{version}"]
    for name in choose.sample(list(fields), len(fields)):
        spelled = choose.choice([name, name.lower(), name.upper()])
        after = "" if name == "Host" else choose.choice(["", "", " "])
        lines.append(f"{spelled}:{choose.choice(['', ' ', '  ', chr(9)])}{fields[name]}{after}")
    return "\r\n".join(lines).encode() + b"\r\n\r\n" + body


def chunked(choose, body):
    """The body in chunks."""
    made, place = [], 0
    while place < len(body):
        size = choose.choice([1, 2, 3, 16, 100, 70_000])
        piece = body[place:place + size]
        length = f"{len(piece):{choose.choice(['x', 'X', '04x'])}}"
        made.append(length.encode() + choose.choice([b"", b"", b";a=b"]) + b"\r\n" + piece + b"\r\n")
        place += size
        if len(made) > 50:
            made.append(b"%x\r\n%b\r\n" % (len(body) - place, body[place:]) if place < len(body) else b"")
            break
    return b"".join(made) + b"0\r\n\r\n"


def damaged(choose, request):
    """The bytes with up to three changes."""
    for _ in range(choose.randrange(1, 4)):
        # Most of them where the gateway looks first.
        end = len(request) if choose.random() < 0.5 else request.find(b"\r\n\r\n") + 4
        at = choose.randrange(max(end, 1))
        more = at + choose.choice([1, 1, 2, 5, 30])
        kind = choose.randrange(7)
        if kind == 0:
            request = request[:at] + bytes([choose.randrange(256)]) + request[at + 1:]
        elif kind == 1:
            request = request[:at] + request[more:]
        elif kind == 2:
            request = request[:more] + request[at:]
        elif kind == 3:
            request = request[:at] + choose.choice([b"\r\n", b"\n", b"\0", b":", b" ", b"\r\n\r\n", b"%", b'"', b"0"]) + request[at:]
        elif kind == 4:
            request = request[:at]
        elif kind == 5:
            length = b"Content-Length: %d" % choose.choice([0, 1, len(request), 2097153, 1 << 62])
            request = re.sub(rb"(?i)content-length:[^\r]*", lambda _: length, request)
        else:
            request = re.sub(rb"(?i)transfer-encoding:[^\r]*", b"Transfer-Encoding: " + choose.choice([b"gzip", b"xchunked", b""]), request)
    return request


# ---- connections


class Lost(Exception):
    """The connection ended before the answer came."""


class Connection:
    """A connection to the gateway."""

    def __init__(self, port):
        self._port, self._reader, self._writer = port, None, None

    async def send(self, choose, content):
        """Sends bytes, at once or in pieces."""
        if self._writer is None:
            self._reader, self._writer = await asyncio.open_connection("127.0.0.1", self._port, limit=1 << 22)
        cuts = sorted(choose.randrange(len(content)) for _ in range(choose.choice([0, 0, 0, 1, 3])))
        for begin, end in zip([0, *cuts], [*cuts, len(content)]):
            self._writer.write(content[begin:end])
            if cuts:
                await asyncio.sleep(0)

    async def answer(self, method):
        """The next answer."""
        try:
            return await asyncio.wait_for(self._answer(method), PATIENCE)
        except (OSError, asyncio.IncompleteReadError, EOFError) as error:
            raise Lost from error

    async def _answer(self, method):
        head = (await self._reader.readuntil(b"\r\n\r\n")).decode("latin-1").split("\r\n")
        fields = {name.lower(): value.strip() for name, _, value in (line.partition(":") for line in head[1:])}
        status = int(head[0].split()[1])
        if method == "HEAD" or status in (204, 304):
            return Answer(status, fields, None)
        if fields.get("transfer-encoding") == "chunked":
            return Answer(status, fields, await self._chunks())
        if "content-length" in fields:
            return Answer(status, fields, await self._reader.readexactly(int(fields["content-length"])))
        return Answer(status, fields, await self._reader.read())

    async def _chunks(self):
        content = b""
        while True:
            size = int(await self._reader.readuntil(b"\r\n"), 16)
            content += (await self._reader.readexactly(size + 2))[:size]
            if not size:
                return content

    async def ended(self):
        """Whether the gateway ends the connection now, and sends nothing more."""
        return await asyncio.wait_for(self._reader.read(), PATIENCE) == b""

    async def all_soon(self):
        """What comes within a short time."""
        taken = b""
        with contextlib.suppress(OSError, asyncio.TimeoutError):
            while True:
                piece = await asyncio.wait_for(self._reader.read(1 << 16), SOON)
                taken += piece
                if not piece or re.search(rb'\r\n\r\n.*[}\]]\n?$', taken, re.S):
                    break
        return taken

    def close(self, reset=False):
        """Ends it."""
        if self._writer is not None and reset:
            self._writer.transport.abort()
        elif self._writer is not None:
            self._writer.close()
        self._reader = self._writer = None


# ---- clients


class Run:
    """What the clients share: the numbers of the answered changes, and what was found wrong."""

    def __init__(self, port, count, share):
        self.port = port
        self.numbers, self.of_damaged, self.faults = {}, [], []
        self.exact = self.damaged = self.failures = 0
        self._most_damaged = int(count * share)
        self._most_exact = count - self._most_damaged

    def goes_on(self, damaged=False):
        """Whether further requests are wanted."""
        left = self.damaged < self._most_damaged if damaged else self.exact < self._most_exact
        return left and not self.faults


def shown(content):
    """The bytes of a request or an answer, for people."""
    return content[:1500].decode("utf-8", "backslashreplace") + ("..." if len(content) > 1500 else "")


async def ask_exactly(run, choose, prefix, has_keys):
    """Sends requests, up to eight at once, and judges each answer."""
    requests, connection = Requests(choose, prefix, has_keys), Connection(run.port)
    while run.goes_on():
        some = [requests.next() for _ in range(choose.choice([1, 1, 1, 1, 2, 3, 8]))]
        ends = choose.random() < 0.03
        contents = [framed(choose, asked, ends and asked is some[-1]) for asked in some]
        try:
            await connection.send(choose, b"".join(contents))
            for asked, content in zip(some, contents):
                judge_answer(run, requests, asked, content, await connection.answer(asked.method))
            if ends:
                expect(await connection.ended(), "the connection goes on after its last answer")
                connection.close()
        except (Difference, Lost, asyncio.TimeoutError) as error:
            run.faults.append(f"{error!r} after\n" + "\n".join(map(shown, contents)))
    connection.close()
    return requests


def judge_answer(run, requests, asked, content, answer):
    """Compares an answer with what is expected, and notes the numbers of changes."""
    run.exact += 1
    try:
        asked.expects(answer)
    except (Difference, KeyError, ValueError, TypeError) as error:
        raise Difference(f"{error}\n{shown(content)}\nwas answered {answer.status} {answer.fields}\n{shown(answer.content or b'')}") from None
    if not asked.changes:
        return
    for number, name, document in accepted(asked, json.loads(answer.content)["seq"]):
        expect(number > requests.last and number not in run.numbers, f"{number} was the number of an earlier change")
        requests.last = number
        run.numbers[number] = name, document


async def ask_damaged(run, choose, prefix):
    """Sends damaged requests, each over a connection of its own, and notes which changes were answered."""
    requests = Requests(choose, prefix)
    while run.goes_on(damaged=True):
        content = b"".join(framed(choose, requests.next(), False) for _ in range(choose.choice([1, 1, 2])))
        content, connection = damaged(choose, content) or b"\r\n", Connection(run.port)
        run.damaged += 1
        with contextlib.suppress(OSError):
            await connection.send(choose, content)
            taken = b"" if choose.random() < 0.1 else await connection.all_soon()
            judge_damaged(run, content, taken)
        connection.close(reset=choose.random() < 0.3)


def judge_damaged(run, content, taken):
    """Looks at what a damaged request was answered."""
    statuses = {int(status) for status in re.findall(rb"^HTTP/\d\.\d (\d{3}) ", taken)}
    run.failures += 500 in statuses
    if statuses - STATUSES - {500} or (taken and not statuses and not taken.startswith(b"HTTP/")):
        run.faults.append(f"{shown(content)}\nwas answered\n{shown(taken)}")
    run.of_damaged += map(int, re.findall(rb'^\{"seq": (\d+)(?:, "warnings": \[.*\])?\}$', taken, re.M))


async def follow(port, changes):
    """Takes all changes, from the first one on."""
    reader, writer = await asyncio.open_connection("127.0.0.1", port, limit=1 << 22)
    writer.write(b"GET /changes?from=0 HTTP/1.0\r\nHost: 127.0.0.1\r\n\r\n")
    assert b" 200 " in await reader.readline()
    with contextlib.suppress(asyncio.CancelledError):
        async for line in reader:
            if line.startswith(b"data: "):
                changes.append(json.loads(line[6:]))
            expect(not line.startswith(b"event: "), f"the follower is told {line}")
    writer.close()


# ---- the end


async def get(port, target, **fields):
    """The content of an answer."""
    connection, lines = Connection(port), [f"GET {target} HTTP/1.1", "Host: localhost", *(f"{name}: {value}" for name, value in fields.items())]
    await connection.send(random.Random(0), "\r\n".join(lines).encode() + b"\r\n\r\n")
    answer = await connection.answer("GET")
    connection.close()
    expect(answer.status == 200, f"{target} is answered {answer.status}")
    return answer.content


def judge_changes(run, changes):
    """What was sent is what was answered and what the model made of it; answers the documents that it makes."""
    expect([change["seq"] for change in changes] == list(range(1, len(changes) + 1)), "the numbers that were told have gaps, or come twice")
    documents = {}
    for change in changes:
        seq, command = change["seq"], change["change"]
        name = command["name"]
        told(documents, command, seq)
        if seq not in run.numbers:
            expect(not name.startswith(EXACT_NAMES), f"the change {change} was not asked for")
            continue
        wanted = run.numbers[seq]
        expect(name == wanted[0], f"the change {change} was answered to who changed {wanted[0]}")
        found = documents.get(name)
        expect((found and found.texts()) == (wanted[1] and wanted[1].texts()), f"the change {change} makes another document than the model")
    missing = [seq for seq in run.numbers if seq > len(changes)]
    expect(not missing, f"answered and never told: {missing[:20]}")
    return documents


def judge_damaged_numbers(run, changes):
    """Each number that a damaged request was answered is that of a change of such a one."""
    for seq in run.of_damaged:
        expect(seq <= len(changes) and seq not in run.numbers, f"{seq} was answered twice, or is not told")
    expect(len(set(run.of_damaged)) == len(run.of_damaged), "a number was answered twice")


async def judge_documents(port, documents, clients):
    """The documents that are stored are those of the changes and those of the models."""
    lines = [json.loads(line) for line in (await get(port, "/documents", Accept="application/x-ndjson")).splitlines()]
    wanted = [{"doc": each.value, "name": name, "rev": each.revision.number, "schema": each.schema} for name, each in documents.items()]
    expect(same(lines, wanted), "the documents that are stored are not those of the changes")
    for client in clients:
        for name, each in client.store.documents.items():
            found = documents.get(name)
            expect(found and (found.texts(), found.revision.number) == (each.texts(), each.revision.number), f"{name} is not that of the model")
    known = {name for client in clients for name in client.store.documents}
    expect({name for name in documents if name.startswith(EXACT_NAMES)} == known, "there are others than those of the models")


# ---- processes


@contextlib.contextmanager
def started(words, log):
    """A process that says when it serves; answers what it says."""
    environment = {**os.environ, "PYTHONPATH": CLIENTS}
    with subprocess.Popen(words, stdout=subprocess.PIPE, stderr=log, env=environment, text=True) as process:
        try:
            line = process.stdout.readline()
            assert line, f"{words} does not start"
            yield line
        finally:
            process.terminate()
            expect(process.wait(PATIENCE) == 0, f"{words} ends with {process.returncode}")


@contextlib.contextmanager
def gateway(program, folder, number, cache, log):
    """A gateway over a new store of this format, with a cache of so many bytes or over a hub; answers its port."""
    file = os.path.join(folder, "store")
    subprocess.run([program, "format", file, "--sectors", "65536", "--format", str(number)], check=True, stdout=subprocess.DEVNULL)
    package, options = [sys.executable, "-m", "jpstore"], ["--cache", str(cache)]
    with contextlib.ExitStack() as stack:
        if cache is None:
            hub = os.path.join(folder, "socket")
            stack.enter_context(started([*package, "hub", file, "--socket", hub, "--program", program], log))
            file, options = hub, []
        words = [os.environ["JPSTORE_SERVER"], file, "--listen", "127.0.0.1:0", *options, "--program", program, "--python", sys.executable]
        yield int(re.search(r":(\d+)/$", stack.enter_context(started(words, log)))[1])


async def tried(port, count, share, seed, has_keys):
    """Sends this many requests, this share of them damaged, and judges what is there then; answers what was counted and found."""
    run, changes = Run(port, count, share), []
    following = asyncio.ensure_future(follow(port, changes))
    exact = [ask_exactly(run, random.Random(f"{seed} {index}"), f"{EXACT_NAMES}{index}-", has_keys) for index in range(EXACT_CLIENTS)]
    others = [ask_damaged(run, random.Random(f"{seed} damaged {index}"), f"{DAMAGED_NAMES}{index}") for index in range(DAMAGING_CLIENTS)]
    clients = (await asyncio.gather(*exact, *others))[:EXACT_CLIENTS]
    if run.faults:
        following.cancel()
        return run, changes
    try:
        seq = json.loads(await get(port, "/status"))["seq"]
        end = time.monotonic() + PATIENCE
        while len(changes) < seq and time.monotonic() < end and not following.done():
            await asyncio.sleep(0.05)
        documents = judge_changes(run, changes)
        expect(len(changes) == seq, f"{seq} changes were made, and {len(changes)} told")
        judge_damaged_numbers(run, changes)
        await judge_documents(port, documents, clients)
    except Difference as difference:
        run.faults.append(str(difference))
    following.cancel()
    with contextlib.suppress(asyncio.CancelledError):
        await following
    return run, changes


def part(program, number, cache, words, seed):
    """Whether nothing is wrong with a gateway over a file, or over a hub, in this format."""
    begin = time.monotonic()
    with tempfile.TemporaryDirectory(prefix="jpstore-") as folder, open(os.path.join(folder, "log"), "w+b") as log:
        try:
            with gateway(program, folder, number, cache, log) as port:
                run, changes = asyncio.run(tried(port, words.requests, words.damaged, seed, number > 2))
            faults = run.faults
        except Exception:  # Whatever is raised, the other parts go on.
            print(traceback.format_exc())
            return False
        log.seek(0)
        tracebacks = log.read().count(b"Traceback")
    where = f"format {number}, over a " + ("hub" if cache is None else f"file with a cache of {cache:,} bytes")
    print(f"{where}: {run.exact:,} requests with a known answer, {run.damaged:,} damaged ones, {len(changes):,} changes, {len(run.of_damaged):,} of "
          f"them answered to damaged requests; {run.failures} answers 500, {tracebacks} tracebacks; {time.monotonic() - begin:.0f} seconds", flush=True)
    for fault in faults[:5]:
        print(fault + "\n", flush=True)
    return not faults


def main():
    parser = argparse.ArgumentParser(description=__doc__, formatter_class=argparse.RawDescriptionHelpFormatter)
    parser.add_argument("program")
    parser.add_argument("--requests", type=int, default=20_000)
    parser.add_argument("--seed", type=int, default=random.randrange(1 << 32))
    parser.add_argument("--damaged", type=float, default=0.3, help="the share of the requests that are damaged")
    parser.add_argument("--formats", type=int, nargs="+", default=[2, 3])
    parser.add_argument("--caches", type=int, nargs="*", default=[1, 3000, 1 << 26])
    words = parser.parse_args()
    if importlib.util.find_spec("jsonschema") is None:
        if os.path.exists(DEBIAN_PYTHON) and os.path.realpath(sys.executable) != os.path.realpath(DEBIAN_PYTHON):
            # Debian's packages are for Debian's interpreter.
            os.execv(DEBIAN_PYTHON, [DEBIAN_PYTHON, *sys.argv])
        print("not tried, since this Debian package is missing: python3-jsonschema\n0 passed, 0 failed")
        return 0
    use_server()
    print(f"seed {words.seed}", flush=True)
    parts = [(number, cache) for number in words.formats for cache in (*words.caches, None)]
    words.requests //= len(parts)
    program = os.path.abspath(words.program)
    passed = sum(part(program, number, cache, words, f"{words.seed} {number} {cache}") for number, cache in parts)
    print(f"{passed} passed, {len(parts) - passed} failed")
    return 0 if passed == len(parts) else 1


if __name__ == "__main__":
    sys.exit(main())
