"""What the parts of `bench.py` share: command lines, a program that serves, and times."""
import json
import subprocess
import threading
import time


def line_of(command):
    return json.dumps(command, separators=(",", ":")).encode() + b"\n"


def create(name, doc, schema=True):
    return line_of({"cmd": "create", "name": name, "schema": schema, "doc": doc})


def patch(name, ops):
    return line_of({"cmd": "patch", "name": name, "ops": ops})


def replace(pointer, value):
    return {"op": "replace", "path": pointer, "value": value}


class Program:
    """A program that serves, and what it takes for lines."""

    def __init__(self, words):
        self.process = subprocess.Popen(words, stdin=subprocess.PIPE, stdout=subprocess.PIPE)

    def __enter__(self):
        return self

    def __exit__(self, *ended):
        self.process.stdin.close()
        self.process.stdout.close()
        self.process.wait()

    def replies(self, lines):
        """The replies to these lines, which are sent while replies are read."""
        sender = threading.Thread(target=self.send, args=(b"".join(lines),))
        sender.start()
        replies = [self.process.stdout.readline() for _ in lines]
        sender.join()
        return replies

    def send(self, sent):
        self.process.stdin.write(sent)
        self.process.stdin.flush()

    def do(self, *lines):
        """Sends lines that must be done, and answers the last reply."""
        replies = [json.loads(reply) for reply in self.replies(lines)]
        for reply in replies:
            if not reply["ok"]:
                raise SystemExit(f"bench.py: refused: {reply}")
        return replies[-1]

    def seconds(self, *lines):
        """How long lines take that must be done."""
        start = time.perf_counter()
        replies = self.replies(lines)
        took = time.perf_counter() - start
        for reply in replies:
            if b'"ok":true' not in reply:
                raise SystemExit(f"bench.py: refused: {reply.decode()}")
        return took


def in_memory(program, sectors=65_536):
    return Program([program, "mem", "--sectors", str(sectors)])


def formatted(program, path, *words, sectors=65_536):
    """The path of a new store, as text."""
    subprocess.run([program, "format", path, "--sectors", str(sectors), *words], check=True, stdout=subprocess.DEVNULL)
    return str(path)


def least(rounds, *measures):
    """The least time of each of these, which are measured in turns, so that a slow moment meets all."""
    times = [[measure() for measure in measures] for _ in range(rounds)]
    return [min(column) for column in zip(*times)]


def milliseconds(seconds):
    return f"{seconds * 1e3:.1f} ms"
