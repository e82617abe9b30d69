"""A client of the chaos of nodes: reads and changes at random, and writes down what was asked and answered, and when.

    replica_client.py NUMBER SEED OUT PAD SOCKET..

Some patches add a value of PAD bytes, if it isn't 0. It ends when its standard input ends.
"""
import json
import os
import random
import select
import socket
import sys
import time

DOCUMENTS = 10
PATIENCE = 30


class Client:
    """What one client asks, and the file in which it writes that down."""

    def __init__(self, number, seed, out, pad, sockets):
        self._number, self._pad, self._sockets = number, pad, sockets
        self._random = random.Random(f"{seed} {number}")
        self._out = open(out, "w", encoding="utf-8")
        self._count, self._revs = 0, {}
        self._connection = self._lines = None

    def _note(self, *row):
        self._out.write(json.dumps(row) + "\n")

    def _document(self):
        return f"d{self._random.randrange(DOCUMENTS)}"

    def _patch(self, name, id, **more):
        return {"cmd": "patch", "name": name, "ops": [{"op": "replace", "path": "/v", "value": id}], **more}

    def _change(self, id):
        """A change; about half of them are refused, on purpose."""
        name, roll = self._document(), self._random.random()
        if roll < 0.02:
            return self._large(name, id)
        if roll < 0.12 and self._pad:
            pad = {"op": "add", "path": "/pad", "value": f"{id} " + "x" * self._pad}
            return {"cmd": "patch", "name": name, "ops": [*self._patch(name, id)["ops"], pad]}
        if roll < 0.35:
            return self._patch(name, id)
        if roll < 0.55:
            return self._patch(name, id, if_rev=self._revs.get(name, 0))
        if roll < 0.62:
            # Refused now, and accepted at another time if it were done again.
            test = {"op": "test", "path": "/v", "value": f"?{self._random.randrange(6)}"}
            return {**self._patch(name, id), "ops": [test, {"op": "replace", "path": "/v", "value": id}]}
        if roll < 0.75:
            doc = {"v": id, "pad": "x" * self._random.randrange(300)}
            return {"cmd": "create", "name": name, "doc": doc, "schema": True}
        if roll < 0.80:
            return {"cmd": "schema", "name": name, "schema": {"required": ["v", "pad"], "title": id}}
        if roll < 0.86:
            # Not valid under the schema above.
            return {"cmd": "patch", "name": name, "ops": [{"op": "remove", "path": "/pad"},
                                                          {"op": "replace", "path": "/v", "value": id}]}
        return self._transaction(id)

    def _large(self, name, id):
        """A change that is larger than a node, or a schema, may be."""
        deep = json.loads('{"not":' * 66 + "true" + "}" * 66)
        schema = self._random.choice([{"not": deep, "title": id}, {"pattern": r"^\w{1,255}$", "title": id}])
        if self._random.random() < 0.3:
            return {"cmd": "create", "name": name, "doc": {"v": id, "pad": "x" * 1_000_000}, "schema": True}
        return {"cmd": "schema", "name": name, "schema": schema}

    def _transaction(self, id):
        changes = [self._patch(self._document(), id) for _ in range(self._random.randrange(1, 4))]
        if self._random.random() < 0.3:
            changes.append({"cmd": "delete", "name": self._document()})
            changes.append({"cmd": "create", "name": f"own{self._number}", "doc": {"v": id}, "schema": True})
            changes.append({"cmd": "delete", "name": f"own{self._number}"})
        return {"changes": changes, "cmd": "transaction"}

    def _operations(self):
        """What is sent next, at once: some changes, or a read after some."""
        for _ in range(self._random.choice((1, 1, 1, 2, 6))):
            self._count += 1
            id = f"#{self._number}-{self._count}"
            if self._random.random() < 0.35:
                word = {"cmd": "get", "path": "/v"} if self._random.random() < 0.8 else {"cmd": "rev"}
                yield id, {**word, "name": self._document()}
                return
            yield id, self._change(id)

    def step(self):
        """Sends some lines and takes their replies."""
        if self._connection is None:
            self._connection = socket.socket(socket.AF_UNIX)
            self._connection.settimeout(PATIENCE)
            self._connection.connect(self._random.choice(self._sockets))
            self._lines = self._connection.makefile("rb")
        operations = list(self._operations())
        begin = time.monotonic()
        for id, command in operations:
            self._note("ask", id, begin, command)
        self._connection.sendall(b"".join(json.dumps(command).encode() + b"\n" for _, command in operations))
        for id, command in operations:
            line = self._lines.readline()
            if not line.endswith(b"\n"):
                raise ConnectionError
            reply = json.loads(line)
            self._note("reply", id, time.monotonic(), reply)
            if "rev" in reply or "seq" in reply:
                self._revs[command.get("name")] = reply.get("rev", reply.get("seq"))
        if self._random.random() < 0.05:
            self.leave()

    def leave(self):
        """Closes the connection; the next step makes another one, perhaps to another node."""
        if self._connection is not None:
            self._connection.close()
        self._connection = None

    def run(self):
        """Goes on until standard input ends."""
        os.set_blocking(0, False)
        while not select.select([0], [], [], 0)[0]:
            try:
                self.step()
            except OSError:
                self.leave()
                time.sleep(0.05)
            time.sleep(self._random.random() * 0.02)
        self._out.close()


if __name__ == "__main__":
    Client(int(sys.argv[1]), *sys.argv[2:4], int(sys.argv[4]), sys.argv[5:]).run()
