"""Judges a run of nodes by the log, as one jpstore makes it alone, and by the times of the clients.

1. Every node ends with the documents, in the order, with the revisions, schemas and number of changes that one program
   makes of the log, which is sent each line alone.
2. Every reply that a client got to a change is the one of that program. Each change is in the log once at most, and
   each that was answered is there.
3. The whole store is linearizable, with the log as the order of the changes: no change comes before one that had ended
   before it began. Each read answers what a place of the log had that its times allow, and that no earlier read passed.
"""
import bisect
import heapq
import json
import os
import re
import subprocess
import tempfile
from collections import Counter

ID = re.compile(r"#\d+-\d+")
NOWHERE = 1 << 60

# The refusals of lines that a node doesn't append: by their form, for room, for memory, without a majority.
OWN = (10, 11, 12, 14, 60, 63, 82)

# A folder in memory, if there is one.
MEMORY = "/dev/shm" if os.access("/dev/shm", os.W_OK) else None


class Alone:
    """One program over an empty store in memory, or in a file, which is sent line after line."""

    def __init__(self, program, sectors=64, file=None):
        words = ["serve", file] if file else ["mem", "--sectors", str(sectors)]
        self._process = subprocess.Popen([program, *words], stdin=subprocess.PIPE, stdout=subprocess.PIPE)

    def ask(self, command):
        line = command if isinstance(command, bytes) else json.dumps(command).encode() + b"\n"
        self._process.stdin.write(line)
        self._process.stdin.flush()
        return json.loads(self._process.stdout.readline())

    def close(self):
        self._process.stdin.close()
        self._process.stdout.close()
        self._process.wait()


def played(program, entries):
    """What one program answers to each line of the log, and what it has in the end."""
    with tempfile.TemporaryDirectory(dir=MEMORY) as folder:
        file = f"{folder}/store"
        words = ["format", file, "--sectors", "1048576", "--format", "3", "--sparse"]
        subprocess.run([program, *words], check=True, stdout=subprocess.DEVNULL)
        alone = Alone(program, file=file)
        try:
            return [[alone.ask(line) for line in lines] for lines in entries], state_of(alone.ask)
        finally:
            alone.close()


def state_of(ask):
    """All documents, in order, with revisions and schemas, and the number of changes."""
    rows = [[name, ask({"cmd": "rev", "name": name})["rev"], ask({"cmd": "get", "name": name, "path": ""})["value"],
             ask({"cmd": "get-schema", "name": name})["value"]] for name in ask({"cmd": "list"})["names"]]
    return [rows, ask({"cmd": "status"})["seq"]]


def id_of(line):
    """What a client called its change."""
    found = ID.search(line if isinstance(line, str) else line.decode())
    return found.group() if found else None


class Operation:
    """What a client asked, and when; `end` is None if there was no answer."""

    def __init__(self, id, begin, command):
        self.id, self.begin, self.command = id, begin, command
        self.end, self.reply, self.place = None, None, None

    @property
    def changes(self):
        return self.command["cmd"] not in ("get", "rev")


def operations_in(path):
    """The operations that a client has written down."""
    operations = {}
    with open(path, encoding="utf-8") as file:
        for line in file:
            if not line.endswith("\n"):
                break
            kind, id, time, what = json.loads(line)
            if kind == "ask":
                operations[id] = Operation(id, time, what)
            elif kind == "reply":
                operations[id].end, operations[id].reply = time, what
    return list(operations.values())


class Judge:
    """The log with what is answered to it, the nodes' states, and the operations of all clients."""

    def __init__(self, program, entries, states, operations):
        self.problems, self.counts = [], {}
        self._operations = operations
        self._replies, state = played(program, entries)
        for node, found in states.items():
            if found != state:
                differing = [(mine, its) for mine, its in zip(state[0], found[0]) if mine != its][:2]
                self._wrong(f"node {node} has other documents than the log makes", [found[1], state[1]], differing)
        self._read(entries)

    def _wrong(self, *what):
        self.problems.append(" ".join(str(part)[:600] for part in what))

    def _read(self, entries):
        """Where each change is in the log, and what each document has at each place."""
        self._place_of, self._history = {}, {}
        place = 0
        for lines, replies in zip(entries, self._replies):
            for line, reply in zip(lines, replies):
                place += 1
                id = id_of(line)
                if id in self._place_of:
                    self._wrong("twice in the log:", id)
                self._place_of[id] = (place, reply)
                if reply["ok"]:
                    self._make(json.loads(line), place, reply["seq"], id)

    def _make(self, command, place, seq, id):
        changes = command["changes"] if command["cmd"] == "transaction" else [command]
        for number, change in enumerate(changes, seq - len(changes) + 1):
            states = self._history.setdefault(change["name"], [])
            if change["cmd"] == "delete":
                states.append((place, None, None))
            elif change["cmd"] == "schema":
                states.append((place, states[-1][1], number))
            else:
                states.append((place, id, number))

    def judge(self):
        """Judges all operations; what is wrong is in `problems`."""
        changes = [operation for operation in self._operations if operation.changes]
        reads = [operation for operation in self._operations if not operation.changes and operation.end is not None]
        for operation in changes:
            self._judge_reply(operation)
        done = [operation for operation in changes if operation.place is not None]
        self._judge_order(done)
        self._judge_reads(done, reads)
        answered = [operation for operation in changes if operation.end is not None]
        self.counts = {"acknowledged": sum(operation.reply["ok"] for operation in answered),
                       "refused": Counter(each.reply["number"] for each in answered if not each.reply["ok"]),
                       "not answered": len(changes) - len(answered), "reads": len(reads)}
        return self

    def _judge_reply(self, operation):
        place, reply = self._place_of.get(operation.id, (None, None))
        operation.place = place
        if operation.end is None:
            return
        if place is None:
            if operation.reply.get("number") not in OWN:
                self._wrong("answered, and not in the log:", operation.id, operation.reply)
        elif reply["ok"] and not operation.reply["ok"]:
            self._wrong("refused, and made:", operation.id, operation.reply, reply)
        elif reply != operation.reply:
            self._wrong("answered otherwise than alone:", operation.command, operation.reply, reply)

    def _judge_order(self, changes):
        latest = -1.0
        for operation in sorted(changes, key=lambda operation: operation.place):
            if operation.end is not None and operation.end < latest:
                self._wrong("a change had ended before an earlier one of the log began:", operation.id)
            latest = max(latest, operation.begin)

    def _judge_reads(self, changes, reads):
        ended, begun = _greatest_ended(changes), _least_begun(changes)
        seen, passed = [], 0
        for read in sorted(reads, key=lambda read: read.begin):
            while seen and seen[0][0] < read.begin:
                passed = max(passed, heapq.heappop(seen)[1])
            low, high = max(_at(ended, read.begin, 0), passed), _from(begun, read.end, NOWHERE)
            place = self._place_for(read, low, high)
            if place is None:
                self._wrong("a read that no place of the log allows:", read.command, read.reply, low, high)
            else:
                heapq.heappush(seen, (read.end, place))

    def _place_for(self, read, low, high):
        """The least place from `low` on and before `high` at which the document has what was read."""
        states = [(0, None, None), *self._history.get(read.command["name"], [])]
        if read.reply.get("number") == 82:
            return low
        for state, following in zip(states, [*states[1:], (NOWHERE, None, None)]):
            if following[0] > low and state[0] < high and _is_read(state, read.reply):
                return max(low, state[0])
        return None


def _is_read(state, reply):
    if reply["ok"]:
        return reply["rev"] == state[2] if "rev" in reply else reply["value"] == state[1]
    return reply["number"] == 21 and state[2] is None


def _greatest_ended(changes):
    """For each end of a change the greatest place of the changes that had ended by then."""
    steps, greatest = [], 0
    for end, place in sorted((each.end, each.place) for each in changes if each.end is not None):
        greatest = max(greatest, place)
        steps.append((end, greatest))
    return steps


def _least_begun(changes):
    """For each begin of a change the least place of the changes that began then or later."""
    steps, least = [], NOWHERE
    for begin, place in sorted(((each.begin, each.place) for each in changes), reverse=True):
        least = min(least, place)
        steps.append((begin, least))
    return steps[::-1]


def _at(steps, time, none):
    index = bisect.bisect_left(steps, (time, -1)) - 1
    return steps[index][1] if index >= 0 else none


def _from(steps, time, none):
    index = bisect.bisect_right(steps, (time, NOWHERE))
    return steps[index][1] if index < len(steps) else none
