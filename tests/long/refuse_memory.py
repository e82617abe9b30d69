#!/usr/bin/env python3
"""Refuses each allocation of the rows of transcripts in turn, and holds what the store then says and keeps.

    refuse_memory.py [FILE..] [--only WORD] [--most N]

FILEs are transcripts, by default all of crates/transcripts/data; --only takes the rows with WORD in their names. The
program is that crate's, as `rt run` left its object there, linked anew by the kit's own compiler and linker with
`refusing_heap.c` in the place of the kit's heap.

Each step of a row, which is a command line or a word that opens, formats or copies, is taken over a new disk again and
again, each time with the next of its allocations refused, until none is met. In a row whose changes are made together the
lines of a session are one step. Of a step with more than N (1,000) the first N are refused, and after them each 997th. It
is answered as the row says, or by 63; by 61 if the disk in memory was refused.

- After a 63 the status and all documents, schemas and revisions are as before, nothing was written to the disk, the same step with
  memory is answered as the row says, and so is the rest of the row.
- If some lines of a session are answered 63, the others are answered, the state is and the disk was written as where
  each of these is no command: it changes nothing, and ends the batch before it.
- After a 61 changes are answered 62, and the disk opened again has the documents from before the step or from after it, or
  after the first of its lines.

In a row that takes over a twentieth of a second a step that was answered 63 is taken again over the same store, and state
and writes are held once it is answered as the row says.

The last line is `N passed, M failed`: runs, and rows that were broken off at a run.
"""
import argparse
import collections
import itertools
import json
import mmap
import os
import pathlib
import re
import struct
import subprocess
import sys
import tempfile
import time

HERE = pathlib.Path(__file__).resolve().parent
CRATE = HERE.parents[1] / "crates" / "transcripts"
FILES = sorted((CRATE / "data").glob("*.txt"))
CLOSED = b"closed\n"
BETWEEN = b"\x1e"  # the lines of a session that is one step
NO_COMMAND = (b"no command", b'{"error":"not-json","number":11,"ok":false}')
DEAR = 0.05  # seconds
STRIDE = 997


class Wrong(Exception):
    """An answer, a state or a record of calls that isn't one of those that may come."""


class Ended(Exception):
    """The player was refused memory outside the store."""


def linked(folder):
    """The player with the heap that refuses."""
    doc = subprocess.run(["rt", "doc"], capture_output=True, text=True, check=True).stdout
    kit = pathlib.Path(doc.strip()).parent
    tools, heap, program = kit / "toolchain", folder / "heap.o", folder / "player"
    subprocess.run([tools / "bin" / "clang", "-O2", "-fPIC", "-c", "-o", heap, HERE / "refusing_heap.c"], check=True)
    parts = [CRATE / "out" / "transcripts.o", heap, kit / "c" / "libos_c.a", kit / "c" / "liblibc_c.a"]
    words = ["--target", "x86_64-unknown-linux-gnu", "--toolchain", tools, "-o", program]
    subprocess.run([kit / "bin" / "rattle-link", *words, *parts], check=True, stderr=subprocess.DEVNULL)
    return program


class Player:
    """The running program, which is asked a step at a time, and its heap's ledger: the allocation to be refused, those
    made since, those refused."""

    LEDGER = struct.Struct("<3Q")

    def __init__(self, folder):
        self.program, self.process = linked(folder), None
        self.ledger_path = folder / "ledger"
        self.ledger_path.write_bytes(bytes(self.LEDGER.size))
        with open(self.ledger_path, "r+b") as file:
            self.ledger = mmap.mmap(file.fileno(), self.LEDGER.size)

    def start(self):
        pipes = {name: subprocess.PIPE for name in ("stdin", "stdout", "stderr")}
        self.process = subprocess.Popen([self.program, "-"], env={"REFUSALS": str(self.ledger_path)}, **pipes)

    def ask(self, step):
        """What is said to a step."""
        try:
            self.process.stdin.write(step + b"\n")
            self.process.stdin.flush()
        except BrokenPipeError:
            pass
        said = []
        for line in self.process.stdout:
            if line == b".\n":
                return b"".join(said)
            said.append(line)
        self.refuse(0)
        process, self.process = self.process, None
        _, errors = process.communicate()
        if process.returncode == 2 and re.fullmatch(rb"transcripts: .*(Memory|OutOfMemory).*\n", errors):
            raise Ended
        raise Wrong("the player ends with status %d, %r, after %r" % (process.returncode, errors, b"".join(said)))

    def refuse(self, allocation):
        """Has the allocation of that number from here on refused, 0 for none."""
        self.ledger[:] = self.LEDGER.pack(allocation, 0, 0)

    def ask_refused(self, step, allocation):
        """What is said to a step of which one allocation is refused, and whether that was met."""
        self.refuse(allocation)
        said = self.ask(step)
        refused = self.LEDGER.unpack(self.ledger[:])[2]
        self.refuse(0)
        return said, refused > 0

    def prepare(self, steps):
        """Takes steps over a new disk."""
        if self.process is None:
            self.start()
        for step in [b"# a row", *steps]:
            self.ask(step)

    def writes(self):
        """The writes that the disk has on record. The store is closed then."""
        return re.findall(rb"write \d+", self.ask(b"!calls 0"))


Row = collections.namedtuple("Row", "name steps wanted")


def rows_of(path):
    """The rows of a transcript, one for each choice, with the texts that their lines name."""
    rows = []
    for text in re.split(r"^# ", path.read_text(encoding="utf-8"), flags=re.M)[1:]:
        name, *lines = (line for line in text.split("\n") if line)
        choices = [line[1:].split(" ") for line in lines if line.startswith("@")]
        for values in itertools.product(*(choice[1:] for choice in choices)):
            chosen = {"%" + choice[0] + "%": value for choice, value in zip(choices, values)}
            rows.append(a_row(name, [written_out(line, chosen) for line in lines if not line.startswith("@")]))
    return rows


def written_out(line, chosen):
    for mark, value in chosen.items():
        line = line.replace(mark, value)
    return re.sub(r"<<(.*?)\*(\d+)>>", lambda it: it[1] * int(it[2]), line)


def a_row(name, lines):
    """A row with its steps, and after each the replies that are expected of the steps up to it."""
    row, are_together = Row(name, [], []), False
    for line in lines:
        if line.startswith("> "):
            row.wanted[-1].append(line[2:].encode())
        elif are_together and not (line.startswith("!") or row.steps[-1].startswith(b"!") or row.wanted[-1]):
            row.steps[-1] += BETWEEN + line.encode()
        else:
            row.steps.append(line.encode())
            row.wanted.append([])
        are_together = are_together or line.startswith("!together ")
    return row


def lines_of(step):
    """The lines of a step that have a reply."""
    return [line for line in step.split(BETWEEN) if line.strip(b" \t\r")]


def beginnings(step):
    """The step, and if it has several lines each number of the first of them."""
    lines = step.split(BETWEEN)
    return [BETWEEN.join(lines[:count + 1]) for count in range(len(lines))]


def agrees(wanted, said):
    if wanted.startswith(b".."):
        return said.endswith(wanted[2:])
    if wanted.startswith(b"#"):
        return len(said) == int(wanted[1:])
    return wanted == said


def hold_to_wanted(row, replies):
    """Holds the replies of a row without refusals to those that it expects."""
    said = []
    for reply, wanted in zip(replies, row.wanted):
        said += reply.split(b"\n")[:-1]
        if wanted:
            if len(said) != len(wanted) or not all(map(agrees, wanted, said)):
                raise Wrong("without refusals it says %r, and %r is wanted" % (said[:4], wanted[:4]))
            said = []


def short(said):
    return said if len(said) <= 300 else said[:200] + b" .. " + said[-80:]


def hold(what, found, wanted):
    if found != wanted:
        raise Wrong("%s is %r in the place of %r" % (what, short(found), short(wanted)))


def number_in(line):
    """The number of a refusal, None if it is none."""
    if line == b"memory":
        return 63
    found = re.fullmatch(rb'(?:refused |\{"error":"[a-z-]+","number":)(\d+)(?:,"ok":false(?:,"op":\d+)?(?:,"rev":\d+)?\})?', line)
    return int(found[1]) if found else None


def numbers_of(said):
    """The numbers of what is said to the lines of a step."""
    return [number_in(line) for line in said.split(b"\n")[:-1]]


def number_of(said):
    """The number of a refusal that is all that is said, to each line of the step, None if it isn't."""
    found = set(numbers_of(said))
    return found.pop() if len(found) == 1 else None


def is_tried(step):
    """Whether a step is the store's. The others are the bench's."""
    return not step.startswith(b"!") or step in (b"!open", b"!format") or step.startswith(b"!pump ")


def is_stop(step):
    """Whether a step sets a stop, which the next opening or formatting takes."""
    return step.startswith((b"!fuse ", b"!fail "))


def numbers(most):
    """The allocations that are refused, of a step with any number of them."""
    return itertools.chain(range(1, most + 1), itertools.count(most + STRIDE, STRIDE))


def documents_of(state):
    """The seq and the documents of a state."""
    if state == CLOSED:
        return state
    status, _, documents = state.partition(b"\n")
    return b"%d\n" % json.loads(status)["seq"] + documents


class Trial:
    """The trial of a row: what it says and holds without refusals, and its runs with them."""

    def __init__(self, player, row):
        self.player, self.row = player, row
        self.replies, self.states = [], [CLOSED]
        player.prepare([])
        begun = time.monotonic()
        player.prepare(row.steps)
        self.is_dear = time.monotonic() - begun > DEAR and not any(is_stop(step) or BETWEEN in step for step in row.steps)
        player.prepare([])
        for step in row.steps:
            self.replies.append(player.ask(step))
            self.states.append(player.ask(b"!state"))
        hold_to_wanted(row, self.replies)

    def runs(self, most):
        """Refuses each allocation of each step, and yields what came of it."""
        for place, step in enumerate(self.row.steps):
            if is_tried(step):
                is_held_at_its_end = self.is_dear and self.states[place] != CLOSED
                came_of = (self.over_one_store if is_held_at_its_end else self.over_new_disks)(place)
                next(came_of)
                for allocation in numbers(most):
                    try:
                        came = came_of.send(allocation)
                    except Wrong as wrong:
                        raise Wrong("step %d, %r, allocation %d: %s" % (place + 1, short(step), allocation, wrong)) from None
                    if came is None:
                        break
                    yield came

    def over_new_disks(self, place):
        """Is sent the allocations to be refused in a step, and yields what came of each, None if it wasn't met."""
        known, after, came = self.known_before(place), self.documents_after(place), None
        while True:
            allocation = yield came
            try:
                came = self.refused(place, allocation, known, after)
            except Ended:
                came = "player"

    def over_one_store(self, place):
        """The same in a dear row."""
        step, came = self.row.steps[place], None
        self.player.prepare(self.row.steps[:place + 1])
        writes = self.player.writes()
        while True:
            allocation = yield came
            if came != "63":
                self.player.prepare(self.row.steps[:place])
            try:
                said, refused = self.player.ask_refused(step, allocation)
            except Ended:
                came = "player"
                continue
            if refused and number_of(said) == 63:
                came = "63"
                continue
            if refused and number_of(said) == 61:
                self.break_off(place, self.player.ask(b"!state"), [documents_of(self.states[place]), documents_of(self.states[place + 1])])
                came = "61"
                continue
            hold("the answer", said, self.replies[place])
            hold("the state", self.player.ask(b"!state"), self.states[place + 1])
            hold("the record of writes", b" ".join(self.player.writes()), b" ".join(writes))
            came = "answered" if refused else None

    def known_before(self, place):
        """The state before a step and the writes on record: of the closed disk also those after its opening. A word that
        opens closes first."""
        before, known = self.row.steps[:place], {}
        if self.row.steps[place] == b"!open":
            self.player.prepare(before)
            return {CLOSED: self.player.writes()}
        for opening in ([], [b"!open"]) if self.states[place] == CLOSED else ([],):
            self.player.prepare(before + opening)
            state = self.player.ask(b"!state")
            known[state] = self.player.writes()
        return known

    def documents_after(self, place):
        """The documents that there may be after a step, or the first of its lines: as the row has it, or as it would be without
        stops."""
        found = [documents_of(self.states[place + 1])]
        for beginning in beginnings(self.row.steps[place]):
            steps = self.row.steps[:place] + [beginning]
            ways = [[step for step in steps if not is_stop(step)]]
            for way in ways if beginning == self.row.steps[place] else [*ways, steps]:
                self.player.prepare(way)
                found.append(documents_of(self.player.ask(b"!state")))
        return found

    def refused(self, place, allocation, known, after):
        """Takes a step with one of its allocations refused, and says what came of it."""
        step, wanted = self.row.steps[place], self.replies[place]
        self.player.prepare(self.row.steps[:place])
        said, refused = self.player.ask_refused(step, allocation)
        state, number = self.player.ask(b"!state"), number_of(said)
        if refused and 61 in numbers_of(said) and 63 not in numbers_of(said):
            # An opening that the row itself has fail leaves what the next one in the row finds.
            found = [it for it in self.states[place + 1:] if it != CLOSED][:1] if number_of(wanted) == 61 else []
            self.break_off(place, state, [documents_of(it) for it in [*known, *found]] + after)
            return "61"
        if said == wanted:
            if state != self.states[place + 1] and refused and any(step.startswith(b"!behind ") for step in self.row.steps):
                hold("what the store has", documents_of(state), documents_of(self.states[place + 1]))
                return "behind"
            hold("the state", state, self.states[place + 1])
            self.go_on(place)
            return "answered" if refused else None
        if refused and number == 63:
            if state not in known:
                raise Wrong("the state after 63 is %r" % short(state))
            self.take_again(place, state)
            self.player.prepare(self.row.steps[:place])
            hold("the answer of a second run", self.player.ask_refused(step, allocation)[0], said)
            hold("the record of writes", b" ".join(self.player.writes()), b" ".join(known[state]))
            return "63"
        if refused and 63 in numbers_of(said):
            self.hold_to_no_commands(place, said, state)
            return "63 to some"
        raise Wrong("it is answered %r in the place of %r" % (short(said), short(wanted)))

    def hold_to_no_commands(self, place, said, state):
        """Holds what is said to a session, some of whose lines are answered 63, to what is said if these are no commands."""
        lines, replies, writes = lines_of(self.row.steps[place]), said.split(b"\n")[:-1], self.player.writes()
        if len(lines) != len(replies):
            raise Wrong("%d replies, and %d lines" % (len(replies), len(lines)))
        others = [NO_COMMAND if number_in(reply) == 63 else (line, reply) for line, reply in zip(lines, replies)]
        self.player.prepare(self.row.steps[:place])
        found = self.player.ask(BETWEEN.join(line for line, _ in others))
        hold("the answer without the refused lines", found, b"".join(reply + b"\n" for _, reply in others))
        hold("the state without them", self.player.ask(b"!state"), state)
        hold("the record of writes without them", b" ".join(self.player.writes()), b" ".join(writes))

    def take_again(self, place, state):
        """Takes a step that was answered 63 with memory, and the rest of the row."""
        if state == CLOSED:
            for stop in reversed(list(itertools.takewhile(is_stop, reversed(self.row.steps[:place])))):
                self.player.ask(stop)
        hold("the answer with memory", self.player.ask(self.row.steps[place]), self.replies[place])
        hold("the state with memory", self.player.ask(b"!state"), self.states[place + 1])
        self.go_on(place)

    def go_on(self, place):
        """Takes the rest of the row, but for what the disk has on record, which is more if a step was taken twice."""
        for step, wanted in zip(self.row.steps[place + 1:], self.replies[place + 1:]):
            said = self.player.ask(step)
            if not step.startswith(b"!calls "):
                hold("the answer to %r behind it" % short(step), said, wanted)

    def break_off(self, place, state, known):
        """Holds what follows a 61 that the disk in memory gave. A commit before it stays, with its half and used bytes."""
        step = self.row.steps[place]
        if state != CLOSED:
            if documents_of(state) not in known or b'"broken":true' not in state:
                raise Wrong("the state after 61 is %r" % short(state))
            again = self.player.ask(step)
            if 62 not in numbers_of(again) or any(line.startswith(b'{"ok":true,"seq":') for line in again.split(b"\n")):
                raise Wrong("the broken store answers %r" % short(again))
        if step != b"!format":
            is_refused = step == b"!open" and number_of(self.replies[place]) != 61
            hold("the answer to the next opening", self.player.ask(b"!open"), self.replies[place] if is_refused else b"")
            found = self.player.ask(b"!state")
            if documents_of(found) not in known:
                raise Wrong("it then has %r" % short(found))


def try_file(player, path, words):
    """Tries the rows of a file, and answers how many runs went well and how many rows didn't."""
    came, failed, started = collections.Counter(), 0, time.monotonic()
    for row in rows_of(path):
        if words.only in row.name:
            try:
                came.update(Trial(player, row).runs(words.most))
            except Wrong as wrong:
                failed += 1
                print("FAILED: %s: %s" % (row.name, wrong), flush=True)
    told = ", ".join("%s %d" % it for it in sorted(came.items()))
    print("%s: %d runs in %d s (%s)" % (path.name, came.total(), time.monotonic() - started, told), flush=True)
    return came.total(), failed


def main():
    parser = argparse.ArgumentParser(description=__doc__, formatter_class=argparse.RawDescriptionHelpFormatter)
    parser.add_argument("files", nargs="*", type=pathlib.Path, default=FILES)
    parser.add_argument("--only", default="")
    parser.add_argument("--most", type=int, default=1000)
    words = parser.parse_args()
    passed = failed = 0
    with tempfile.TemporaryDirectory() as folder:
        player = Player(pathlib.Path(folder))
        for path in words.files:
            well, broken = try_file(player, path, words)
            passed, failed = passed + well, failed + broken
    print("%d passed, %d failed" % (passed, failed))
    sys.exit(1 if failed else 0)


if __name__ == "__main__":
    main()
