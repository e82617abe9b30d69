#!/usr/bin/env python3
"""Stops sessions over a small store of format 3 at each call, tears and damages what was written, and opens it again.

    torn_blocks.py PROGRAM [--all | --bits]

A session is recorded by strace: what it writes to the store's file, its syncs, and its replies. It is stopped before and after
each of these. Each aligned block of 4 KiB that was written since the last sync then has its old bytes, its new ones, or
damage, in every combination; and each of its sectors one of the three, by chance. Each such file must open, with the documents
of all answered changes, and with those of the change on the way or without them. Some of these openings are recorded, stopped
and opened again in the same way.

Of a store at rest each block, and a bit of many bytes of the sectors in use, is damaged: then it must open with the same
documents, or be refused as damaged (73). Both slots of the last commit are damaged, too: then it must say that a commit was
cut off, and open with the documents of an earlier one, or, with `--strict`, be refused (75). `--all` flips each bit, and opens each image again
in the middle of its opening: that takes an hour. `--bits` flips each bit, and stops no session.

The counts of images come first. The last line is `N passed, M failed`. If strace is missing, it installs Debian's package.
"""
import argparse
import concurrent.futures
import contextlib
import hashlib
import itertools
import json
import os
import random
import re
import shutil
import subprocess
import sys
import tempfile

sys.dont_write_bytecode = True
sys.path.insert(0, os.path.join(os.path.dirname(os.path.abspath(__file__)), "..", "..", "tools"))
from debian_packages import install

SECTOR, BLOCK = 512, 4096
SECTORS = 256
IDENTITY = "0123456789abcdef" * 2
FIELDS = 88  # Of the first sector of a slot; the later ones have fewer.
MOST_IMAGES = 243  # Of one stop: every combination of five blocks. Of more blocks some combinations are left to chance.
MIXED_IMAGES = 12  # Of one stop, sector by sector.
REOPENED = 60
CALL = re.compile(rb'(?:\d+ +)?(?P<name>\w+)\((?P<number>\d+)(?:, "(?P<bytes>(?:\\x[0-9a-f]{2})*)", \d+)?(?:, (?P<at>\d+))?\) += (?P<answer>-?\d+)')


class Wrong(Exception):
    """An image that opens with another state, or not at all."""


def create(name, size):
    return {"cmd": "create", "doc": name * size, "name": name, "schema": True}


def replace(name, size):
    return {"cmd": "patch", "name": name, "ops": [{"op": "replace", "path": "", "value": name * size}]}


# Each session goes on with the store of the one before it: small changes; one that fills a block, and one whose rest is too
# long for a slot; snapshots at once and in steps with changes between; a transaction; and groups.
SESSIONS = [
    ([create("a", 1), create("b", 700), replace("a", 9), {"cmd": "delete", "name": "b"}], []),
    ([create("c", 5000), create("d", 16000), replace("c", 3), replace("a", 2)], []),
    ([{"cmd": "snapshot"}, replace("a", 30), {"cmd": "pump", "max": 8}, replace("c", 40), {"cmd": "pump", "max": 1000}, replace("a", 5)], []),
    ([{"cmd": "transaction", "changes": [create("e", 90), replace("a", 600), {"cmd": "delete", "name": "d"}]}, {"cmd": "snapshot"}], []),
    ([create("f", 10), create("g", 4000), replace("e", 20), {"cmd": "delete", "name": "f"}], ["--batch", "2"]),
]


def changes_of(line):
    """The changes of a line, of which a transaction has some and a snapshot none."""
    if line["cmd"] == "transaction":
        return line["changes"]
    return [line] if line["cmd"] in ("create", "patch", "delete") else []


def after(documents, change):
    """The documents after a change: names with their values, in the order of creation."""
    kept = {name: value for name, value in documents.items() if change["cmd"] != "delete" or name != change["name"]}
    if change["cmd"] != "delete":
        kept[change["name"]] = change["doc"] if change["cmd"] == "create" else change["ops"][0]["value"]
    return kept


class States:
    """The documents after each line, by the number of the last change."""

    def __init__(self):
        self.by_seq, self.last = {0: {}}, 0

    def take(self, line):
        """Takes a line; a transaction is whole or not at all."""
        documents, seq = self.by_seq[self.last], self.last
        for change in changes_of(line):
            documents, seq = after(documents, change), seq + 1
        self.by_seq[seq], self.last = documents, seq
        return seq


def group_of(options):
    """How many lines are given at once."""
    return int(options[1]) if options else 1


def recorded(program, file, lines, options=()):
    """The events of a session: `(write, at, bytes)`, `(sync,)` and `(replies, count)`, in their order."""
    trace = file + ".trace"
    calls = "trace=write,pwrite64,fdatasync,fsync"
    words = ["strace", "-f", "-xx", "-s", "4000000", "-e", calls, "-o", trace, program, "serve", file, *options]
    group = group_of(options)
    with subprocess.Popen(words, stdin=subprocess.PIPE, stdout=subprocess.PIPE, stderr=subprocess.DEVNULL) as server:
        for first in range(0, len(lines), group):
            given = lines[first:first + group]
            server.stdin.write(b"".join(json.dumps(line, separators=(",", ":"), sort_keys=True).encode() + b"\n" for line in given))
            server.stdin.flush()
            for line in given:
                if not json.loads(server.stdout.readline())["ok"]:
                    raise Wrong(f"refused: {line}")
        server.stdin.close()
    events = []
    with open(trace, "rb") as calls:
        for call in filter(None, map(CALL.match, calls)):
            name, answer = call["name"], int(call["answer"])
            if answer < 0:
                raise Wrong(f"a call failed: {name.decode()}")
            if name == b"pwrite64":
                events.append(("write", int(call["at"]), bytes.fromhex(call["bytes"].decode().replace("\\x", ""))[:answer]))
            elif name != b"write":
                events.append(("sync",))
            elif call["number"] == b"1":
                events.append(("replies", call["bytes"].count(rb"\x0a")))
    os.remove(trace)
    return events


def written_over(image, writes):
    """The image with these writes in it."""
    made = bytearray(image)
    for _, at, content in writes:
        made[at:at + len(content)] = content
    return bytes(made)


def images_at(settled, writes, chance, most):
    """What a stop may leave of a settled image and the writes since: block by block, and some sector by sector."""
    new = written_over(settled, writes)
    blocks = sorted({block for _, at, content in writes for block in range(at // BLOCK, (at + len(content) - 1) // BLOCK + 1)})
    damage = chance.randbytes(len(settled))
    sources = (settled, new, damage)
    count = 3 ** len(blocks)
    numbers = range(count) if count <= most else sorted({0, 1, count - 1, *(chance.randrange(count) for _ in range(most - 3))})
    for number in numbers:
        made = bytearray(settled)
        for place, block in enumerate(blocks):
            source = sources[number // 3 ** place % 3]
            made[block * BLOCK:(block + 1) * BLOCK] = source[block * BLOCK:(block + 1) * BLOCK]
        yield bytes(made)
    for _ in range(min(MIXED_IMAGES, most) if blocks else 0):
        made = bytearray(settled)
        for at in (block * BLOCK + sector for block in blocks for sector in range(0, BLOCK, SECTOR)):
            made[at:at + SECTOR] = chance.choice(sources)[at:at + SECTOR]
        yield bytes(made)


class Opener:
    """Opens images with the program, many side by side."""

    def __init__(self, program, folder, states):
        self._program, self._folder, self._states = program, folder, states
        self._numbers = itertools.count()

    @contextlib.contextmanager
    def file_of(self, image):
        """A file that has the image."""
        path = os.path.join(self._folder, f"image{next(self._numbers)}")
        with open(path, "wb") as file:
            file.write(image)
        try:
            yield path
        finally:
            os.remove(path)

    def opened(self, image):
        """What an image opens with: the number of the last change, its documents, and what the program says of it; or why not."""
        names = sorted({name for documents in self._states.by_seq.values() for name in documents})
        asked = [{"cmd": "status"}, {"cmd": "list"}, *({"cmd": "get", "name": name, "path": ""} for name in names)]
        with self.file_of(image) as path:
            ended = subprocess.run([self._program, "serve", path], input="".join(json.dumps(line) + "\n" for line in asked), text=True,
                                   capture_output=True, check=False)
        if ended.returncode != 0:
            return None, ended.stderr
        status, listed, *values = map(json.loads, ended.stdout.splitlines())
        found = {name: value["value"] for name, value in zip(names, values) if value["ok"]}
        return (status["seq"], {name: found.get(name) for name in listed["names"]}), ended.stderr

    def look(self, image, least, most):
        """Holds that the image opens with a state between two numbers."""
        state, said = self.opened(image)
        if state is None:
            raise Wrong(f"it doesn't open, with all from {least} to {most} wanted: {said.strip()}")
        seq, documents = state
        if not least <= seq <= most or list(documents.items()) != list(self._states.by_seq.get(seq, {}).items()):
            raise Wrong(f"it opens with the state {seq}, with one from {least} to {most} wanted")


def stops_of(image, events, numbers, group=1):
    """Each stop of a session: what was settled, what was written since, and the least and the most number of a last change.

    The numbers are those before the session and after each of its lines, of which a group may be on the way.
    """
    settled, writes, replied = image, [], 0
    for event in events:
        if event[0] == "write":
            writes.append(event)
        elif event[0] == "sync":
            settled, writes = written_over(settled, writes), []
        else:
            replied += event[1]
        yield settled, list(writes), numbers[replied], numbers[min(replied + group, len(numbers) - 1)]


class Run:
    """Counts of images, and those that are wrong."""

    def __init__(self, opener, chance):
        self._opener, self._chance, self._seen = opener, chance, set()
        self.counts, self.wrong = {}, []

    def count(self, what):
        """Counts one."""
        self.counts[what] = self.counts.get(what, 0) + 1

    def try_all(self, wanted, what):
        """Opens each image that was not opened before: (image, least, most)."""
        new = []
        for image, least, most in wanted:
            key = hashlib.blake2b(image + b"%d %d" % (least, most)).digest()
            if key not in self._seen:
                self._seen.add(key)
                new.append((image, least, most))
        with concurrent.futures.ThreadPoolExecutor(os.cpu_count()) as pool:
            for fault in pool.map(self._fault_of, new):
                self.count(what)
                if fault:
                    self.wrong.append(f"{what}: {fault}")
        return new

    def _fault_of(self, one):
        try:
            self._opener.look(*one)
        except Wrong as wrong:
            return str(wrong)
        return None


def try_session(program, run, opener, image, session, states, chance, reopened):
    """A session that is stopped at each call; its openings, stopped too. Answers the store at its end."""
    lines, options = session
    numbers = [states.last, *map(states.take, lines)]
    with opener.file_of(image) as path:
        events = recorded(program, path, lines, options)
        with open(path, "rb") as file:
            end = file.read()
    stops = list(stops_of(image, events, numbers, group_of(options)))
    tried = run.try_all(((torn, least, most) for settled, writes, least, most in stops
                         for torn in images_at(settled, writes, chance, MOST_IMAGES)), "stopped in a session")
    for torn, least, most in chance.sample(tried, min(reopened, len(tried))):
        with opener.file_of(torn) as path:
            opening = recorded(program, path, [])
        run.try_all(((again, least, most) for settled, writes, _, _ in stops_of(torn, opening, [least])
                     for again in images_at(settled, writes, chance, 27)), "stopped in its next opening")
    return end


def served(program, opener, image, session, states):
    """The store at the end of a session that is not stopped."""
    lines, options = session
    for line in lines:
        states.take(line)
    with opener.file_of(image) as path:
        sent = "".join(json.dumps(line) + "\n" for line in lines)
        subprocess.run([program, "serve", path, *options], input=sent, text=True, check=True, stdout=subprocess.DEVNULL)
        with open(path, "rb") as file:
            return file.read()


def try_damage(run, opener, image, seq, documents, all_bits, chance):
    """A store at rest, of which a block or a bit is damaged."""
    def judged(damaged):
        state, said = opener.opened(damaged)
        if state is None:
            return "told" if "(73)" in said else said.strip()
        if state == (seq, documents):
            return "the same"
        return "earlier, and told" if "cut" in said else f"state {state[0]} in silence"
    used = [at for at in range(0, len(image), SECTOR) if any(image[at:at + SECTOR])]
    blocks = [image[:at] + chance.randbytes(BLOCK) + image[at + BLOCK:] for at in range(0, len(image), BLOCK)]
    # Of each byte of a slot's fields a bit, and of each eighth byte after them.
    places = [at for sector in used for at in range(sector, sector + SECTOR) if all_bits or at % SECTOR < FIELDS or at % 8 == 0]
    bits = [at * 8 + bit for at in places for bit in (range(8) if all_bits else [chance.randrange(8)])]

    def judged_with(bit):
        return judged(image[:bit // 8] + bytes([image[bit // 8] ^ 1 << bit % 8]) + image[bit // 8 + 1:])
    with concurrent.futures.ThreadPoolExecutor(os.cpu_count()) as pool:
        for what, found_of, each in (("a block is damaged", judged, blocks), ("a bit is flipped", judged_with, bits)):
            for found in pool.map(found_of, each):
                run.count(f"{what}: {found}")
                if found not in ("the same", "told"):
                    run.wrong.append(f"{what}: {found}")


def try_both_slots(program, run, opener, image, seq):
    """A store at rest whose last commit is damaged in both of its slots."""
    numbers = {slot: int.from_bytes(image[slot * SECTOR + 16:slot * SECTOR + 24], "big") for slot in (0, 32, 64, 96)}
    damaged = bytearray(image)
    for slot in (slot for slot, number in numbers.items() if number == max(numbers.values())):
        damaged[slot * SECTOR + 100] ^= 1
    damaged = bytes(damaged)
    state, said = opener.opened(damaged)
    run.count("both slots of the last commit are damaged")
    if state is None or said != '{"slots":"cut-off"}\n' or state[0] > seq:
        run.wrong.append(f"both slots are damaged: {state} and {said.strip()}")
    run.count("both slots are damaged, and --strict")
    with opener.file_of(damaged) as path:
        strict = subprocess.run([program, "serve", path, "--strict"], input="", text=True, capture_output=True, check=False)
        with open(path, "rb") as file:
            left = file.read()
    if (strict.returncode, strict.stdout, strict.stderr, left) != (1, "", "jpstore: cut-off (75)\n", damaged):
        run.wrong.append(f"both slots are damaged: {strict}")


def main():
    parser = argparse.ArgumentParser()
    parser.add_argument("program")
    how = parser.add_mutually_exclusive_group()
    how.add_argument("--all", action="store_true")
    how.add_argument("--bits", action="store_true")
    options = parser.parse_args()
    program = os.path.abspath(options.program)
    install([] if shutil.which("strace") else ["strace"])
    chance, states = random.Random(1), States()
    with tempfile.TemporaryDirectory() as folder:
        store = os.path.join(folder, "store")
        subprocess.run([program, "format", store, "--sectors", str(SECTORS), "--format", "3", "--id", IDENTITY], check=True, stdout=subprocess.DEVNULL)
        with open(store, "rb") as file:
            image = file.read()
        opener = Opener(program, folder, states)
        run = Run(opener, chance)
        for session in SESSIONS:
            if options.bits:
                image = served(program, opener, image, session, states)
            else:
                image = try_session(program, run, opener, image, session, states, chance, 10 ** 9 if options.all else REOPENED // len(SESSIONS))
        try_both_slots(program, run, opener, image, states.last)
        try_damage(run, opener, image, states.last, states.by_seq[states.last], options.all or options.bits, chance)
    for what, count in sorted(run.counts.items()):
        print(f"{count} images: {what}")
    for wrong in run.wrong[:20]:
        print(f"WRONG: {wrong}")
    print(f"{sum(run.counts.values()) - len(run.wrong)} passed, {len(run.wrong)} failed")
    return 1 if run.wrong else 0


if __name__ == "__main__":
    sys.exit(main())
