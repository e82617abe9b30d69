#!/usr/bin/env python3
"""Gives a program store files that were forged, and lines that were cut or made up.

    forged_input.py PROGRAM [--images N] [--lines N] [--seed S]

Forged images, of both formats: a good store's bytes with random bytes, turned bits of the commit sector, and frames that
are cut, left out, exchanged, repeated, of a wrong length or seq, or that hold commands which a store refuses. `PROGRAM
check` answers each by `not-a-store (72)`, by `damaged (73)`, or by a status whose documents `PROGRAM serve` then reads;
never by anything else. What the layout says of single bytes, of lengths, of seqs and of the room that format 2 takes is
held exactly. Made-up lines, near the grammar of commands, are each answered by one line of JSON, with `ok` true or false,
and the program ends with status 0.

The last line is `N passed, M failed`, the seed comes before it.
"""
import argparse
import json
import os
import random
import struct
import subprocess
import sys
import tempfile

SECTOR = 512
SECTORS = 16
CAPACITY = 7 * SECTOR
NOT_A_STORE = (1, "", "jpstore: not-a-store (72)\n")
DAMAGED = (1, "", "jpstore: damaged (73)\n")
NO_ROOM = (1, "", "jpstore: no-room (74)\n")
FORMATS = (1, 2)
LINES_A_SESSION = 500


class Wrong(Exception):
    """An answer that isn't one of those that may come."""


class Program:
    """The program and the one file that it is run over."""

    def __init__(self, program, folder):
        self.program, self.file = program, os.path.join(folder, "store")

    def run(self, *words, given=b"", seconds=60):
        done = subprocess.run([self.program, *words], input=given, capture_output=True, timeout=seconds)
        return done.returncode, done.stdout.decode(), done.stderr.decode()

    def check(self, image):
        with open(self.file, "wb") as file:
            file.write(image)
        return self.run("check", self.file)

    def served(self, commands):
        given = "".join(json.dumps(command) + "\n" for command in commands).encode()
        status, output, errors = self.run("serve", self.file, given=given)
        replies = [json.loads(line) for line in output.splitlines()]
        if status != 0 or errors or len(replies) != len(commands):
            raise Wrong("serve ends with %d, %r and %d replies" % (status, errors, len(replies)))
        return replies


def body(command):
    return json.dumps(command, sort_keys=True, separators=(",", ":")).encode()


def frame(text, seq=1, form=2):
    return head(len(text), seq, form) + text


def head(length, seq, form):
    """What comes before a body: in format 1 its length, in format 2 the seq too."""
    return struct.pack(">I", length) + (struct.pack(">Q", seq) if form == 2 else b"")


def create(name, doc, schema=True):
    return {"cmd": "create", "doc": doc, "name": name, "schema": schema}


def image_of(content, length=None, seq=1, half=0, opens=1, form=2):
    """An image with these bytes in a half, of which this many count."""
    length = len(content) if length is None else length
    fields = b"JPSTORE1" + struct.pack(">IIQQQQ", form, half, length, seq, opens, SECTORS)
    halves = [content if half == which else b"" for which in (0, 1)]
    return fields.ljust(SECTOR, b"\0") + b"".join(part.ljust(CAPACITY, b"\0")[:CAPACITY] for part in halves) + bytes(SECTOR)


GOOD = [
    create("d", {"a": 1}), create("e", ["x"] * 20, {"type": "array"}), {"cmd": "patch", "name": "d", "ops": [
        {"op": "add", "path": "/b", "value": [1, 2, 3]}, {"op": "test", "path": "/a", "value": 1}]},
    {"cmd": "schema", "name": "d", "schema": {"required": ["a"]}}, create("f", "text"), {"cmd": "delete", "name": "f"},
]
REFUSED = [
    create("d", 1), create("", 1), create("n" * 65, 1), create("g", 1, {"type": "text"}), create("g", 1, False),
    {"cmd": "delete", "name": "z"}, {"cmd": "patch", "name": "z", "ops": []}, {"cmd": "patch", "name": "d", "ops": [1]},
    {"cmd": "patch", "name": "d", "ops": [{"op": "remove", "path": "/z"}]}, {"cmd": "schema", "name": "d", "schema": False},
    {"cmd": "list"}, {"cmd": "status"}, {"name": "d"}, {}, [], 1, {"cmd": "create", "doc": 1, "name": "g", "schema": True, "x": 1},
]
SPELLINGS = [
    b'{"cmd":"create", "doc":1,"name":"g","schema":true}', b'{"doc":1,"cmd":"create","name":"g","schema":true}',
    b'{"cmd":"create","doc":1.5,"name":"g","schema":true}', b'{"cmd":"create","doc":1,"name":"g","schema":true', b"\xff", b"",
]


def single_bytes(program, form):
    """Each byte of the commit sector with its lowest bit turned."""
    text = body(create("d", {"a": 1}))
    for place in range(SECTOR):
        image = bytearray(image_of(frame(text, form=form), form=form))
        image[place] ^= 1
        answer = program.check(bytes(image))
        seq, opens = struct.unpack(">QQ", image[24:40])
        if place < 8:
            wanted = NOT_A_STORE
        elif place < 24 or place >= 40 or (form == 2 and seq < 1):
            wanted = DAMAGED
        else:
            wanted = (0, status_line(1, opens + 1, seq, len(frame(text)), half=int(form == 1)), "")
        yield answer == wanted, "format %d, byte %d: %r" % (form, place, answer)


def lengths(program, form):
    """The commit sector with another length over the same bytes."""
    text = body(create("d", {"a": 1}))
    content = frame(text, form=form)
    for length in [*range(len(content) + 1), len(content) + 1, len(content) + 4, CAPACITY + 1, 1 << 63]:
        answer = program.check(image_of(content, length=length, form=form))
        if length in (0, len(content)):
            used = len(frame(text)) if length else 0
            wanted = (0, status_line(int(length > 0), 2, 1, used, half=int(form == 1)), "")
        else:
            wanted = DAMAGED
        yield answer == wanted, "format %d, length %d: %r" % (form, length, answer)


def seqs(program):
    """Two frames under a commit sector: each keeps its seq as its document's revision, and none may be over the sector's."""
    for first in (0, 1, 2, 3, 1 << 63, (1 << 64) - 1):
        for second in (0, 2, 3):
            for last in (2, 3, (1 << 64) - 1):
                content = frame(body(create("d", 1)), first) + frame(body(create("e", 1)), second)
                answer = program.check(image_of(content, seq=last))
                if max(first, second) > last:
                    well = answer == DAMAGED
                else:
                    asked = [{"cmd": "rev", "name": name} for name in "de"]
                    well = answer[0] == 0 and [reply["rev"] for reply in program.served(asked)] == [first, second]
                yield well, "seqs %d and %d under %d: %r" % (first, second, last, answer)


def rooms(program):
    """A store of format 1 that has room in format 2, and one with a letter more, which is refused and not changed."""
    over = len(frame(body(create("d", ""))))
    for letters, has_room in ((CAPACITY - over, True), (CAPACITY - over + 1, False), (CAPACITY - over + 8, False)):
        image = image_of(frame(body(create("d", "x" * letters)), form=1), form=1)
        answer = program.check(image)
        if has_room:
            well = answer == (0, status_line(1, 2, 1, CAPACITY, half=1), "")
        else:
            with open(program.file, "rb") as file:
                well = answer == NO_ROOM and file.read() == image
        yield well, "%d letters in format 1: %r" % (letters, answer)


def status_line(documents, opens, seq, used, half=0):
    return ('{"broken":false,"capacity":%d,"documents":%d,"half":%d,"ok":true,"opens":%d,"sectors":%d,"seq":%d,"used":%d}\n'
            % (CAPACITY, documents, half, opens, SECTORS, seq, used))


def a_forged_image():
    """One image, forged in one of the ways."""
    texts = [body(command) for command in random.sample(GOOD, random.randint(0, len(GOOD)))]
    if random.random() < 0.7:
        texts = [body(command) for command in GOOD]
    form = random.choice(FORMATS)
    frames = [frame(text, seq, form) for seq, text in enumerate(texts, 1)]
    way = random.randrange(9)
    if way == 0 and frames:
        place = random.randrange(len(frames))
        frames[place] = frames[place][:random.randrange(len(frames[place]))]
    elif way == 1 and frames:
        del frames[random.randrange(len(frames))]
    elif way == 2:
        random.shuffle(frames)
    elif way == 3 and frames:
        frames.insert(random.randrange(len(frames) + 1), random.choice(frames))
    elif way == 4 and texts:
        place = random.randrange(len(frames))
        length = max(0, len(texts[place]) + random.choice([-1, 1, 256, 1 << 31]))
        frames[place] = head(length, place + 1, form) + texts[place]
    elif way == 5:
        text = random.choice(SPELLINGS) if random.random() < 0.3 else body(random.choice(REFUSED))
        frames.insert(random.randrange(len(frames) + 1), frame(text, 1, form))
    elif way == 8 and texts:
        place = random.randrange(len(frames))
        frames[place] = frame(texts[place], random.choice([0, place + 2, len(frames), len(frames) + 1, (1 << 64) - 1]), form)
    content = b"".join(frames)[:CAPACITY]
    seq = len(frames) if random.random() < 0.6 else random.choice([0, 1, (1 << 64) - 1])
    image = bytearray(image_of(content, seq=seq, half=random.randrange(2), form=form))
    if way == 6:
        for _ in range(random.randint(1, 4)):
            image[random.randrange(SECTOR)] ^= 1 << random.randrange(8)
    elif way == 7:
        for _ in range(random.randint(1, 40)):
            image[random.randrange(len(image))] = random.randrange(256)
    if random.random() < 0.02:
        image = bytearray(random.randbytes(random.choice([0, 1, 511, 512, 1535, 1536, 8192])))
    elif random.random() < 0.05:
        image = image[:random.randrange(len(image))]
    return bytes(image)


def forged_images(program, count):
    for number in range(count):
        image = a_forged_image()
        answer = program.check(image)
        if answer in (NOT_A_STORE, DAMAGED):
            with open(program.file, "rb") as file:
                yield file.read() == image, "image %d was refused and changed" % number
            continue
        yield is_a_state(program, answer), "image %d: %r" % (number, answer)


def is_a_state(program, answer):
    """A status, and as many documents, which can be read."""
    if answer[0] != 0 or answer[2]:
        return False
    status = json.loads(answer[1])
    names = program.served([{"cmd": "list"}])[0]["names"]
    read = program.served([{"cmd": "get", "name": name, "path": ""} for name in names]) if names else []
    asked = program.served([{"cmd": "rev", "name": name} for name in names]) if names else []
    if any(reply["rev"] > status["seq"] for reply in asked):
        return False
    return status["documents"] == len(names) and all(reply["ok"] for reply in read)


def cut_lines(program):
    """Each proper beginning of a line, as a last line without a line feed, is no JSON."""
    line = body(create("d", {"a": 1}))
    for end in range(1, len(line)):
        answer = program.run("mem", "--sectors", "16", given=line[:end])
        yield answer == (0, '{"error":"not-json","number":11,"ok":false}\n', ""), "%r: %r" % (line[:end], answer)
    answer = program.run("mem", "--sectors", "16", given=b"\xff\n")
    yield answer == (0, '{"error":"not-json","number":11,"ok":false}\n', ""), "the byte ff: %r" % (answer,)


WORDS = ["create", "delete", "patch", "schema", "get", "get-schema", "query", "rev", "list", "status", "snapshot", "pump", "x"]
VALUES = [0, 1, -1, 1 << 63, True, None, "", "d", "e", "/", "/a", "/a/0", "$", "$..*", "$[?@.a>1]", "$[", [], {}, [1, {"a": 1}], {"a": [1]},
          [{"op": "add", "path": "/a", "value": 1}], [{"op": "move", "from": "/a", "path": "/a/b"}], {"type": "object"}, {"$ref": "#"}]
MEMBERS = ["cmd", "name", "doc", "schema", "ops", "path", "max", "if_rev", "x"]


def a_line():
    """A line that is a command, or nearly."""
    command = {"cmd": random.choice(WORDS), "name": random.choice("de")}
    for member in random.sample(MEMBERS, random.randrange(len(MEMBERS))):
        if member != "cmd" or random.random() < 0.1:
            command[member] = random.choice(VALUES)
    line = bytearray(json.dumps(command).encode())
    if random.random() < 0.3:
        place = random.randrange(len(line))
        line[place:place + random.randrange(2)] = random.choice([b"{", b"}", b"[", b'"', b"\\", b",", b"1e9", b"\xc3", b" ", b"\0", b""])
    return bytes(line.replace(b"\n", b" "))


def made_up_lines(program, count):
    for first in range(0, count, LINES_A_SESSION):
        lines = [line for line in (a_line() for _ in range(min(LINES_A_SESSION, count - first))) if line.strip(b" \t\r")]
        status, output, errors = program.run("mem", "--sectors", "64", given=b"".join(line + b"\n" for line in lines))
        replies = output.splitlines()
        well = status == 0 and not errors and len(replies) == len(lines) and all(isinstance(json.loads(reply)["ok"], bool) for reply in replies)
        yield well, "lines %d and on: status %d, %d replies to %d lines, %r" % (first, status, len(replies), len(lines), errors)


def main():
    parser = argparse.ArgumentParser(description=__doc__.splitlines()[0])
    parser.add_argument("program")
    parser.add_argument("--images", type=int, default=10_000)
    parser.add_argument("--lines", type=int, default=10_000)
    parser.add_argument("--seed", type=int, default=random.randrange(1 << 32))
    words = parser.parse_args()
    random.seed(words.seed)
    passed = failed = 0
    with tempfile.TemporaryDirectory() as folder:
        program = Program(os.path.abspath(words.program), folder)
        of_formats = [rows(program, form) for rows in (single_bytes, lengths) for form in FORMATS]
        for rows in (*of_formats, seqs(program), rooms(program), forged_images(program, words.images), cut_lines(program),
                     made_up_lines(program, words.lines)):
            for well, what in rows:
                passed, failed = passed + well, failed + (not well)
                if not well:
                    print("FAILED: " + what)
    print("seed %d" % words.seed)
    print("%d passed, %d failed" % (passed, failed))
    sys.exit(1 if failed else 0)


if __name__ == "__main__":
    main()
