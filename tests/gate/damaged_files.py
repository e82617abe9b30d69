#!/usr/bin/env python3
"""Damages stores of each format, block by block, and asks the program what is wrong and what can still be read.

    damaged_files.py PROGRAM

`check --deep` must tell each damage, `salvage` must write the documents that the changes make which are not damaged, and
`dump --read-only` those of a whole store. What they should be comes from the changes that were made. No file is changed by
them. The last line is `N passed, M failed`.
"""
import json
import os
import random
import resource
import subprocess
import sys
import tempfile

from another_user import become, for_another
from standing_changes import runs_of, standing

SECTOR, BLOCK = 512, 4096
ROOT = os.path.dirname(os.path.dirname(os.path.dirname(os.path.abspath(__file__))))
FORMAT_1 = os.path.join(ROOT, "tests", "data", "format_1.store")
SCHEMA = {"type": "object"}


class Wrong(Exception):
    """The program did something else than it should."""


def text_of(value):
    return json.dumps(value, separators=(",", ":"), sort_keys=True, ensure_ascii=False)


def create(name, doc):
    return {"cmd": "create", "doc": doc, "name": name, "schema": SCHEMA}


def put(name, member, value):
    return {"cmd": "patch", "name": name, "ops": [{"op": "add", "path": "/" + member, "value": value}]}


# Enough for two whole blocks, and a rest.
CHANGES = [create(f"d{number}", {"n": number, "text": "x" * 700}) for number in range(6)] + [
    put("d0", "a", "y" * 600), {"cmd": "delete", "name": "d1"}, put("d2", "b", [1, 2, 3]),
    {"cmd": "schema", "name": "d3", "schema": {"required": ["n"], "type": "object"}}, create("e", {"z": "w" * 3000}),
    put("e", "q", None), put("d4", "c", "last")]


def after(changes):
    """The documents after those changes that can be made: names with values and schemas, in the order of creation."""
    documents = {}
    for change in changes:
        name, word = change["name"], change["cmd"]
        if word == "create":
            documents.setdefault(name, (dict(change["doc"]), change["schema"]))
        elif name in documents and word == "patch":
            operation = change["ops"][0]
            documents[name][0][operation["path"][1:]] = operation["value"]
        elif name in documents and word == "schema":
            documents[name] = (documents[name][0], change["schema"])
        elif name in documents:
            del documents[name]
    return documents


def dump_of(documents, seq):
    """The lines of a dump."""
    lines = [text_of({"cmd": "create", "doc": doc, "name": name, "schema": schema}) for name, (doc, schema) in documents.items()]
    return "".join(line + "\n" for line in lines + [text_of({"end": True, "lines": len(lines), "seq": seq})])


def run(program, *words, given="", user=None):
    return subprocess.run([program, *words], input=given, capture_output=True, text=True, timeout=120,
                          preexec_fn=lambda: become(user), check=False)


def make(program, file, version, sectors):
    """A store with those changes; answers its bytes."""
    made = run(program, "format", file, "--sectors", str(sectors), "--format", str(version))
    served = run(program, "serve", file, given="".join(text_of(change) + "\n" for change in CHANGES))
    if made.returncode or served.returncode or served.stdout.count('"ok":true') != len(CHANGES):
        raise Wrong(f"the store wasn't made: {made} {served}")
    with open(file, "rb") as opened:
        return opened.read()


def make_killed(program, file, version, sectors):
    """The same of a server that is killed when it has answered the last change: no seal is made."""
    run(program, "format", file, "--sectors", str(sectors), "--format", str(version))
    return served_and_killed(program, file, CHANGES)


def served_and_killed(program, file, changes):
    """The bytes of a store after these changes, of a server that is then killed."""
    with subprocess.Popen([program, "serve", file], stdin=subprocess.PIPE, stdout=subprocess.PIPE, text=True) as server:
        for change in changes:
            server.stdin.write(text_of(change) + "\n")
            server.stdin.flush()
            if '"ok":true' not in server.stdout.readline():
                raise Wrong("a change was refused")
        server.kill()
    with open(file, "rb") as opened:
        return opened.read()


def end_of_report(content, count):
    """The last line of `check --deep`: it says where blocks have no checksums, which is where no sector is one of a slot."""
    sums = {} if b"JPSTORE1\0\0\0\3" in content[:16 * BLOCK] else {"checksums": False}
    return {**sums, "damages": count, "ok": count == 0}


def newest_slots(content):
    """The places of the two slots with the last commit."""
    numbers = [int.from_bytes(content[16384 * slot + 16:16384 * slot + 24], "big") for slot in range(4)]
    return [slot for slot in range(4) if numbers[slot] == max(numbers)]


def written(file, content):
    with open(file, "wb") as opened:
        opened.write(content)


def processor_seconds():
    """The time of processors that the programs took which have ended."""
    used = resource.getrusage(resource.RUSAGE_CHILDREN)
    return used.ru_utime + used.ru_stime


def ask(program, file, content, *words):
    """What the program says of a file with that content, which it must leave so."""
    written(file, content)
    said = run(program, *words)
    with open(file, "rb") as opened:
        if opened.read() != content:
            raise Wrong(f"{words} changed the file")
    return said


def expect(what, said, wanted):
    if said != wanted:
        raise Wrong(f"{what}: {said!r:.1500}\nwanted {wanted!r:.1500}")


def damaged(content, block, how):
    """The content with a damaged block."""
    begin, end = block * BLOCK, (block + 1) * BLOCK
    patch = {"wiped": bytes(BLOCK), "random": random.Random(block).randbytes(BLOCK),
             "flipped": content[begin:end - 1] + bytes([content[end - 1] ^ 1])}[how]
    return content[:begin] + patch + content[end:]


def frames(start):
    """The frames of the changes as they are from that byte on: each with its first byte and the one after its last."""
    at = start
    for change in CHANGES:
        size = 12 + len(text_of(change))
        yield change, at, at + size
        at += size


def not_damaged(start, blocks):
    """The changes whose frames touch none of these blocks."""
    return [change for change, begin, end in frames(start)
            if not any(begin < (block + 1) * BLOCK and block * BLOCK < end for block in blocks)]


class Tests:
    def __init__(self, program, folder):
        self.program, self.file = program, os.path.join(folder, "store")

    def _ask(self, content, *words):
        return ask(self.program, self.file, content, words[0], self.file, *words[1:])

    def _is_whole(self, content, documents, seq):
        deep = self._ask(content, "check", "--deep")
        expect("check --deep of a whole store", (deep.returncode, deep.stdout, deep.stderr), (0, text_of(end_of_report(content, 0)) + "\n", ""))
        for words in (["dump", "--read-only"], ["salvage"]):
            said = self._ask(content, *words)
            expect(f"{words} of a whole store", (said.returncode, said.stdout, said.stderr), (0, dump_of(documents, seq), ""))

    def _is_told(self, content, *kinds, whole=None):
        """Damages of each of these kinds are told, and the last line counts them; `whole` is the content before."""
        deep = self._ask(content, "check", "--deep")
        lines = [json.loads(line) for line in deep.stdout.splitlines()]
        expect("the end of check --deep", (deep.returncode, deep.stderr, lines[-1]),
               (1, "jpstore: damage\n", end_of_report(whole or content, len(lines) - 1)))
        told = [line["damage"] for line in lines[:-1]]
        if not set(kinds) <= set(told):
            raise Wrong(f"check --deep told {told}, and not {kinds}")
        return lines

    def _salvages(self, content, documents, seq, status):
        said = self._ask(content, "salvage")
        expect("salvage", (said.returncode, said.stdout), (status, dump_of(documents, seq)))
        loaded = os.path.join(os.path.dirname(self.file), "loaded")
        run(self.program, "format", loaded, "--sectors", "256")
        changes = "".join(said.stdout.splitlines(True)[:-1])
        served = run(self.program, "serve", loaded, given=changes)
        os.unlink(loaded)
        expect("the lines of salvage, served", served.stdout.count('"ok":true'), len(documents))

    def whole_stores_are_dumped_and_checked(self):
        for version in (2, 3):
            content = self.made(version)
            self._is_whole(content, after(CHANGES), len(CHANGES))

    def a_store_of_format_1_is_dumped(self):
        with open(FORMAT_1, "rb") as opened:
            content = opened.read()
        said = self._ask(content, "dump", "--read-only")
        lines = [json.loads(line) for line in said.stdout.splitlines()]
        values = {line["name"]: line["doc"] for line in lines[:-1]}
        expect("its documents", (said.returncode, values, lines[-1]), (0, {"d": {"a": 1, "b": [1, 2]}, "e": ["x"]}, {"end": True, "lines": 2, "seq": 6}))
        expect("check --deep", self._ask(content, "check", "--deep").returncode, 0)
        expect("salvage", self._ask(content, "salvage").stdout, said.stdout)

    def a_damaged_copy_of_a_commit_is_told_and_loses_nothing(self):
        content = self.made(3)
        for slot, name in enumerate(["A", "A'", "B", "B'"]):
            for how in ("wiped", "random"):
                harmed = damaged(content, 4 * slot, how)
                lines = self._is_told(harmed, "slot")
                expect("the slot", lines[0], {"damage": "slot", "sector": 32 * slot, "sectors": 32, "slot": name})
                self._salvages(harmed, after(CHANGES), len(CHANGES), 0)

    def a_lost_write_of_a_copy_is_told_as_check_tells_it(self):
        """One slot of the last commit holds the one before: `check` says `mended`, and `check --deep` which slot it is."""
        names = ["A", "A'", "B", "B'"]
        before, content = self._killed_after(len(CHANGES) - 2), self._killed_after(len(CHANGES))
        expect("the pair of the last commit", newest_slots(before), newest_slots(content))
        for slot in range(4):
            begin, end = 4 * BLOCK * slot, 4 * BLOCK * (slot + 1)
            harmed = content[:begin] + before[begin:end] + content[end:]
            deep = [json.loads(line) for line in self._ask(harmed, "check", "--deep").stdout.splitlines()]
            old = [{"damage": "old-slot", "sector": 32 * slot, "sectors": 32, "slot": names[slot]}]
            expect(f"what is damaged, {names[slot]}", deep[:-1], old if slot in newest_slots(content) else [])
            said = json.loads(run(self.program, "check", self.file).stdout)["slots"]
            expect(f"what the slots say, {names[slot]}", said, "mended" if slot in newest_slots(content) else "whole")

    def _killed_after(self, count):
        """The bytes of a store whose server is killed after that many changes; its identity is always the same."""
        if os.path.exists(self.file):
            os.unlink(self.file)
        run(self.program, "format", self.file, "--sectors", "256", "--format", "3", "--id", "0" * 31 + "7")
        return served_and_killed(self.program, self.file, CHANGES[:count])

    def of_a_file_that_was_cut_or_padded_that_part_is_told(self):
        for version in (2, 3):
            content = self.made(version)
            for sectors in (150, 255):
                lines = self._is_told(content[:sectors * SECTOR], "unopened", "missing", whole=content)
                expect("what is missing", [line for line in lines if line.get("damage") == "missing"],
                       [{"damage": "missing", "sector": sectors, "sectors": 256 - sectors}])
            lines = self._is_told(content + bytes(3 * SECTOR), "unopened", "surplus")
            expect("what is too much", [line for line in lines if line.get("damage") == "surplus"],
                   [{"damage": "surplus", "sector": 256, "sectors": 3}])
            expect("nothing else", [line["damage"] for line in lines[:-1]], ["unopened", "surplus"])

    def of_two_damaged_copies_the_commit_before_is_left(self):
        content = self.made(3, make_killed)
        one, other = newest_slots(content)
        harmed = damaged(damaged(content, 4 * one, "wiped"), 4 * other, "random")
        self._is_told(harmed, "slot")
        self._salvages(harmed, after(CHANGES[:-1]), len(CHANGES) - 1, 1)

    def of_two_damaged_copies_a_sealed_store_loses_nothing(self):
        content = self.made(3)
        one, other = newest_slots(content)
        harmed = damaged(damaged(content, 4 * one, "wiped"), 4 * other, "random")
        self._is_told(harmed, "slot")
        self._salvages(harmed, after(CHANGES), len(CHANGES), 1)

    def without_a_commit_the_frames_are_found(self):
        content = self.made(3)
        for slot in range(4):
            content = damaged(content, 4 * slot, "random")
        content = b"JPSTORE1\0\0\0\3" + content[12:]
        self._is_told(content, "no-commit", "slot", "unopened")
        start = 128 * SECTOR
        whole = sum(1 for _, _, end in frames(0) if end <= self.blocks(content) * BLOCK)
        self._salvages(content, after(CHANGES[:whole]), whole, 1)
        content = self.made(2)
        harmed = b"JPSTORE1" + bytes(504) + content[512:]
        self._is_told(harmed, "no-commit", "unopened")
        self._salvages(harmed, after(CHANGES), len(CHANGES), 1)

    def blocks_of_format_3_are_damaged_in_turn(self):
        content = self.made(3)
        start = 128 * SECTOR
        for block in range(self.blocks(content)):
            for how in ("wiped", "random"):
                harmed = damaged(content, start // BLOCK + block, how)
                self._is_told(harmed, "checksum", "unopened", "lost")
                left = not_damaged(start, [start // BLOCK + block])
                in_slots = standing(CHANGES, runs_of(harmed))
                stand = [change for change in CHANGES if change in left or change in in_slots]
                self._salvages(harmed, after(stand), len(CHANGES), 1)

    def a_flipped_bit_of_format_3_is_told(self):
        content = self.made(3)
        half = 128 * SECTOR
        harmed = content[:half] + content[half:].replace(b"xxxx", b"xxxy", 1)
        self._is_told(harmed, "checksum", "unopened")
        said = self._ask(harmed, "salvage")
        expect("salvage", said.returncode, 1)

    def blocks_of_format_2_are_damaged_in_turn(self):
        content = self.made(2)
        end = [end for _, _, end in frames(SECTOR)][-1]
        for block in range(1, end // BLOCK + 1):
            for how in ("wiped", "random"):
                harmed = damaged(content, block, how)
                self._is_told(harmed, "unopened", "lost")
                self._salvages(harmed, after(not_damaged(SECTOR, [block])), len(CHANGES), 1)

    def frames_of_both_halves_have_their_places(self):
        content = self.made(2)
        said = self._ask(content, "salvage", "--frames")
        lines = [json.loads(line) for line in said.stdout.splitlines()]
        wanted = [(change, begin // SECTOR, begin % SECTOR, number) for number, (change, begin, _) in enumerate(frames(SECTOR), 1)]
        expect("the frames", [(line["command"], line["sector"], line["byte"], line["seq"]) for line in lines if line["counted"]], wanted)
        expect("each place, once", len({(line["sector"], line["byte"]) for line in lines}), len(lines))
        served = run(self.program, "serve", self.file, given='{"cmd":"snapshot"}\n')
        expect("the snapshot", served.returncode, 0)
        with open(self.file, "rb") as opened:
            turned = opened.read()
        lines = [json.loads(line) for line in self._ask(turned, "salvage", "--frames").stdout.splitlines()]
        expect("the old frames", [(line["command"], line["sector"], line["byte"], line["seq"]) for line in lines if line["half"] == 0], wanted)
        expect("the halves", {line["half"]: line["counted"] for line in lines}, {0: False, 1: True})
        content = self.made(3)
        lines = [json.loads(line) for line in self._ask(content, "salvage", "--frames").stdout.splitlines()]
        expect("the frames of format 3", [line["command"] for line in lines if line["counted"]], CHANGES)
        expect("their checksum", {line["check"] for line in lines if line["counted"]}, {"held"})
        block = 128 * SECTOR // BLOCK
        lines = [json.loads(line) for line in self._ask(damaged(content, block, "flipped"), "salvage", "--frames").stdout.splitlines()]
        expect("the checksum of a damaged block, and of the tail", {(line["sector"] >= 128, line["check"]) for line in lines if line["counted"]}, {(True, "failed"), (False, "held")})

    def a_file_that_may_only_be_read_is_dumped(self):
        content = self.made(3)
        written(self.file, content)
        os.chmod(self.file, 0o444)
        program, user = for_another(self.program, os.path.dirname(self.file))
        for words in (["dump", self.file, "--read-only"], ["check", self.file, "--deep"], ["salvage", self.file]):
            expect(f"{words} as another user", run(program, *words, user=user).returncode, 0)
        os.chmod(self.file, 0o600)

    def readers_go_together_and_no_server_beside_them(self):
        content = self.made(2)
        written(self.file, content)
        with subprocess.Popen([self.program, "serve", self.file], stdin=subprocess.PIPE, stdout=subprocess.PIPE) as server:
            server.stdin.write(b'{"cmd":"status"}\n')
            server.stdin.flush()
            server.stdout.readline()
            said = run(self.program, "dump", self.file, "--read-only")
            expect("beside a server", (said.returncode, said.stderr), (1, "jpstore: in-use\n"))
            server.stdin.close()

    def words_that_are_no_call_are_refused(self):
        for words in (["dump", self.file], ["salvage"], ["salvage", self.file, "--deep"], ["check", self.file, "--frames"]):
            expect(f"{words}", run(self.program, *words).returncode, 2)
        said = run(self.program, "salvage", self.file + "-missing", "--why")
        expect("a missing file", (said.returncode, '"cause":"missing"' in said.stderr), (1, True))

    def hostile_files_take_little_time(self):
        size = 1 << 22
        head = (1 << 22).to_bytes(4, "big") + bytes(8) + b'{"cmd":"'
        for content in (random.Random(7).randbytes(size), bytes(size), (head * (size // len(head) + 1))[:size], b"{" * size,
                        ((1 << 20).to_bytes(4, "big") + bytes(8) + b"{" * 3000) * (size // 3012)):
            begin = processor_seconds()
            said = self._ask(content + bytes(-len(content) % SECTOR), "salvage")
            expect("salvage of no store", (said.returncode, said.stdout), (1, dump_of({}, 0)))
            if processor_seconds() - begin > 20:
                raise Wrong("it took over 20 seconds of a processor")

    def made(self, version, how=make):
        if os.path.exists(self.file):
            os.unlink(self.file)
        return how(self.program, self.file, version, 256)

    @staticmethod
    def blocks(_content):
        """How many whole blocks of the half have frames."""
        return [end for _, _, end in frames(0)][-1] // BLOCK


def main():
    program = os.path.abspath(sys.argv[1])
    names = sys.argv[2:] or [name for name in vars(Tests) if not name.startswith("_") and name not in ("made", "blocks")]
    failed = 0
    for name in names:
        with tempfile.TemporaryDirectory() as folder:
            try:
                getattr(Tests(program, folder), name)()
                print(f"ok {name}", flush=True)
            except (Wrong, subprocess.TimeoutExpired, ValueError, KeyError, IndexError) as error:
                failed += 1
                print(f"FAILED {name}: {error!r}", flush=True)
    print(f"{len(names) - failed} passed, {failed} failed")
    sys.exit(failed > 0)


if __name__ == "__main__":
    main()
