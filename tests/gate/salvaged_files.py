#!/usr/bin/env python3
"""Damages stores of formats 2 and 3 with 1 to 40 documents, and asks the program what can still be read.

    salvaged_files.py PROGRAM

Files are cut by a sector or padded; a block, a slot, or the first sectors of all slots are damaged; a block holds what
another one held. `salvage` must write the documents that the changes make which stand, and no other: those in blocks that
aren't damaged, and those in sectors of slots that have their checksum. What stands is known from the lines that were sent
and from the bytes of the file, read here. The last line is `N passed, M failed`.
"""
import json
import os
import random
import subprocess
import sys
import tempfile

from damaged_files import BLOCK, SECTOR, Wrong, after, ask, create, damaged, end_of_report, expect, put, run, text_of
from standing_changes import runs_of, standing

SLOT, HALF = 32 * SECTOR, 128 * SECTOR
SECTORS = 300
COUNTS = (1, 2, 3, 5, 8, 13, 20, 27, 34, 40)


def changes_for(count, seed):
    """Changes that leave at most `count` documents: creations, additions and deletions, mixed."""
    rng, changes, names = random.Random(seed), [], []
    while len([each for each in changes if each["cmd"] == "create"]) < count:
        word = rng.randrange(8)
        if word < 5 or not names:
            names.append(f"d{len(changes)}")
            changes.append(create(names[-1], {"n": len(changes), "text": "x" * rng.randrange(20, 320)}))
        elif word < 7:
            changes.append(put(rng.choice(names), f"m{rng.randrange(3)}", rng.randrange(1 << 30)))
        else:
            changes.append({"cmd": "delete", "name": names.pop(rng.randrange(len(names)))})
    return changes


def made(program, file, version, changes, killed=False):
    """The bytes of a store with those changes, sealed, or of a server that was killed."""
    if os.path.exists(file):
        os.unlink(file)
    run(program, "format", file, "--sectors", str(SECTORS), "--format", str(version))
    with subprocess.Popen([program, "serve", file], stdin=subprocess.PIPE, stdout=subprocess.PIPE, text=True) as server:
        for change in changes:
            server.stdin.write(text_of(change) + "\n")
            server.stdin.flush()
            if '"ok":true' not in server.stdout.readline():
                raise Wrong(f"it was refused: {change}")
        if killed:
            server.kill()
        server.stdin.close()
    with open(file, "rb") as opened:
        return opened.read()


def log_of(content):
    """The bytes of half 0 of format 3, and after its whole blocks the newest tail, if a slot's first sector tells where."""
    best = max(range(4), key=lambda slot: int.from_bytes(content[slot * SLOT + 16:slot * SLOT + 24], "big"))
    start = best * SLOT
    length, blocks = int.from_bytes(content[start + 28:start + 36], "big"), int.from_bytes(content[start + 64:start + 68], "big")
    tail = b"".join(content[at + 28:at + SECTOR] for at in range(start, start + SLOT, SECTOR))[60:]
    return content[HALF:HALF + blocks * BLOCK] + tail[:length - blocks * BLOCK], blocks


class Tests:
    def __init__(self, program, folder):
        self.program, self.file = program, os.path.join(folder, "store")

    def _salvages(self, what, content, documents, status=None):
        said = ask(self.program, self.file, content, "salvage", self.file)
        lines = [json.loads(line) for line in said.stdout.splitlines()]
        given = {line["name"]: (line["doc"], line["schema"]) for line in lines[:-1]}
        expect(f"the documents, {what}", given, documents)
        expect(f"the last line, {what}", (lines[-1]["end"], lines[-1]["lines"]), (True, len(documents)))
        if status is not None:
            expect(f"the status of salvage, {what}", said.returncode, status)
        return lines[-1]

    def _deep(self, what, content, *kinds):
        said = ask(self.program, self.file, content, "check", self.file, "--deep")
        lines = [json.loads(line) for line in said.stdout.splitlines()]
        expect(f"what check --deep tells, {what}", sorted({line["damage"] for line in lines[:-1]}), sorted(kinds))
        expect(f"the end of check --deep, {what}", (said.returncode, lines[-1]), (int(bool(kinds)), end_of_report(content, len(lines) - 1)))

    def _stores(self, version, killed=False):
        for count in COUNTS:
            changes = changes_for(count, count)
            yield f"{count} documents in format {version}", changes, made(self.program, self.file, version, changes, killed)

    def whole_stores(self):
        for version in (2, 3):
            for what, changes, content in self._stores(version):
                end = self._salvages(what, content, after(changes), 0)
                expect("its number", end["seq"], len(changes))
                self._deep(what, content)

    def files_that_are_cut_or_padded(self):
        for version in (2, 3):
            for what, changes, content in self._stores(version):
                for how, harmed in (("cut", content[:-SECTOR]), ("longer", content + bytes(SECTOR)), ("padded", content + bytes((1 << 20) - len(content)))):
                    end = self._salvages(f"{what}, {how}", harmed, after(changes), 1)
                    expect("its number", end["seq"], len(changes))
                    self._deep(f"{what}, {how}", harmed, "missing" if how == "cut" else "surplus", "unopened")

    def a_file_that_ends_within_the_slots(self):
        for what, _, content in self._stores(3):
            for sectors in (33, 64, 100, 128, 140):
                cut = content[:sectors * SECTOR]
                log, blocks = log_of(content)
                if not blocks or sectors * SECTOR >= HALF + blocks * BLOCK:
                    self._salvages(f"{what}, {sectors} sectors", cut, after(changes_of(log)), 1)

    def blocks_are_damaged_in_turn(self):
        for killed in (False, True):
            for what, changes, content in self._stores(3, killed):
                log, blocks = log_of(content)
                for block in [*range(0, 16, 5), *range(16, 18 + blocks)]:
                    for how in ("wiped", "random"):
                        harmed = damaged(content, block, how)
                        here = f"{what}, block {block} {how}, killed: {killed}"
                        hole = range((block - 16) * BLOCK, (block - 15) * BLOCK) if 16 <= block < 16 + blocks else range(0)
                        left = [log[:hole.start], log[hole.stop:]] if hole else [log]
                        stand = standing(changes, [*left, *runs_of(harmed)] if hole else left)
                        self._salvages(here, harmed, after(stand))

    def slots_are_damaged_in_turn(self):
        for what, changes, content in self._stores(3):
            for slot in range(4):
                for how in ("wiped", "random"):
                    harmed = content
                    for block in range(4 * slot, 4 * slot + 4):
                        harmed = damaged(harmed, block, how)
                    self._salvages(f"{what}, slot {slot}", harmed, after(changes), 0)
                    self._deep(f"{what}, slot {slot}", harmed, "slot")

    def no_slot_counts(self):
        for killed in (False, True):
            for what, changes, content in self._stores(3, killed):
                _, blocks = log_of(content)
                bits, firsts = bytearray(content), bytearray(content)
                for slot in range(4):
                    bits[slot * SLOT + 100] ^= 1
                    firsts[slot * SLOT:slot * SLOT + BLOCK] = bytes(BLOCK)
                for how, harmed in (("a bit", bytes(bits)), ("first blocks", bytes(firsts))):
                    stand = standing(changes, [harmed[HALF:], *runs_of(harmed)])
                    self._salvages(f"{what}, {how}, killed: {killed}, {blocks} blocks", harmed, after(stand), 1)

    def a_block_after_a_kill_is_in_the_slots_of_the_commit_before(self):
        changes = [create(f"d{number}", {"n": number, "text": "y" * 130}) for number in range(20)]
        content = made(self.program, self.file, 3, changes, True)
        _, blocks = log_of(content)
        expect("the blocks that count", blocks, 1)
        harmed = content[:HALF] + bytes(BLOCK) + content[HALF + BLOCK:]
        end = self._salvages("block 16 zeroed", harmed, after(changes), 1)
        expect("its number", end["seq"], 20)
        frames = [json.loads(line) for line in ask(self.program, self.file, harmed, "salvage", self.file, "--frames").stdout.splitlines()]
        expect("the frames", {line["seq"] for line in frames}, set(range(1, 21)))

    def the_tail_wins_over_an_old_block(self):
        old = [create(f"d{number}", {"old": number, "text": "z" * 300}) for number in range(30)]
        new = [create(f"e{number}", {"n": number, "text": "z" * 300}) for number in range(10)] + [create(f"d{number}", {"new": number}) for number in range(10)]
        before, content = made(self.program, self.file, 3, old), made(self.program, self.file, 3, new)
        harmed = content[:HALF] + before[HALF:HALF + BLOCK] + content[HALF + BLOCK:]
        _, blocks = log_of(content)
        expect("the blocks that count", blocks, 1)
        said = ask(self.program, self.file, harmed, "salvage", self.file)
        given = {line["name"]: line["doc"] for line in map(json.loads, said.stdout.splitlines()[:-1])}
        for number in range(5, 10):
            expect("a document of the tail", given[f"d{number}"], {"new": number})
        frames = [json.loads(line) for line in ask(self.program, self.file, harmed, "salvage", self.file, "--frames").stdout.splitlines()]
        expect("the checks of the counted frames", {(line["sector"] >= 128, line["check"]) for line in frames if line["counted"]}, {(True, "failed"), (False, "held")})

    def frames_of_a_whole_store(self):
        for what, changes, content in self._stores(3):
            frames = [json.loads(line) for line in ask(self.program, self.file, content, "salvage", self.file, "--frames").stdout.splitlines()]
            expect(f"the counted frames, {what}", [line["command"] for line in frames if line["counted"]], changes)
            expect(f"each place once, {what}", len({(line["sector"], line["byte"]) for line in frames}), len(frames))


def changes_of(log):
    """The changes whose frames a log has, one behind the other."""
    at, changes = 0, []
    while at < len(log):
        size = int.from_bytes(log[at + 1:at + 4], "big")
        changes.append(json.loads(log[at + 12:at + 12 + size]))
        at += 12 + size
    return changes


def main():
    program = os.path.abspath(sys.argv[1])
    names = sys.argv[2:] or [name for name in vars(Tests) if not name.startswith("_")]
    failed = 0
    for name in names:
        with tempfile.TemporaryDirectory() as folder:
            try:
                getattr(Tests(program, folder), name)()
                print(f"ok {name}", flush=True)
            except (Wrong, subprocess.TimeoutExpired, ValueError, KeyError, IndexError) as error:
                failed += 1
                print(f"FAILED {name}: {error!r:.3000}", flush=True)
    print(f"{len(names) - failed} passed, {failed} failed")
    sys.exit(failed > 0)


if __name__ == "__main__":
    main()
