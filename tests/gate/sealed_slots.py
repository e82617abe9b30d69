#!/usr/bin/env python3
"""Damages any two of the four slots of a store of format 3 after `serve` has ended, and opens it again.

    sealed_slots.py PROGRAM

At the end of its input `serve` seals a store that it has changed: all four slots then hold the last commit. So the store
must give the same documents and the same number of changes, whichever two of them are filled with other bytes or cut off in
their middle. In format 2 a seal changes nothing.

A store that was upgraded, and whose first sector or block comes back as it was before, must be refused as damaged by all
that open it, which write nothing; so must not be one whose upgrade or return was stopped. Of a store whose last commit is
lost `copy`, `upgrade` and `dump` must say so, and refuse it by `--strict`.

The last line is `N passed, M failed`.
"""
import argparse
import itertools
import json
import pathlib
import shutil
import subprocess
import sys
import tempfile

SECTORS = 256
SLOT = 32 * 512
LINES = [
    {"cmd": "create", "doc": {"a": 1}, "name": "d", "schema": True},
    {"cmd": "create", "doc": "e" * 6000, "name": "e", "schema": True},
    {"cmd": "patch", "name": "d", "ops": [{"op": "replace", "path": "/a", "value": 2}]},
]
QUESTIONS = [{"cmd": "list"}, {"cmd": "get", "name": "d", "path": ""}, {"cmd": "get", "name": "e", "path": ""}]


def lines_of(requests):
    return "".join(json.dumps(request, separators=(",", ":"), sort_keys=True) + "\n" for request in requests).encode()


def run(words, data=b""):
    return subprocess.run([str(word) for word in words], input=data, stdout=subprocess.PIPE, stderr=subprocess.PIPE, check=False)


def served(program, file, requests):
    return run([program, "serve", file], lines_of(requests)).stdout.splitlines()


def made(program, folder, name, form):
    """A new store of that format with the changes of LINES, served to the end of the input."""
    file = folder / name
    if run([program, "format", file, "--sectors", SECTORS, "--format", form]).returncode:
        raise SystemExit(f"format {form} failed")
    replies = served(program, file, LINES)
    if [json.loads(reply).get("seq") for reply in replies] != [1, 2, 3]:
        raise SystemExit(f"the changes were answered {replies}")
    return file


def damaged(file, folder, slots, fill):
    """A copy in which these slots are filled so, as a whole or from their middle on."""
    copy = folder / "damaged"
    shutil.copyfile(file, copy)
    with open(copy, "r+b") as opened:
        for slot in slots:
            begin, size = (slot * SLOT, SLOT) if fill != "half" else (slot * SLOT + 256, SLOT - 256)
            opened.seek(begin)
            opened.write((b"\xff" if fill != "zeros" else b"\0") * size)
    return copy


def put(file, content):
    file.write_bytes(content)
    return file


def outdated(program, folder, count):
    """An upgraded store with a first sector or block from before."""
    file = folder / "upgraded"
    run([program, "format", file, "--sectors", 300])
    served(program, file, [*LINES[:1], {"cmd": "snapshot"}])
    before = file.read_bytes()
    run([program, "upgrade", file])
    # As it is before sector 0 is written: the opening was counted there (bytes 32 to 39), and half 1 was in force.
    opens = int.from_bytes(before[32:40], "big") + 1
    stopped = before[:32] + opens.to_bytes(8, "big") + before[40:512] + file.read_bytes()[512:]
    served(program, file, [{"cmd": "patch", "name": "d", "ops": [{"op": "replace", "path": "/a", "value": 2}]}])
    after = file.read_bytes()
    for size in (512, 4096):
        old = before[:size] + after[size:]
        for words in (["check"], ["check", "--strict"], ["repair"], ["serve"], ["dump", "--read-only"], ["upgrade"], ["copy", folder / "copy", "--sectors", 300]):
            said = run([program, words[0], put(file, old), *words[1:]])
            count.note((said.returncode, said.stdout, said.stderr) == (1, b"", b"jpstore: damaged (73)\n"), f"{size} old bytes, {words}: {said}")
            count.note(file.read_bytes() == old and not (folder / "copy").exists(), f"{size} old bytes, {words}: it was written")
        deep = run([program, "check", put(file, old), "--deep"])
        told = [json.loads(line).get("damage") for line in deep.stdout.splitlines()]
        count.note(deep.returncode == 1 and "unopened" in told and file.read_bytes() == old, f"{size} old bytes, check --deep: {deep}")
    for name, content in (("an upgrade", stopped), ("no upgrade", before), ("a whole upgrade", after)):
        said = run([program, "check", put(file, content)])
        count.note(said.returncode == 0 and json.loads(said.stdout)["documents"] == 1, f"{name} that ended: {said}")
    run([program, "upgrade", put(file, after), "--format", 2])
    returned = file.read_bytes()
    for first in (1, 8, 32, 64, 96):
        half_wiped = returned[:512] + after[512:512 * first] + returned[512 * first:512 * 128 - 1] + returned[512 * 128 - 1:]
        said = served(program, put(file, half_wiped), QUESTIONS[1:2])
        count.note(json.loads(said[0]).get("value") == {"a": 2}, f"a return that was stopped at sector {first}: {said}")


def lost(program, folder, count):
    """A store whose last commit is lost: neither copy of it is whole, and no seal was made."""
    file = folder / "killed"
    run([program, "format", file, "--sectors", SECTORS, "--format", 3])
    with subprocess.Popen([program, "serve", file], stdin=subprocess.PIPE, stdout=subprocess.PIPE) as server:
        for line in LINES:
            server.stdin.write(lines_of([line]))
            server.stdin.flush()
            server.stdout.readline()
        server.kill()
    content = bytearray(file.read_bytes())
    numbers = [int.from_bytes(content[SLOT * slot + 16:SLOT * slot + 24], "big") for slot in range(4)]
    for slot in range(4):
        if numbers[slot] == max(numbers):
            content[SLOT * slot + 100] ^= 1
    content = bytes(content)
    for words in (["copy", folder / "copied", "--sectors", SECTORS, "--format", 3], ["upgrade"], ["dump", "--read-only"]):
        said = run([program, words[0], put(file, content), *words[1:]])
        count.note((said.returncode, said.stderr) == (0, b'{"slots":"cut-off"}\n'), f"{words} of a store that was cut off: {said}")
        (folder / "copied").unlink(missing_ok=True)
        said = run([program, words[0], put(file, content), *words[1:], "--strict"])
        count.note((said.returncode, said.stdout, said.stderr) == (1, b"", b"jpstore: cut-off (75)\n"), f"{words} --strict: {said}")
        count.note(file.read_bytes() == content and not (folder / "copied").exists(), f"{words} --strict: it was written")
        run([program, "repair", file])
        said = run([program, words[0], file, *words[1:], "--strict"])
        count.note((said.returncode, said.stderr) == (0, b""), f"{words} --strict of a repaired store: {said}")
        (folder / "copied").unlink(missing_ok=True)


class Count:
    passed = failed = 0

    def note(self, good, what):
        if good:
            self.passed += 1
        else:
            self.failed += 1
            print(f"wrong: {what}")


def main():
    parser = argparse.ArgumentParser()
    parser.add_argument("program", type=pathlib.Path)
    program = parser.parse_args().program.resolve()
    count = Count()
    with tempfile.TemporaryDirectory() as name:
        folder = pathlib.Path(name)
        sealed = made(program, folder, "sealed", 3)
        right = served(program, shutil.copyfile(sealed, folder / "whole"), QUESTIONS)
        count.note(len(right) == 3 and b'"ok":true' in right[2], "the whole store doesn't answer")
        for slots in [*itertools.combinations(range(4), 1), *itertools.combinations(range(4), 2)]:
            for fill in ("zeros", "ones", "half"):
                copy = damaged(sealed, folder, slots, fill)
                status = run([program, "check", copy])
                count.note(status.returncode == 0 and json.loads(status.stdout)["seq"] == 3, f"slots {slots}, {fill}: check says {status.stdout} {status.stderr}")
                count.note(served(program, copy, QUESTIONS) == right, f"slots {slots}, {fill}: other answers")
        plain = made(program, folder, "plain", 2)
        again = made(program, folder, "again", 2)
        with_seal = served(program, again, [{"cmd": "seal"}])
        count.note(with_seal == [b'{"ok":true}'], f"a seal in format 2 is answered {with_seal}")
        served(program, plain, [])
        count.note(plain.read_bytes() == again.read_bytes(), "a seal changes a store of format 2")
        told = served(program, sealed, [{"cmd": "seal"}, {"cmd": "status"}, {"cmd": "seal", "x": 1}])
        count.note(told[0] == b'{"ok":true}' and json.loads(told[1])["seq"] == 3, f"a seal is answered {told}")
        count.note(json.loads(told[2]).get("number") == 14, f"a seal with a member more is answered {told[2]}")
        outdated(program, folder, count)
        lost(program, folder, count)
    print(f"{count.passed} passed, {count.failed} failed")
    return 1 if count.failed else 0


if __name__ == "__main__":
    sys.exit(main())
