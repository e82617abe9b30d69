#!/usr/bin/env python3
"""Whether a program does no more work than it should for changes of large documents.

    work.py PROGRAM [--show]

No clause speaks of time. A change of one place is to cost its place and its path, and not its document: a program that judged
or read a whole document for each would still be proved. So each case is a session of changes of a document of nearly 1 MiB,
and an opening that makes them again. Its limits, of processor seconds and of MiB of memory, are over ten times what it takes, so that
a slow or busy machine passes.

Allocations are counted, so that the machine doesn't matter: a patch of each kind takes as many in a document of 900 KB as in one of 1 KB,
and those of an opening grow with the members alone. --show prints what each takes. The last line is `N passed, M failed`.
"""
import argparse
import json
import os
import pathlib
import subprocess
import sys
import tempfile
from dataclasses import dataclass

CHANGES, MOVES = 1000, 20
SECTORS = 65536
SCHEMA = {"additionalProperties": {"items": {"maxLength": 64, "type": "string"}, "maxLength": 64, "type": ["array", "string"]}}


@dataclass
class Case:
    """Changes of one document, and the processor seconds and the MiB that they may take."""

    name: str
    doc: object
    patches: list
    seconds: float
    mebibytes: int


def members(count):
    """An object of texts."""
    return {f"member-{number}": "x" * 40 for number in range(count)}


def cases():
    """The cases: changes of a member, of the end of a list, a member that comes and goes, and fewer guarded moves of the list, since it is judged anew at each place."""
    wide, long = members(15_000), {"list": ["x" * 40 for _ in range(20_000)]}
    places = [("list", "other"), ("other", "list")]
    replaced = [[{"op": "replace", "path": f"/member-{number}", "value": "y"}] for number in range(CHANGES)]
    added = [[{"op": "add", "path": "/list/-", "value": "y"}]] * CHANGES
    passing = [[{"op": "add", "path": "/member-0a", "value": "y"}], [{"op": "remove", "path": "/member-0a"}]] * (CHANGES // 2)
    moved = [[{"op": "test", "path": "/guard", "value": "x"}, {"op": "move", "from": f"/{old}", "path": f"/{new}"}] for old, new in places * MOVES]
    return [
        Case("a member", wide, replaced, 2, 250),
        Case("the end of a list", long, added, 2, 250),
        Case("a member that comes and goes", wide, passing, 4, 250),
        Case("a guarded move", {"guard": "x", **long}, moved, 4, 400),
    ]


def lines_of(case):
    """The lines of a case."""
    create = {"cmd": "create", "doc": case.doc, "name": "d", "schema": SCHEMA}
    changes = [{"cmd": "patch", "name": "d", "ops": ops} for ops in case.patches]
    return "".join(json.dumps(line, separators=(",", ":")) + "\n" for line in [create, *changes])


def run(words, lines=""):
    """What a program wrote, and the processor seconds and the MiB that it took."""
    with tempfile.TemporaryFile("w+") as given, tempfile.TemporaryFile("w+") as written:
        given.write(lines)
        given.seek(0)
        process = subprocess.Popen(words, stdin=given, stdout=written)
        _, status, used = os.wait4(process.pid, 0)
        process.returncode = os.waitstatus_to_exitcode(status)
        written.seek(0)
        return written.read(), used.ru_utime, used.ru_maxrss / 1024


def why_not(case, program, file, shown):
    """What is wrong with a case, if anything."""
    subprocess.run([program, "format", file, "--sectors", str(SECTORS), "--sparse"], check=True, stdout=subprocess.DEVNULL)
    served = run([program, "serve", file, "--batch", "1024"], lines_of(case))
    checked = run([program, "check", file])
    replies = [json.loads(line) for line in served[0].splitlines()]
    if [reply.get("seq") for reply in replies] != [*range(1, len(case.patches) + 2)]:
        return f"not all changes were done: {next((reply for reply in replies if not reply.get('ok')), replies[-1:])}"
    if json.loads(checked[0] or "{}").get("seq") != len(case.patches) + 1:
        return f"the opening found other changes: {checked[0]}"
    for what, (_, seconds, mebibytes) in (("serving", served), ("opening", checked)):
        if shown:
            print(f"{case.name}, {what}: {seconds:.2f} s, {mebibytes:.0f} MiB")
        if seconds > case.seconds or mebibytes > case.mebibytes:
            return f"{what} took {seconds:.2f} s of {case.seconds} and {mebibytes:.0f} MiB of {case.mebibytes}"
    return None


# ---- allocations

KINDS = {
    "a replacement": [{"op": "replace", "path": "/a", "value": 1}],
    "a copy": [{"op": "copy", "from": "/a", "path": "/b"}],
    "an addition and a removal": [{"op": "add", "path": "/c", "value": 1}, {"op": "remove", "path": "/c"}],
    "the same at a list's end": [{"op": "add", "path": "/list/-", "value": 1}, {"op": "remove", "path": "/list/0"}],
    "moves to and fro": [{"op": "move", "from": "/a", "path": "/c"}, {"op": "move", "from": "/c", "path": "/a"}],
}
FEW, MANY = 100, 600


class Heap:
    """A program whose allocations are counted."""

    def __init__(self, program, folder):
        self.program, self.counter, self.count = program, f"{folder}/counter.so", f"{folder}/count"
        source = pathlib.Path(__file__).with_name("counting_heap.c")
        subprocess.run(["cc", "-O2", "-shared", "-fPIC", "-o", self.counter, source, "-ldl"], check=True)

    def allocations(self, *words, lines=()):
        """How many a run makes, in which no line is refused."""
        given = "".join(json.dumps(line, separators=(",", ":")) + "\n" for line in lines)
        counted = {**os.environ, "LD_PRELOAD": self.counter, "ALLOCATIONS": self.count}
        written = subprocess.run([self.program, *words], input=given, capture_output=True, text=True, env=counted, check=True).stdout
        refused = [reply for reply in written.splitlines() if '"ok":false' in reply]
        if refused:
            raise SystemExit(f"work.py: refused: {refused[0]}")
        return int(pathlib.Path(self.count).read_text())

    def of_patch(self, doc, ops):
        """How many a patch of one operation takes."""
        begin = {"cmd": "create", "doc": doc, "name": "d", "schema": True}
        patches = [{"cmd": "patch", "name": "d", "ops": [op]} for op in ops]
        few, many = (self.allocations("mem", "--sectors", str(SECTORS), lines=[begin, *patches * count]) for count in (FEW, MANY))
        return round((many - few) / (MANY - FEW) / len(ops), 1)

    def of_opening(self, file, count):
        """How many the opening takes of a store whose document has that many members."""
        subprocess.run([self.program, "format", file, "--sectors", str(SECTORS), "--sparse"], check=True, stdout=subprocess.DEVNULL)
        self.allocations("serve", file, lines=[{"cmd": "create", "doc": members(count), "name": "d", "schema": True}])
        return self.allocations("check", file)


def counts(program, folder, shown):
    """What is counted, and what is wrong with it, if anything."""
    heap, small, large = Heap(program, folder), {"a": 0, "list": []}, {"a": 0, "list": [], **members(14_000)}
    for what, ops in KINDS.items():
        found = [heap.of_patch(doc, ops) for doc in (small, large)]
        if shown:
            print(f"{what}: {found[0]} allocations a patch in a small document, {found[1]} in a large one")
        yield what, None if found[0] == found[1] else f"takes {found[0]} allocations in a small document and {found[1]} in a large one"
    opened = [heap.of_opening(f"{folder}/{count}", count) for count in (4_000, 8_000, 16_000)]
    each = [(more - less) / count for less, more, count in zip(opened, opened[1:], (4_000, 8_000))]
    if shown:
        print(f"an opening: {each[0]:.2f} and {each[1]:.2f} allocations a member")
    yield "an opening", None if abs(each[0] - each[1]) < 0.05 else f"takes {each[0]:.2f}, then {each[1]:.2f} allocations a member"


def main():
    parser = argparse.ArgumentParser(description=__doc__, formatter_class=argparse.RawDescriptionHelpFormatter)
    parser.add_argument("program")
    parser.add_argument("--show", action="store_true")
    asked = parser.parse_args()
    program, found = str(pathlib.Path(asked.program).resolve()), []
    with tempfile.TemporaryDirectory(prefix="work-") as folder:
        for number, case in enumerate(cases()):
            found.append((case.name, why_not(case, program, f"{folder}/case-{number}", asked.show)))
        found += counts(program, folder, asked.show)
    for what, why in found:
        print(f"{what}: {why or 'ok'}")
    faults = sum(bool(why) for _, why in found)
    print(f"{len(found) - faults} passed, {faults} failed")
    return 1 if faults else 0


if __name__ == "__main__":
    sys.exit(main())
