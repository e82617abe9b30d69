#!/usr/bin/env python3
"""Measures how much memory `serve` needs for documents of different forms, as a multiple of the length of their text.

    memory_of_documents.py PROGRAM

A store gets twelve documents of some 1,000,000 bytes each. The figure is the growth of the resident memory, divided by the
length of the twelve texts. README and the guide have these figures.
"""
import json
import pathlib
import re
import subprocess
import sys
import tempfile

DOCUMENTS = 12
FORMS = {
    "one long text": "x" * 1_000_000,
    "records with longer texts": [{"host": f"server-{i}.example.org", "port": 8080, "note": "x" * 200} for i in range(3_800)],
    "a map of names to numbers": {f"item-{i:06}": i for i in range(50_000)},
    "rows of three members": [{"sku": f"SKU-{i:08}", "name": f"bolt M{i % 20}, steel", "qty": i} for i in range(16_000)],
    "rows of two small members": [{"sku": f"s{i:05}", "qty": 3} for i in range(32_000)],
    "objects of one small member": [{"a": 1}] * 110_000,
}


def resident(process):
    """The bytes of a process that are in memory."""
    status = pathlib.Path(f"/proc/{process.pid}/status").read_text(encoding="ascii")
    return 1024 * int(re.search(r"^VmRSS:\s*(\d+) kB$", status, re.M)[1])


def answer(process, command):
    process.stdin.write(json.dumps(command, separators=(",", ":")).encode() + b"\n")
    process.stdin.flush()
    reply = json.loads(process.stdout.readline())
    if not reply["ok"]:
        raise SystemExit(f"it is refused: {reply}")


def times(program, file, doc):
    """The memory of the documents, as a multiple of their texts."""
    subprocess.run([program, "format", file, "--sectors", "65536", "--sparse"], check=True, stdout=subprocess.DEVNULL)
    with subprocess.Popen([program, "serve", file], stdin=subprocess.PIPE, stdout=subprocess.PIPE) as process:
        answer(process, {"cmd": "status"})
        before = resident(process)
        for number in range(DOCUMENTS):
            answer(process, {"cmd": "create", "doc": doc, "name": f"d{number}", "schema": True})
        grown = resident(process) - before
        process.stdin.close()
    return grown / (DOCUMENTS * len(json.dumps(doc, separators=(",", ":"))))


def main():
    if len(sys.argv) != 2:
        print(__doc__, file=sys.stderr)
        return 2
    for form, doc in FORMS.items():
        with tempfile.TemporaryDirectory(prefix="jpstore-") as folder:
            print(f"{form:30} {times(sys.argv[1], f'{folder}/store', doc):6.1f}", flush=True)
    return 0


if __name__ == "__main__":
    sys.exit(main())
