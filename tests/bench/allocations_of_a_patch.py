#!/usr/bin/env python3
"""Counts the allocations of a patch, under a schema with unused definitions and under one without.

    allocations_of_a_patch.py [--definitions N] [--patches N] [--rt RT]

It runs the program by `rt try` in crates/jpstore, on a creation and then the same patch again and again, and has one
allocation refused in each run. The change that met the refusal is answered 63. Two runs whose refused allocations lie
far apart say how many a patch takes: by how far apart the answers lie. Both schemas must give the same number.
"""
import argparse
import json
import os
import subprocess
import sys

PROGRAM = os.path.join(os.path.dirname(os.path.abspath(__file__)), os.pardir, os.pardir, "crates", "jpstore")

# The allocations that are refused, one a run. Both come after the creation and before the last patch.
REFUSED = (20_000, 60_000)

MEMORY = 63


def schema_with(definitions):
    return {"$defs": {"d%d" % i: {"type": "integer"} for i in range(definitions)}, "type": "object"}


def lines(definitions, patches):
    create = {"cmd": "create", "doc": {"a": 0}, "name": "d", "schema": schema_with(definitions)}
    patch = {"cmd": "patch", "name": "d", "ops": [{"op": "replace", "path": "/a", "value": 0}]}
    return "".join(json.dumps(command) + "\n" for command in [create] + [patch] * patches)


def refused_line(rt, text, allocation):
    """The number of the line that met the refused allocation."""
    words = [rt, "try", "--fail-alloc", str(allocation), "--", "mem", "--sectors", "65536"]
    run = subprocess.run(words, input=text, capture_output=True, text=True, cwd=PROGRAM)
    replies = [json.loads(line) for line in run.stdout.splitlines() if line.startswith("{")]
    found = [i for i, reply in enumerate(replies) if reply.get("number") == MEMORY]
    if len(found) != 1 or found[0] == 0:
        sys.exit("no patch met allocation %d: %s %s" % (allocation, run.stdout[-400:], run.stderr[-400:]))
    return found[0]


def main():
    parser = argparse.ArgumentParser(description=__doc__, formatter_class=argparse.RawDescriptionHelpFormatter)
    parser.add_argument("--definitions", type=int, default=1000)
    parser.add_argument("--patches", type=int, default=6000)
    parser.add_argument("--rt", default="rt")
    given = parser.parse_args()
    counts = []
    for definitions in (0, given.definitions):
        text = lines(definitions, given.patches)
        low, high = (refused_line(given.rt, text, allocation) for allocation in REFUSED)
        counts.append(round((REFUSED[1] - REFUSED[0]) / (high - low)))
        print("%d definitions: %d patches take %d allocations, %d each" % (definitions, high - low, REFUSED[1] - REFUSED[0], counts[-1]))
    if counts[0] != counts[1]:
        sys.exit("the unused definitions cost allocations")


if __name__ == "__main__":
    main()
