#!/usr/bin/env python3
"""Writes from docs/protocol.toml what the pages, the clients and the server have of the protocol: refusals, commands, limits,
keywords of schemas, and the words that shells complete.

    protocol.py [--check]

It says which files it changed. With --check nothing is written: it says which parts differ from the table, where the crates
have something else, whose contracts cite their own tables, and where a command that is spelled by hand isn't one. Its last
line is then `N passed, M failed`. It needs Python 3.11.
"""
import argparse
import sys

from protocol_parts import c, completions, openapi, pages, python, rattle, rust, spelled
from protocol_parts.parts import Missing, fault_of, write
from protocol_parts.table import Wrong, read_table

WRITTEN = (pages, python, rust, c, openapi, completions)
COMPARED = (rattle, spelled)


def check(table, parts):
    """Says what differs, and answers the exit status."""
    faults = [[fault] if fault else [] for fault in map(fault_of, parts)]
    faults += [list(found) for compared in COMPARED for found in compared.faults(table)]
    print("".join(f"{fault}\n" for found in faults for fault in found), end="")
    failed = sum(map(bool, faults))
    print(f"{len(faults) - failed} passed, {failed} failed")
    return 1 if failed else 0


def main():
    parser = argparse.ArgumentParser(description=__doc__, formatter_class=argparse.RawDescriptionHelpFormatter)
    parser.add_argument("--check", action="store_true", help="write nothing, and say what differs")
    asked = parser.parse_args()
    try:
        table = read_table()
        parts = [part for written in WRITTEN for part in written.parts(table)]
        if asked.check:
            return check(table, parts)
        changed = dict.fromkeys(part.path for part in parts if write(part))
    except (Wrong, Missing) as fault:
        print(f"{fault}\n0 passed, 1 failed" if asked.check else fault)
        return 1
    print("".join(f"{path}\n" for path in changed), end="")
    return 0


if __name__ == "__main__":
    sys.exit(main())
