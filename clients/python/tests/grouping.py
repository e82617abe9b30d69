#!/usr/bin/env python3
"""A program that groups changes, over one that doesn't, to try that a client doesn't wait for ever.

It takes the words of `jpstore` and `--batch N`, and hands on to the program named by GROUPED what it reads. A
change is held back until N of them wait, or another line comes, or the input ends.
"""
import os
import subprocess
import sys
import threading

CHANGES = (b'"cmd":"create"', b'"cmd":"patch"', b'"cmd":"schema"', b'"cmd":"delete"')


def hand_on(most, out):
    waiting = []
    for line in sys.stdin.buffer:
        waiting.append(line)
        if len(waiting) == most or not any(change in line for change in CHANGES):
            out.write(b"".join(waiting))
            out.flush()
            waiting = []
    out.write(b"".join(waiting))
    out.close()


def main():
    words = sys.argv[1:]
    if "--help" in words:
        print("Usage: grouping serve [--batch <N>] <FILE>")
        return 0
    most = 1
    if "--batch" in words:
        place = words.index("--batch")
        most = int(words[place + 1])
        del words[place:place + 2]
    if words[0] != "serve":
        return subprocess.call([os.environ["GROUPED"], *words])
    served = subprocess.Popen([os.environ["GROUPED"], *words], stdin=subprocess.PIPE)
    threading.Thread(target=hand_on, args=(most, served.stdin), daemon=True).start()
    return served.wait()


if __name__ == "__main__":
    sys.exit(main())
