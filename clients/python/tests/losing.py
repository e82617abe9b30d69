#!/usr/bin/env python3
"""A program that ends before it answers a transaction, to try what a client makes of a lost answer.

It takes the words of `jpstore` and hands on to the program named by LOST_BY what it reads. The file named by LOST has
the plan, a letter for each transaction, of which each takes the first: `b`, the program ends before it has made the
transaction; `a`, after it has made it; `-`, it is answered.
"""
import os
import subprocess
import sys
import threading


def planned():
    with open(os.environ["LOST"], "r+", encoding="ascii") as file:
        plan = file.read()
        file.seek(0)
        file.truncate()
        file.write(plan[1:])
    return plan[:1]


def end(served):
    served.kill()
    served.wait()
    os._exit(1)


def hand_back(served, lost):
    for number, reply in enumerate(served.stdout):
        if number in lost:
            end(served)
        sys.stdout.buffer.write(reply)
        sys.stdout.buffer.flush()


def main():
    words = [os.environ["LOST_BY"], *sys.argv[1:]]
    if sys.argv[1] != "serve":
        return subprocess.call(words)
    lost = set()
    with subprocess.Popen(words, stdin=subprocess.PIPE, stdout=subprocess.PIPE) as served:
        back = threading.Thread(target=hand_back, args=(served, lost), daemon=True)
        back.start()
        for number, line in enumerate(sys.stdin.buffer):
            plan = planned() if b'"cmd":"transaction"' in line else "-"
            if plan == "b":
                end(served)
            if plan == "a":
                lost.add(number)
            served.stdin.write(line)
            served.stdin.flush()
        served.stdin.close()
        back.join()
    return served.returncode


if __name__ == "__main__":
    sys.exit(main())
