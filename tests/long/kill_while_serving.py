#!/usr/bin/env python3
"""Kills a program that serves a store, at random moments, and looks at what is there afterwards.

    kill_while_serving.py PROGRAM [--rounds N] [--formats 2 3] [--seed S]

A store is made in a file, in each format. Each round starts `PROGRAM serve FILE`, sends changes, and kills the program by signal 9 at a
random moment. Opened again, the store must hold the first of the changes that were sent, in their order, and at least
all that were acknowledged, and each document must have the revision of its last change. The next round goes on from there. The store is small, so it makes snapshots now and then.

In some rounds the program is started with one of the standard streams closed, whose number is then free for the first
file that it opens. Without standard input it gets no change, and without standard output none is acknowledged.

A killed program loses nothing that it had handed to the system: what a power failure leaves isn't tried here.
"""
import argparse
import contextlib
import json
import os
import random
import subprocess
import sys
import tempfile
import time

SECTORS = 16
NAMES = ["a", "b", "c", "d", "e", "f"]

INPUT, OUTPUT, ERRORS = range(3)

# The stream that a round's program is started without.
CLOSED = [None, None, None, ERRORS, ERRORS, OUTPUT, INPUT]

# The longest that a program without input or output runs until its kill, in seconds.
MUTE_TIME = 0.03

# The most changes of a round that are waited for, and the most that are sent then, before the kill.
AWAITED = 40
PENDING = 8


class Lost(Exception):
    """What is there isn't what should be."""


def a_change(documents, number):
    """A change that is accepted over these documents, and the documents after it."""
    after = dict(documents)
    free = [name for name in NAMES if name not in documents]
    kind = random.random()
    if free and (not documents or kind < 0.15):
        name = random.choice(free)
        after[name] = {"m": number, "n": number, "text": "x" * random.randrange(60)}
        return {"cmd": "create", "doc": after[name], "name": name, "schema": True}, after
    name = random.choice(list(documents))
    if kind > 0.9:
        del after[name]
        return {"cmd": "delete", "name": name}, after
    after[name] = dict(documents[name], m=number, n=number)
    operations = [{"op": "replace", "path": "/" + member, "value": number} for member in "mn"]
    return {"cmd": "patch", "name": name, "ops": operations}, after


def serve(program, file, closed=None):
    def start():
        if closed is not None:
            os.close(closed)
    return subprocess.Popen([program, "serve", file], stdin=subprocess.PIPE, stdout=subprocess.PIPE,
                            stderr=subprocess.PIPE if closed is not None else None, preexec_fn=start)


def send(server, commands):
    server.stdin.write(b"".join(json.dumps(command).encode() + b"\n" for command in commands))
    server.stdin.flush()


def converse(server, commands):
    """Sends commands, some at a time, and answers their replies."""
    replies = []
    while len(replies) < len(commands):
        some = commands[len(replies):len(replies) + random.randint(1, 4)]
        send(server, some)
        for _ in some:
            reply = server.stdout.readline()
            if not reply:
                raise Lost("the program ended by itself")
            replies.append(json.loads(reply))
    return replies


def ask(program, file, commands):
    """The replies of a session that is not killed."""
    with serve(program, file) as server:
        replies = converse(server, commands)
        server.stdin.close()
    if server.returncode != 0:
        raise Lost("the store can't be opened and asked any more")
    return replies


def killed_mute(program, file, commands, closed):
    """No replies: the program is killed, somewhere in the opening or in one of the commands, if it can read them."""
    with serve(program, file, closed) as server:
        with contextlib.suppress(BrokenPipeError):
            os.write(server.stdin.fileno(), b"".join(json.dumps(command).encode() + b"\n" for command in commands))
        time.sleep(random.uniform(0, MUTE_TIME))
        server.kill()
    return []


def killed(program, file, commands, closed):
    """The replies until the program is killed, somewhere in the opening or in the last of the commands."""
    if closed in (INPUT, OUTPUT):
        return killed_mute(program, file, commands, closed)
    with serve(program, file, closed) as server:
        began = time.monotonic()
        replies = converse(server, commands[:-PENDING])
        pace = (time.monotonic() - began) / len(replies) if replies else 0.001
        send(server, commands[-PENDING:])
        time.sleep(random.uniform(0, pace * PENDING))
        server.kill()
        rest = [json.loads(reply) for reply in server.stdout if reply.endswith(b"\n")]
    return replies + rest


def what_stands(program, file):
    """The status, and the documents in the order of their creation."""
    status, names = ask(program, file, [{"cmd": "status"}, {"cmd": "list"}])
    values = ask(program, file, [{"cmd": "get", "name": name, "path": ""} for name in names["names"]])
    documents = dict(zip(names["names"], [value["value"] for value in values]))
    for name, rev in zip(documents, ask(program, file, [{"cmd": "rev", "name": name} for name in documents])):
        # Each document has the number of its last change, which is the seq and so its revision.
        if rev != {"ok": True, "rev": documents[name]["n"]}:
            raise Lost("%s is %s, and its revision is %s" % (name, documents[name], rev))
    return status, documents


def one_round(program, file, seq, documents):
    """Sends changes until the kill: those that were sent and acknowledged, the status then, and what is there."""
    states, commands = [documents], []
    for number in range(seq + 1, seq + PENDING + 1 + max(0, random.randint(-AWAITED // 4, AWAITED))):
        command, after = a_change(states[-1], number)
        commands.append(command)
        states.append(after)
    closed = random.choice(CLOSED)
    replies = killed(program, file, commands, closed)
    for place, reply in enumerate(replies):
        if reply != {"ok": True, "seq": seq + place + 1}:
            raise Lost("change %d was answered %s" % (seq + place + 1, reply))
    status, stands = what_stands(program, file)
    kept = status["seq"] - seq
    if not len(replies) <= kept <= (0 if closed == INPUT else len(commands)):
        raise Lost("%d changes were acknowledged, and %d stand" % (len(replies), kept))
    if list(stands.items()) != list(states[kept].items()):
        raise Lost("after %d changes %s should stand, and %s does" % (kept, states[kept], stands))
    return len(commands), len(replies), status, stands


def try_rounds(program, file, rounds, number):
    """What all rounds over a store of this format come to, in words."""
    words = [program, "format", file, "--sectors", str(SECTORS), "--format", str(number)]
    subprocess.run(words, check=True, stdout=subprocess.DEVNULL)
    seq, documents, half = 0, {}, 0
    all_sent = all_acknowledged = within = snapshots = 0
    for count in range(1, rounds + 1):
        try:
            sent, acknowledged, status, documents = one_round(program, file, seq, documents)
        except Lost as lost:
            raise Lost("round %d: %s" % (count, lost)) from None
        all_sent += sent
        all_acknowledged += acknowledged
        within += acknowledged < status["seq"] - seq < sent
        snapshots += status["half"] != half
        seq, half = status["seq"], status["half"]
    return ("format %d, %d rounds: %d changes sent, %d acknowledged, %d stand; %d kills fell between two changes that weren't "
            "acknowledged, %d rounds ended in the other half" % (number, rounds, all_sent, all_acknowledged, seq, within, snapshots))


def main():
    parser = argparse.ArgumentParser(description=__doc__.splitlines()[0])
    parser.add_argument("program")
    parser.add_argument("--rounds", type=int, default=200)
    parser.add_argument("--formats", type=int, nargs="+", default=[2, 3])
    parser.add_argument("--seed", type=int, default=random.randrange(1 << 32))
    words = parser.parse_args()
    random.seed(words.seed)
    print("seed %d" % words.seed, flush=True)
    with tempfile.TemporaryDirectory() as folder:
        for number in words.formats:
            try:
                print(try_rounds(os.path.abspath(words.program), os.path.join(folder, "store-%d" % number), words.rounds, number))
            except Lost as lost:
                print("LOST, format %d: %s" % (number, lost))
                sys.exit(1)


if __name__ == "__main__":
    main()
