"""What takes the place of the program under a node: it hands that one line at a time.

    replica_program.py crashing CHANCE CALM PROGRAM WORD..
    replica_program.py lacking TEXT PROGRAM WORD..

The first dies after a transaction with this chance, with replies that nobody got, as long as there is no file CALM. The
second has no memory for lines with this text. Both end when the program ends, and when their input ends, be it amid a
line: else a node that was killed would leave its file in use.
"""
import os
import random
import subprocess
import sys

STATUS = b'{"cmd":"status"}\n'
NO_MEMORY = b'{"error":"memory","number":63,"ok":false}\n'


class Standing:
    """The program that is stood in for. What it has replied may be held back."""

    def __init__(self, words):
        self._program = subprocess.Popen(words, stdin=subprocess.PIPE, stdout=subprocess.PIPE)
        self.held = []

    def ask(self, line, follows=b""):
        """The reply to a line; to what follows it, so that a group of changes is done, the reply is dropped."""
        replies = [b""]
        try:
            self._program.stdin.write(line + follows)
            self._program.stdin.flush()
            replies = [self._program.stdout.readline() for _ in range(2 if follows else 1)]
        except BrokenPipeError:
            pass
        if not replies[-1]:
            os._exit(self._program.wait())
        return replies[0]

    def say(self, reply=b""):
        """Hands on what was held back, and a reply."""
        sys.stdout.buffer.write(b"".join(self.held) + reply)
        sys.stdout.buffer.flush()
        self.held.clear()

    def crash(self):
        """Dies, and the program with it."""
        self._program.kill()
        self._program.wait()
        os._exit(9)

    def end(self):
        """Ends in good order; returns the status of the program."""
        self._program.stdin.close()
        self.say(self._program.stdout.read())
        return self._program.wait()


def crashing(chance, calm, *words):
    """Dies at random."""
    standing = Standing(words)
    for line in whole_lines():
        changes = b'"cmd":"transaction"' in line
        standing.held.append(standing.ask(line, STATUS if changes else b""))
        if changes and not os.path.exists(calm) and random.random() < float(chance):
            standing.crash()
        if not changes or random.random() < 0.3:
            standing.say()
    return standing.end()


def lacking(text, *words):
    """Has no memory for a text."""
    standing = Standing(words)
    for line in whole_lines():
        standing.say(NO_MEMORY if text.encode() in line else standing.ask(line, STATUS))
    return standing.end()


def whole_lines():
    """The lines of the input, up to one that isn't whole."""
    for line in sys.stdin.buffer:
        if not line.endswith(b"\n"):
            return
        yield line


def main():
    kind, *words = sys.argv[1:]
    do, at = {"crashing": (crashing, 2), "lacking": (lacking, 1)}[kind]
    if words[at + 1] != "serve":
        os.execv(words[at], words[at:])
    return do(*words)


if __name__ == "__main__":
    sys.exit(main())
