"""What the tests of the clients share: a place with a program and a file, and ways to look at what happened."""
import os
import subprocess
import sys
import time
from typing import Any, Callable, List, Optional, Type

import pytest
from jpstore import Store, format_file, upgrade_file

PACKAGE = os.path.dirname(os.path.dirname(os.path.abspath(__file__)))
GROUPING = os.path.join(PACKAGE, "tests", "grouping.py")

# The longest that anything is waited for, in seconds.
PATIENCE = 150

# The timeout of a client that is to give up, in seconds. What does answer does so before, also on a busy machine.
SILENCE = 2.0


def raised(kind: Type[BaseException], call: Callable[..., Any], *arguments: Any, **named: Any) -> Any:
    """The exception of this class that the call raises."""
    with pytest.raises(kind) as caught:
        call(*arguments, **named)
    return caught.value


def until(holds: Callable[[], Any], what: str) -> Any:
    """Waits until something holds, and answers it."""
    end = time.monotonic() + PATIENCE
    while True:
        found = holds()
        if found:
            return found
        if time.monotonic() > end:
            pytest.fail("waited in vain for " + what)
        time.sleep(0.01)


class Place:
    """A folder of a test's own, with the program, and `file`, a path at which nothing stands."""

    def __init__(self, program: str, folder: str) -> None:
        self.program = program
        self.folder = folder
        self.file = self.path("store")

    def path(self, name: str) -> str:
        return os.path.join(self.folder, name)

    def format(self, sectors: int = 4096, file: Optional[str] = None, version: int = 2) -> str:
        format_file(file or self.file, sectors, self.program)
        if version != 2:
            upgrade_file(file or self.file, version, self.program)
        return file or self.file

    def store(self, **how: Any) -> Store:
        return Store(self.file, program=self.program, **how)

    def made(self, sectors: int = 4096, **how: Any) -> Store:
        """A new store, open."""
        self.format(sectors)
        return self.store(**how)

    def text(self, name: str, text: str) -> str:
        """A file with this text."""
        with open(self.path(name), "w", encoding="utf-8") as opened:
            opened.write(text)
        return self.path(name)

    def secret(self, name: str, text: str) -> str:
        """A file with this text, which no other user may read."""
        os.chmod(self.text(name, ""), 0o600)
        return self.text(name, text)

    def script(self, name: str, text: str) -> str:
        """A program that the shell runs."""
        path = self.text(name, "#!/bin/sh\n" + text + "\n")
        os.chmod(path, 0o700)
        return path

    def without_room(self) -> None:
        """A store of format 1 in `file`, of three sectors, that has no room in format 2."""
        body = b'{"cmd":"create","doc":"%b","name":"e","schema":true}' % (b"x" * 458)
        numbers = ((1, 4), (0, 4), (512, 8), (1, 8), (1, 8), (3, 8))
        fields = b"".join(number.to_bytes(size, "big") for number, size in numbers)
        with open(self.file, "wb") as opened:
            opened.write((b"JPSTORE1" + fields).ljust(512, b"\0") + len(body).to_bytes(4, "big") + body + bytes(512))

    def words(self, *words: str) -> List[str]:
        """The words that start the package as a program, the program's own path after them."""
        return [sys.executable, "-m", "jpstore", *words, "--program", self.program]

    def server_words(self, *words: str) -> List[str]:
        """The words that start the server, with this interpreter to tell reasons, the program's path after them."""
        return [os.environ["JPSTORE_SERVER"], *words, "--python", sys.executable, "--program", self.program]

    def environment(self) -> Any:
        return {**os.environ, "PYTHONPATH": PACKAGE, "HOME": self.folder, "PYTHONIOENCODING": "utf-8"}

    def run(self, *words: str, given: bytes = b"", status: int = 0) -> "subprocess.CompletedProcess[bytes]":
        """Runs the package as a program, which ends with this status."""
        ended = subprocess.run(self.words(*words), input=given, stdout=subprocess.PIPE, stderr=subprocess.PIPE,
                               env=self.environment(), cwd=self.folder, timeout=PATIENCE, check=False)
        assert ended.returncode == status, ended
        return ended

    def shows(self, *words: str, given: bytes = b"", output: str = "", errors: str = "", status: int = 0) -> None:
        """The package as a program writes this and nothing else."""
        ended = self.run(*words, given=given, status=status)
        assert (ended.stdout.decode(), ended.stderr.decode()) == (output, errors)
