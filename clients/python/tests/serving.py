"""Hubs that tests connect to: a real one, and one that does what a test says."""
import contextlib
import json
import os
import signal
import socket
import subprocess
import threading

from support import PATIENCE

STATUS = {"broken": False, "capacity": 3584, "documents": 0, "half": 0, "ok": True, "opens": 1, "sectors": 16, "seq": 0,
          "used": 0}


class RealHub:
    """A hub as a process of its own, at `socket` in the place's folder."""

    def __init__(self, place):
        self.path = place.path("socket")
        words = place.words("hub", place.file, "--socket", self.path)
        self.process = subprocess.Popen(words, stdout=subprocess.PIPE, stderr=subprocess.DEVNULL,
                                        env=place.environment())
        assert self.process.stdout.readline()

    def __enter__(self):
        return self

    def __exit__(self, *_):
        self.kill()

    def program(self):
        """The process of the program that it serves by."""
        for process in filter(str.isdigit, os.listdir("/proc")):
            with contextlib.suppress(OSError):
                with open(f"/proc/{process}/stat", encoding="ascii", errors="replace") as opened:
                    # After the name, which is in brackets: the state and the parent.
                    if int(opened.read().rpartition(")")[2].split()[1]) == self.process.pid:
                        return int(process)
        raise AssertionError("the hub has no program")

    def kill_program(self):
        """Kills the program, which ends the hub."""
        os.kill(self.program(), signal.SIGKILL)
        self.process.wait(PATIENCE)
        self.process.stdout.close()

    def kill(self):
        """Kills it, as a crash does."""
        self.process.kill()
        self.process.wait()
        self.process.stdout.close()


class FakeHub:
    """A socket whose connections answer `status`, and other lines as told: with None the connection is closed."""

    def __init__(self, path, *answers):
        self.path, self.lines = path, []
        self._answers = list(answers)
        self._socket = socket.socket(socket.AF_UNIX)
        self._socket.bind(path)
        self._socket.listen()
        self._thread = threading.Thread(target=self._run, daemon=True)
        self._thread.start()

    def __enter__(self):
        return self

    def __exit__(self, *_):
        self._socket.shutdown(socket.SHUT_RDWR)
        self._socket.close()
        self._thread.join(PATIENCE)
        os.unlink(self.path)

    def _run(self):
        while True:
            try:
                connection, _ = self._socket.accept()
            except OSError:
                return
            with connection, connection.makefile("rb") as lines:
                for line in lines:
                    if not self._answer(connection, json.loads(line)):
                        break

    def _answer(self, connection, command):
        answer = STATUS
        if command != {"cmd": "status"}:
            self.lines.append(command)
            answer = self._answers.pop(0) if self._answers else {"ok": True, "seq": len(self.lines)}
        if answer is not None:
            connection.sendall(json.dumps(answer).encode() + b"\n")
        return answer is not None
