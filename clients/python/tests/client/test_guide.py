"""What docs/use/GUIDE.md shows is what happens: its blocks are run one after another, as they stand.

A list of calls or commands is held against the code instead. What the page says of pip is tried in test_package.py.
"""
import os
import re
import shlex
import shutil
import signal
import subprocess

import jpstore
import pytest
from jpstore.cli import exit_status
from jpstore.cli.commands import COMMANDS
from jpstore.errors import refusal_of
from jpstore.refusals import REFUSALS
from hubs import wait_until_free
from pages import blocks_of, clone, how_to_run, page, without_names
from support import PACKAGE, PATIENCE

_PAGE = page("use", "GUIDE.md")
_BLOCKS = blocks_of(_PAGE)


class _Running:
    """Words that run until they are ended, in the folder of the place."""

    def __init__(self, place, environment, words):
        self.process = subprocess.Popen(words, cwd=place.folder, env=environment, stdout=subprocess.PIPE,
                                        stderr=subprocess.PIPE)

    def __enter__(self):
        return self

    def __exit__(self, *_):
        self.process.kill()
        self.process.communicate()

    def lines(self, count):
        return b"".join(self.process.stdout.readline() for _ in range(count)).decode()

    def ended_by(self, number):
        self.process.send_signal(number)
        return self.process.wait(PATIENCE)


def _hub(place, environment, text):
    running = _Running(place, environment, ["sh", "-c", f"exec {text}"])
    assert running.lines(1) == "inventory is served at inventory.socket\n"
    return running


def _clients():
    """The lines by which the page asks a hub that runs."""
    clients = re.search(r"^- the command line and the shell, as `(.*?)`;$\n^- .*, as `(.*?)`\.$", _PAGE, re.M)
    return [clients[1], *([clients[2]] if shutil.which("socat") else [])]


def test_the_blocks_of_the_guide_run(place):
    for library in ("jsonschema", "jsonpatch"):
        pytest.importorskip(library)
    environment, blocks = clone(place), _BLOCKS
    hub = next(text for kind, text in blocks if kind == "console")
    said = None
    for at, (kind, text) in enumerate(blocks):
        if kind == "console":
            with _hub(place, environment, text) as running:
                for client in _clients():
                    asked = subprocess.check_output(["sh", "-c", client], cwd=place.folder, env=environment)
                    assert b"shelf-1" in asked
                assert running.ended_by(signal.SIGINT) == 0
        elif "store.watch(" in text and kind == "python":
            # It never ends by itself: what it shows first is read.
            words, _ = how_to_run(kind, text, "inventory")
            with _hub(place, environment, hub), _Running(place, environment, words) as running:
                said = running.lines(blocks[at + 1][1].count("\n"))
            wait_until_free(place.path("inventory"))
        elif kind in ("sh", "python", "jpstore"):
            words, given = how_to_run(kind, text, "inventory")
            ended = subprocess.run(words, input=given, stdout=subprocess.PIPE, stderr=subprocess.PIPE, cwd=place.folder,
                                   env=environment, timeout=PATIENCE, check=False)
            if ended.returncode or ended.stderr:
                pytest.fail(f"{text}\n{ended}")
            said = ended.stdout.decode()
        elif not kind:
            assert without_names(said) == without_names(text)
        else:
            assert kind == "text"


def test_the_listed_refusals_are_those_of_the_package():
    listed = re.findall(r"^([A-Z]\w+) +(\d+) +([\d ]+): ", _PAGE, re.M)
    numbers = []
    for family, status, words in listed:
        for number in map(int, words.split()):
            refused = refusal_of({"number": number, "error": REFUSALS[number].name, "ok": False})
            assert isinstance(refused, getattr(jpstore, family)) and exit_status(refused) == int(status)
            assert isinstance(refused, jpstore.Outdated) == (number == 24)
            numbers.append(number)
    assert sorted(numbers) == [number for number in REFUSALS if number < 70]


def test_the_listed_commands_are_those_of_the_command_line():
    lines = re.findall(r"^- (?:Documents|The store|Services|For people): (.*)\.$", _PAGE, re.M)
    names = re.findall(r"`([a-z]+)`", "".join(lines))
    assert len(lines) == 4 and sorted(names) == sorted({*COMMANDS, "completion", "replica"})


def test_the_listed_calls_are_those_of_the_package():
    rows = re.findall(r"^\| (?:change|read|follow|keep) ?.*? \| (.*) \|$", _PAGE, re.M)
    calls, functions = ("".join(row.partition("functions")[part] for row in rows) for part in (0, 2))
    names = re.findall(r"`(\w+)`", calls)
    public = {name for name in vars(jpstore.Store) if not name.startswith("_")}
    # Those that begin a store are told apart; one is for lines, and one has another name too.
    others = {"connect", "in_memory", "list", "group_lines", "texts", "pid", "closed"}
    assert len(names) == len(set(names)) and set(names) == public - others
    assert all(callable(getattr(jpstore, name)) for name in re.findall(r"`(\w+)`", functions))


def test_the_unit_of_the_guide_starts_a_hub(place):
    with open(os.path.join(PACKAGE, "..", "..", "packaging", "jpstore@.service"), encoding="utf-8") as opened:
        unit = opened.read()
    before, after = re.search(r"`sed s:(\S+):(\S+): packaging/jpstore@\.service > ", _PAGE).groups()
    units = [each.replace("%i", "inventory") for each in (unit, unit.replace(before, after))]
    place.format()
    for unit in units:
        words = shlex.split(re.search(r"^ExecStart=(.*)$", unit, re.M)[1])
        places = {"/var/lib/jpstore/inventory/store": place.file, "/run/jpstore/inventory/socket": place.path("socket"),
                  **dict.fromkeys(["/usr/local/bin/jpstored", "/usr/bin/jpstored"], os.environ["JPSTORE_SERVER"])}
        environment = {**place.environment(), "PATH": os.path.dirname(place.program) + os.pathsep + os.environ["PATH"]}
        with _Running(place, environment, [places.get(word, word) for word in words]) as running:
            assert running.lines(1) == f"{place.file} is served at {place.path('socket')}\n"
            # systemd ends it by SIGTERM.
            assert running.ended_by(signal.SIGTERM) == 0


def test_the_extras_that_the_guide_installs_exist():
    with open(os.path.join(PACKAGE, "pyproject.toml"), encoding="utf-8") as opened:
        project = opened.read()
    for extra in re.search(r"pip install '\./clients/python\[(.*?)\]'", _PAGE)[1].split(","):
        assert re.search(rf"^{extra} = \[", project, re.M), extra
