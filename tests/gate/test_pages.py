#!/usr/bin/env python3
"""Holds a built program against what the pages show: the session of README.md and its command that measures the rate of a disk, the
stores by hand of docs/inside/FORMAT.md, in both formats, and the manual page and the completions, which must have each command and option.

    test_pages.py PROGRAM

README's other commands build the program that is given, or are `./test` itself: they are asked for their options. The blocks of
docs/use/GUIDE.md are run by the tests of the Python package. It takes as long as 1,000 synced writes of the disk. The last line is
`N passed, M failed`.
"""
import json
import os
import pathlib
import re
import subprocess
import sys
import tempfile

from test_clients import python_with_tools, use_server

ROOT = pathlib.Path(__file__).resolve().parents[2]
README = ROOT / "README.md"
FORMAT = ROOT / "docs" / "inside" / "FORMAT.md"
CREATE = '{"cmd":"create","doc":{"a":1},"name":"d","schema":true}\n'
SECTOR = 512


def without_names(text):
    """A text without the names of histories, which no two hubs have in common."""
    return re.sub(r"\b[0-9a-f]{16}\.\d+\.[0-9a-f]{16}\b", "NAME", text)


def sessions(text):
    """Each block of the page's session, without the line that finds the programs in a clone, and what it prints."""
    for words, output in re.findall(r"^```sh\n(.*?)^```$.*?^```\n(.*?)^```$", text, re.M | re.S):
        yield "".join(line for line in words.splitlines(True) if not line.startswith("export PATH=")), output


class Place:
    """A folder of a test's own, with the program and the server on PATH."""

    def __init__(self, program, folder):
        self.folder = pathlib.Path(folder) / "place"
        programs = pathlib.Path(folder) / "programs"
        self.folder.mkdir()
        programs.mkdir()
        (programs / "jpstore").symlink_to(os.path.abspath(program))
        (programs / "jpstored").symlink_to(os.environ["JPSTORE_SERVER"])
        path = os.pathsep.join([str(programs), os.path.dirname(python_with_tools() or sys.executable), os.environ["PATH"]])
        self.environment = {**os.environ, "LC_ALL": "C", "PATH": path, "PYTHONPATH": str(ROOT / "clients" / "python")}

    def run(self, words, given="", errors=subprocess.PIPE):
        return subprocess.run(["sh", "-e", "-c", words], input=given, cwd=self.folder, env=self.environment, stdout=subprocess.PIPE,
                              stderr=errors, text=True, timeout=300, check=False)

    def store(self):
        return self.folder / "store"


def the_session_of_readme_prints_what_the_page_shows(place):
    blocks = list(sessions(README.read_text(encoding="utf-8")))
    assert len(blocks) == 2
    for words, output in blocks:
        # As on a terminal, where both are shown.
        ended = place.run(words, errors=subprocess.STDOUT)
        assert (ended.returncode, without_names(ended.stdout)) == (0, without_names(output)), ended
    assert sorted(os.listdir(place.folder)) == ["counts.json", "demo"]


def the_commands_by_which_readme_builds_have_the_options_that_it_gives(place):
    commands = re.findall(r"^    \./(\w+)(.*)$", README.read_text(encoding="utf-8"), re.M)
    assert [name for name, _ in commands] == ["build", "test"], commands
    for name, options in commands:
        told = subprocess.run([ROOT / name, "--help"], cwd=place.folder, capture_output=True, text=True, check=True).stdout
        assert all(option in told for option in options.split()), (name, options)


def readme_tells_the_rate_of_a_disk(place):
    ended = place.run(re.search(r"^    (dd .*)$", README.read_text(encoding="utf-8"), re.M)[1])
    assert ended.returncode == 0 and not os.listdir(place.folder), ended
    assert re.search(r"1000\+0 records out.* s, ", ended.stderr, re.S), ended


def shown_bytes(text):
    """The bytes that a part of FORMAT shows, by their places."""
    rows = re.findall(r"^    ([0-9a-f]{8})  ((?:[0-9a-f]{2} {1,2}){16})\|", text, re.M)
    return {int(place, 16): bytes.fromhex(row) for place, row in rows}


def parts_of_format():
    """The bytes of the store by hand in format 2, 3 and 1."""
    text = FORMAT.read_text(encoding="utf-8")
    return [shown_bytes(part) for part in re.split(r"^## Format [13]$", text[text.index("## A store by hand"):], flags=re.M)]


def a_store_has_the_bytes_that_format_shows(place):
    second, third, _ = parts_of_format()
    assert (len(second), len(third)) == (9, 10)
    third_words = " --format 3 --id 000102030405060708090a0b0c0d0e0f"
    for sectors, option, shown in ((16, "", second), (160, third_words, {**third, **{at + 32 * SECTOR: row for at, row in third.items()}})):
        place.store().unlink(missing_ok=True)
        assert place.run(f"jpstore format store --sectors {sectors}{option} && jpstore serve store", CREATE).returncode == 0
        contents = place.store().read_bytes()
        assert len(contents) == sectors * SECTOR
        for at, row in shown.items():
            assert contents[at:at + 16] == row, option + hex(at)


def the_store_of_format_1_that_format_shows_is_migrated_as_it_says(place):
    second, _, first = parts_of_format()
    contents = bytearray(16 * SECTOR)
    for at, row in first.items():
        contents[at:at + 16] = row
    place.store().write_bytes(contents)
    ended = place.run("jpstore check store")
    told = json.loads(ended.stdout)
    assert (told["documents"], told["seq"], told["opens"], told["half"], told["used"]) == (1, 1, 2, 1, 0x43), ended
    contents = place.store().read_bytes()
    for at, row in second.items():
        if at >= SECTOR:
            assert contents[7 * SECTOR + at:7 * SECTOR + at + 16] == row, hex(at)
    fields = [int.from_bytes(contents[begin:end], "big") for begin, end in ((8, 12), (12, 16), (16, 24), (24, 32), (32, 40), (40, 48))]
    assert fields == [2, 1, 0x43, 1, 2, 16]


def words_of_help(place):
    """Each command with its options, as the program's help has them, without the help itself."""
    commands = re.findall(r"^  (\w+)  ", place.run("jpstore --help").stdout, re.M)
    for command in commands:
        if command != "help":
            options = re.findall(r"^ +(?:-\w, )?--(\w+)", place.run(f"jpstore {command} --help").stdout, re.M)
            yield command, [option for option in options if option != "help"]


def the_manual_page_and_the_completions_have_each_command_and_option(place):
    told = dict(words_of_help(place))
    assert len(told) >= 4 and any(told.values()), told
    for name, shape in (("jpstore.1", r"Fl Fl {}\b"), ("completions/jpstore.bash", r"--{}\b"), ("completions/_jpstore", r"--{}\b")):
        text = (ROOT / "packaging" / name).read_text(encoding="utf-8")
        for command, options in told.items():
            assert re.search(rf"\b{command}\b", text), (name, command)
            for option in options:
                assert re.search(shape.format(option), text), (name, command, option)
        # And none that the program doesn't have.
        known = {"help", "version"}.union(*told.values())
        assert set(re.findall(shape.replace("{}", r"([a-z]+)"), text)) <= known, name


TESTS = [
    the_session_of_readme_prints_what_the_page_shows,
    the_commands_by_which_readme_builds_have_the_options_that_it_gives,
    readme_tells_the_rate_of_a_disk,
    a_store_has_the_bytes_that_format_shows,
    the_store_of_format_1_that_format_shows_is_migrated_as_it_says,
    the_manual_page_and_the_completions_have_each_command_and_option,
]


def main():
    if len(sys.argv) != 2:
        print(__doc__, file=sys.stderr)
        return 2
    use_server()
    failed = 0
    for test in TESTS:
        with tempfile.TemporaryDirectory(prefix="jpstore-") as folder:
            try:
                test(Place(sys.argv[1], folder))
            except AssertionError as wrong:
                failed += 1
                print(f"{test.__name__}: {wrong}")
    print(f"{len(TESTS) - failed} passed, {failed} failed")
    return 1 if failed else 0


if __name__ == "__main__":
    sys.exit(main())
