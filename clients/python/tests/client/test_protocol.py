"""What tools/protocol.py writes from docs/protocol.toml, on a copy: a new number, and parts edited by hand."""
import os
import re
import shutil
import subprocess
import sys

import pytest
from support import PACKAGE

pytestmark = pytest.mark.skipif(sys.version_info < (3, 11), reason="the tool needs tomllib")

_ROOT = os.path.normpath(os.path.join(PACKAGE, "..", ".."))
_CRATES = ("command_line", "doc_changes", "doc_edits", "doc_machine", "doc_patch", "doc_schema", "protocol",
           "record_text", "refusals", "schema_rules")
_FOLDERS = ("docs", "tools", "clients", "packaging", *(f"crates/{crate}" for crate in _CRATES))
_TABLE = "docs/protocol.toml"

_NEW = """[[refusal]]
number = 46
name = "too-new"
status = 422
family = "Malformed"
meaning = "it is newer than all"
advice = "wait"

"""

# Each file of which a part is written, and a text in that part.
_PARTS = {
    "docs/use/PROTOCOL.md": "12 number",
    "docs/use/HTTP.md": "33 patch-into-itself",
    "docs/use/GUIDE.md": "21 32 37",
    "clients/python/jpstore/protocol.py": '"line-too-long"',
    "clients/python/jpstore/wire/limits.py": "MOST_DEPTH = 127",
    "clients/server/src/protocol.rs": "status: 413",
    "clients/server/src/http/openapi.json": '"maxItems": 1024',
    "clients/rust/src/protocol.rs": "LineTooLong = 10",
    "clients/c/jpstore.h": "JPSTORE_REFUSAL_NAME = 15",
    "clients/c/src/refusals.c": '"line-too-long"',
    "packaging/completions/jpstore.bash": "--strict",
    "packaging/completions/_jpstore": "--deep[",
    "packaging/jpstore.1": "damaged (73)",
    "packaging/jpstore-refusals.7": ".It 12 number",
}
_WITHOUT_REFUSALS = ("clients/python/jpstore/wire/limits.py", "clients/server/src/http/openapi.json",
                     "packaging/completions/jpstore.bash", "packaging/completions/_jpstore", "packaging/jpstore.1")

# Files that are compared, and a text that is.
_COMPARED = {
    "crates/refusals/src/names.rt": '"not-json"',
    "crates/protocol/src/request.rt": 'take_text("key")',
    "crates/schema_rules/src/names.rt": '"maxItems"',
    "crates/command_line/src/command.rt": '"strict"',
    "crates/doc_patch/src/limits.rt": "usize = 4_0",
    "clients/c/src/typed_calls.c": '"get-schema"',
    "clients/server/src/lines/replies.rs": 'cmd\\":\\"rev\\"',
    "clients/python/jpstore/wire/commands.py": '"cmd": "get"',
    "clients/python/jpstore/cli/command_line.py": "(Full, 8)",
}


@pytest.fixture(scope="module", name="copy")
def _copy(tmp_path_factory):
    folder = str(tmp_path_factory.mktemp("copy"))
    for name in _FOLDERS:
        shutil.copytree(os.path.join(_ROOT, name), os.path.join(folder, name),
                        ignore=shutil.ignore_patterns("target", "out", "build", "__pycache__", "proofs", "*.png"))
    return folder


def _run(folder, *words):
    """The exit status of the tool, and the lines that it says."""
    ended = subprocess.run([sys.executable, os.path.join(folder, "tools", "protocol.py"), *words], check=False,
                           stdout=subprocess.PIPE, text=True, env={**os.environ, "PYTHONDONTWRITEBYTECODE": "1"})
    return ended.returncode, ended.stdout.splitlines()


def _changed(folder, name, before, after):
    """Changes a text of a file, and answers what the file had."""
    path = os.path.join(folder, name)
    with open(path, encoding="utf-8") as opened:
        text = opened.read()
    assert before in text, name
    with open(path, "w", encoding="utf-8") as opened:
        opened.write(text.replace(before, after, 1))
    return text


def _put_back(folder, name, text):
    with open(os.path.join(folder, name), "w", encoding="utf-8") as opened:
        opened.write(text)


def test_nothing_differs(copy):
    status, said = _run(copy, "--check")
    assert (status, len(said)) == (0, 1) and re.fullmatch(r"[1-9]\d passed, 0 failed", said[0])


@pytest.mark.parametrize("name, text", [*_PARTS.items(), *_COMPARED.items()])
def test_a_part_that_was_edited_by_hand_is_told(copy, name, text):
    begun = _changed(copy, name, text, text[:-3] + "9" + text[-2:])
    try:
        status, said = _run(copy, "--check")
        assert status == 1 and any(line.startswith(name) for line in said[:-1])
        assert said[-1].endswith(" failed") and not said[-1].endswith(" 0 failed")
    finally:
        _put_back(copy, name, begun)


def test_a_new_number_is_everywhere(copy):
    begun = _changed(copy, _TABLE, "[[refusal]]\nnumber = 50\n", _NEW + "[[refusal]]\nnumber = 50\n")
    written = set(_PARTS) - set(_WITHOUT_REFUSALS)
    status, said = _run(copy)
    assert (status, set(said)) == (0, written)
    # Nothing is left to be done, but in the crate, whose contracts cite its own table.
    assert (_run(copy)) == (0, [])
    status, said = _run(copy, "--check")
    assert status == 1 and all(line.startswith("crates/refusals/") for line in said[:-1]) and len(said) == 4
    _put_back(copy, _TABLE, begun)
    assert set(_run(copy)[1]) == written
    assert _run(copy, "--check")[0] == 0


@pytest.mark.parametrize("before, after", [
    ("number = 11\n", "number = 10\n"), ("status = 413\n", "status = 418\n"),
    ('family = "Full"\n', 'family = "Fuller"\n'),
    ('most = "MOST_TOLD_BYTES"', 'most = "MOST"'), ("refused = [62, 61]", "refused = [62, 99]"),
    ('is = "count"', 'is = "number"'),
])
def test_a_table_that_contradicts_itself_is_refused(copy, before, after):
    begun = _changed(copy, _TABLE, before, after)
    try:
        for words in ([], ["--check"]):
            status, said = _run(copy, *words)
            assert status == 1 and said[0].startswith(f"{_TABLE}: ")
    finally:
        _put_back(copy, _TABLE, begun)
