"""The command line: one thing at a time, JSON in and out, and an exit status by family."""
import contextlib
import io
import json
import os
import signal
import subprocess
import sys
import warnings
from unittest import mock

import jpstore
import pytest
from hubs import Hub
from jpstore import Store, create, delete
from jpstore.cli import main
from jpstore.cli.commands import COMMANDS
from jpstore.sizes import sectors_of_size
from serving import RealHub


@contextlib.contextmanager
def inside(folder):
    """The folder as the current one."""
    before = os.getcwd()
    os.chdir(folder)
    try:
        yield
    finally:
        os.chdir(before)


def run_here(place, *words, given=b"", status=0):
    """Does a command in this process, and returns what it writes to standard output and standard error."""
    given, output, errors = (io.TextIOWrapper(io.BytesIO(some), "utf-8") for some in (given, b"", b""))
    with inside(place.folder), warnings.catch_warnings(), mock.patch.object(sys, "stdin", given), \
            contextlib.redirect_stdout(output), contextlib.redirect_stderr(errors):
        try:
            ended = main([*words, "--program", place.program])
        except SystemExit as error:
            ended = error.code
    written = []
    for stream in (output, errors):
        stream.flush()
        written.append(stream.buffer.getvalue().decode())
    assert ended == status, written
    return written


def told(place, *words, given=b"", status=0):
    """What a command writes to standard output, without the last line end."""
    return run_here(place, *words, given=given, status=status)[0].rstrip("\n")


def errors(place, *words, given=b"", status):
    """What a command writes to standard error."""
    return run_here(place, *words, given=given, status=status)[1]


def told_by_process(place, *words, given=b""):
    """The same for a command as a process of its own, as a user runs it."""
    return place.run(*words, given=given).stdout.decode().rstrip("\n")


def each_command(place, store, told):
    place.text("schema.json", '{"additionalProperties": {"type": "integer"}}')
    assert told(place, "new", store, "shelf", '{"bolts": 40}', "--schema", "schema.json") == "done, change 1"
    assert told(place, "new", store, "list", "-", given=b"[1, 2]") == "done, change 2"
    assert told(place, "ls", store) == "shelf\nlist"
    assert told(place, "get", store, "shelf") == '{"bolts": 40}'
    assert told(place, "get", store, "shelf", "/bolts") == "40"
    assert told(place, "set", store, "shelf", "/bolts", "39") == "done, change 3"
    assert told(place, "set", store, "shelf", "/nuts", "-", given=b"12\n") == "done, change 4"
    assert told(place, "find", store, "shelf", "$[?@ < 20]") == "$['nuts']  12"
    added = '[{"op": "add", "path": "/-", "value": 3}]'
    assert told(place, "patch", store, "list", added, "--if-rev", "2") == "done, change 5"
    assert told(place, "patch", store, "shelf", "--merge", "-", given=b'{"nuts": null}') == "done, change 6"
    assert told(place, "schema", store, "shelf") == '{"additionalProperties": {"type": "integer"}}'
    assert told(place, "schema", store, "list", "--to", "-", given=b"true") == "done, change 7"
    assert told(place, "rev", store, "shelf") == "6"
    assert told(place, "rm", store, "list", "/0") == "done, change 8"
    assert json.loads(told(place, "get", store, "list", "--json")) == [2, 3]
    assert told(place, "rm", store, "list") == "done, change 9"
    assert "documents  1 of 65,536" in told(place, "status", store)
    assert told(place, "snapshot", store).endswith(" bytes used")
    assert json.loads(told(place, "dump", store).splitlines()[0])["doc"] == {"bolts": 39}
    changes = [delete("shelf"), create("a", 1), create("b", 2)]
    assert told(place, "transaction", store, json.dumps(changes)) == "done, change 12"
    assert told(place, "transaction", store, "-", "--json", given=b'[{"cmd":"delete","name":"b"}]') == '{"seq": 13}'
    assert told(place, "put", store, "a", "[1]") == "done, change 14"
    assert told(place, "put", store, "c", "-", "--schema", "schema.json", given=b"{}") == "done, change 15"
    assert told(place, "put", store, "a", "{}", "--schema", "schema.json", "--if-rev", "14") == "done, change 19"
    assert told(place, "put", store, "a", '{"n": 1}', "--if-rev", "19") == "done, change 20"
    assert told(place, "rm", store, "a", "/n", "--if-rev", "20") == "done, change 21"
    assert told(place, "schema", store, "a", "--to", "-", "--if-rev", "21", given=b"true") == "done, change 23"
    assert told(place, "rm", store, "a", "--if-rev", "23") == "done, change 25"
    assert told(place, "ls", store) == "c"
    once = ["transaction", store, json.dumps([create("n", 1)]), "--once", "k"]
    for _ in range(2):
        assert told(place, *once) == "done, change 26"
    other = [*once[:2], json.dumps([create("m", 1)]), *once[3:]]
    place.shows(*other, errors="the key 'k' was used for other changes, the last of which is number 26\n", status=1)
    for key in ("k", "l", "l"):
        changes = json.dumps([create(key, 1)])
        assert told(place, *once[:2], changes, "--once", key, "--by", "me") == f"done, change {27 + (key == 'l')}"
    place.shows(*once[:3], "--by", "me", errors="`--by` is for `--once`, which is missing\n", status=1)
    assert told(place, "ls", store) == "c\nn\nk\nl"


def test_each_command_does_its_thing_on_a_file(place):
    place.format(version=3)
    each_command(place, "store", told_by_process)


def test_each_command_does_its_thing_on_a_hub(place):
    place.format(version=3)
    with RealHub(place):
        each_command(place, "socket", told)


def test_results_are_json_if_asked_for(place):
    place.format(16)
    rows = [
        (["new", "store", "d", '{"n": [1, 25]}'], {"seq": 1}),
        (["--json", "ls", "store"], ["d"]),
        (["get", "store", "d", "/n"], [1, 25]),
        (["find", "store", "d", "$.n[?@ > 9]"], [{"path": "$['n'][1]", "value": 25}]),
        (["rev", "store", "d"], 1),
        (["set", "store", "d", "/n/0", '"\u00e4"'], {"seq": 2}),
        (["schema", "store", "d"], True),
        (["load", "store", "--partial"], {"changes": 0}),
    ]
    for words, value in rows:
        line = told(place, *words, *([] if "--json" in words else ["--json"]))
        assert (json.loads(line), "\n" in line) == (value, False)
    status = json.loads(told(place, "status", "store", "--json"))
    assert (status["documents"], status["sectors"], status["capacity"], status["seq"]) == (1, 16, 3584, 2)
    grown = json.loads(told(place, "grow", "store", "larger", "--sectors", "64", "--json"))
    assert (grown["documents"], grown["sectors"]) == (1, 64)


def test_the_exit_status_is_of_the_family(place):
    place.format(16)
    place.text("schema.json", '{"maximum": 5}')
    told(place, "new", "store", "d", "1", "--schema", "schema.json")
    rows = [
        (14, ["get", "nowhere", "d"]), (14, ["schema", "store", "d", "--to", "nowhere"]), (15, ["format", "store"]),
        (2, ["get", "store"]), (2, ["patch", "store", "d", "[]", "--if-rev", "x"]),
        (3, ["get", "store", "other"]), (3, ["get", "store", "d", "/a"]), (3, ["rm", "store", "other"]),
        (4, ["new", "store", "d", "1"]), (4, ["patch", "store", "d", "[]", "--if-rev", "9"]),
        (5, ["set", "store", "d", "", "6", "--whole"]), (2, ["set", "store", "d", "", "6"]),
        (6, ["get", "store", "d", "a"]), (6, ["new", "store", "a b", "1"]), (6, ["find", "store", "d", "x"]),
        (6, ["new", "store", "e", "1.5"]), (6, ["new", "store", "e", "{"]),
        (6, ["new", "store", "e", "1", "--schema", "store"]),
        (6, ["rm", "store", "d", ""]),
        (7, ["find", "store", "d", "$" + "[0]" * 400]),
        (8, ["new", "store", "e", json.dumps("x" * 4000)]),
        (1, ["transaction", "store", "{}"]), (1, ["transaction", "store", "[1]"]), (6, ["transaction", "store", "[]"]),
        (4, ["transaction", "store", json.dumps([delete("d"), create("d", 1), create("d", 1)])]),
        (4, ["rm", "store", "d", "--if-rev", "9"]), (4, ["put", "store", "d", "1", "--if-rev", "9"]),
        (3, ["put", "store", "other", "1", "--if-rev", "9"]), (5, ["put", "store", "d", "6"]),
    ]
    for status, words in rows:
        assert errors(place, *words, status=status)
    failing = place.script("failing", f"trap '' XFSZ; ulimit -f 1; exec '{place.program}' \"$@\"")
    ended = subprocess.run([*place.words("new", "store", "e", "1")[:-1], failing], stderr=subprocess.PIPE,
                           cwd=place.folder, env=place.environment(), check=False)
    assert (ended.returncode, b"61 device" in ended.stderr) == (9, True)


def test_errors_are_json_if_asked_for(place):
    place.format(16)
    error = json.loads(errors(place, "get", "store", "other", "--json", status=3))
    assert {name: error[name] for name in ("error", "number", "name", "command", "document")} == {
        "error": "NotFound", "number": 21, "name": "no-document", "command": "get", "document": "other"}
    assert json.loads(errors(place, "get", "nowhere", "d", "--json", status=14))["error"] == "Ended"
    changes = json.dumps([create("d", 1), create("d", 2)])
    error = json.loads(errors(place, "transaction", "store", changes, "--json", status=4))
    assert {name: error.get(name) for name in ("number", "command", "document", "change", "op")} == {
        "number": 20, "command": "create", "document": "d", "change": 1, "op": None}


def test_a_text_that_is_not_json_is_told_with_its_place(place):
    place.format(16)
    assert "line 2, column 3" in errors(place, "new", "store", "d", "-", given=b"[1,\n  x]", status=6)
    place.text("schema.json", '{"type" "integer"}')
    assert "schema.json: not JSON: line 1, column 9" in errors(
        place, "new", "store", "d", "1", "--schema", "schema.json", status=6)
    assert "nowhere: No such file" in errors(place, "schema", "store", "d", "--to", "nowhere", status=14)


def test_what_is_accepted_in_silence_is_warned_of(place):
    place.format(16)
    ended = place.run("new", "store", "d", '{"a": 1, "a": 2}', "--schema", place.text("schema.json", '{"minimun": 1}'))
    assert ended.stderr.decode().splitlines() == [
        "warning: `{\"a\": 1, \"a\": 2}`: `/a` is there more than once; the last one counts",
        "warning: schema /minimun: `minimun` is not a keyword, and is ignored: perhaps `minimum` is meant"]
    assert b"warning: `/0/b` is" in place.run("store", given=b'new e [{"b": 1, "b": 2}]\n').stderr


def test_changes_are_shown_as_the_hub_tells_them(place):
    place.format()
    with Hub(place) as hub, hub.connect() as store:
        store.group([create("d", "\u00e4"), delete("d")])
        lines = hub.told(0, 2)
        place.shows("watch", "socket", "--since", "0", "--past", output="".join(lines))
        place.shows("watch", "socket", "--past")
        assert "the store has no change 7" in errors(place, "watch", "socket", "--since", "7", status=1)
        # A line has what it takes to go on after it.
        last = json.loads(lines[0])["history"]
        place.shows("watch", "socket", "--since", "1", "--history", last, "--past", output=lines[1])
        assert "or is another one" in errors(place, "watch", "socket", "--since", "2", "--history", "a.1.b", status=1)
        assert "`--history` is for `--since`" in errors(place, "watch", "socket", "--history", last, status=1)
        with subprocess.Popen(place.words("watch", "socket", "--since", "1"), stdout=subprocess.PIPE, cwd=place.folder,
                              env=place.environment()) as watching:
            assert watching.stdout.readline().decode() == lines[1]
            store.create("d", "\u00e4")
            assert [watching.stdout.readline().decode()] == hub.told(2, 1)
            watching.terminate()
    place.format(file=place.path("other"))
    assert "not the socket of a hub" in errors(place, "watch", "other", status=1)


def test_transactions_that_are_known_are_shown(place):
    place.format(version=3)
    with place.store() as store:
        store.create("d", "\u00e4")
        store.transaction([create("e", 1), delete("e")], mark=("k", "v"))
    lines = ['{"changes":[{"cmd":"create","doc":"\u00e4","name":"d","schema":true}],"first":1,"last":1}\n',
             '{"changes":[{"cmd":"create","doc":1,"name":"e","schema":true},{"cmd":"delete","name":"e"}],"first":2,'
             '"last":3,"mark":{"key":"k","value":"v"}}\n']
    place.shows("changes", "store", output="".join(lines))
    place.shows("changes", "store", "--since", "1", output=lines[1])
    place.shows("store", given=b"changes 1\nchanges 3\n", output=lines[1])
    assert "the store has no change 2, or" in errors(place, "changes", "store", "--since", "2", status=1)
    told(place, "grow", "store", "--size", "32M")
    with Hub(place) as hub, hub.connect() as store:
        assert "the changes after 1 are gone; one may go on from 3" in \
            errors(place, "changes", "socket", "--since", "1", status=1)
        # More than is asked for at once.
        for number in range(8):
            store.create(f"large-{number}", "x" * 900_000)
        shown = told(place, "changes", "socket", "--since", "3").splitlines()
        assert [json.loads(line)["last"] for line in shown] == list(range(4, 12))


def test_the_files_of_stores_are_made_judged_and_copied(place):
    shown = told(place, "format", "store", "--size", "2M", "--mode", "640")
    assert shown == ("store is an empty store of 2,097,152 bytes, 1,048,064 of them for the documents")
    assert (os.stat(place.file).st_size, os.stat(place.file).st_mode & 0o777) == (2 << 20, 0o640)
    told(place, "new", "store", "d", "1")
    assert told(place, "check", "store").splitlines()[:2] == ["store is a store", "documents  1 of 1,024"]
    assert json.loads(told(place, "upgrade", "store", "--json")) == {"format": 3, "from": 2}
    assert told(place, "upgrade", "store", "--format", "2") == "store is in format 2; before it was in format 3"
    # Without a size a copy is as large, a larger store twice as large, and a new one has 16 MiB.
    assert json.loads(told(place, "copy", "store", "copied", "--json"))["sectors"] == 4096
    assert json.loads(told(place, "copy", "store", "small", "--size", "1537", "--json"))["sectors"] == 4
    assert json.loads(told(place, "grow", "store", "larger", "--json"))["sectors"] == 8192
    # Of the 2,040 blocks of a half two are kept for checks.
    assert json.loads(told(place, "format", "new", "--sparse", "--format", "3", "--json")) == {
        "capacity": 2038 * 4096, "sectors": 32768}
    assert json.loads(told(place, "upgrade", "new", "--json"))["from"] == 3
    identity = "00112233445566778899aabbccddeeff"
    told(place, "format", "named", "--sectors", "512", "--format", "3", "--id", identity)
    assert json.loads(told(place, "check", "named", "--json"))["id"] == identity
    assert json.loads(told(place, "copy", "named", "other", "--id", identity[::-1], "--json"))["id"] == identity[::-1]
    assert "id" not in json.loads(told(place, "check", "store", "--json"))
    assert told(place, "get", "larger", "d") == "1"


def test_a_new_store_is_made_by_its_name_alone(place):
    # Of the blocks of 8 sectors in half of what is behind the 128 of the slots, the last 1 in 1,025 are kept free.
    shown = told(place, "new", "store", "--size", "2M")
    assert shown == "store is an empty store of 2,097,152 bytes, 1,011,712 of them for the documents"
    assert (os.stat(place.file).st_size, os.stat(place.file).st_mode & 0o777) == (2 << 20, 0o600)
    told(place, "new", "store", "d", "1")
    assert json.loads(told(place, "upgrade", "store", "--json")) == {"format": 3, "from": 3}
    identity = "00112233445566778899aabbccddeeff"
    assert json.loads(told(place, "--json", "new", "other", "--sectors", "300", "--id", identity)) == {
        "capacity": 36864, "sectors": 300}
    assert json.loads(told(place, "check", "other", "--json"))["id"] == identity
    assert json.loads(told(place, "new", "larger", "--json")) == {"capacity": 2038 * 4096, "sectors": 32768}
    # It takes no file that is there, and a document needs its value.
    assert "store: File exists" in errors(place, "new", "store", status=15)
    assert "is no size" in errors(place, "new", "another", "--size", "2X", status=2)
    assert "DOC" in errors(place, "new", "store", "e", status=2)
    assert not os.path.exists(place.path("another"))
    # A copy keeps the format, unless another is asked for.
    assert json.loads(told(place, "copy", "store", "kept", "--json"))["id"]
    assert "id" not in json.loads(told(place, "copy", "store", "older", "--format", "2", "--json"))


def test_sizes_that_are_none_are_told(place):
    for text in ("2X", "0", "-1", "1.5M", "M", ""):
        shown = errors(place, "format", "store", f"--size={text}", status=2)
        assert "is no size: give bytes, or as 512K, 16M or 2G" in shown
    assert "is no mode" in errors(place, "format", "store", "--mode", "8", status=2)
    assert "not allowed with" in errors(place, "format", "store", "--size", "1M", "--sectors", "9", status=2)
    assert [sectors_of_size(text) for text in ("1536", "2k", "3KB", "2MiB", "1G")] == [3, 4, 6, 4096, 1 << 21]
    assert "store: No such file" in errors(place, "grow", "store", "larger", status=14)
    join = ["replica", "join", "new", "--node", "a", "--from", "x", "--etcd", "x", "--log", "x", "--size"]
    assert "is no size" in errors(place, *join, "2X", status=2)


@pytest.mark.parametrize("words, told_so", [
    (["frob", "st"], "no command is called frob (`--help` lists them)"),
    (["sett", "store", "d"], "no command is called sett; did you mean set?"),
    (["list", "store"], "no command is called list; did you mean ls?"),
    (["--json", "delete", "store", "d"], "no command is called delete; did you mean rm?"),
    (["stauts"], "no command is called stauts; did you mean status? (`--help` lists them), and no store (`"),
    (["nowhere"], "no command is called nowhere (`--help` lists them), and no store (`"),
    (["store", "ls"], "the command comes before the store: "),
])
def test_a_word_that_is_no_command_is_told(place, words, told_so):
    place.format(16)
    assert told_so in errors(place, *words, status=2)


def test_help_is_a_word_too(place):
    assert "find --all" in told(place, "find", "--all", "--help")
    assert told(place, "help", "get") == told(place, "get", "--help")
    assert told(place, "help") == told(place, "--help")


def test_many_documents_are_asked_and_put_under_a_schema_at_once(place):
    place.format()
    place.text("schema.json", '{"maximum": 3}')
    changes = [create(name, number) for number, name in enumerate(("a-1", "a-2", "b"))]
    told(place, "transaction", "store", json.dumps(changes))
    assert told(place, "ls", "store", "--prefix", "a-") == "a-1\na-2"
    lines = ['{"name":"a-2","path":"$","value":1}', '{"name":"b","path":"$","value":2}']
    told(place, "schema", "store", "b", "--to", "schema.json")
    assert told(place, "find", "store", "b", "$") == "$  2"
    place.text("list.json", "[1, {}]")
    told(place, "put", "store", "a-1", "[7]")
    assert told(place, "find", "store", "--all", "$[?@ > 5]") == '{"name":"a-1","path":"$[0]","value":7}'
    assert told(place, "find", "--all", "store", "$", "--prefix", "b") == lines[1]
    told(place, "put", "store", "a-1", "3")
    assert told(place, "schema", "store", "a-1", "a-2", "--to", "schema.json") == "done, changes 7 to 8"
    assert told(place, "schema", "store", "--to", "schema.json", "--prefix", "a-", "--json") == '{"seq": 10}'
    # All or none.
    told(place, "set", "store", "a-2", "", "0", "--whole")
    place.text("schema.json", '{"maximum": 2}')
    assert "45 invalid, change 0" in errors(place, "schema", "store", "--prefix", "", "--to", "schema.json", status=5)
    assert told(place, "schema", "store", "b") == '{"maximum": 3}'
    assert "several names are for `--to FILE`" in errors(place, "schema", "store", "a-1", "b", status=1)
    assert "is for one document" in errors(place, "schema", "store", "a-1", "b", "--to", "-", "--if-rev", "1",
                                           given=b"true", status=1)
    assert "no document has a name that begins with `x`" in errors(place, "schema", "store", "--prefix", "x", "--to",
                                                                   "schema.json", status=1)


def test_more_documents_than_a_transaction_changes_are_told_with_the_way(place):
    place.format(version=3)
    place.text("short.json", "{}")
    place.text("long.json", json.dumps({"description": "x" * 2000}))
    with place.store() as store:
        store.group([create(f"{kind}-{number}", number) for kind, count in (("a", 600), ("b", 500))
                     for number in range(count)])
    for prefix, file, count, most in (("", "short.json", "1,100", "1,024, the most of one transaction"),
                                      ("a", "long.json", "600", "some 50")):
        said = errors(place, "schema", "store", "--prefix", prefix, "--to", file, status=1)
        assert f"{count} documents are more than {most}" in said and "Nothing was changed" in said
        assert "both schemas hold" in said and "`changes`" not in said and "`create`" not in said
    shell = place.run("shell", "store", given=b"schema --prefix a --to long.json", status=1)
    assert b"600 documents are more than some 50" in shell.stderr
    assert told(place, "schema", "store", "--prefix", "a", "--to", "short.json") == "done, changes 1,101 to 1,700"


def test_a_document_is_followed_and_the_changes_of_one_are_shown(place):
    place.format()
    with Hub(place) as hub, hub.connect() as store:
        store.group([create("d", {"n": 1}), create("e", 2)])
        place.shows("watch", "socket", "--since", "0", "--past", "--name", "e", output=hub.told(1, 1)[0])
        with subprocess.Popen(place.words("follow", "socket", "d", "/n"), stdout=subprocess.PIPE, cwd=place.folder,
                              env=place.environment()) as following:
            assert following.stdout.readline() == b'{"rev":1,"value":1}\n'
            store.delete("d")
            assert following.stdout.readline() == b'{"rev":null}\n'
            following.terminate()
    assert "this is not the socket of a hub" in errors(place, "follow", "store", "d", status=1)


def test_a_store_may_have_the_name_of_a_command(place):
    place.format(file=place.path("dump"))
    place.shows("./dump", given=b"new d 1\nls\n", output="done, change 1\nd\n")
    place.shows("shell", "dump", given=b"ls\n", output="d\n")
    assert told(place, "ls", "dump") == "d"
    assert "STORE" in errors(place, "dump", status=2)


def test_a_file_that_is_in_use_may_be_waited_for(place):
    with place.made() as store:
        assert "store is in use" in errors(place, "ls", "store", status=13)
        with subprocess.Popen(place.words("ls", "store", "--wait", "30"), stdout=subprocess.PIPE, cwd=place.folder,
                              env=place.environment()) as waiting:
            store.create("d", 1)
            store.close()
            assert waiting.communicate()[0] == b"d\n"


def test_a_hub_that_hangs_is_given_up(place):
    place.format(16)
    with RealHub(place) as hub:
        os.kill(hub.process.pid, signal.SIGSTOP)
        assert "did not answer within 0.2 seconds" in errors(place, "--timeout", "0.2", "ls", "socket", status=1)


def test_each_command_has_help_with_an_example(place):
    everything = told_by_process(place, "--help")
    assert "exit status:" in everything
    for command in [*COMMANDS, "completion"]:
        assert f"    {command} " in everything
        assert "example:\n" in told(place, command, "--help")
    assert told(place, "--version") == "jpstore " + jpstore.__version__


def test_words_are_completed(place):
    pytest.importorskip("argcomplete")
    assert "jpstore-cli" in told(place, "completion")
    with place.made() as store:
        store.create("shelf-of-bolts", {"sizes": {"small": 8}})

    def completed(line):
        # As argcomplete's code for bash calls it: the words that fit come at file descriptor 8.
        environment = {**place.environment(), "_ARGCOMPLETE": "1", "COMP_LINE": line, "COMP_POINT": str(len(line)),
                       "_ARGCOMPLETE_IFS": "\n", "COMP_TYPE": "9"}
        code = "import sys; sys.argv[0] = 'jpstore-cli'; import jpstore.cli; jpstore.cli.main()"
        words = [*place.words()[:1], "-c", code]
        with open(place.path("completed"), "w+b") as taken, open(os.devnull, "wb") as nothing:
            reopened = f"exec 8>&{taken.fileno()} 9>&{nothing.fileno()}; exec \"$@\""
            subprocess.run(["bash", "-c", reopened, "bash", *words], env=environment, cwd=place.folder, check=True,
                           pass_fds=(taken.fileno(), nothing.fileno()), stdout=subprocess.DEVNULL)
            taken.seek(0)
            return taken.read().decode().split("\n")
    for begun, words in (("sna", ["snapshot"]), ("fi", ["find"]), ("sch", ["schema"]), ("fo", ["format", "follow"])):
        assert sorted(word.strip() for word in completed("jpstore-cli " + begun)) == sorted(words)
    os.environ["PATH"] += os.pathsep + os.path.dirname(place.program)
    if os.path.basename(place.program) == "jpstore":
        assert [word.strip() for word in completed("jpstore-cli get store sh")] == ["shelf-of-bolts"]
        assert [word.strip() for word in completed("jpstore-cli get store shelf-of-bolts /si")] == ["/sizes"]


def test_what_cannot_be_written_is_told(place):
    place.format(16)
    with open("/dev/full", "wb") as full:
        ended = subprocess.run(place.words("status", "store"), stdout=full, stderr=subprocess.PIPE, cwd=place.folder,
                               env=place.environment(), check=False)
    assert (ended.returncode, b"No space left on device" in ended.stderr) == (1, True)


def test_nobody_reads_what_is_written(place):
    with place.made() as store:
        store.group([jpstore.create(f"n{number}", "x" * 4000) for number in range(200)])
    for command in ("dump", "ls"):
        with subprocess.Popen(place.words(command, "store"), stdout=subprocess.PIPE, stderr=subprocess.PIPE,
                              cwd=place.folder, env=place.environment()) as writing:
            writing.stdout.close()
            assert (writing.stderr.read(), writing.wait()) == (b"", 1)
    with Store(place.file, program=place.program, wait=5) as store:
        assert len(store.names()) == 200


def test_a_schema_of_other_people_is_adapted(place):
    place.text("other.json", '{"definitions": {"n": {"type": "integer", "minimum": 0.5}}}')
    schema = {"$schema": "http://json-schema.org/draft-07/schema#", "additionalProperties": {
        "$ref": "other.json#/definitions/n"}, "propertyNames": {"pattern": "^a"}}
    place.text("schema.json", json.dumps(schema))
    made, noted = run_here(place, "schema", "adapt", "schema.json", "--profile", "2", status=6)
    assert json.loads(made)["$defs"] == {"n": {"type": "integer", "minimum": 1}}
    changed, left, hint = noted.splitlines()
    assert changed == ("changed: at `other.json/definitions/n/minimum`: the bound 0.5 is `minimum` 1 for whole "
                       "numbers")
    assert left.startswith("left: at `/propertyNames/pattern`: `pattern` needs a store of format 3; ")
    assert hint == "for a store of format 3: --profile 3"
    made = told(place, "schema", "adapt", "schema.json", "--profile", "2", "--drop", "pattern", "--json")
    assert json.loads(made)["schema"]["$comment"] == "left out for jpstore: pattern (1)"
    made_for_3, noted = run_here(place, "schema", "adapt", "schema.json")
    assert (json.loads(made_for_3)["propertyNames"], noted) == ({"pattern": "^a"}, changed + "\n")
    place.format(16)
    place.text("made.json", json.dumps(json.loads(made)["schema"]))
    told(place, "new", "store", "d", '{"a": 1}', "--schema", "made.json")
    assert "`/b`: 0 is less than the minimum" in errors(place, "set", "store", "d", "/b", "0", status=5)
    assert "no such file" in errors(place, "schema", "adapt", "nowhere", status=14).lower()
