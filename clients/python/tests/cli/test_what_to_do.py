"""Each thing that goes wrong for a user is told with what to do about it."""
import json
import os
import signal
import socket
import subprocess
import sys
import time

from hubs import Hub
from jpstore import AccessError, Ended, Gone, JpstoreError, Malformed, Store, check_file, format_file
from support import PATIENCE, Place, raised

# Root keeps to the rights of files without these.
AS_ONE_MAY = ["setpriv", "--bounding-set", "-dac_override,-dac_read_search"] if os.geteuid() == 0 else []

LOOP = """\
import sys
from jpstore import Store
with Store("store", program=sys.argv[1]) as store:
    seq = store.create("d", 0)
    while True:
        seq = store.patch("d", [{"op": "replace", "path": "", "value": seq}])
        print(seq, flush=True)
"""


def told(place, *words, given=b"", status):
    """What a command writes to standard error."""
    return place.run(*words, given=given, status=status).stderr.decode()


def test_a_file_that_cannot_be_made_or_opened(place):
    place.format(16)
    os.mkdir(place.path("folder"))
    rows = [
        (["format", "store"], 15, "store: File exists", "choose another name"),
        (["get", "nowhere", "d"], 14, "nowhere: No such file or directory",
         "`python3 -m jpstore new FILE` makes a store"),
        (["format", "nowhere/store"], 14, "nowhere/store: No such file or directory", "whose folder must exist"),
        (["check", "folder"], 1, "folder: Is a directory", "name a file in it"),
        (["follow", "nowhere", "d"], 14, "nowhere: No such file or directory", "no hub serves here"),
        (["follow", "store", "d"], 1, "store: this is not the socket of a hub", "name the PATH that the hub"),
        *((words, 14, "nowhere: No such file or directory", "new FILE` makes a store") for words in (
            ["copy", "nowhere", "new"], ["grow", "nowhere"], ["grow", "nowhere", "new"], ["upgrade", "nowhere"])),
        # These go on as the server.
        *((words, 1, "nowhere: No such file or directory", "new FILE` makes a store") for words in (
            ["hub", "nowhere", "--socket", "socket"], ["http", "nowhere", "--listen", "127.0.0.1:0"])),
        (["hub", "folder", "--socket", "socket"], 1, "folder: Is a directory", "name a file in it"),
    ]
    for words, status, cause, advice in rows:
        shown = told(place, *words, status=status)
        said, _, to_do = shown.partition("\n  what to do: ")
        assert cause in said and advice in to_do, shown


def test_a_file_that_may_not_be_written(place):
    os.chmod(place.format(16), 0o400)
    for words in (["check"], ["grow"], ["hub", "--socket", "socket"]):
        words = [*AS_ONE_MAY, *place.words(words[0], "store", *words[1:])]
        ended = subprocess.run(words, stderr=subprocess.PIPE, cwd=place.folder, env=place.environment(), check=False)
        assert ended.returncode == 1 and ended.stderr.startswith(b"store: Permission denied"), ended
        assert b"\n  what to do: " in ended.stderr and b"run this as that user" in ended.stderr
        assert b"`jpstore dump FILE --read-only` needs no right to write" in ended.stderr


def test_a_file_that_is_in_use(place):
    with place.made():
        shown = told(place, "ls", "store", status=13)
        assert shown.startswith("store is in use: another command uses it, under this name or another; ")
        assert "connect to the socket of the hub that serves it" in shown and "`--wait SECONDS`" in shown
        shown = told(place, "hub", "store", "--socket", "socket", "--wait", "0", status=1)
        assert shown.startswith("store is in use: ") and "\n  what to do: connect to the socket of the hub" in shown


def test_no_hub_serves(place):
    with socket.socket(socket.AF_UNIX) as left:
        left.bind(place.path("socket"))
    shown = told(place, "ls", "socket", status=14)
    assert shown == ("socket: Connection refused\n  what to do: no hub serves here: start it by `python3 -m jpstore "
                     "hub FILE --socket PATH`, or wait for it by `--wait SECONDS`\n")
    error = raised(AccessError, Store.connect, place.path("none"))
    assert error.advice.startswith("no hub serves here")
    assert raised(AccessError, Store.connect, place.format(16)).advice.startswith("name the PATH that the hub")


def test_a_file_that_is_no_store_or_is_damaged(place):
    for text, number, advice in (("x" * 4096, 72, "check that it is the right file"),
                                 ("JPSTORE1" + "\x7f" * 4088, 73, "restore it from a copy or a dump")):
        place.text("store", text)
        ended = raised(Ended, check_file, place.file, place.program)
        assert (ended.number, ended.advice.startswith(advice)) == (number, True)


def test_no_room_for_a_new_file(place):
    small = place.script("small", f"trap '' XFSZ; ulimit -f 8; exec '{place.program}' \"$@\"")
    ended = raised(Ended, format_file, place.path("new"), 4096, small)
    assert ended.name == "no-space" and ended.advice.startswith("make room, or choose a smaller size")


def test_a_disk_that_takes_no_more(place):
    place.format(16)
    small = place.script("small", f"trap '' XFSZ; ulimit -f 1; exec '{place.program}' \"$@\"")
    shown = told(Place(small, place.folder), "new", "store", "d", "1", status=9)
    assert "perhaps as the file system is full; the next opening shows whether it is stored" in shown
    assert "\n  what to do: look at the disk and its free space" in shown


def test_a_full_store(place):
    place.format(16)
    shown = told(place, "new", "store", "d", '"' + "x" * 3600 + '"', status=8)
    assert "60 full" in shown and "`python3 -m jpstore grow STORE`" in shown


def test_a_text_without_quotes(place):
    place.format(16)
    told(place, "new", "store", "d", '{"level": 1}', status=0)
    shown = told(place, "set", "store", "d", "/level", "debug", status=6)
    assert shown == ("`debug`: not JSON: line 1, column 1: Expecting value (a text needs double quotes: "
                     "'\"debug\"')\n")
    shown = told(place, "store", given=b"set d /level debug\nset d /level all of it\n", status=1)
    assert shown == ('line 1: `debug` is not JSON: line 1, column 1: Expecting value (a text needs double quotes: '
                     '"debug")\n'
                     'line 2: `all of it` is not JSON: line 1, column 1: Expecting value (a text needs double quotes: '
                     '"all of it")\n')


def test_what_is_wrong_in_a_document_a_schema_or_a_query(place):
    place.format(16)
    told(place, "new", "store", "d", "{}", status=0)
    place.text("schema.json", '{"properties": {"a": {"pattern": "^a"}}}')
    rows = [
        (["schema", "store", "d", "--to", "schema.json"], "at `/properties/a/pattern`: `pattern` needs a store of "),
        (["find", "store", "d", "$[?@.a = 1]"], "at character 8 (`= 1]`): one `=` compares nothing: write `==`"),
        (["new", "store", "e", "[0.5]"], "/doc/0: 0.5 is not a whole number: send a whole number, as 1999 cents or"),
        (["new", "store", "e", "[1,\n}"], "line 2, column 1"), (["new", "store", "e", "\ufeff[]"], "byte order mark"),
        (["new", "store", "a/b", "1"], "`a/b` has '/' as its character 2"),
        (["transaction", "store", '[{"cmd": "create", "name": "e", "doc": 1}]'], "`create` lacks `schema`"),
    ]
    for words, said in rows:
        assert said in told(place, *words, status=6)
    assert "level 65 begins at `/doc/0/0/0" in told(place, "new", "store", "e", "[" * 70 + "]" * 70, status=7)
    assert "level 128 begins at `/doc/0/0/0" in told(place, "new", "store", "e", "[" * 200 + "]" * 200, status=6)
    shown = told(place, "schema", "store", "d", "--to", "schema.json", "--json", status=6)
    assert '"detail": "at `/properties/a/pattern`' in shown


def test_what_is_wrong_in_a_line_to_load(place):
    place.format(16)
    lines = b'{"cmd":"create","name":"a","doc":1,"schema":true}\n'
    for wrong, said in ((b'{"cmd":"create",}\n', "not JSON: column 17: "), (b'{"cmd":\n', "not JSON: column 8: "),
                        (b'{"cmd":"list"}\n', "it is none of create, patch, "),
                        (b'[{"a":1}]\n', "it is none of create, patch, schema, delete and transaction: of other ")):
        shown = told(place, "load", "store", "--partial", given=lines + wrong, status=6)
        assert shown.startswith("line 2 is refused; 1 change was made\n" + said), shown
        told(place, "rm", "store", "a", status=0)


def test_what_is_wrong_in_a_patch_or_a_pointer(place):
    place.format(16)
    told(place, "new", "store", "a", '{"n": 1, "list": [1]}', status=0)
    rows = [
        (["patch", "store", "a", '[{"op":"replac","path":"/n"}]'], 6,
         'operation 0: `op` is "replac": perhaps "replace" is meant'),
        (["patch", "store", "a", '[{"op":"replace","path":"/n"}]'], 6, "operation 0: `replace` lacks `value`"),
        (["patch", "store", "a", "7"], 6, "`ops` is 7, and must be a list of operations"),
        (["patch", "store", "a", '[{"op":"remove","path":"n"}]'], 6, "`path`: `n` doesn't begin with `/`"),
        (["set", "store", "a", "/q/r", "2"], 3, "operation 0: to add `/q/r`, `/q` must be an object\n"),
        (["set", "store", "a", "/list/7", "2"], 3, "`/list` must be an object, or a list that is long enough\n"),
        (["rm", "store", "a", "/nope"], 3,
         "there is no `/nope`\n  what to do: read the document, to see what is there\n"),
        (["patch", "store", "a", '[{"op":"copy","from":"/m","path":"/o"}]'], 3,
         "there is no `/m`, or no place to put it at `/o`"),
        (["patch", "store", "a", '[{"op":"move","from":"/list","path":"/list/0"}]'], 6, "`/list/0` is within `/list`"),
        (["patch", "store", "a", '[{"op":"test","path":"/n","value":2}]'], 4,
         "34 patch-test, operation 0: `/n` isn't 2; the document has 1 there\n"),
        (["patch", "store", "a", '[{"op":"test","path":"/m","value":2}]'], 3, "there is no `/m`"),
        (["get", "store", "a", "/q"], 3, "get a: 37 no-value: there is no `/q`\n"),
        (["get", "store", "a", "/q~2"], 6, "`/q~2` has a `~` as its character 3, without 0 or 1 after it"),
        (["set", "store", "a", "x", "2"], 6, "set a: 38 pointer: `x` doesn't begin with `/`\n"),
        (["set", "store", "b", "/x", "2"], 3, "set b: 21 no-document"),
    ]
    for words, status, said in rows:
        assert said in told(place, *words, status=status)


def test_advice_that_fits(place):
    place.format(16)
    told(place, "new", "store", "a", "{}", status=0)
    shown = told(place, "rm", "store", "a", "", status=6)
    assert "delete the document instead: by `store.delete(name)`, `rm STORE NAME`, or `DELETE` over HTTP\n" in shown
    place.text("old.json", '{"$schema": "http://json-schema.org/draft-07/schema#"}')
    shown = told(place, "schema", "store", "a", "--to", "old.json", status=6)
    assert shown.endswith("  what to do: `python3 -m jpstore schema adapt FILE` makes a schema of it that the store "
                          "reads\n")
    place.text("half.json", '{"properties": {"a": {"maximum": 1.5}}}')
    shown = told(place, "schema", "store", "a", "--to", "half.json", status=6)
    assert "1.5 is not a whole number: `python3 -m jpstore schema adapt` makes a bound of whole numbers of it" in shown
    with Hub(place) as hub, hub.connect() as store:
        gone = raised(Gone, lambda: next(store.watch(10 ** 6)))
        assert str(gone).startswith("the store has no change 1000000, or is another one than that which had it")
        for since, shown in (("x", '"x"'), (-1, "-1")):
            assert str(raised(Malformed, store.watch, since)) == \
                f"watch: 14 command: `from` of `watch` is {shown}, and must be a whole number from 0"
        for new in ({}, [1], [{"path": ""}]):
            wrong = str(raised(JpstoreError, store.update, "a", lambda doc: new))  # noqa: B023
            assert "returns a list of the operations of a JSON Patch for the value, as `[{" in wrong
            assert wrong.endswith(f"and this is {json.dumps(new)}; `put` takes a new document"), wrong
        assert raised(Ended, Store, hub.path, program=place.program).advice == \
            "this is the socket of a hub: open it by `Store.connect`, or by the command line"
    assert "`--size`: `3` is too small: a store has 1,536 bytes at least" in \
        told(place, "format", "new", "--size", "3", status=2).replace("argument --size:", "`--size`:")


def test_words_that_a_command_does_not_take(place):
    place.format(16)
    rows = [
        (["load", "store", "nofile"], "usage: python3 -m jpstore load ",
         "load: error: what is `nofile` for? It reads standard input: `load STORE < FILE`.\n"),
        (["new", "store", "b", "1", "schema.json"], "usage: python3 -m jpstore new ",
         "what is `schema.json` for? A schema is given by `--schema FILE`.\n"),
        (["ls", "store", "x"], "usage: python3 -m jpstore ls ",
         "what is `x` for? `--prefix PREFIX` lists the names that begin with it.\n"),
        (["find", "store", "d", "$", "--prefix", "x"], "usage: python3 -m jpstore find ",
         "`--all` in place of NAME asks all documents, and `--prefix PREFIX` goes with it.\n"),
        (["rev", "store", "d", "e"], "usage: python3 -m jpstore rev ", "what is `e` for?\n"),
        (["find", "store", "$.bolts"], "usage: python3 -m jpstore find ",
         "QUERY. `--all` in place of NAME asks all documents, and `--prefix PREFIX` goes with it.\n"),
    ]
    for words, usage, said in rows:
        shown = told(place, *words, status=2)
        assert shown.startswith(usage) and shown.endswith(said), shown
    said = json.loads(told(place, "ls", "store", "x", "--json", status=2))
    assert (said["error"], said["message"].startswith("python3 -m jpstore ls: what is `x` for?")) == ("Usage", True)
    assert json.loads(told(place, "get", "store", "--json", status=2))["error"] == "Usage"


def test_the_name_of_a_file_in_place_of_a_value_is_told(place):
    place.format(16)
    place.text("doc.json", "{}")
    for words in (["new", "store", "a", "doc.json"], ["put", "store", "a", "doc.json"]):
        shown = told(place, *words, status=6)
        assert "not JSON" in shown and "the value of the file of this name is read by `- < doc.json`" in shown
    assert "file of this name" not in told(place, "new", "store", "a", "none.json", status=6)


def test_an_empty_place_replaces_a_document_only_if_that_is_asked_for(place):
    place.format(16)
    told(place, "new", "store", "a", "[1]", status=0)
    shown = told(place, "set", "store", "a", "", "2", status=2)
    assert shown.endswith("to replace that, use `put`, or add `--whole`\n")
    place.shows("get", "store", "a", output="[1]\n")
    told(place, "set", "store", "a", "", "2", "--whole", status=0)
    place.shows("get", "store", "a", output="2\n")


def test_help_has_what_a_newcomer_looks_for(place):
    rows = (("http", "127.0.0.1:8080)"), ("schema", "schema adapt"), ("follow", "`watch` shows each change"))
    for word, said in rows:
        assert said in " ".join(place.run(word, "--help").stdout.decode().split())


def test_a_watch_says_that_the_hub_is_gone(place):
    place.format(16)
    with Hub(place) as hub:
        with hub.connect() as store:
            store.create("d", 1)
        with subprocess.Popen(place.words("watch", hub.path, "--since", "0"), stdout=subprocess.PIPE,
                              stderr=subprocess.PIPE, cwd=place.folder, env=place.environment()) as watching:
            assert b'"seq":1' in watching.stdout.readline()
            hub.kill()
            assert watching.stderr.readline().decode() == f"{hub.path}: the hub is gone, and is waited for\n"
            watching.kill()


def test_a_full_disk_under_standard_output(place):
    place.format(16)
    told(place, "new", "store", "a", "{}", status=0)
    with open("/dev/full", "wb") as full:
        ended = subprocess.run(place.words("get", "store", "a"), stdout=full, stderr=subprocess.PIPE, cwd=place.folder,
                               env=place.environment(), check=False)
    assert (ended.returncode, ended.stderr) == (1, b"standard input or output: No space left on device\n")


def test_nobody_reads_the_help(place):
    ending, writing = os.pipe()
    os.close(ending)
    with open(writing, "wb") as closed:
        ended = subprocess.run(place.words("--help"), stdout=closed, stderr=subprocess.PIPE, cwd=place.folder,
                               env=place.environment(), check=False)
    assert (ended.returncode, ended.stderr) == (1, b"")


def test_who_has_no_program_is_told_how_to_get_it(place):
    ended = subprocess.run([sys.executable, "-m", "jpstore", "ls", "store"], stderr=subprocess.PIPE, cwd=place.folder,
                           env={**place.environment(), "PATH": place.folder}, check=False)
    assert ended.returncode == 1
    assert ended.stderr.startswith(b"jpstore is not on PATH: it is in the Debian package jpstore, and `./build` ")


def test_a_transaction_of_something_else(place):
    place.format(16)
    shown = told(place, "transaction", "store", '[{"cmd": "crate", "name": "d"}]', status=1)
    assert shown.endswith("; `cmd` of change 0, counted from 0, is none of them\n")


def test_advice_has_the_form_in_which_the_command_line_was_called(place):
    place.format(16)
    code = "import sys; sys.argv[0] = '/usr/bin/jpstore-cli'; import jpstore.cli; sys.exit(jpstore.cli.main())"
    ended = subprocess.run([sys.executable, "-c", code, "get", "none", "d", "--program", place.program],
                           cwd=place.folder, env=place.environment(), stderr=subprocess.PIPE, check=False)
    assert b"`jpstore-cli new FILE` makes a store, and `jpstore-cli hub FILE --socket PATH`" in ended.stderr


def heeds_interrupts():
    """What a shell starts in its background ignores them, and so would its children."""
    signal.signal(signal.SIGINT, signal.SIG_DFL)


def interrupted(place, words, lines):
    """What is written by a command that is interrupted after so many lines of its output, and its exit status."""
    with subprocess.Popen(words, stdout=subprocess.PIPE, stderr=subprocess.PIPE, cwd=place.folder,
                          env=place.environment(), preexec_fn=heeds_interrupts) as running:
        first = b"".join(running.stdout.readline() for _ in range(lines))
        # A signal that comes just before a system call waits is seen when that returns, so it comes later.
        time.sleep(0.2)
        running.send_signal(signal.SIGINT)
        output, errors = running.communicate(timeout=PATIENCE)
        return (first + output).decode(), errors.decode(), running.returncode


def test_an_interrupt_of_a_watch(place):
    place.format(16)
    with Hub(place) as hub, hub.connect() as store:
        store.create("d", 1)
        output, errors, status = interrupted(place, place.words("watch", hub.path, "--since", "0"), 1)
        assert (output.count("\n"), errors, status) == (1, "interrupted\n", 130)
        assert store.get("d") == 1


def test_an_interrupt_of_a_loop(place):
    place.format()
    output, errors, status = interrupted(place, [sys.executable, "-c", LOOP, place.program], 3)
    assert (errors.splitlines()[-1], -status) == ("KeyboardInterrupt", signal.SIGINT)
    with place.store() as store:
        # The change that was under way may have been made, too.
        assert store.status().seq - int(output.split()[-1]) in (0, 1)
        assert store.get("d") == store.status().seq - 1
