"""The shell: its commands over a pipe, and prompt, history and completion on a terminal."""
import io
import os
import pty
import re
import select
import signal
import subprocess
import time

try:
    import readline
except ImportError:
    readline = None

import pytest
from jpstore import Outdated, Store, create
from jpstore.cli.commands import COMMANDS, OTHER_NAMES
from jpstore.cli.display import printable, shown
from jpstore.cli.shell import ELSEWHERE, Shell
from jpstore.cli.shell_transaction import Draft
from jpstore.progress import Progress
from serving import RealHub
from support import PATIENCE, raised, until

LINES = """\
new shelf {"bolts": 40, "nuts": 12}
new list counts.json [1, 2]
new text < text.json
new bare counts.json < numbers.json
ls
cat shelf
cat shelf /nuts
set shelf /nuts 11
set shelf /tags ["red"]
set shelf /tags/- "a b"
set shelf "/a b" null
cat shelf
find shelf $[?@ < 20]
rm shelf /tags
rm text
schema list
schema shelf counts.json
schema shelf
rev shelf
rev bare
set bare "" [7]
cat bare
snapshot
quit
"""

SHOWN = """\
done, change 1
done, change 2
done, change 3
done, change 4
shelf
list
text
bare
{"bolts": 40, "nuts": 12}
12
done, change 5
done, change 6
done, change 7
done, change 8
{"a b": null, "bolts": 40, "nuts": 11, "tags": ["red", "a b"]}
$['nuts']  11
done, change 9
done, change 10
{"items": {"type": "integer"}}
done, change 11
{"items": {"type": "integer"}}
11
4
done, change 12
[7]
303 bytes used
"""


def test_commands_are_done(place):
    place.format()
    place.text("counts.json", '{"items":{"type":"integer"}}')
    place.text("numbers.json", "[3]\n")
    place.text("text.json", '"x < y"')
    place.shows("store", given=LINES.encode(), output=SHOWN)


def test_a_schema_is_given_as_on_the_command_line_too(place):
    place.format()
    place.text("counts.json", '{"items":{"type":"integer"}}')
    lines = b"new a [1] --schema counts.json\nput b --schema counts.json [2]\nnew c \"--schema d\"\n"
    shown_lines = "done, change 1\ndone, change 2\ndone, change 3\n" + 2 * '{"items": {"type": "integer"}}\n'
    place.shows("store", given=lines + b"schema a\nschema b\n", output=shown_lines)


def test_a_refusal_is_shown_with_what_to_do(place):
    place.format()
    place.shows("store", given=b"cat shelf\nnew d 1\n", output="done, change 1\n", status=1,
                errors="line 1: get shelf: 21 no-document: no document has that name\n"
                       "  what to do: list the names, and compare\n")


def test_what_is_no_command_is_told(place):
    place.format()
    rows = [
        (b"frob", "no command is called frob (`help` lists them)\n"),
        (b"lst", "no command is called lst; did you mean ls? (`help` lists them)\n"),
        (b"delete d", "no command is called delete; did you mean rm? (`help` lists them)\n"),
        (b"grow larger", "`grow` is for the command line: `python3 -m jpstore grow --help`\n"),
        (b"watch", "only the store of a hub can be watched: serve the file by a hub, and connect to its socket\n"),
        (b"watch x", "SINCE is a number, as 41\n"), (b"ls --prefix", "the value of --prefix is missing\n"),
        (b"schema d --to", "the value of --to is missing\n"),
        (b"schema --prefix d", "`--to FILE` is missing\n"),
        (b"schema --prefix d a.json",
         "what is `a.json` for? `schema --prefix PREFIX --to FILE` puts documents under another\n"),
        (b"rm d --if-rev", "the value of --if-rev is missing\n"), (b"rm d /a /b", "what is `/b` for?\n"),
        (b"schema a b c", "what is `c` for?\n"),
        (b"schema --prefix x --to nowhere", "no document's name begins with x\n"),
        (b"ls x", "what is `x` for? `ls --prefix PREFIX` lists the names that begin with it\n"),
        (b"cat", "NAME is missing\n"),
        (b"cat \"d", "NAME has no closing quote: \"d\n"),
        (b"new d", "DOC is missing\n"), (b"set d /a", "VALUE is missing\n"), (b"find d", "QUERY is missing\n"),
        (b"new d abc", "`abc` is not JSON: line 1, column 1: Expecting value (a text needs double quotes: \"abc\")\n"),
        (b"new d 1.5", "create d: /doc: 1.5 is not a whole number: send a whole number, as 1999 cents or 25 percent, "
                       "or a text\n"),
        (b"put d [1] --if-rev 3", "`[1] --if-rev 3` is not JSON: line 1, column 5: Extra data (`--if-rev` comes before "
                                  "DOC)\n"),
        (b"find --all $[0] --prefix d",
         "`--prefix PREFIX` comes before the query: `find --all --prefix PREFIX QUERY`\n"),
        (b"schema d nowhere", "nowhere: No such file or directory\n"),
        *((line, "the name of a file has no NUL\n") for line in (b"schema d a\0b", b"new d < a\0b", b"new d a\0b 1")),
        (b"new d \"\xff\"", "create d: /doc: '\\udcff' has half of a surrogate pair\n"),
        (b"help frob", "no command is called frob\n"),
    ]
    for line, errors in rows:
        place.shows("store", given=line + b"\n", errors="line 1: " + errors, status=1)


def test_help_has_the_form_of_each_command(place):
    place.format()
    shown_help = place.run("store", given=b"help\nhelp set\n").stdout.decode()
    for form in ("ls [--prefix PREFIX]:", "get NAME [POINTER]:", "cat NAME [POINTER]:", "find NAME QUERY:",
                 "new NAME [SCHEMA-FILE] DOC,", "rm NAME [POINTER] [--if-rev N]:", "set NAME POINTER VALUE:",
                 "rev NAME:", "schema NAME [FILE]:", "status:", "snapshot:", "quit:", "exit:",
                 "the place after its last."):
        if form not in shown_help:
            pytest.fail(f"{form} isn't in {shown_help}")


def test_status_says_how_full_it_is(place):
    place.format(16)
    place.shows("store", given=b"new d {\"a\":1}\nstatus\n", output=(
        "done, change 1\ndocuments  1 of 1,024\nused       67 of 3,584 bytes (1.9 %)\nchanges    1\n"
        "openings   1\nfile       16 sectors, 8,192 bytes; half 0 in force\n"
        "format     2; `jpstore upgrade FILE` brings it to 3, which tells damage, and has marks and patterns\n"))


def test_status_names_no_format_but_an_old_one(place):
    place.format(version=3)
    shown_now = place.run("store", given=b"status\n").stdout.decode()
    assert "\nidentity   " in shown_now and "\nformat" not in shown_now
    with place.store() as store:
        assert (store.status().format, store.status().most_documents) == (3, 65_536)


def test_a_file_that_is_no_store_is_told(place):
    place.text("store", "x" * 4096)
    errors = place.run("store", status=1).stderr.decode()
    assert errors.startswith("store: not-a-store (72): the file does not begin as a store does")


def test_values_are_shown_readably():
    assert shown({"a": [1, {"b": "c"}]}) == '{"a": [1, {"b": "c"}]}'
    wide = {"first": ["x" * 60, "y" * 60], "then": {}}
    assert shown(wide) == '{\n  "first": [\n    "' + "x" * 60 + '",\n    "' + "y" * 60 + '"\n  ],\n  "then": {}\n}'
    assert printable("\u00e4\u4e2d \x9b31m\u202e") == "\u00e4\u4e2d \\u009b31m\\u202e"


class Terminal(io.StringIO):
    def isatty(self):
        return True


def test_work_over_a_second_has_a_line():
    log, stream = io.StringIO(), Terminal()
    with Progress("dump", "documents", 9, log), Progress("dump", "documents", 9, stream) as progress:
        progress.step(3)
        until(stream.getvalue, "the line")
    if not re.fullmatch(r"(\rdump: [1-9] s, 3 of 9 documents)+\r +\r", stream.getvalue()):
        pytest.fail(repr(stream.getvalue()))
    assert log.getvalue() == ""
    with Progress("dump", stream=stream) as progress:
        before = stream.getvalue()
    assert stream.getvalue() == before


def on_a_terminal(place, typed):
    """Types these texts, each when the one before it was answered by a text; answers all that was shown."""
    master, slave = pty.openpty()
    environment = {**place.environment(), "TERM": "dumb"}
    with subprocess.Popen(place.words("store"), stdin=slave, stdout=slave, stderr=slave, env=environment,
                          cwd=place.folder, start_new_session=True) as shell:
        os.close(slave)
        seen = ""
        try:
            for awaited, text in typed:
                rest = len(seen)
                while awaited not in seen[rest:]:
                    if not select.select([master], [], [], PATIENCE)[0]:
                        pytest.fail(f"{awaited!r} didn't come: {seen!r}")
                    seen += os.read(master, 4096).decode()
                os.write(master, text.encode())
            assert shell.wait(PATIENCE) == 0
        finally:
            shell.kill()
            os.close(master)
    return seen


def test_a_terminal_has_a_prompt_completion_and_a_history(place):
    if readline is None or "libedit" in str(readline.__doc__):
        return
    with place.made() as store:
        store.create("shelf-of-bolts", {"sizes": {"small/round": 8}})
    seen = on_a_terminal(place, [
        ("store> ", "cat sh\t"),
        ("shelf-of-bolts", "/s\t"),
        ("sizes", "/\t"),
        ("small~1round", "\n"),
        ("store> ", "\x04"),
    ])
    if "\n8\r\n" not in seen:
        pytest.fail(repr(seen))
    with open(place.path(".jpstore_history"), encoding="utf-8") as history:
        assert history.read().splitlines()[-1].strip() == "cat shelf-of-bolts /sizes/small~1round"


def test_the_words_are_those_of_the_command_line(place):
    shell = {name[3:] for name in dir(Shell) if name.startswith("do_")}
    assert {*COMMANDS, *(name for names in OTHER_NAMES.values() for name in names), "replica", "completion",
            "help"} == shell - {"abort", "begin", "commit", "exit", "quit"} | set(ELSEWHERE)
    assert not shell & set(ELSEWHERE)


def test_the_words_do_the_same(place):
    place.format()
    place.text("list.json", '{"type":"array"}')
    place.shows("store", given=b"""\
put a [1]
put b list.json [2]
put a {"n": 2}
get a
find --all $[?@ == 2]
patch a [{"op":"remove","path":"/n"}]
patch a --merge {"m": 3}
get a
put a --if-rev 5 []
find --all --prefix b $[?@ == 2]
schema a b --to list.json
schema --prefix a --to list.json
schema b
ls --prefix a
begin
put a [5]
put new [6]
put new [7]
rm b
put b [8]
schema a b --to list.json
commit
get new
get b
""", output="""\
done, change 1
done, change 2
done, change 3
{"n": 2}
a  $['n']  2
b  $[0]  2
done, change 4
done, change 5
{"m": 3}
done, change 6
b  $[0]  2
done, changes 7 to 8
done, change 9
{"type": "array"}
a
noted, 1 change
noted, 2 changes
noted, 3 changes
noted, 4 changes
noted, 5 changes
noted, 7 changes
done, changes 10 to 16
[7]
[8]
""")


def heeds_interrupts():
    """What a shell starts in its background ignores them, and so would its children."""
    signal.signal(signal.SIGINT, signal.SIG_DFL)


def test_a_hub_is_watched_and_followed_until_an_interrupt(place):
    place.format()
    with RealHub(place) as hub, Store.connect(hub.path) as store:
        store.create("d", 1)
        for line, first in ((b"watch 0\n", b'{"change":{"cmd":"create","doc":1,"name":"d","schema":true},"history":"'),
                            (b"follow d\n", b'{"rev":1,"value":1}\n')):
            with subprocess.Popen(place.words("socket"), stdin=subprocess.PIPE, stdout=subprocess.PIPE,
                                  cwd=place.folder, env=place.environment(), preexec_fn=heeds_interrupts) as shell:
                shell.stdin.write(line)
                shell.stdin.flush()
                assert shell.stdout.readline().startswith(first)
                # A signal that comes just before a system call waits is seen when that returns, so it comes later.
                time.sleep(0.2)
                shell.send_signal(signal.SIGINT)
                assert shell.communicate(b"get d\n", timeout=PATIENCE)[0] == b"1\n"
                assert shell.returncode == 0


TRANSACTION = """\
new a {"bolts": 40, "list": [1]}
begin
set a /bolts 39
new b {"bolts": {}}
set b /bolts/m8 1
set b /bolts/m8 2
set a /list/- 5
set a /list/1 6
rm a /list/0
schema b counts.json
cat a
ls
commit
cat a
cat b
begin
rm b
new b [1]
set b "" {"x": [{"y": 1}]}
set b /x/0/y null
rm a
abort
begin
rm b
new b 1
commit
ls
cat b
status
"""

TRANSACTION_SHOWN = """\
done, change 1
noted, 1 change
noted, 2 changes
noted, 3 changes
noted, 4 changes
noted, 5 changes
noted, 6 changes
noted, 7 changes
noted, 8 changes
{"bolts": 40, "list": [1]}
a
done, changes 2 to 9
{"bolts": 39, "list": [6]}
{"bolts": {"m8": 2}}
noted, 1 change
noted, 2 changes
noted, 3 changes
noted, 4 changes
noted, 5 changes
forgotten, 5 changes
noted, 1 change
noted, 2 changes
done, changes 10 to 11
a
b
1
documents  2 of 1,024
"""


def test_changes_are_gathered_for_a_transaction(place):
    place.format()
    place.text("counts.json", '{"type":"object"}')
    shown_all = place.run("store", given=TRANSACTION.encode()).stdout.decode()
    assert shown_all[:len(TRANSACTION_SHOWN)] == TRANSACTION_SHOWN


def test_a_transaction_that_is_refused_is_over(place):
    place.format()
    shown_all = place.run("store", status=1, given=(
        b"new d {}\nbegin\nset d /a 1\nnew d 1\ncommit\ncommit\ncat d\nbegin\nset d /a 2\ncommit\ncat d\n"))
    assert shown_all.stdout.decode() == ("done, change 1\nnoted, 1 change\nnoted, 2 changes\n{}\nnoted, 1 change\n"
                                         'done, change 2\n{"a": 2}\n')
    assert shown_all.stderr.decode() == (
        "line 5: create d: 20 exists, change 1: a document of that name exists already\n"
        "  what to do: choose another name, or patch the document that exists\n"
        "nothing is made: forgotten, 2 changes\nline 6: no transaction is begun\n")


def test_a_script_commits_nothing_after_a_line_that_was_refused(place):
    place.format()
    for line, errors in ((b"sett d /a 1", "no command is called sett; did you mean set? (`help` lists them)\n"),
                         (b"set d /a/b 1", "d has no place /a/b after the changes before it\n"),
                         (b"set d a 1", "a is no place: a JSON Pointer begins with `/`\n"),
                         (b"rm d /a", "d has no place /a after the changes before it\n"),
                         (b"cat e", "get e: 21 no-document: no document has that name\n"
                                    "  what to do: list the names, and compare\n")):
        place.shows("store", given=b"begin\nnew d {}\n" + line + b"\ncommit\nls\n", output="noted, 1 change\n",
                    errors=f"line 3: {errors}line 4: a line since `begin` was refused, so nothing is made\n", status=1)


def test_how_a_transaction_is_begun_and_ended_is_told(place):
    place.format()
    place.shows("store", given=b"commit\n", errors="line 1: no transaction is begun\n", status=1)
    place.shows("store", given=b"abort\n", errors="line 1: no transaction is begun\n", status=1)
    place.shows("store", given=b"begin\nabort\nbegin\ncommit\n", output="forgotten, 0 changes\n", status=1,
                errors="line 4: there is no change since `begin`\n")
    place.shows("store", given=b"begin\nbegin\n", status=1, errors=(
        "line 2: a transaction is begun already: end it by `commit` or `abort`\n"
        "the transaction was not committed: forgotten, 0 changes\n"))
    place.shows("store", given=b"begin\nnew d {}\nrm d\nset d /a 1\n", output="noted, 1 change\nnoted, 2 changes\n",
                status=1, errors="line 4: the transaction has deleted d\n"
                                 "the transaction was not committed: forgotten, 2 changes\n")
    place.shows("store", given=b"begin\nnew d {}\nquit\n", output="noted, 1 change\n", status=1,
                errors="the transaction was not committed: forgotten, 1 change\n")


def test_a_transaction_meets_the_values_that_were_read_for_it(place):
    with place.made() as store:
        store.transaction([create("d", {"list": [1, 2]}), create("e", {})])
        for change in ((lambda draft: draft.put(store, "d", "/list/1", 3)),
                       (lambda draft: draft.remove(store, "d", "/list/0"))):
            draft = Draft()
            draft.create("f", 1, True)
            change(draft)
            draft.put(store, "d", "/more", 1)
            # Another client takes the element before the one that is meant.
            store.patch("d", [{"op": "add", "path": "/list/0", "value": 0}])
            refused = raised(Outdated, store.transaction, draft.changes)
            assert (refused.change, store.names()) == (1, ["d", "e"])
        draft = Draft()
        draft.set_schema("d", {"type": "object"})
        draft.put(store, "d", "/list", [])
        draft.put(store, "e", "/a", [])
        draft.put(store, "e", "/a/-", {"b": 1})
        draft.put(store, "e", "/a/0/b", 2)
        assert [change.get("if_rev") for change in draft.changes] == [None, None, 2, None, None]
        # What is put into the document later is not put into the change before.
        assert draft.changes[3]["ops"][0]["value"] == {"b": 1}
        store.transaction(draft.changes)
        assert (store.get("d"), store.get("e")) == ({"list": []}, {"a": [{"b": 2}]})


def test_a_terminal_shows_that_a_transaction_is_begun(place):
    place.format()
    seen = on_a_terminal(place, [
        ("store> ", "begin\n"),
        ("store*> ", "new d {}\n"),
        ("store*> ", "frob\n"),
        ("store*> ", "commit\n"),
        ("store> ", "cat d\n"),
        ("store> ", "\x04"),
    ])
    # Who types sees that a line was refused, and goes on.
    if "done, change 1\r\n" not in seen or "\n{}\r\n" not in seen:
        pytest.fail(repr(seen))
