"""Dump, load and grow: the same documents, in the same order, or an error that says what is there."""
import asyncio
import json
import os
import resource
import signal
import subprocess

import pytest
from hubs import Hub, Writers, check_moment, counts_at
from jpstore import (
    AsyncStore, Ended, Full, JpstoreError, Store, TimedOut, Unsendable, copy_file, create, delete, patch, upgrade_file,
)
from jpstore.wire.limits import MOST_LINE_BYTES
from jpstore.dump import LoadStopped, document_lines, dump, grow, load
from jpstore.moment import Document, moment_of_hub
from jpstore.watch import Watch
from support import SILENCE, raised

COUNTS = {"additionalProperties": {"minimum": 0, "type": "integer"}}


def filled(place, sectors=4096):
    """A store whose documents are in another order than their names, with a history before them."""
    with place.made(sectors) as store:
        store.group([create("n%d" % number, {"text": "\u00e4\n\"\\" * number}) for number in range(40, 0, -1)])
        store.group([delete("n%d" % number) for number in range(2, 40, 2)])
        store.create("shelf", {"bolts": 40, "nuts": 12}, COUNTS)
        return [(name, *store.texts(name)) for name in store.list()]


def documents_of(place, file):
    with Store(file, program=place.program) as store:
        return [(name, *store.texts(name)) for name in store.list()]


def test_a_dump_is_create_lines_in_order(place):
    documents = filled(place)
    dumped = place.run("dump", "store").stdout
    *lines, end = [json.loads(line) for line in dumped.splitlines()]
    assert [line["name"] for line in lines] == [name for name, _, _ in documents]
    assert end == {"end": True, "lines": len(documents), "seq": 60}
    assert lines[-1] == {"cmd": "create", "doc": {"bolts": 40, "nuts": 12}, "name": "shelf", "schema": COUNTS}
    # They are the program's own lines: it reads them without this package.
    other = place.format(file=place.path("other"))
    subprocess.run([place.program, "serve", other], input=dumped, stdout=subprocess.DEVNULL, check=True)
    assert documents_of(place, other) == documents


def test_what_was_dumped_is_loaded(place):
    documents = filled(place)
    dumped = place.run("dump", "store").stdout
    place.format(file=place.path("other"))
    place.shows("load", "other", given=dumped + b"\n \n", output="22 changes made\n")
    assert documents_of(place, place.path("other")) == documents


def test_a_dump_that_was_cut_is_refused(place):
    filled(place)
    dumped = place.run("dump", "store").stdout
    lines = dumped.splitlines(keepends=True)
    place.format(file=place.path("other"))
    for cut, why in ((b"".join(lines[:-1]), "is missing"), (b"".join(lines[1:]), "counts 22 lines, and 21 are there"),
                     (dumped[:-40], "is missing"), (b"", "is missing"), (dumped * 2, "lines follow")):
        said = place.run("load", "other", given=cut, status=1).stderr.decode()
        assert said.startswith("this is no whole dump: ") and why in said and "--partial" in said
    assert documents_of(place, place.path("other")) == []
    place.shows("load", "other", "--partial", given=b"".join(lines[1:-1]), output="21 changes made\n")
    # The line feed of the last line is no part of what it says.
    place.format(file=place.path("third"))
    with Store(place.path("third"), program=place.program) as store:
        assert load(store, [line.rstrip() for line in lines]) == 22
        assert "is missing" in str(raised(JpstoreError, load, store, lines[:1]))
        assert load(store, [b'{"cmd":"delete","name":"shelf"}'], partial=True) == 1


def test_documents_that_a_server_sent_are_loaded(place):
    """As `GET /documents` has them: a backup over HTTP."""
    lines = [b'{"doc":{"nuts":12},"name":"shelf","rev":7,"schema":{"maxProperties":1}}',
             b'{"doc":"%b","name":"long","rev":9,"schema":{"$comment":"%b"}}' % (b"x" * 1048000, b"y" * 200000)]
    given = b"".join(line + b"\n" for line in lines)
    place.format(16384)
    said = place.run("load", "store", given=given, status=1).stderr.decode()
    assert "lines of `GET /documents` have no last one" in said and "--partial" in said
    # The second is longer than a line, and so it is made by two.
    place.shows("load", "store", "--partial", given=given, output="3 changes made\n")
    assert documents_of(place, place.file) == [
        ("shelf", b'{"nuts":12}', b'{"maxProperties":1}'),
        ("long", b'"%b"' % (b"x" * 1048000), b'{"$comment":"%b"}' % (b"y" * 200000))]
    said = place.run("load", "store", "--partial", given=given, status=4).stderr.decode()
    assert said.startswith("line 1 is refused, and 1 more line up to 2; 1 change was made\n"), said


def test_a_load_stops_after_a_group_with_a_refusal(place):
    place.format(16)
    with place.store() as store:
        stopped = raised(LoadStopped, load, store, [b'{"cmd":"create","doc":1,"name":"d","schema":true}\n'] * 3 +
                         [b'{"cmd":"delete","name":"d"}'], True)
        assert (stopped.made, stopped.last, sorted(stopped.refused)) == (2, 4, [2, 3])
    said = place.run("load", "store", "--partial", given=b'{"cmd":"delete","name":"d"}\n', status=3).stderr.decode()
    assert said.startswith("line 1 is refused; 0 changes were made\n") and "21 no-document" in said


@pytest.mark.parametrize("wrong", [b'{"cmd":"list"}', b"{", b"[]", b"\xff"])
def test_a_load_stops_at_a_line_that_is_no_change(place, wrong):
    before = [b'{"cmd":"create","doc":1,"name":"d%d","schema":true}\n' % number for number in range(300)]
    lines = [*before, wrong + b"\n", b'{"cmd":"delete","name":"d0"}\n']
    with place.made() as store:
        stopped = raised(LoadStopped, load, store, lines, True)
        assert (stopped.made, stopped.last, list(stopped.refused)) == (300, 301, [301])
        assert isinstance(stopped.first[1], Unsendable) and store.status().seq == 300
    said = place.run("load", "store", "--partial", "--json", given=wrong + b"\n", status=6).stderr
    told = json.loads(said)
    assert (told["error"], told["line"], told["made"]) == ("LoadStopped", 1, 0)
    assert told["message"].startswith("line 1 is refused; 0 changes were made\n")


def test_a_stopped_load_tells_the_refusal_in_its_status_and_its_json(place):
    place.format()
    line = b'{"cmd":"create","doc":1,"name":"d","schema":true}\n'
    told = json.loads(place.run("load", "store", "--partial", "--json", given=line * 2, status=4).stderr)
    assert (told["line"], told["made"], told["number"], told["name"], told["document"]) == (2, 1, 20, "exists", "d")


def test_a_document_that_no_line_can_carry_is_dumped_in_parts(place):
    half = MOST_LINE_BYTES // 2
    with place.made(16384) as store:
        # With its schema, and with its own members, it is longer than a line.
        store.create("long", {"a": "x" * (half - 99), "l": [[1], {"m": 2}]})
        store.patch("long", [{"op": "add", "path": "/l/1/t", "value": "y" * (half - 99)}])
        store.patch("long", [{"op": "add", "path": "/l/-", "value": n} for n in range(20)])
        store.set_schema("long", {"$comment": "z" * 200000})
        store.create("scalar", "s" * (MOST_LINE_BYTES - 99))
        store.set_schema("scalar", {"type": "string", "$comment": "z" * 200000})
        store.create("short", 1)
        documents = [(name, *store.texts(name)) for name in store.list()]
    assert len(documents[0][1]) + len(documents[0][2]) > MOST_LINE_BYTES
    dumped = place.run("dump", "store").stdout
    assert max(map(len, dumped.splitlines())) <= MOST_LINE_BYTES
    place.format(16384, file=place.path("other"))
    place.run("load", "other", given=dumped)
    assert documents_of(place, place.path("other")) == documents


def test_what_can_not_be_dumped_is_told():
    doc = json.dumps({"~" * 600000: 1, "b": "x" * 448550}).encode()
    raised(JpstoreError, list, document_lines("d", doc, b"true"))
    text = json.dumps({"x" * 600000: "y" * 448550}).encode()
    raised(JpstoreError, list, document_lines("d", text, b"true"))


def test_a_store_grows(place):
    documents = filled(place, 64)
    with place.store() as store:
        raised(Full, store.create, "more", "x" * 16000)
        store.patch("n40", [{"op": "add", "path": "/late", "value": 1}])
        documents = [(name, *store.texts(name)) for name in store.names()]
        counts = [store.status().seq, *(store.rev(name) for name in store.names())]
    shown = place.run("grow", "store", "larger", "--sectors", "512").stdout.decode()
    if not shown.startswith("larger has the same documents\ndocuments  22 of 1,024\n"):
        pytest.fail(shown)
    assert (documents_of(place, place.path("larger")), documents_of(place, place.file)) == (documents, documents)
    with Store(place.path("larger"), program=place.program) as store:
        assert [store.status().seq, *(store.rev(name) for name in store.names())] == counts
        store.create("more", "x" * 16000)
    assert sorted(os.listdir(place.folder)) == ["larger", "store"]


def test_what_keeps_a_store_from_growing_is_told(place):
    documents = filled(place)
    assert raised(Ended, grow, place.file, place.path("small"), 3, place.program).number == 74
    assert os.listdir(place.folder) == ["store"]
    other = place.text("other", "")
    raised(JpstoreError, grow, place.file, other, 4096, place.program)
    with place.store():
        place.run("grow", "store", "larger", "--sectors", "9000", status=13)
    assert "other: it exists already" in place.run("grow", "store", "other", status=15).stderr.decode()
    assert (sorted(os.listdir(place.folder)), documents_of(place, place.file)) == (["other", "store"], documents)


def test_a_file_that_gets_the_name_meanwhile_is_left_as_it_is(place):
    filled(place)
    # The program makes the file while the new store is checked.
    script = place.text("program", f"#!/bin/sh\ncase $2 in *.growing) echo mine > {place.path('larger')};; esac\n"
                                   f"exec '{place.program}' \"$@\"\n")
    os.chmod(script, 0o700)
    assert "was made meanwhile" in str(raised(JpstoreError, grow, place.file, place.path("larger"), 8192, script))
    with open(place.path("larger"), encoding="utf-8") as opened:
        assert opened.read() == "mine\n"
    assert sorted(os.listdir(place.folder)) == ["larger", "program", "store"]


def test_a_store_that_is_changed_while_it_grows_is_told(place):
    documents = filled(place)
    # The program changes the old store once it is copied.
    line = '{"cmd":"create","doc":1,"name":"late","schema":true}'
    script = place.text("program", f"#!/bin/sh\n'{place.program}' \"$@\" || exit 1\n"
                                   f"case $1 in copy) echo '{line}' | '{place.program}' serve $2 > /dev/null;; esac\n")
    os.chmod(script, 0o700)
    assert "was changed" in str(raised(JpstoreError, grow, place.file, place.path("larger"), 8192, script))
    assert sorted(os.listdir(place.folder)) == ["program", "store"]
    assert [name for name, _, _ in documents_of(place, place.file)] == [name for name, _, _ in documents] + ["late"]


def test_a_copy_has_all_but_the_history(place):
    documents = filled(place)
    status = copy_file(place.file, place.path("other"), 512, place.program)
    assert (status.documents, status.sectors, status.seq) == (len(documents), 512, 60)
    assert documents_of(place, place.path("other")) == documents
    assert copy_file(place.file, place.path("third"), 512, place.program, version=3).seq == 60
    assert copy_file(place.path("third"), place.path("fourth"), 512, place.program).capacity == 4096 * 23
    assert documents_of(place, place.path("fourth")) == documents
    assert "File exists" in str(raised(Ended, copy_file, place.file, place.path("other"), 512, place.program))
    assert "No such file" in str(raised(Ended, copy_file, place.path("none"), place.path("new"), 512, place.program))


def test_an_upgrade_has_all_and_may_be_taken_back(place):
    documents = filled(place)
    for version, before in ((3, 2), (3, 3), (2, 3), (2, 2)):
        assert upgrade_file(place.file, version, place.program) == before
        with open(place.file, "rb") as opened:
            assert int.from_bytes(opened.read(12)[8:], "big") == version
        assert documents_of(place, place.file) == documents
    assert upgrade_file(place.file, program=place.program) == 2
    assert "No such file" in str(raised(Ended, upgrade_file, place.path("none"), 3, place.program))


def test_what_a_killed_grow_left_is_told_and_left(place):
    filled(place)
    place.text("larger.growing", "left")
    said = place.run("grow", "store", "larger", "--sectors", "8192", status=1).stderr.decode()
    assert "larger.growing exists already" in said and "rm larger.growing" in said
    with open(place.path("larger.growing"), encoding="utf-8") as opened:
        assert opened.read() == "left"


def test_a_hub_exports_all_documents_of_one_moment(place):
    documents = filled(place)
    with place.store() as store:
        seq, revs = store.status().seq, [store.rev(name) for name, _, _ in documents]
    with Hub(place) as hub:
        begin, *lines, end = hub.raw(b'{"cmd":"export"}\n').splitlines()
        assert json.loads(begin) == {"documents": len(documents), "ok": True, "seq": seq}
        assert json.loads(end) == {"end": True, "ok": True, "seq": seq}
        assert lines == [b'{"doc":%b,"name":"%b","rev":%d,"schema":%b}' % (doc, name.encode(), rev, schema)
                         for (name, doc, schema), rev in zip(documents, revs)]
        assert place.run("dump", "socket").stdout == b"".join(
            line for name, doc, schema in documents for line in document_lines(name, doc, schema)) + \
            b'{"end":true,"lines":%d,"seq":%d}\n' % (len(documents), seq)
        # Between other lines it comes in their order.
        change = b'{"cmd":"delete","name":"shelf"}\n'
        replies = hub.raw(change + b'{"cmd":"export"}\n' + change).splitlines()
        assert len(replies) == 1 + len(documents) + 1 + 1
        assert json.loads(replies[1]) == {"documents": len(documents) - 1, "ok": True, "seq": seq + 1}
        assert json.loads(replies[-1])["error"] == "no-document"
        place.shows("dump", "socket", output="".join(
            line.decode() for name, doc, schema in documents[:-1] for line in document_lines(name, doc, schema)) +
            '{"end":true,"lines":%d,"seq":%d}\n' % (len(documents) - 1, seq + 1))


def test_an_export_that_nobody_reads_keeps_nobody_out(place):
    made_large(place)
    with Hub(place) as hub, hub.connected() as client, hub.connect() as store:
        client.sendall(b'{"cmd":"export"}\n')
        client.recv(1)
        assert store.create("d", 1) == 9
        with moment_of_hub(hub.path) as moment:
            store.delete("n0")
            assert [(document.name, document.rev) for document in moment] == \
                [(f"n{number}", number + 1) for number in range(8)] + [("d", 9)]


def test_each_store_exports_itself(place):
    async def exported(store):
        async with store, store.export() as moment:
            return moment.seq, moment.count, [document async for document in moment]

    documents = [Document("a", {"n": [1]}, True, 2), Document("b", 2, {"type": "integer"}, 3)]
    with place.made() as store:
        store.group([create("a", {}), patch("a", [{"op": "add", "path": "/n", "value": [1]}])])
        store.create("b", 2, {"type": "integer"})
        with store.export() as moment:
            assert (moment.seq, moment.count, list(moment)) == (3, 2, documents)
        with pytest.raises(JpstoreError), store.export():
            store.create("c", 1)
        store.delete("c")
    assert asyncio.run(exported(AsyncStore(place.file, program=place.program))) == (5, 2, documents)
    with Hub(place) as hub, hub.connect() as store:
        with store.export() as moment:
            assert (moment.seq, moment.count, list(moment)) == (5, 2, documents)
        assert asyncio.run(exported(AsyncStore.connect(hub.path))) == (5, 2, documents)


def made_large(place):
    """A store that is larger than what a hub exports in memory."""
    with place.made(40000) as store:
        for number in range(8):
            store.create(f"n{number}", "x" * 900000)


def test_an_export_that_has_no_room_is_broken_off(place):
    made_large(place)
    with Hub(place) as hub, hub.connect() as store:
        resource.prlimit(hub.process.pid, resource.RLIMIT_FSIZE, (1 << 20, 1 << 20))
        ended = place.run("dump", "socket", status=10)
        assert (ended.stdout, b"63 memory" in ended.stderr) == (b"", True)
        assert (store.delete("n0"), store.names()[0]) == (9, "n1")
        hub.process.send_signal(signal.SIGTERM)
        assert "an export is broken off" in hub.ends(0)


def test_an_export_of_a_hub_that_ends_is_an_error(place):
    made_large(place)
    with Hub(place) as hub, hub.connect() as store, store.export() as moment:
        hub.kill()
        raised(Ended, list, moment)


def test_dumps_beside_writers_are_of_one_moment(place):
    place.format(2048)
    with Hub(place) as hub, Watch(hub.path, 0) as watch:
        with Writers(hub, 4, 1000) as writers:
            moments = []
            for _ in range(3):
                *lines, end = map(json.loads, place.run("dump", "socket").stdout.splitlines())
                check_moment({line["name"]: line["doc"]["n"] for line in lines}, "dump")
                assert end["lines"] == len(lines)
                with moment_of_hub(hub.path) as moment:
                    moments.append((moment.seq, {each.name: (each.doc["n"], each.rev) for each in moment}))
            assert writers.written > 30
        changes = [next(watch) for _ in range(hub.connect().status().seq)]
        for seq, counts in moments:
            assert counts == counts_at(changes, seq)


def test_an_export_of_a_hub_that_hangs_is_given_up(place):
    async def exported(path):
        with pytest.raises(TimedOut):
            async with AsyncStore.connect(path, timeout=SILENCE) as store:
                os.kill(program, signal.SIGSTOP)
                async with store.export():
                    pytest.fail("it has begun")

    place.format()
    with Hub(place) as hub, hub.connect(timeout=SILENCE) as store:
        store.create("d", 1)
        program = hub.program()
        os.kill(program, signal.SIGSTOP)
        late = raised(TimedOut, store.export().__enter__)
        assert str(late) == f"the hub at {hub.path} did not answer within {SILENCE:g} seconds"
        said = place.run("--timeout", "0.5", "dump", "socket", status=1).stderr.decode()
        assert "did not answer within 0.5 seconds" in said
        os.kill(program, signal.SIGCONT)
        asyncio.run(exported(hub.path))
        os.kill(program, signal.SIGCONT)
        with store.export() as moment:
            assert [document.doc for document in moment] == [1]


def test_a_dump_of_a_program_that_hangs_is_given_up(place):
    with place.made(timeout=SILENCE) as store:
        store.create("d", 1)
        os.kill(store.pid, signal.SIGSTOP)
        raised(TimedOut, dump, store, lambda line: None)
