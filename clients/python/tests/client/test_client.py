"""The client: what each call answers, what is raised, and how the program's end is told."""
import dataclasses
import gc
import math
import os
import pathlib
import pickle
import signal
import threading
import warnings

import pytest
from jpstore import (
    AccessError, Conflict, Ended, Full, Invalid, JpstoreError, Malformed, Node, NotFound, Outdated, Pumped, Refused,
    Status, Store, TimedOut, TooLarge, Unsendable, check_file, copy_file, create, delete, format_file,
    new_file, patch, set_schema,
)
from jpstore.wire.values import WHOLE
from support import GROUPING, SILENCE, Place, raised

SHELF = {"bolts": 40, "nuts": 12}
COUNTS = {"additionalProperties": {"minimum": 0, "type": "integer"}}


def test_each_call_answers(place):
    assert format_file(place.file, 16, place.program) == 3584
    with place.store() as store:
        assert store.create("shelf", SHELF, COUNTS) == 1
        assert store.create("d", [None, True, -(1 << 63), (1 << 63) - 1, "\u00e4\U0001f600\n\x00"]) == 2
        assert store.get("d") == [None, True, -(1 << 63), (1 << 63) - 1, "\u00e4\U0001f600\n\x00"]
        ops = [{"op": "test", "path": "/nuts", "value": 12}, {"op": "replace", "path": "/nuts", "value": 11}]
        assert store.patch("shelf", ops) == 3
        assert (store.get("shelf"), store.get("shelf", "/nuts"), store.schema("shelf")) == \
            ({"bolts": 40, "nuts": 11}, 11, COUNTS)
        assert store.query("shelf", "$[?@ < 20]") == [Node("$['nuts']", 11)]
        assert (store.set_schema("shelf", True), store.schema("shelf")) == (4, True)
        assert (store.list(), store.delete("d"), store.list()) == (["shelf", "d"], 5, ["shelf"])
        used = store.snapshot()
        assert store.status() == Status(False, 3584, 1, 1, 1, 16, 5, used)
        assert store.texts("shelf") == (b'{"bolts":40,"nuts":11}', b"true")
    assert check_file(place.file, place.program).opens == 2


def test_a_new_file_has_a_size_as_people_write_it(place):
    # In format 3 a half has one block of 4,096 bytes less than fits behind the slots.
    for size, capacity in (("80K", 4096), (81920, 4096), ("2M", 1011712)):
        assert new_file(place.file, size, place.program) == capacity
        assert check_file(place.file, place.program).id
        os.unlink(place.file)
    identity = "00112233445566778899aabbccddeeff"
    new_file(place.file, "1M", place.program, identity=identity)
    assert check_file(place.file, place.program).id == identity
    assert copy_file(place.file, place.path("copy"), 2048, place.program).id not in (None, identity)
    assert copy_file(place.file, place.path("older"), 2048, place.program, version=2).id is None
    assert "File exists" in str(raised(Ended, new_file, place.file, "1M", place.program))
    assert raised(Ended, new_file, place.path("other"), "16MB", place.program).status == 2


def operation(op, path, *value):
    return {"op": op, "path": path, **({"value": value[0]} if value else {})}


def test_a_refusal_is_raised_by_its_family(place):
    with place.made(16) as store:
        store.create("shelf", SHELF, COUNTS)
        rows = [
            (Conflict, 20, "exists", None, lambda: store.create("shelf", 1)),
            (NotFound, 21, "no-document", None, lambda: store.get("other")),
            (NotFound, 37, "no-value", None, lambda: store.get("shelf", "/screws")),
            (Malformed, 38, "pointer", None, lambda: store.get("shelf", "screws")),
            (Malformed, 15, "name", None, lambda: store.create("a b", 1)),
            (Malformed, 41, "schema-keyword", None, lambda: store.create("e", 1, {"pattern": "a"})),
            (Malformed, 50, "path", None, lambda: store.query("shelf", "nuts")),
            (TooLarge, 52, "path-long", None, lambda: store.query("shelf", "$" + "[0]" * 342)),
            (TooLarge, 10, "line-too-long", None, lambda: store.create("e", "x" * (1 << 20))),
            (Invalid, 45, "invalid", None, lambda: store.patch("shelf", [operation("add", "/nuts", -1)])),
            (Conflict, 34, "patch-test", 0, lambda: store.patch("shelf", [operation("test", "/nuts", 0)])),
            (NotFound, 32, "patch-missing", 1,
             lambda: store.patch("shelf", [operation("test", "/nuts", 12), operation("remove", "/x")])),
            (Full, 60, "full", None, lambda: store.create("e", "x" * 4000)),
        ]
        for kind, number, name, op, call in rows:
            refused = raised(kind, call)
            assert (refused.number, refused.name, refused.op) == (number, name, op)
            assert refused.meaning and refused.advice and isinstance(refused, Refused)
            assert refused.command["cmd"] in str(refused)
            assert refused.document in str(refused)
        assert (store.status().seq, store.get("shelf")) == (1, SHELF)


def test_a_revision_is_that_of_the_last_change(place):
    with place.made(16) as store:
        assert (store.create("shelf", SHELF), store.rev("shelf"), store.create("d", 1)) == (1, 1, 2)
        ops = [{"op": "replace", "path": "/nuts", "value": 11}]
        assert (store.patch("shelf", ops, if_rev=1), store.rev("shelf"), store.rev("d")) == (3, 3, 2)
        outdated = raised(Outdated, store.patch, "shelf", ops, 1)
        assert (outdated.number, outdated.name, outdated.rev, outdated.op) == (24, "revision", 3, None)
        assert str(outdated).startswith("patch shelf: 24 revision, revision 3: ")
        assert isinstance(outdated, Conflict)
        assert raised(Malformed, store.patch, "shelf", ops, -1).number == 14
        assert (store.set_schema("shelf", COUNTS), store.rev("shelf")) == (4, 4)
        assert raised(NotFound, store.rev, "other").number == 21
        outcomes = store.group([patch("d", [], if_rev=2), patch("d", [], if_rev=2), patch("d", [], if_rev=5)],
                               check=False)
        assert (outcomes[0], outcomes[1].rev, outcomes[2]) == (5, 5, 6)
        assert (raised(Outdated, store.patch, "d", [], (1 << 63) - 1).rev, store.get("shelf", "/nuts")) == (6, 11)


def test_an_update_meets_the_value_that_it_was_made_for(place):
    with place.made() as store:
        store.create("d", {"n": 0, "m": 0})
        seen = []

        def one_more(value):
            seen.append(value["n"])
            if len(seen) < 3:
                # Another change comes between the reading and the patch.
                store.patch("d", [{"op": "replace", "path": "/n", "value": 10 * len(seen)}])
            return [{"op": "replace", "path": "/n", "value": value["n"] + 1}]
        assert (store.update("d", one_more), seen, store.get("d")) == (4, [0, 10, 20], {"m": 0, "n": 21})

        def given_up(value):
            raise KeyError(value["n"])
        assert (raised(KeyError, store.update, "d", given_up).args, store.status().seq) == ((21,), 4)
        raised(NotFound, store.update, "other", one_more)
        refused = raised(Conflict, store.update, "d", lambda value: [{"op": "test", "path": "/n", "value": 0}])
        assert (refused.number, type(refused)) == (34, Conflict)


def test_updates_of_several_threads_lose_none(place):
    with place.made() as store:
        store.create("d", {"n": 0})

        def count():
            for _ in range(25):
                store.update("d", lambda value: [{"op": "replace", "path": "/n", "value": value["n"] + 1}])
        threads = [threading.Thread(target=count, daemon=True) for _ in range(4)]
        for thread in threads:
            thread.start()
        for thread in threads:
            thread.join()
        assert (store.get("d", "/n"), store.status().seq) == (100, 101)


def test_what_no_line_can_carry_is_refused_before_it_is_sent(place):
    itself = []
    itself.append(itself)
    with place.made(16) as store:
        numbers = [1.5, 2.0, math.nan, math.inf, 1 << 63, -(1 << 63) - 1, 10 ** 5000]
        for value in numbers + [{1: 2}, {"a": {2}}, b"x", "\ud800", itself]:
            raised(Unsendable, store.create, "d", value)
        refused = raised(Unsendable, store.create, "d", {"a/b": [0, {"~": 0.5}]})
        assert str(refused) == f"create d: /doc/a~1b/1/~0: 0.5 is not a whole number: {WHOLE}"
        raised(Unsendable, store.group, [create("d", 1), create("e", 1.5)])
        raised(JpstoreError, store.group, [create("d", 1), {"cmd": "list"}])
        assert (store.list(), store.status().seq) == ([], 0)


def test_a_group_answers_for_each_change(place):
    with place.made() as store:
        assert store.group([]) == []
        changes = [create("a", 1), create("a", 2), create("b", {"n": 1}), patch("b", [{"op": "remove", "path": "/m"}]),
                   set_schema("b", {"type": "object"}), delete("a")]
        refused = raised(Conflict, store.group, changes[:2])
        assert (refused.number, refused.document, refused.outcomes) == (20, "a", [1, refused])
        store.delete("a")
        outcomes = store.group(changes, check=False)
        said = [(type(outcome), outcome.number, outcome.op) if isinstance(outcome, Refused) else outcome
                for outcome in outcomes]
        assert said == [3, (Conflict, 20, None), 4, (NotFound, 32, 0), 5, 6]
        assert store.list() == ["b"]


def test_a_group_is_longer_than_all_pipes(place):
    # Both what is sent and what is answered are more than a pipe holds.
    with place.made() as store:
        store.create("d", {"n": 0, "text": "x" * 1000})
        counted = [patch("d", [{"op": "replace", "path": "/n", "value": n, "note": "y" * 200}]) for n in range(600)]
        assert store.group(counted) == list(range(2, 602))
        refusals = store.group([create("d", "x" * 1000) for _ in range(3000)], check=False)
        assert {outcome.number for outcome in refusals} == {20}
        assert store.get("d", "/n") == 599


def test_a_program_that_groups_changes_is_never_waited_for_in_vain(place):
    os.environ["GROUPED"] = place.program
    grouped = Place(GROUPING, place.folder)
    with grouped.made(batch=64) as store:
        assert [store.create("d", 1), store.create("e", 2)] == [1, 2]
        assert store.group([create(f"n{number}", number) for number in range(100)]) == list(range(3, 103))
        raised(Conflict, store.create, "d", 1)
        assert store.delete("d") == 103


def test_what_is_wrong_in_a_line_is_told_with_its_place(place):
    lines = [b'{"cmd":"create","doc":{"a":[0,1.5]},"name":"d","schema":true}\n', b'{"cmd":"create",\xff}\n',
             b'{"cmd":}\n']
    with place.made() as store:
        number, no_text, no_json = store.group_lines(lines)
        assert (number.number, no_text.number, no_json.number) == (12, 11, 11)
        assert str(number).endswith(f"create d: /doc/a/1: 1.5 is not a whole number: {WHOLE}")
        assert str(no_text).endswith("not UTF-8: line 1, column 17: byte 0xff")
        assert str(no_json).endswith("not JSON: line 1, column 8: Expecting value")


def test_options_are_handed_to_the_program(place):
    noting = place.script("noting", f"echo \"$@\" >> '{place.path('words')}'; exec '{place.program}' \"$@\"")
    place.format()
    with Store(place.file, program=noting, batch=7, pump=8) as store:
        assert store.create("d", 1) == 1
    with Store(place.file, program=noting, batch=1):
        pass
    with Store(place.file, program=noting):
        # Else a group would cost a sync of the disk for each of its changes.
        pass
    with open(place.path("words"), encoding="utf-8") as words:
        assert words.read().splitlines() == [
            f"serve {place.file} --batch 7 --pump 8 --why", f"serve {place.file} --why",
            f"serve {place.file} --batch 64 --why"]


def test_an_option_that_the_program_refuses_is_told(place):
    place.format()
    ended = raised(Ended, place.store, batch=100000)
    assert ended.status == 2
    assert "100000" in str(ended)


def test_pump_sends_its_line(place):
    with place.made(16) as store:
        store.create("d", 1)
        assert store.pump(5) == Pumped("switched", 1)
        assert raised(Malformed, store.pump, 0).number == 14


def test_how_a_file_is_not_opened_is_told(place):
    ended = raised(Ended, place.store)
    assert (ended.status, ended.name, ended.number) == (1, "file", None)
    assert f"{place.file}: No such file or directory" in str(ended)
    assert f"{place.folder}: Is a directory" in str(raised(Ended, Store, place.folder, program=place.program))
    assert "No such file or directory" in str(raised(Ended, format_file, place.path("a/b"), 16, place.program))
    place.text("store", "x" * 4096)
    ended = raised(Ended, place.store)
    assert (ended.status, ended.name, ended.number) == (1, "not-a-store", 72)
    if ended.meaning not in str(ended) or not ended.advice:
        pytest.fail(str(ended))
    place.without_room()
    ended = raised(Ended, place.store)
    assert (ended.status, ended.name, ended.number) == (1, "no-room", 74)
    if ended.meaning not in str(ended) or not ended.advice:
        pytest.fail(str(ended))
    os.unlink(place.file)
    with place.made(16):
        assert raised(Ended, place.store).name == "in-use"
        ended = raised(Ended, format_file, place.file, 16, place.program)
        assert (ended.name, ended.cause) == ("file", f"{place.file}: File exists")
    assert raised(Ended, format_file, place.path("other"), 2, place.program).status == 2
    raised(JpstoreError, lambda: Store(place.file, program=place.path("no-program")))


def test_a_file_that_another_process_has_may_be_waited_for(place):
    first = place.made(16)
    threading.Timer(0.3, first.close).start()
    with place.store(wait=30) as store:
        assert store.status().opens == 2


def test_the_end_of_the_program_is_told(place):
    store = place.made(16)
    store.create("d", 1)
    os.kill(store.pid, signal.SIGKILL)
    ended = raised(Ended, store.list)
    assert (ended.status, ended.errors, ended.replies) == (-signal.SIGKILL, "", [])
    assert str(raised(JpstoreError, store.list)) == "the store is closed"
    store.close()
    with place.store() as again:
        assert again.list() == ["d"]
    assert str(raised(JpstoreError, again.list)) == "the store is closed"


def test_what_breaks_a_block_off_is_raised(place):
    def broken_off():
        with place.made(16) as store:
            os.kill(store.pid, signal.SIGKILL)
            raise KeyError("mine")
    raised(KeyError, broken_off)


def test_several_threads_use_one_store(place):
    with place.made() as store:
        store.create("d", {str(number): 0 for number in range(4)})

        def count(number):
            for value in range(1, 26):
                store.patch("d", [{"op": "replace", "path": f"/{number}", "value": value}])
        threads = [threading.Thread(target=count, args=(number,), daemon=True) for number in range(4)]
        for thread in threads:
            thread.start()
        for thread in threads:
            thread.join()
        assert (store.get("d"), store.status().seq) == ({str(number): 25 for number in range(4)}, 101)


def test_paths_may_be_path_objects(place):
    file = pathlib.Path(place.file)
    assert format_file(file, 16, pathlib.Path(place.program)) == 3584
    with Store(file, program=pathlib.Path(place.program)) as store:
        assert store.status() == check_status(opens=1)
    assert check_file(file, pathlib.Path(place.program)) == check_status(opens=2)


def check_status(opens):
    """The status of an empty store of 16 sectors: a half has 7 sectors of 512 bytes."""
    return Status(False, 7 * 512, 0, 0, opens, 16, 0, 0)


def test_results_are_values_that_cannot_be_changed():
    for value in (Node("$", 1), Pumped("running", 1), check_status(1)):
        with pytest.raises(dataclasses.FrozenInstanceError):
            value.path = "$"


def test_list_is_another_name_of_names(place):
    with place.made() as store:
        store.create("d", 1)
        assert store.list() == store.names() == ["d"]


def test_updates_end_after_their_attempts(place):
    with place.made() as store:
        store.create("d", 0)
        tries = []

        def beaten(value):
            tries.append(value)
            store.patch("d", [{"op": "replace", "path": "", "value": value + 1}])
            return []
        assert raised(Outdated, lambda: store.update("d", beaten, attempts=3, pause=0.01)).rev == 4
        assert tries == [0, 1, 2]
        raised(JpstoreError, store.update, "d", beaten, attempts=0)


def test_a_program_that_hangs_is_given_up(place):
    store = place.made(timeout=SILENCE)
    os.kill(store.pid, signal.SIGSTOP)
    late = raised(TimedOut, store.create, "d", 1)
    assert isinstance(late, (Ended, TimeoutError))
    assert (late.change["name"], store.closed) == ("d", True)
    assert "`create d` may or may not be stored" in str(late)
    store.close()


def test_a_subclass_has_its_own_beginning(place):
    class Named(Store):
        def __init__(self, file, *, title="none", **options):
            super().__init__(file, **options)
            self.title = title
    place.format()
    with Named(place.file, title="mine", program=place.program) as store:
        assert (store.title, store.names()) == ("mine", [])


def test_a_program_that_cannot_be_started_is_named(place):
    broken = place.text("broken", "no program")
    os.chmod(broken, 0o700)
    assert raised(AccessError, Store, place.file, program=broken).filename == broken
    assert place.path("nowhere") in str(raised(JpstoreError, Store, place.file, program=place.path("nowhere")))


def test_errors_can_be_sent_to_another_process(place):
    for error in (Ended("it", 1, "jpstore: in-use\n", [1]), TimedOut("it", replies=[1, 2]), Unsendable("a"),
                  AccessError(2, "No such file", "x")):
        again = pickle.loads(pickle.dumps(error))
        assert (type(again), str(again), vars(again)) == (type(error), str(error), vars(error))
    assert TimedOut("it").errno is None
    with place.made(16) as store:
        store.create("d", 1, {"type": "integer"})
        refused = raised(Invalid, store.patch, "d", [{"op": "replace", "path": "", "value": "x"}])
        again = pickle.loads(pickle.dumps(refused))
        assert (type(again), str(again)) == (Invalid, str(refused))


def test_a_store_that_is_dropped_gives_its_file_back(place):
    store = place.made()
    store.create("d", 1)
    with pytest.warns(ResourceWarning, match="dropped without `close`"):
        del store
        gc.collect()
    with place.store() as store:
        assert store.names() == ["d"]
    with warnings.catch_warnings():
        warnings.simplefilter("error")
        del store
        gc.collect()
