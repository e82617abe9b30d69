"""A store in this process through the package, and what it does in threads, in a child and after a fault.

    embedded_session.py FOLDER

The package has its extension. The last line is `N passed, M failed`.
"""
import collections
import contextlib
import enum
import errno
import json
import os
import resource
import signal
import sys
import threading
import time
import traceback

from forking import InProcess, calls_of, close_beside, only_here, try_call
from jpstore import (
    Broken, Changes, Conflict, Ended, Gone, Invalid, JpstoreError, NotFound, Outdated, Overtaken, Refused, Store,
    TooLarge, Transaction, Unsendable, check_file, copy_file, create, delete, format_file, patch, set_schema,
    transaction, upgrade_file,
)
from jpstore.embedded import Embedded, copy_embedded, embedded_version, format_embedded, upgrade_embedded
from jpstore.wire import requests
from jpstore.wire.conversation import Call
from jpstore.wire.store_file import committed_in


def raised(kind, call, *words):
    """What the call raises, which is of this kind."""
    try:
        call(*words)
    except kind as error:
        return error
    raise AssertionError(f"{kind.__name__} is not raised")


def identity_in(path):
    """The identity of the store in a file of format 3, and None in format 2."""
    with open(path, "rb") as file:
        return committed_in(file).identity.hex() or None


def new_file(folder, name, version=2):
    path = os.path.join(folder, name)
    if os.path.exists(path):
        os.remove(path)
    format_embedded(path, 4096, version)
    return path


def test_documents(folder):
    path = new_file(folder, "documents")
    with Store(path, embedded=True) as store:
        doc = {"n": 1, "t": "hä\"llo\n", "l": [1, {"x": None}]}
        assert store.create("d", doc, {"properties": {"n": {"minimum": 0}}}) == 1
        assert store.get("d") == doc
        values = [store.get("d", place) for place in ("/n", "/t", "/l", "/l/1", "/l/1/x")]
        assert values == [1, "hä\"llo\n", [1, {"x": None}], {"x": None}, None]
        assert store.patch("d", [{"op": "replace", "path": "/n", "value": -0}]) == 2
        assert raised(Invalid, store.patch, "d", [{"op": "replace", "path": "/n", "value": -1}]).number == 45
        assert raised(NotFound, store.get, "d", "/none").number == 37
        assert raised(NotFound, store.get, "none").number == 21
        assert raised(Refused, store.get, "d", "n").number == 38
        raised(Unsendable, store.create, "e", 1.5)
        assert [node.value for node in store.query("d", "$.l[0]")] == [1]
        assert store.update("d", lambda value: [{"op": "add", "path": "/m", "value": value["n"] + 5}]) == 3
        assert store.get("d", "/m") == 5
        assert store.list() == ["d"] and store.status().documents == 1
    assert raised(JpstoreError, store.get, "d")
    with Store(path) as store:
        assert store.get("d", "/m") == 5


def test_numbers_and_texts(folder):
    numbers = [0, 7, -7, 123456789012345678, -123456789012345678, 2**63 - 1, -2**63]
    texts = ["", "a", "€", "\\", "\"", "\u0001", "\U0001f600", "true", "12"]
    with Store.in_memory() as store:
        store.create("d", numbers + texts + [True, False, None, [], {}])
        for at, value in enumerate(numbers + texts + [True, False, None, [], {}]):
            found = store.get("d", f"/{at}")
            assert found == value and type(found) is type(value), (found, value)


class Text(str):
    """A text of another type."""


class Number(enum.IntEnum):
    FIVE = 5


def nested(levels):
    value = []
    for _ in range(levels - 1):
        value = [value]
    return value


def replaced(value):
    return [{"op": "replace", "path": "", "value": value}]


def test_changes_with_values_of_each_kind(folder):
    texts = ["\0\x1f\x7f\t\r\n\b\f\"\\/", "\u2028é€\U0001f600", ""]
    values = [0, -1, 2**63 - 1, -2**63, True, False, None, (1, (2,)), {}, [], {"a\"\0": (), "é": {"b": [None]}},
              nested(64), Text("x"), Number.FIVE, collections.OrderedDict(b=1, a=Text("y")), "x" * 100000, *texts,
              dict.fromkeys(texts)]
    with Store.in_memory() as store:
        store.create("d", 0)
        for seq, value in enumerate(values, 2):
            assert store.patch("d", replaced(value)) == seq
            # What Python's own writer of JSON makes of it.
            assert store.get("d") == json.loads(json.dumps(value))
        last = store.get("d")
        for value in (1.5, 2**63, -2**63 - 1, "\ud800", {"\udfff": 1}, {1: 2}, b"x", object(), [1.5], (2**64,)):
            assert raised(Unsendable, store.patch, "d", replaced(value)).args[0].startswith("patch d: /ops/0/value")
        endless = []
        endless.append(endless)
        raised(Unsendable, store.patch, "d", replaced(endless))
        assert raised(Refused, store.patch, "d", replaced(nested(65))).number == 36
        raised(Unsendable, store.patch, "\ud800", [])
        assert raised(Refused, store.patch, "d\"", []).number == 15
        assert (store.get("d"), store.status().seq) == (last, len(values) + 1)


def test_a_change_in_a_session_that_is_over(folder):
    with contextlib.suppress(Ended), Store.in_memory() as store:
        store.create("d", 0)
        store._session.channel._session.finish()
        ended = raised(Ended, store.patch, "d", [{"op": "test", "path": "", "value": 0}])
        assert ended.change == {"cmd": "patch", "name": "d", "ops": [{"op": "test", "path": "", "value": 0}]}
        assert store.closed


def test_names_that_are_not_plain(folder):
    with Store.in_memory() as store:
        store.create("d", {"a\"b": 1, "\\": 2, "é": 3, "x" * 600: 4})
        assert [store.get("d", "/" + name) for name in ("a\"b", "\\", "é", "x" * 600)] == [1, 2, 3, 4]
        raised(Unsendable, store.get, "d", "/\ud800")


def test_groups(folder):
    with Store(new_file(folder, "groups"), embedded=True, batch=8, pump=4) as store:
        made = store.group([requests.create(name, 0) for name in ("a", "b", "a", "c")], check=False)
        assert [made[0], made[1], made[3]] == [1, 2, 3] and made[2].number == 20
        assert store.create("e", 1) == 4


def test_transactions(folder):
    for how in ({}, {"batch": 8}, {"batch": 8, "pump": 4}):
        with Store(new_file(folder, "transactions"), embedded=True, **how) as store:
            assert store.transaction([create("a", {"n": 1}, {"type": "object"}), create("b", 1), delete("b")]) == 3
            refused = raised(Conflict, store.transaction, [create("c", 1), create("d", 1), create("a", 1)])
            assert (refused.number, refused.change, refused.document) == (20, 2, "a")
            refused = raised(Invalid, store.transaction, [create("c", 1), patch("a", [
                {"op": "replace", "path": "", "value": 5}])])
            assert (refused.change, store.list(), store.status().seq) == (1, ["a"], 3)
            assert raised(Outdated, store.delete, "a", 7).rev == 1
            assert (store.put("a", [1], {"type": "array"}), store.get("a", "/0")) == (6, 1)
            outcomes = store.group([transaction([create("b", 1), delete("b")]), delete("b"), create("b", 2),
                                    transaction([delete("b"), delete("b")])], check=False)
            assert (outcomes[0], outcomes[2], outcomes[3].change) == (8, 9, 1)
            assert (store.delete("b", if_rev=9), store.delete("a", if_rev=6), store.list()) == (11, 13, [])


def test_a_transaction_over_its_limit(folder):
    """It is refused alone. The document has 1,000,000 bytes, of which 33 are within 32 MiB."""
    touch = set_schema("d", True)
    for version in (2, 3):
        for how in ({}, {"batch": 8}):
            with Store(new_file(folder, "large", version), embedded=True, **how) as store:
                store.create("d", "x" * 999_998)
                refused = raised(TooLarge, store.transaction, [touch] * 34)
                assert (refused.number, refused.name, refused.change) == (65, "transaction-large", None)
                lines = [touch, transaction([touch] * 34), touch, transaction([touch] * 33), create("e", 1)]
                outcomes = store.group(lines, check=False)
                assert (outcomes[1].number, outcomes[0], *outcomes[2:]) == (65, 2, 3, 36, 37)
                assert (store.rev("d"), store.list()) == (36, ["d", "e"])


def test_exactly_once(folder):
    path, one_more = new_file(folder, "once", 3), [patch("d", [{"op": "add", "path": "/-", "value": "x"}])]
    with Store(path, embedded=True) as store:
        store.create("d", [])
        assert [store.once(key, one_more) for key in ("a", "b", "a", "b")] == [2, 3, 2, 3]
        assert [store.once(key, one_more, by="me") for key in ("a", "a", "b", "b")] == [4, 4, 5, 5]
    with Store(path, embedded=True) as store:
        assert (store.once("b", one_more), store.once("a", one_more), len(store.get("d"))) == (3, 2, 4)
        assert (store.noted("b", by="me"), store.noted("c"), store.mark("me")) == (5, None, ("b", 5))
        assert raised(NotFound, store.once, "c", [delete("d"), delete("d")]).change == 1
        assert store.transaction(one_more, mark=("k", "v")) == 6
        refused = raised(Overtaken, lambda: store.transaction(one_more, mark=("k", "w"), if_mark=None))
        assert (refused.number, refused.mark, refused.seq) == (25, "v", 6)
    with Store.in_memory() as store:
        assert "this store has no marks" in str(raised(JpstoreError, store.once, "a", [create("d", 1)]))


def test_the_changes_after_one(folder):
    path, made = new_file(folder, "changes", 3), [create("d", 1), delete("d")]
    with Store(path, embedded=True, batch=8) as store:
        store.transaction(made, mark=("k", "v"))
        store.create("e", "x" * 100_000)
        identity, told = store.status().id, [Transaction(1, 2, made, ("k", "v")),
                                             Transaction(3, 3, [create("e", "x" * 100_000)])]
        assert store.changes(0) == Changes(3, told, identity)
        assert (list(store.changes(0, 1)), list(store.changes(3))) == (told[:1], [])
        assert raised(Gone, store.changes, 1).since == 0
    with Store(path, embedded=True) as store:
        assert list(store.changes(2)) == told[1:]
        store.snapshot()
    with Store(path, embedded=True) as store:
        assert raised(Gone, store.changes, 2).since == 3
    with Store.in_memory() as store:
        store.group(made)
        assert store.changes(1) == Changes(2, [Transaction(2, 2, made[1:])])


def test_faults(folder):
    path = new_file(folder, "faults")
    with Store(path, embedded=True):
        assert raised(Ended, lambda: Store(path, embedded=True)).name == "in-use"
    assert raised(Ended, lambda: Store(os.path.join(folder, "none"), embedded=True)).name == "file"
    other = os.path.join(folder, "other")
    with open(other, "wb") as file:
        file.write(bytes(4096))
    assert raised(Ended, lambda: Store(other, embedded=True)).number == 72
    assert raised(Ended, lambda: Store(path, embedded=True, batch=5000)).status == 2


def test_reasons(folder):
    path, none = new_file(folder, "reasons"), os.path.join(folder, "none")
    rows = [(lambda: Store(none, embedded=True), errno.ENOENT), (lambda: Store(folder, embedded=True), errno.EISDIR),
            (lambda: format_embedded(path, 64), errno.EEXIST), (lambda: copy_embedded(path, path, 64), errno.EEXIST),
            (lambda: format_embedded(os.path.join(none, "below"), 64), errno.ENOENT),
            (lambda: upgrade_embedded(none), errno.ENOENT)]
    for call, number in rows:
        ended = raised(Ended, call)
        assert (ended.name, ended.system_error) == ("file", number) and os.strerror(number) in str(ended), ended
    before = resource.getrlimit(resource.RLIMIT_FSIZE)
    signal.signal(signal.SIGXFSZ, signal.SIG_IGN)
    resource.setrlimit(resource.RLIMIT_FSIZE, (65536, before[1]))
    try:
        ended = raised(Ended, format_embedded, none, 4096)
    finally:
        resource.setrlimit(resource.RLIMIT_FSIZE, before)
    assert (ended.name, ended.system_error, os.path.exists(none)) == ("no-space", errno.EFBIG, False)


def test_files_as_by_the_program(folder):
    """Each call for files makes the same bytes and answers the same as the program's."""
    files = [os.path.join(folder, f"{name}-by-{by}") for by in ("library", "program") for name in ("first", "copy")]
    for file in files:
        if os.path.exists(file):
            os.remove(file)
    assert format_embedded(files[0], 512) == format_file(files[2], 512)
    for file in (files[0], files[2]):
        with Store(file, embedded=True) as store:
            store.create("d", {"n": 1})
            store.patch("d", [{"op": "replace", "path": "/n", "value": 2}])
    assert copy_embedded(files[0], files[1], 1024) == copy_file(files[2], files[3], 1024)
    for to, before in ((3, 2), (3, 3), (2, 3)):
        assert upgrade_embedded(files[0], to) == before
        assert upgrade_file(files[2], to, identity=identity_in(files[0])) == before
    assert upgrade_embedded(files[1]) == 2
    assert upgrade_file(files[3], identity=identity_in(files[1])) == 2
    for one, other in ((files[0], files[2]), (files[1], files[3])):
        with open(one, "rb") as first, open(other, "rb") as second:
            assert first.read() == second.read()
    assert check_file(files[1]).documents == 1
    os.remove(files[1])
    format_embedded(files[1], 65536, 3, sparse=True)
    assert os.stat(files[1]).st_blocks < 6553 and upgrade_embedded(files[1]) == 3
    os.remove(files[1])
    format_embedded(files[1], 512, 3, identity="00112233445566778899aabbccddeeff")
    assert identity_in(files[1]) == check_file(files[1]).id == "00112233445566778899aabbccddeeff"
    assert raised(Ended, lambda: format_embedded(files[1] + "-2", 512, 3, identity="0")).status == 2
    assert raised(Ended, upgrade_embedded, files[1], 4).status == 2


def test_permission_bits(folder):
    path = os.path.join(folder, "bits")
    before = os.umask(0o22)
    try:
        for mode, wanted in ((0, 0o600), (0o640, 0o640), (0o666, 0o644)):
            format_embedded(path, 64, mode=mode)
            assert os.stat(path).st_mode & 0o7777 == wanted
            os.remove(path)
    finally:
        os.umask(before)
    assert raised(Ended, lambda: format_embedded(path, 64, mode=0o1000)).status == 2 and not os.path.exists(path)


def test_a_disk_that_fails(folder):
    store = Store(new_file(folder, "fails"), embedded=True)
    before = resource.getrlimit(resource.RLIMIT_FSIZE)
    resource.setrlimit(resource.RLIMIT_FSIZE, (0, before[1]))
    try:
        assert raised(Broken, store.create, "d", 1).number == 61
        assert raised(Broken, store.create, "d", 1).number == 62
        assert store.list() == []
    finally:
        resource.setrlimit(resource.RLIMIT_FSIZE, before)
    assert raised(Ended, store.close).number == 61


def test_waits_for_a_file(folder):
    path = new_file(folder, "waits")
    first = Store(path, embedded=True)
    timer = threading.Timer(0.2, first.close)
    timer.start()
    with Store(path, embedded=True, wait=10) as second:
        assert second.list() == []
    timer.join()


def test_threads(folder):
    wrong = []

    def work(name):
        store.create(name, 0)
        for number in range(300):
            store.patch(name, [{"op": "replace", "path": "", "value": number}])
            if store.get(name) != number:
                wrong.append(name)

    with Store.in_memory() as store:
        threads = [threading.Thread(target=work, args=(f"d{number}",)) for number in range(4)]
        for thread in threads:
            thread.start()
        for thread in threads:
            thread.join()
        assert not wrong and len(store.list()) == 4


def test_a_call_at_a_time(folder):
    """Without the lock of `Store` a second call is refused, and never mixed with the first."""
    channel = Embedded(None)
    channel.exchange(Call([b'{"cmd":"list"}\n']))
    session, refused, done = channel._session, [], []

    def work():
        for _ in range(2000):
            try:
                done.append(session.exchange(b'{"cmd":"list"}\n') == [b'{"names":[],"ok":true}'])
            except Exception as error:
                refused.append(error.args[0])

    threads = [threading.Thread(target=work) for _ in range(3)]
    for thread in threads:
        thread.start()
    for thread in threads:
        thread.join()
    assert done and all(done) and set(refused) <= {9} and len(done) + len(refused) == 6000
    channel.close()


def test_a_child(folder):
    with Store(new_file(folder, "child"), embedded=True) as store:
        store.create("d", 1)
        child = os.fork()
        if child == 0:
            with only_here():
                assert all(raised(JpstoreError, call) for call in (lambda: store.get("d"), store.list))
        assert os.waitpid(child, 0)[1] == 0
        assert store.get("d") == 1


def test_a_child_gives_the_file_back(folder):
    """The lock goes with the parent, also if a thread was in the midst of a call as the child was made."""
    path = new_file(folder, "given-back")
    for busy in (False, True):
        store = Store(path, embedded=True)
        stop = threading.Event()

        def work():
            while not stop.is_set():
                store.get("d")
        if not busy:
            store.create("d", "x" * 100000)
        thread = threading.Thread(target=work)
        if busy:
            thread.start()
        child = os.fork()
        if child == 0:
            with only_here():
                time.sleep(30)
        stop.set()
        if busy:
            thread.join()
        store.close()
        Store(path, embedded=True).close()
        os.kill(child, signal.SIGKILL)
        os.waitpid(child, 0)


def test_a_fork_in_the_midst_of_each_call(folder):
    for tried in (InProcess(folder), InProcess(None)):
        with contextlib.ExitStack() as children:
            for call in calls_of(Store):
                try_call(tried, call, children)
            close_beside(tried)


# What an interpreter does with a file of its own.
IN_AN_INTERPRETER = """
from jpstore import Ended, Invalid, Store
from jpstore.embedded import format_embedded
file = {file!r}
format_embedded(file, 64)
with Store(file, embedded=True) as store:
    store.create("d", {{"n": 0}}, {{"properties": {{"n": {{"minimum": 0}}}}}})
    for number in range(1, 101):
        store.patch("d", [{{"op": "replace", "path": "/n", "value": number}}])
        assert store.get("d", "/n") == number and store.get("d") == {{"n": number}}
    for call, words, kind in ((store.patch, ("d", [{{"op": "replace", "path": "/n", "value": -1}}]), Invalid),
                              (format_embedded, (file, 64), Ended)):
        try:
            call(*words)
        except kind:
            continue
        raise AssertionError(kind)
"""


def interpreters():
    """The calls that make an interpreter in this process, have it run a text, and end it."""
    if sys.version_info < (3, 13):
        import _xxsubinterpreters as module
        return module.create, module.run_string, module.destroy
    import _interpreters as module

    def run(interpreter, text):
        failed = module.exec(interpreter, text)
        assert failed is None, failed

    return module.create, run, module.destroy


def test_interpreters(folder):
    """Several in threads, one after another in each, beside this one with a store of its own."""
    make, run, end = interpreters()
    failures = []

    def in_turn(name):
        for turn in range(3):
            interpreter = make()
            try:
                run(interpreter, IN_AN_INTERPRETER.format(file=os.path.join(folder, f"interpreter-{name}-{turn}")))
            except Exception as failure:
                failures.append(failure)
            end(interpreter)

    threads = [threading.Thread(target=in_turn, args=(name,)) for name in range(3)]
    with Store(new_file(folder, "beside"), embedded=True) as store:
        store.create("d", 0)
        for thread in threads:
            thread.start()
        while any(thread.is_alive() for thread in threads):
            store.put("d", store.get("d") + 1)
        assert raised(NotFound, store.get, "none").number == 21
    assert failures == []


def test_version(folder):
    version, digest = embedded_version().split(" program-sha256:")
    assert version.count(".") == 2 and len(digest) == 64


def main():
    passed = failed = 0
    for name, test in list(globals().items()):
        if name.startswith("test_"):
            try:
                test(sys.argv[1])
                passed += 1
            except Exception:
                failed += 1
                print(name)
                traceback.print_exc(file=sys.stdout)
    print(f"{passed} passed, {failed} failed")
    return 1 if failed else 0


if __name__ == "__main__":
    sys.exit(main())
