"""The history of a node, and its answers to `changes` and `status`, beside those of the program."""
import json

import pytest
from jpstore.replica.answers import as_asked, as_told
from jpstore.replica.watching import History
from jpstore.wire.commands import STATUS
from jpstore.wire.program import format_file
from jpstore.wire.values import canonical
from replica_check import Alone

# Transactions of one change and of several, some of which have what the line of a change has in their text.
TRANSACTIONS = [
    [{"cmd": "create", "doc": {"last": 3, "seq": 3}, "name": "x", "schema": True}],
    [{"cmd": "create", "doc": ',"first":2,"last":4,"seq":2}', "name": "y", "schema": True},
     {"cmd": "patch", "name": "x", "ops": [{"op": "add", "path": "/\u00e9", "value": "z" * 300}]},
     {"cmd": "delete", "name": "y"}],
    [{"cmd": "delete", "name": "x"}], [{"cmd": "create", "doc": "z" * 5000, "name": "x", "schema": True}],
    *[[{"cmd": "patch", "name": "x", "ops": [{"op": "replace", "path": "", "value": number}]}] for number in range(20)],
]
LOG = "0123456789abcdef" * 2


@pytest.fixture
def both(program, tmp_path):
    """The history of a node and a program that have the same transactions."""
    file, history = str(tmp_path / "store"), History(0, LOG)
    format_file(file, 4096, program, version=3)
    alone = Alone(program, file=file)
    for changes in TRANSACTIONS:
        assert alone.ask({"changes": changes, "cmd": "transaction"})["ok"]
        history.add([list(map(canonical, changes))])
    yield history, alone
    alone.close()


@pytest.mark.parametrize("most", [1, 12, 200, 1000, 5500, 4_194_304])
def test_a_node_tells_changes_as_the_program_does(both, most):
    history, alone = both
    for since in range(history.last + 2):
        line = canonical({"cmd": "changes", "from": since, "max": most}) + b"\n"
        assert as_asked(line) == STATUS
        mine, its = json.loads(as_told(line, b"", history)), alone.ask(line)
        if "identity" in its:
            its["identity"] = LOG
        assert mine == its, since


def test_all_nodes_have_one_identity(both):
    history, alone = both
    assert as_asked(STATUS) == STATUS
    its = alone.ask(STATUS)
    assert its["id"] != LOG
    assert json.loads(as_told(STATUS, canonical(its) + b"\n", history)) == {**its, "id": LOG}
    refused = b'{"error":"memory","number":63,"ok":false}\n'
    assert as_told(STATUS, refused, history) == refused


def test_what_a_history_has_no_room_for_is_gone():
    history = History(7, LOG)
    for _ in range(40):
        history.add([[b'"%b"' % (b"x" * 1_000_000)]])
    assert history.last == 47 and 30 < history.base < 34
    told = json.loads(history.told(history.base - 1, 1))
    assert told == {"from": history.base, "gone": True, "ok": True, "seq": 47}
    assert json.loads(history.told(history.base, 1))["changes"][0]["first"] == history.base + 1
