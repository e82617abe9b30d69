"""The gateway over HTTP, by what the standards say: RFC 9110, 5789, 6902, 7396, 6901, 9535, 9457 and HTML."""
import json
import re
import threading
from urllib.parse import quote

import pytest
from gateways import Events, Gateway, without_history
from jpstore import create, delete, patch as patched, set_schema

COUNTS = {"type": "object", "additionalProperties": {"type": "integer", "minimum": 0}}


@pytest.fixture(scope="module")
def gateway(program):
    """One gateway for the tests of this file, each of which has documents of its own."""
    import tempfile

    from support import Place
    with tempfile.TemporaryDirectory(prefix="jpstore-") as folder:
        place = Place(program, folder)
        place.format()
        with Gateway(place, "--socket", place.path("socket")) as running:
            yield running


def is_problem(answer, status, number=None, **members):
    """The answer is Problem Details (RFC 9457, section 3) with these members."""
    assert (answer.status, answer.headers["Content-Type"]) == (status, "application/problem+json")
    told = answer.json()
    assert told["status"] == status
    assert all(isinstance(told[name], str) for name in ("type", "title", "detail", "name"))
    assert told.get("number") == number
    for name, value in members.items():
        assert told[name] == value, told
    return told


def fault(place, keyword, detail):
    """What is told of a fault of a document; the pointer is that of the example of RFC 9457, section 3."""
    return {"place": place, "pointer": f"#{quote(place)}", "keyword": keyword, "detail": detail}


# PUT and GET: RFC 9110, sections 9.3.1, 9.3.2 and 9.3.4.

def test_put_makes_and_then_replaces(gateway):
    made = gateway.put("/documents/put", {"a": 1})
    assert (made.status, made.headers["Location"]) == (201, "/documents/put")
    assert made.tag() == f'"{made.json()["seq"]}"'
    again = gateway.put("/documents/put", [2])
    assert (again.status, again.headers["Location"]) == (200, None)
    assert again.json()["seq"] == made.json()["seq"] + 1
    got = gateway.get("/documents/put")
    assert (got.status, got.json(), got.tag()) == (200, [2], again.tag())
    assert got.headers["Content-Type"] == "application/json"
    assert got.headers["Link"] == '</schemas/put>; rel="describedby"'


def test_head_is_get_without_the_content(gateway):
    gateway.put("/documents/head", {"text": "x" * 100000})
    for path in ("/documents/head", "/documents/head?pointer=/text", "/schemas/head", "/documents", "/status"):
        get, head = gateway.get(path), gateway.ask("HEAD", path)
        assert (head.status, head.body) == (get.status, b"")
        for field in ("ETag", "Content-Length", "Content-Type", "Link"):
            assert head.headers[field] == get.headers[field], path


def test_head_of_the_lines_has_no_content(gateway):
    with gateway.raw() as client:
        client.sendall(b"HEAD /documents HTTP/1.1\r\nHost: 127.0.0.1\r\nAccept: application/x-ndjson\r\n"
                       b"Connection: close\r\n\r\n")
        answer = b"".join(iter(lambda: client.recv(1 << 16), b""))
    assert answer.startswith(b"HTTP/1.1 200 ") and answer.endswith(b"\r\n\r\n")
    assert b"application/x-ndjson" in answer


def test_what_is_not_there_is_not_found(gateway):
    is_problem(gateway.get("/documents/none"), 404, 21, name="no-document", type="/problems/no-document")
    is_problem(gateway.ask("DELETE", "/documents/none"), 404, 21)
    is_problem(gateway.patch("none", []), 404, 21)
    is_problem(gateway.merge("none", {}), 404, 21)
    is_problem(gateway.put("/schemas/none", True), 404, 21)
    is_problem(gateway.get("/nothing"), 404, type="about:blank")
    is_problem(gateway.get("/documents/a/b"), 404)


def test_what_is_asked_at_a_wrong_path_is_told_the_right_one(gateway):
    for answer, status in ((gateway.ask("POST", "/documents", {}), 405), (gateway.get("/document/a"), 404)):
        is_problem(answer, status)
        assert answer.json()["advice"].startswith("`PUT /documents/NAME` makes a document; `GET /openapi.json` ")


def test_an_unknown_method_is_told_the_known_ones(gateway):
    answer = gateway.ask("POST", "/documents/m", {})
    is_problem(answer, 405, detail="POST is not for this path, which takes GET, HEAD, PUT, PATCH, DELETE, OPTIONS")
    assert {"GET", "HEAD", "PUT", "PATCH", "DELETE"} <= set(answer.headers["Allow"].split(","))
    asked = gateway.ask("OPTIONS", "/documents/m")
    assert (asked.status, asked.body) == (204, b"")
    assert "application/json-patch+json" in asked.headers["Accept-Patch"]


def test_delete(gateway):
    gateway.put("/documents/gone", 1)
    assert gateway.ask("DELETE", "/documents/gone").status == 200
    is_problem(gateway.get("/documents/gone"), 404, 21)


# Conditional requests: RFC 9110, section 13.

def test_if_none_match_of_a_reader(gateway):
    tag = gateway.put("/documents/read", {"a": 1}).tag()
    for field in (tag, f"W/{tag}", f'"x", {tag}', f'"x" , , W/{tag} ,', "*"):
        for method in ("GET", "HEAD"):
            answer = gateway.ask(method, "/documents/read", If_None_Match=field)
            assert (answer.status, answer.body, answer.tag()) == (304, b"", tag), field
    for field in ('"x"', '"0"', 'W/"x"', '""'):
        assert gateway.get("/documents/read", If_None_Match=field).status == 200, field
    new = gateway.put("/documents/read", {"a": 2}).tag()
    answer = gateway.get("/documents/read", If_None_Match=tag)
    assert (answer.status, answer.tag(), answer.json()) == (200, new, {"a": 2})


def test_if_match_of_a_reader(gateway):
    tag = gateway.put("/documents/match", 1).tag()
    for field in (tag, "*", f'"x", {tag}'):
        assert gateway.get("/documents/match", If_Match=field).status == 200
    # The comparison is strong (section 13.1.1).
    for field in ('"x"', f"W/{tag}"):
        is_problem(gateway.get("/documents/match", If_Match=field), 412, 24)
    # A condition is not looked at if the answer is another one without it (section 13.2.1).
    is_problem(gateway.get("/documents/none", If_Match="*"), 404, 21)
    is_problem(gateway.get("/documents/match?pointer=/a", If_Match='"x"'), 404, 37)


def test_if_none_match_star_makes_only(gateway):
    assert gateway.put("/documents/only", 1, If_None_Match="*").status == 201
    is_problem(gateway.put("/documents/only", 2, If_None_Match="*"), 412, 20)
    assert gateway.get("/documents/only").json() == 1


def test_if_match_of_put(gateway):
    is_problem(gateway.put("/documents/if", 1, If_Match="*"), 412, 21)
    is_problem(gateway.put("/documents/if", 1, If_Match='"1"'), 412, 21)
    assert gateway.put("/documents/if", 1, If_None_Match='"1"').status == 201
    tag = gateway.get("/documents/if").tag()
    is_problem(gateway.put("/documents/if", 2, If_None_Match=f'"x", {tag}'), 412, 24)
    second = gateway.put("/documents/if", 2, If_Match=tag)
    assert second.status == 200
    lost = gateway.put("/documents/if", 3, If_Match=tag)
    is_problem(lost, 412, 24, rev=int(second.tag().strip('"')))
    assert lost.tag() == second.tag()
    assert gateway.put("/documents/if", 4, If_Match="*").status == 200
    assert gateway.put("/documents/if", 5, If_None_Match='"x"').status == 200
    assert gateway.get("/documents/if").json() == 5


def test_if_match_of_patch(gateway):
    tag = gateway.put("/documents/of-patch", {"n": 1}).tag()
    two = [{"op": "replace", "path": "/n", "value": 2}]
    new = gateway.patch("of-patch", two, If_Match=tag)
    assert (new.status, new.tag()) == (200, f'"{new.json()["seq"]}"')
    is_problem(gateway.patch("of-patch", two, If_Match=tag), 412, 24)
    is_problem(gateway.merge("of-patch", {"n": 3}, If_Match=tag), 412, 24)
    is_problem(gateway.merge("of-patch", {"n": 3}, If_None_Match=new.tag()), 412, 24)
    assert gateway.merge("of-patch", {"n": 3}, If_Match=f'"0", {new.tag()}').status == 200
    assert gateway.get("/documents/of-patch").json() == {"n": 3}


def test_if_match_of_delete(gateway):
    old = gateway.put("/documents/of-delete", 1).tag()
    tag = gateway.put("/documents/of-delete", 2).tag()
    # The comparison is strong (section 13.1.1), and that of If-None-Match is weak (section 13.1.2).
    for fields in ({"If_Match": old}, {"If_Match": f"W/{tag}"}, {"If_None_Match": tag}, {"If_None_Match": f"W/{tag}"}):
        refused = gateway.ask("DELETE", "/documents/of-delete", **fields)
        is_problem(refused, 412, 24, rev=int(tag.strip('"')))
        assert refused.tag() == tag
    is_problem(gateway.ask("DELETE", "/documents/of-delete", If_None_Match="*"), 412, 20)
    is_problem(gateway.ask("DELETE", "/documents/of-delete", If_Match="17"), 400, name="condition")
    assert gateway.get("/documents/of-delete").tag() == tag
    seq = gateway.get("/status").json()["seq"]
    answer = gateway.ask("DELETE", "/documents/of-delete", If_Match=f'"x", {tag}')
    # The condition is a change too.
    assert (answer.status, answer.json()) == (200, {"seq": seq + 2})
    # Without a document the answer is that without a condition (section 13.2.1).
    for fields in ({"If_Match": tag}, {"If_Match": "*"}, {"If_None_Match": "*"}):
        is_problem(gateway.ask("DELETE", "/documents/of-delete", **fields), 404, 21)
    for field in ("*", '"x"'):
        gateway.put("/documents/of-delete", 3)
        how = {"If_Match": "*"} if field == "*" else {"If_None_Match": field}
        assert gateway.ask("DELETE", "/documents/of-delete", **how).status == 200


def test_if_match_of_a_schema(gateway):
    old = gateway.put("/documents/of-schema", {"n": 1}).tag()
    tag = gateway.put("/schemas/of-schema", COUNTS, If_Match="*").tag()
    assert tag == gateway.get("/schemas/of-schema").tag()
    is_problem(gateway.put("/schemas/of-schema", True, If_Match=old), 412, 24)
    is_problem(gateway.put("/schemas/of-schema", True, If_None_Match=f'"x", {tag}'), 412, 24)
    is_problem(gateway.put("/schemas/of-schema", True, If_None_Match="*"), 412, 20)
    # What the store refuses is told as without a condition, and not as a change of a transaction.
    needs = "at `/pattern`: `pattern` needs a store of format 3; "
    for schema, number, detail in (({"type": "array"}, 45, ""), ({"pattern": "x"}, 41, needs)):
        answer = gateway.told(lambda told, detail=detail: told["detail"].startswith(detail), "PUT",
                              "/schemas/of-schema", schema, If_Match=tag)
        assert "change" not in is_problem(answer, 422, number)
    assert gateway.get("/schemas/of-schema").json() == COUNTS
    new = gateway.put("/schemas/of-schema", {"type": "object"}, If_Match=tag)
    assert (new.status, new.tag(), gateway.get("/schemas/of-schema").json()) == \
        (200, f'"{new.json()["seq"]}"', {"type": "object"})
    assert gateway.get("/documents/of-schema").tag() == new.tag()
    is_problem(gateway.put("/schemas/none", True, If_Match=tag), 404, 21)


@pytest.mark.parametrize("field", ["1", "W/1", '"1" "2"', "", "*, *", '"1'])
def test_a_malformed_condition_is_refused(gateway, field):
    is_problem(gateway.put("/documents/malformed", 1, If_Match=field), 400, name="condition")


# Transactions: POST is RFC 9110, section 9.3.3.

def changes_of(*changes):
    return {"changes": list(changes)}


def test_a_transaction_makes_all_changes(gateway):
    seq = gateway.get("/status").json()["seq"]
    with Events(gateway, f"/changes?from={seq}") as events:
        changes = [create("t-a", {"n": 1}), patched("t-a", [{"op": "replace", "path": "/n", "value": 2}]),
                   create("t-b", 1, {"type": "integer"}), set_schema("t-a", COUNTS), delete("t-b")]
        answer = gateway.ask("POST", "/transactions", changes_of(*changes))
        assert (answer.status, answer.json(), answer.tag()) == (200, {"seq": seq + 5}, None)
        # What is not safe to be kept (section 9.3.3) is never answered from a cache.
        assert answer.headers["Cache-Control"] == "no-cache"
        for number, change in enumerate(changes, seq + 1):
            _, data, event = events.next()
            told = {"change": change, "first": seq + 1, "last": seq + 5, "seq": number}
            assert (without_history(data), event) == (told, str(number))
    assert (gateway.get("/documents/t-a").json(), gateway.get("/documents/t-a").tag()) == ({"n": 2}, f'"{seq + 4}"')
    assert gateway.get("/schemas/t-a").json() == COUNTS
    is_problem(gateway.get("/documents/t-b"), 404, 21)


def test_a_transaction_that_is_refused_makes_none(gateway):
    pytest.importorskip("jsonschema")
    pytest.importorskip("jsonpatch")
    gateway.put("/documents/u-a", {"n": 1})
    tag = gateway.put("/schemas/u-a", COUNTS).tag()
    rev, seq = int(tag.strip('"')), gateway.get("/status").json()["seq"]
    first = patched("u-a", [{"op": "add", "path": "/m", "value": 5}])
    rows = [
        # Neither is `/transactions` not there (404), nor was a field of the request a condition (412).
        (409, 21, {"change": 1}, [first, delete("u-none")]),
        # The revision is the one that the changes before it would have made.
        (409, 24, {"change": 2, "rev": rev + 2}, [first, patched("u-a", [], rev + 1), patched("u-a", [], rev)]),
        (409, 20, {"change": 1}, [first, create("u-a", 1)]),
        (409, 34, {"change": 1, "op": 1}, [first, patched("u-a", [
            {"op": "test", "path": "/m", "value": 5}, {"op": "test", "path": "/m", "value": 6}])]),
        (409, 32, {"change": 0, "op": 0}, [patched("u-a", [{"op": "remove", "path": "/x"}])]),
        (422, 35, {"change": 0, "op": 0}, [patched("u-a", [{"op": "remove", "path": ""}])]),
        (400, 15, {"change": 1}, [first, create("a b", 1)]),
        (422, 41, {"change": 0}, [set_schema("u-a", {"pattern": "x"})]),
        (422, 45, {"change": 1, "errors": [
            fault("/m", "/additionalProperties/minimum", "-1 is less than the minimum of 0")]},
         [first, patched("u-a", [{"op": "replace", "path": "/m", "value": -1}])]),
        (422, 45, {"change": 1, "errors": [fault("", "/type", "1 is not of type 'array'")]},
         [create("u-b", 1), set_schema("u-b", {"type": "array"})]),
        (422, 45, {"change": 3, "errors": [fault("", "/type", "1 is not of type 'array'")]},
         [first, delete("u-a"), create("u-a", 1), set_schema("u-a", {"type": "array"})]),
    ]
    for status, number, members, changes in rows:
        answer = gateway.told(lambda told: "errors" in told or "errors" not in members, "POST", "/transactions",
                              changes_of(*changes))
        told = is_problem(answer, status, number, **members)
        assert gateway.get(told["type"]).json()["number"] == number
    whole = is_problem(gateway.ask("POST", "/transactions", changes_of(*[first] * 1025)), 400, 14)
    assert "change" not in whole
    long = changes_of(create("u-c", "x" * 600000), create("u-d", "x" * 600000))
    assert "change" not in is_problem(gateway.ask("POST", "/transactions", long), 413, 10)
    full = changes_of(create("u-c", "x" * 500000), create("u-d", "x" * 400000), delete("u-d"))
    assert gateway.ask("POST", "/transactions", full).status == 200
    # 68 times the 500,002 bytes of the document are over 32 MiB.
    large = changes_of(*[set_schema("u-c", True)] * 68)
    assert "change" not in is_problem(gateway.ask("POST", "/transactions", large), 413, 65)
    full = changes_of(*[patched("u-c", [{"op": "replace", "path": "", "value": "y" * 500000}])] * 2)
    assert "change" not in is_problem(gateway.ask("POST", "/transactions", full), 507, 60)
    assert gateway.get("/status").json()["seq"] == seq + 3
    gateway.ask("DELETE", "/documents/u-c")
    assert gateway.get("/documents/u-a").tag() == tag


@pytest.mark.parametrize("version", [2, 3])
def test_a_transaction_over_its_limit_is_too_large(place, version):
    # Content Too Large: RFC 9110, section 15.5.14. The document has 1,000,000 bytes, of which 33 are within 32 MiB.
    place.format(5000, version=version)
    with Gateway(place) as running:
        assert running.put("/documents/d", "x" * 999_998).json() == {"seq": 1}
        touch = set_schema("d", True)
        told = is_problem(running.ask("POST", "/transactions", changes_of(*[touch] * 34)), 413, 65)
        assert (told["name"], "change" in told) == ("transaction-large", False)
        assert running.get(told["type"]).json()["name"] == "transaction-large"
        within = running.ask("POST", "/transactions", changes_of(*[touch] * 33))
        assert (within.status, within.json()) == (200, {"seq": 34})
        assert running.get("/status").json()["seq"] == 34


@pytest.mark.parametrize("body, status, number", [
    (b"", 400, 11), (b"[]", 400, 14), (b"{}", 400, 14), (b'{"changes":{}}', 400, 14), (b'{"changes":[]}', 400, 14),
    (b'{"changes":[1]}', 400, 14), (b'{"changes":[{"cmd":"get","name":"d","path":""}]}', 400, 14),
    (b'{"changes":[{"cmd":"delete","name":"d","x":1}]}', 400, 14), (b'{"changes":[{"cmd":"delete"}]}', 400, 14),
    (b'{"changes":[{"cmd":"delete","name":"d"}],"cmd":"transaction"}', 400, 14),
    (b'{"changes":[{"changes":[{"cmd":"delete","name":"d"}],"cmd":"transaction"}]}', 400, 14),
    (b'{"changes":[{"cmd":"create","doc":1.5,"name":"d","schema":true}]}', 422, 12),
])
def test_bodies_that_no_transaction_is(gateway, body, status, number):
    assert "change" not in is_problem(gateway.ask("POST", "/transactions", body), status, number)


def test_what_else_a_transaction_is_refused_for(gateway):
    body = json.dumps(changes_of(create("v-a", 1))).encode()
    for kind in ("text/plain", "application/x-www-form-urlencoded", "application/json-patch+json"):
        answer = gateway.ask("POST", "/transactions", body, Content_Type=kind)
        is_problem(answer, 415, name="media-type")
    for method in ("GET", "PUT", "PATCH", "DELETE"):
        answer = gateway.ask(method, "/transactions", body if method[0] == "P" else None)
        is_problem(answer, 405)
        assert answer.headers["Allow"] == "POST,OPTIONS"
    is_problem(gateway.ask("POST", "/transactions?x=1", body), 400, name="parameter")
    # There is no representation that could match, and none that could not (sections 13.1.1 and 13.1.2).
    for field in ("*", '"1"'):
        is_problem(gateway.ask("POST", "/transactions", body, If_Match=field), 412, name="condition")
    is_problem(gateway.ask("POST", "/transactions", body, If_Match="1"), 400, name="condition")
    is_problem(gateway.get("/documents/v-a"), 404, 21)
    assert gateway.ask("POST", "/transactions", body, If_None_Match="*").status == 200
    assert gateway.get("/documents/v-a").json() == 1


def test_two_clients_move_things_and_lose_none(gateway):
    """The shelves have as many bolts together at each moment, and each move is made once or refused."""
    gateway.put("/documents/w-a", 60)
    gateway.put("/documents/w-b", 40)
    made, wrong = [], []

    def move(step):
        for _ in range(20):
            read = {name: gateway.get(f"/documents/{name}") for name in ("w-a", "w-b")}
            steps = {"w-a": -step, "w-b": step}
            changes = [patched(name, [{"op": "replace", "path": "", "value": answer.json() + steps[name]}],
                               int(answer.tag().strip('"'))) for name, answer in read.items()]
            answer = gateway.ask("POST", "/transactions", changes_of(*changes))
            if answer.status == 200:
                made.append(step)
            elif (answer.status, answer.json()["number"]) != (409, 24):
                wrong.append(answer.json())

    def look():
        for _ in range(20):
            lines = gateway.get("/documents?prefix=w-", Accept="application/x-ndjson").body.splitlines()
            if sum(json.loads(line)["doc"] for line in lines) != 100:
                wrong.append(lines)
    threads = [threading.Thread(target=target, args=args) for target, args in ((move, (1,)), (move, (3,)), (look, ()))]
    for thread in threads:
        thread.start()
    for thread in threads:
        thread.join()
    assert (wrong, gateway.get("/documents/w-a").json(), len(made) >= 20) == ([], 60 - sum(made), True)
    assert gateway.get("/documents/w-b").json() == 40 + sum(made)


# PATCH: RFC 5789; JSON Patch: RFC 6902; JSON Merge Patch: RFC 7396.

def test_an_unknown_patch_is_told_the_known_ones(gateway):
    gateway.put("/documents/kinds", {})
    for kind in ("application/json", "text/plain", "application/xml"):
        answer = gateway.ask("PATCH", "/documents/kinds", b"{}", Content_Type=kind)
        is_problem(answer, 415)
        assert answer.headers["Accept-Patch"] == "application/json-patch+json, application/merge-patch+json"


# RFC 6902, appendix A: a document, a patch, and the result.
_PATCHES = [
    ({"foo": "bar"}, [{"op": "add", "path": "/baz", "value": "qux"}], {"baz": "qux", "foo": "bar"}),
    ({"foo": ["bar", "baz"]}, [{"op": "add", "path": "/foo/1", "value": "qux"}], {"foo": ["bar", "qux", "baz"]}),
    ({"baz": "qux", "foo": "bar"}, [{"op": "remove", "path": "/baz"}], {"foo": "bar"}),
    ({"foo": ["bar", "qux", "baz"]}, [{"op": "remove", "path": "/foo/1"}], {"foo": ["bar", "baz"]}),
    ({"foo": ["all", "grass", "cows", "eat"]}, [{"op": "move", "from": "/foo/1", "path": "/foo/3"}],
     {"foo": ["all", "cows", "eat", "grass"]}),
    ({"/": 9, "~1": 10}, [{"op": "test", "path": "/~01", "value": 10}], {"/": 9, "~1": 10}),
    ({"foo": ["bar"]}, [{"op": "add", "path": "/foo/-", "value": ["abc", "def"]}], {"foo": ["bar", ["abc", "def"]]}),
]


def test_json_patches_of_the_standard(gateway):
    for doc, patch, result in _PATCHES:
        gateway.put("/documents/json-patch", doc)
        assert gateway.patch("json-patch", patch).status == 200
        assert gateway.get("/documents/json-patch").json() == result


def test_what_a_json_patch_is_refused_with(gateway):
    tag = gateway.put("/documents/refused", {"foo": "bar"}).tag()
    # RFC 6902, appendices A.9 and A.12, and RFC 5789, section 2.2.
    is_problem(gateway.patch("refused", [{"op": "add", "path": "/x", "value": 1},
                                         {"op": "test", "path": "/foo", "value": "no"}]), 409, 34, op=1)
    is_problem(gateway.patch("refused", [{"op": "add", "path": "/baz/bat", "value": "qux"}]), 409, 32, op=0)
    is_problem(gateway.patch("refused", {"op": "add"}), 400, 30)
    is_problem(gateway.patch("refused", [{"op": "remove", "path": "foo"}]), 400, 31, op=0)
    is_problem(gateway.patch("refused", [{"op": "remove", "path": ""}]), 422, 35, op=0)
    is_problem(gateway.patch("refused", b"[{"), 400, 11)
    assert gateway.get("/documents/refused").tag() == tag


# RFC 7396, appendix A: a document, a merge patch, and the result.
_MERGES = [
    ({"a": "b"}, {"a": "c"}, {"a": "c"}), ({"a": "b"}, {"b": "c"}, {"a": "b", "b": "c"}),
    ({"a": "b"}, {"a": None}, {}), ({"a": "b", "b": "c"}, {"a": None}, {"b": "c"}),
    ({"a": ["b"]}, {"a": "c"}, {"a": "c"}), ({"a": "c"}, {"a": ["b"]}, {"a": ["b"]}),
    ({"a": {"b": "c"}}, {"a": {"b": "d", "c": None}}, {"a": {"b": "d"}}),
    ({"a": [{"b": "c"}]}, {"a": [1]}, {"a": [1]}), (["a", "b"], ["c", "d"], ["c", "d"]),
    ({"a": "b"}, ["c"], ["c"]), ({"a": "foo"}, None, None), ({"a": "foo"}, "bar", "bar"),
    ({"e": None}, {"a": 1}, {"e": None, "a": 1}), ([1, 2], {"a": "b", "c": None}, {"a": "b"}),
    ({}, {"a": {"bb": {"ccc": None}}}, {"a": {"bb": {}}}),
]


def test_merge_patches_of_the_standard(gateway):
    for doc, patch, result in _MERGES:
        gateway.put("/documents/merge", doc)
        assert gateway.merge("merge", patch).status == 200
        assert gateway.get("/documents/merge").json() == result


# Pointers and queries: RFC 6901, section 5, and RFC 9535.

_POINTED = {"foo": ["bar", "baz"], "": 0, "a/b": 1, "c%d": 2, "e^f": 3, "g|h": 4, "i\\j": 5, "k\"l": 6, " ": 7,
            "m~n": 8}


def test_pointers_are_percent_decoded_once(gateway):
    gateway.put("/documents/pointed", _POINTED)
    # RFC 6901, section 6: as URI fragment identifiers.
    for pointer, value in (("", _POINTED), ("/foo", ["bar", "baz"]), ("/foo/0", "bar"), ("/", 0), ("/a~1b", 1),
                           ("/c%25d", 2), ("/e%5Ef", 3), ("/g%7Ch", 4), ("/i%5Cj", 5), ("/k%22l", 6), ("/%20", 7),
                           ("/m~0n", 8)):
        assert gateway.get("/documents/pointed?pointer=" + pointer).json() == value, pointer
    is_problem(gateway.get("/documents/pointed?pointer=/c%2525d"), 404, 37)
    is_problem(gateway.get("/documents/pointed?pointer=foo"), 400, 38)
    for query in ("pointer=/%ff", "pointer=/%", "pionter=/foo", "pointer=/foo&pointer=/", "pointer=/foo&query=$"):
        is_problem(gateway.get("/documents/pointed?" + query), 400, name="parameter")


def test_queries(gateway):
    gateway.put("/documents/queried", {"a": [3, 5, 1], "it's": {"b": 2}})
    answer = gateway.get("/documents/queried?query=%24.a%5B%3F%40%3E2%5D")
    assert answer.json() == [{"path": "$['a'][0]", "value": 3}, {"path": "$['a'][1]", "value": 5}]
    assert answer.tag() == gateway.get("/documents/queried").tag()
    assert gateway.get("/documents/queried?query=%24..b").json() == [{"path": "$['it\\'s']['b']", "value": 2}]
    assert gateway.get("/documents/queried?query=%24.none").json() == []
    told = is_problem(gateway.get("/documents/queried?query=%24%5B?%40=1%5D"), 400, 50)
    assert told["detail"] == "at character 5 (`=1]`): one `=` compares nothing: write `==`"
    is_problem(gateway.get("/documents/queried?query=" + "%24" * 1025), 414, 52)


def test_names_are_percent_decoded_once(gateway):
    gateway.put("/documents/a-b", 1)
    assert gateway.get("/documents/%61%2Db").json() == 1
    for name in ("a%252Db", "a%2Fb", "a%20b", "%C3%A9", "x" * 65):
        is_problem(gateway.get(f"/documents/{name}"), 400, 15)


# Lists.

def test_names_in_the_order_of_creation(gateway):
    for name in ("order-z", "order-a", "order-m"):
        gateway.put(f"/documents/{name}", {"of": name})
    assert gateway.get("/documents?prefix=order-").json() == ["order-z", "order-a", "order-m"]
    answer = gateway.get("/documents?prefix=order-", Accept="application/x-ndjson")
    assert (answer.status, answer.headers["Content-Type"]) == (200, "application/x-ndjson")
    records = [json.loads(line) for line in answer.body.splitlines()]
    assert [record["name"] for record in records] == ["order-z", "order-a", "order-m"]
    assert [record["doc"] for record in records] == [{"of": record["name"]} for record in records]
    for record in records:
        assert gateway.get(f"/documents/{record['name']}").tag() == f'"{record["rev"]}"'


# Schemas and refusals.

def test_schemas(gateway):
    gateway.put("/documents/counts", {"bolts": 40})
    assert gateway.get("/schemas/counts").json() is True
    assert gateway.put("/schemas/counts", COUNTS, Content_Type="application/schema+json").status == 200
    answer = gateway.get("/schemas/counts")
    assert (answer.json(), answer.headers["Content-Type"]) == (COUNTS, "application/schema+json")
    assert answer.tag() == gateway.get("/documents/counts").tag()
    is_problem(gateway.put("/schemas/counts", {"type": "text"}), 422, 40)
    is_problem(gateway.put("/schemas/counts", {"pattern": "x"}), 422, 41)
    is_problem(gateway.put("/schemas/counts", {"title": "x" * 262144}), 422, 44)


def test_a_likely_mistake_in_a_schema_is_told(gateway):
    said = "schema /minimun: `minimun` is not a keyword, and is ignored: perhaps `minimum` is meant"
    made = gateway.put("/documents/warned?schema=%7B%22minimun%22%3A3%7D", 1)
    assert (made.status, made.json()["warnings"]) == (201, [said])
    assert gateway.put("/schemas/warned", {"minimun": 4}).json()["warnings"] == [said]
    changes = changes_of(set_schema("warned", True), set_schema("warned", {"minimun": 5}))
    answer = gateway.ask("POST", "/transactions", changes)
    assert answer.json()["warnings"] == [f"change 1, counted from 0: {said}"]
    assert list(gateway.put("/schemas/warned", {"minimum": 1}).json()) == ["seq"]


@pytest.mark.parametrize("query, step", [
    ("$[?@.total > 6000]", ".total"), ("$[?@.none || @['total'] > 6000]", "['total']"), ("$[?@['\u00e9']]", ".NAME"),
    ("$[?$.total > 6000]", None), ("$[?@ == 8]", None), ("$[?@ == 5000]", None), ("$[?@.none]", None),
])
def test_a_filter_that_asks_the_members_for_what_the_document_has(gateway, query, step):
    gateway.put("/documents/filtered", {"total": 5000, "\u00e9": 1})
    answer = gateway.get("/documents/filtered?query=" + quote(query))
    told = answer.headers["Jpstore-Warning"]
    assert answer.status == 200 and (told is not None) == (step is not None)
    assert step is None or (answer.json() == [] and told.endswith(f"the document's own is `${step}`"))


def under(schema):
    return "schema=" + quote(json.dumps(schema))


def test_a_document_is_put_with_its_schema_again_and_again(gateway):
    """Neither schema need allow the other document: so it may be imported as often as one likes."""
    path = "/documents/imported?"
    old, new = {"type": "integer"}, {"type": "object", "required": ["n"]}
    for doc, schema, status in ((1, old, 201), (2, old, 200), ({"n": 1}, new, 200), (3, old, 200)):
        answer = gateway.put(path + under(schema), doc)
        assert (answer.status, gateway.get("/documents/imported").json()) == (status, doc)
        assert gateway.get("/schemas/imported").json() == schema
        assert answer.tag() == f'"{answer.json()["seq"]}"' == gateway.get("/documents/imported").tag()
    tag = gateway.get("/documents/imported").tag()
    problem = is_problem(gateway.put(path + under(new), {}), 422, 45)
    assert "change" not in problem and "op" not in problem
    is_problem(gateway.put(path + under({"type": "text"}), 1), 422, 40)
    is_problem(gateway.put(path + under(new), {"n": 1}, If_Match='"1"'), 412, 24)
    is_problem(gateway.put(path + under(new), {"n": 1}, If_None_Match="*"), 412, 20)
    is_problem(gateway.put("/documents/none?" + under(new), {"n": 1}, If_Match="*"), 412, 21)
    assert gateway.get("/documents/imported").tag() == tag
    assert gateway.put(path + under(new), {"n": 1}, If_Match=tag).status == 200


def test_a_new_document_under_a_schema(gateway):
    text = "%7B%22type%22%3A%22object%22%7D"
    is_problem(gateway.put(f"/documents/under?schema={text}", 5), 422, 45)
    assert gateway.put(f"/documents/under?schema={text}", {}).status == 201
    assert gateway.get("/schemas/under").json() == {"type": "object"}
    is_problem(gateway.put(f"/documents/under?schema={text}", {}, If_None_Match="*"), 412, 20)
    link = '</schemas/under>; rel="describedby"'
    assert gateway.put("/documents/linked", {"a": 1}, Link=link).status == 201
    assert gateway.get("/schemas/linked").json() == {"type": "object"}
    is_problem(gateway.put("/documents/other", 1, Link='<http://example.org/s>; rel="describedby"'), 400, name="link")
    is_problem(gateway.put("/documents/other?schema=%7B", 1), 400, 11)
    assert gateway.put("/documents/other", 1, Link='</schemas/under>; rel="next"').status == 201


def test_a_refusal_tells_each_fault(gateway):
    pytest.importorskip("jsonschema")
    pytest.importorskip("jsonpatch")
    gateway.put("/documents/faults", {"bolts": 40})
    gateway.put("/schemas/faults", COUNTS)
    found = fault("/bolts", "/additionalProperties/minimum", "-1 is less than the minimum of 0")
    patch = [{"op": "replace", "path": "/bolts", "value": -1}]
    for method, body, kind in (("PATCH", patch, "json-patch+json"), ("PUT", {"bolts": -1}, "json"),
                               ("PATCH", {"bolts": -1}, "merge-patch+json")):
        answer = gateway.told(lambda told: "errors" in told, method, "/documents/faults", body,
                              Content_Type=f"application/{kind}")
        told = is_problem(answer, 422, 45, name="invalid", type="/problems/invalid", errors=[found])
        assert gateway.get(told["type"]).json()["meaning"] == told["title"]
    assert gateway.get("/documents/faults").json() == {"bolts": 40}


@pytest.mark.parametrize("body, number", [
    (b"", 11), (b"{", 11), (b"\xff", 11), (b"1 2", 11), (b"[" * 3000, 11), (b"1.5", 12), (b"9223372036854775808", 12),
    (b'"\\ud800"', 12), (b"[" * 65 + b"]" * 65, 13), (b'"' + b"x" * 1048577 + b'"', 10),
])
def test_bodies_that_no_document_is(gateway, body, number):
    status = {10: 413, 11: 400, 12: 422, 13: 422}[number]
    is_problem(gateway.put("/documents/bodies", body), status, number)


# A request, its number, the place that is told, and what to do. Where they are told too, they are those of the client.
_DEEP = json.loads("[" * 65 + "]" * 65)
_PLACES = [
    ("PUT", "/documents/d", b'{\n "a": }', 11, "not JSON: line 2, column 7: Expecting value",
     "correct the text; a JSON parser tells the place"),
    ("PUT", "/documents/d", b'{\n "a": "\xff"}', 11, "not UTF-8: line 2, column 8: byte 0xff",
     "correct the text; a JSON parser tells the place"),
    ("PUT", "/documents/d", b"[" * 127 + b"]" * 127, 11, "line 1, column 65: level 65 begins", "correct the text"),
    ("POST", "/transactions", b"\n" + b"[" * 200 + b"]" * 200, 11, "line 2, column 128: level 128 begins",
     "correct the text"),
    ("PUT", "/documents/d", b'[1,\n 1.5]', 12, "line 2, column 2: a number is not whole: send a whole number",
     "send whole numbers, or a text"),
    ("PUT", "/documents/d", b"\n" + b"[" * 65 + b"]" * 65, 13, "line 2, column 65: level 65 begins",
     "make the document flatter"),
    ("POST", "/transactions", {"changes": [{"cmd": "create", "doc": _DEEP, "name": "e", "schema": True}]},
     13, "level 65 begins at `/doc" + "/0" * 28 + "` .. `", "make the document flatter"),
    ("POST", "/transactions", {"changes": [{"cmd": "create", "doc": 1, "name": "e"}]}, 14,
     "change 0, counted from 0: `create` lacks `schema`; it has `", "compare with the command in"),
    ("POST", "/transactions", {"changes": [{"cmd": "delete", "name": "a b"}]}, 15, "`a b` has ' ' as its character 2",
     "use the letters A to Z"),
    ("POST", "/transactions", {"changes": [{"cmd": "patch", "name": "d", "ops": [
        {"op": "replace", "path": "", "value": 1}, {"op": "replac", "path": ""}]}]}, 30,
     '`op` is "replac": perhaps "replace" is meant', "compare the operations with RFC 6902"),
    ("POST", "/transactions", {"changes": [{"cmd": "patch", "name": "d", "ops": [{"op": "remove", "path": "n"}]}]}, 31,
     "`path`: `n` doesn't begin with `/`", "begin it with `/`"),
    ("PUT", "/schemas/d", {"properties": {"a": {"minimum": "1"}}}, 40, "at `/properties/a/minimum`: ",
     "compare the schema with JSON Schema Validation"),
    ("PUT", "/schemas/d", {"items": {"pattern": "x"}}, 41, "at `/items/pattern`: ", "leave the keyword out"),
    ("PUT", "/schemas/d", {"$schema": "http://json-schema.org/draft-07/schema#"}, 41, "at `/$schema`: ",
     "`jpstore-cli schema adapt FILE` makes a schema of it that the store reads"),
    ("PUT", "/schemas/d", {"items": {"$ref": "#/none"}}, 42, "at `/items/$ref`: ", "define the schema under `$defs`"),
    ("PUT", "/schemas/d", {"$ref": "#"}, 43, "the way from the root leads back to it for the same value",
     "put `properties` or `items` between"),
    ("GET", "/documents/d?query=%24.a%5B", None, 50, "at character 5 (the end): ", "compare the query with RFC 9535"),
    ("GET", "/documents/d?query=%24%5B?%40.a%3E1.5%5D", None, 51, "at character 8 (`1.5]`): ",
     "compare with whole numbers and `==`"),
]


@pytest.mark.parametrize("method, path, body, number, place, advice", _PLACES)
def test_a_refusal_tells_the_place_and_what_to_do(gateway, method, path, body, number, place, advice):
    gateway.put("/documents/d", 1)
    answer = gateway.told(lambda told: told["detail"].startswith(place), method, path, body)
    told = is_problem(answer, answer.status, number)
    assert told["advice"].startswith(advice), told


def test_media_types_of_a_document(gateway):
    for kind in ("application/json", "application/json; charset=utf-8", "application/problem+json", "Application/JSON"):
        assert gateway.put("/documents/media", b"1", Content_Type=kind).status in (200, 201), kind
    for kind in ("text/plain", "application/x-www-form-urlencoded", "application/json-patch+json",
                 "application/json; charset=latin-1"):
        is_problem(gateway.put("/documents/media", b"1", Content_Type=kind), 415)
    is_problem(gateway.put("/documents/media", b"1", Content_Encoding="gzip"), 415)


# Server-sent events: HTML, section 9.2.

def test_changes_are_events(gateway):
    begin = gateway.get("/status").json()["seq"]
    gateway.put("/documents/events", {"n": 1})
    with Events(gateway, f"/changes?from={begin}") as events:
        assert events.response.headers["Content-Type"] == "text/event-stream; charset=utf-8"
        kind, data, number = events.next()
        change = {"cmd": "create", "doc": {"n": 1}, "name": "events", "schema": True}
        # The identifier has the number, and the name of the history up to it.
        assert events.last_id == f"{begin + 1}-{json.loads(data)['history']}"
        assert (kind, without_history(data), number) == \
            ("message", {"change": change, "seq": begin + 1}, str(begin + 1))
        gateway.put("/documents/events", "two\nlines\u2028")
        _, data, number = events.next()
        assert (json.loads(data)["change"]["ops"][0]["value"], number) == ("two\nlines\u2028", str(begin + 2))
    # A client that comes again goes on after the last event that it has.
    with Events(gateway, f"/changes?from={begin}", Last_Event_ID=str(begin + 1)) as events:
        assert events.next()[2] == str(begin + 2)
    # Without a number only further changes are told.
    with Events(gateway, "/changes") as events:
        gateway.put("/documents/events", 3)
        assert events.next()[2] == str(begin + 3)


def test_changes_that_are_gone(gateway):
    is_problem(gateway.get("/changes?from=1000000"), 410, 80)
    for text in ("-1", "x", "1" * 19, ""):
        is_problem(gateway.get(f"/changes?from={text}"), 400)


# The store and the description.

def test_the_status_and_the_figures(gateway):
    status = gateway.get("/status").json()
    names = gateway.get("/documents").json()
    assert (status["broken"], status["sectors"], status["documents"]) == (False, 4096, len(names))
    assert gateway.get("/healthz").json() == {"ok": True}
    answer = gateway.get("/metrics")
    assert answer.headers["Content-Type"].startswith("text/plain; version=0.0.4")
    lines = answer.body.decode().splitlines()
    assert f"jpstore_capacity_bytes {status['capacity']}" in lines
    assert "# TYPE jpstore_changes_total counter" in lines
    assert any(line.startswith('jpstore_http_requests_total{method="GET",status="200"} ') for line in lines)
    # Each line is a comment or a sample, and each family has its HELP and its TYPE before.
    sample = re.compile(r'([a-z_]+)({[a-z]+="[^"\\]*"(,[a-z]+="[^"\\]*")*})? \d+')
    families = {}
    for line in lines:
        if line.startswith("# "):
            _, kind, name, _ = line.split(" ", 3)
            families.setdefault(name, []).append(kind)
        else:
            assert families[sample.fullmatch(line).group(1)] == ["HELP", "TYPE"], line
    # A client that makes methods up makes no figures.
    for method in ("MKCOL", "PROPFIND"):
        gateway.ask(method, "/status")
    told = gateway.get("/metrics").body.decode()
    assert 'method="other",status="405"} 2\n' in told and "MKCOL" not in told


def test_the_description_has_each_route(gateway):
    told = gateway.get("/openapi.json").json()
    assert told["openapi"].startswith("3.1.")
    for path, item in told["paths"].items():
        # RFC 9110, 15.5.6: a method that is not allowed is answered with those that are.
        answer = gateway.ask("BREW", re.sub("{.*}", "x", path))
        described = {method.upper() for method in item if method != "parameters"}
        assert (answer.status, set(re.split(", *", answer.headers["Allow"]))) == (405, described), path
        # OpenAPI 3.1, section 4.8.12.1: each name in a path is a parameter that is required.
        assert re.findall(r"{(\w+)}", path) == [each["name"] for each in item.get("parameters", []) if each["required"]]
    for place in re.findall(r'"\$ref": "#/([^"]*)"', json.dumps(told)):
        part = told
        for token in place.split("/"):
            part = part[token]


def test_problems_are_as_they_are_described(gateway):
    jsonschema = pytest.importorskip("jsonschema")
    schema = gateway.get("/openapi.json").json()["components"]["schemas"]["Problem"]
    validator = jsonschema.Draft202012Validator({**schema, "additionalProperties": False})
    gateway.put("/documents/described?schema=%7B%22type%22%3A%22object%22%7D", {})
    for answer in (gateway.get("/nothing"), gateway.get("/documents/none"), gateway.put("/documents/described", 1),
                   gateway.put("/documents/described", b"{"), gateway.put("/schemas/described", {"pattern": "x"}),
                   gateway.patch("described", [{"op": "test", "path": "", "value": 1}]),
                   gateway.put("/documents/described", {}, If_Match='"0"'),
                   gateway.ask("POST", "/transactions", changes_of(delete("described"), delete("none")))):
        assert answer.status >= 400
        validator.validate(answer.json())


def test_transactions_are_as_they_are_described(gateway):
    jsonschema = pytest.importorskip("jsonschema")
    post = gateway.get("/openapi.json").json()["paths"]["/transactions"]["post"]
    body = jsonschema.Draft202012Validator(post["requestBody"]["content"]["application/json"]["schema"])
    changes = [create("x-a", 1), patched("x-a", [], 0), set_schema("x-a", True), delete("x-a")]
    body.validate(changes_of(*changes))
    for wrong in (changes_of(), changes_of({"cmd": "get", "name": "a"}), {}, {**changes_of(*changes), "x": 1},
                  changes_of(*[changes[0]] * 1025), changes_of({"cmd": "delete"}), changes_of(patched("x-a", [], -1))):
        assert not body.is_valid(wrong)
    answer = gateway.ask("POST", "/transactions", changes_of(changes[0], changes[3]))
    done = post["responses"]["200"]
    assert "headers" not in done
    jsonschema.validate(answer.json(), done["content"]["application/json"]["schema"])
