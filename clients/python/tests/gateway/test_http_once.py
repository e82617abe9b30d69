"""Requests with `Idempotency-Key` over HTTP are made once; marks, which they rest on."""
import concurrent.futures
import json
import re
import urllib.parse

import pytest
from gateways import Events, Gateway, without_history
from hubs import wait_until_free
from jpstore import Store, create, delete, patch as patched, set_schema

# The fields of an answer that are those of the first one.
FIELDS = ("ETag", "Location", "Link", "Accept-Patch", "Content-Type")


@pytest.fixture(scope="module", params=["file", "hub"])
def gateway(program, request):
    """A gateway over a file in format 3, or over a hub of one; each test has documents and keys of its own."""
    import tempfile

    from support import Place
    with tempfile.TemporaryDirectory(prefix="jpstore-") as folder:
        place = Place(program, folder)
        place.format(16384, version=3)
        with Gateway(place, "--socket", place.path("socket")) as running:
            if request.param == "file":
                yield running
            else:
                with Gateway(place, store=place.path("socket")) as other:
                    yield other


def refused(answer, status, name, number=None):
    """The answer is Problem Details of this name."""
    told = answer.json()
    kind = f"/problems/{name}" if number else "about:blank"
    assert (answer.status, told["status"], told["name"], told["type"]) == (status, status, name, kind), told
    assert told.get("number") == number
    return told


def told(answer):
    """What an answer says, but for what each has for itself."""
    return answer.status, answer.body, [answer.headers[field] for field in FIELDS]


def seq_of(gateway):
    return gateway.get("/status").json()["seq"]


def add(name, value, **fields):
    return "PATCH", f"/documents/{name}", [{"op": "add", "path": "/-", "value": value}], {
        "Content_Type": "application/json-patch+json", **fields}


def changes(*all_of_them):
    return {"changes": list(all_of_them)}


def rows():
    """Requests, each after some changes, that would be answered in another way if they were done again."""
    schema = {"minimun": 1}
    before = [create("d", [1]), create("e", {"a": 1})]
    kind = {"Content_Type": "application/merge-patch+json"}
    return [
        ([], ("PUT", "/documents/d", [1], {})),
        (before, ("PUT", "/documents/d", [1], {})),
        (before, ("PUT", "/documents/d", [1], {"If_Match": "TAG"})),
        ([], ("PUT", "/documents/d", [1], {"If_None_Match": "*"})),
        ([], ("PUT", f"/documents/d?schema={urllib.parse.quote(json.dumps(schema))}", [1], {})),
        (before, ("PUT", "/documents/f", 1, {"Link": '</schemas/e>; rel="describedby"'})),
        (before, add("d", 2)),
        (before, add("d", 2, If_Match="TAG")),
        (before, ("PATCH", "/documents/e", {"a": None, "b": 2}, kind)),
        (before, ("PATCH", "/documents/e", {"b": 2}, {**kind, "If_Match": "*"})),
        (before, ("DELETE", "/documents/d", None, {})),
        (before, ("DELETE", "/documents/d", None, {"If_Match": "TAG"})),
        (before, ("PUT", "/schemas/d", schema, {})),
        (before, ("PUT", "/schemas/d", schema, {"If_Match": "TAG"})),
        (before, ("POST", "/transactions", changes(patched("d", [{"op": "add", "path": "/-", "value": 2}]),
                                                   set_schema("e", schema)), {})),
    ]


@pytest.mark.parametrize("number", range(len(rows())))
@pytest.mark.parametrize("after", ["nothing", "changes", "deletion"])
def test_a_request_with_a_key_is_made_once(gateway, number, after):
    for name in gateway.get("/documents").json():
        assert gateway.ask("DELETE", f"/documents/{name}").status == 200
    before, (method, path, body, fields) = rows()[number]
    if before:
        assert gateway.ask("POST", "/transactions", changes(*before)).status == 200
    tag = gateway.get("/documents/d").tag()
    fields = {name: tag if value == "TAG" else value for name, value in fields.items()}
    fields["Idempotency_Key"] = f'"{number} {after}"'
    first = gateway.ask(method, path, body, **fields)
    assert first.status in (200, 201), first.body
    if after == "changes":
        gateway.put("/documents/d", {"other": 1})
    if after == "deletion":
        for name in gateway.get("/documents").json():
            gateway.ask("DELETE", f"/documents/{name}")
    seq, names = seq_of(gateway), gateway.get("/documents").json()
    for _ in range(2):
        assert told(gateway.ask(method, path, body, **fields)) == told(first)
    assert (seq_of(gateway), gateway.get("/documents").json()) == (seq, names)


def test_another_request_with_the_key_is_refused(gateway):
    gateway.put("/documents/reused", [1])
    tag = gateway.get("/documents/reused").tag()
    method, path, body, fields = add("reused", 2, Idempotency_Key='"reused"', If_Match=tag)
    assert gateway.ask(method, path, body, **fields).status == 200
    seq = seq_of(gateway)
    for other in ((method, path, body + body, fields), (method, "/documents/other", body, fields),
                  ("PUT", path, body, {**fields, "Content_Type": "application/json"}),
                  (method, path, body, {**fields, "If_Match": "*"}),
                  (method, path, {"a": 1}, {**fields, "Content_Type": "application/merge-patch+json"}),
                  ("DELETE", path, None, {"Idempotency_Key": '"reused"'}),
                  ("POST", "/transactions", changes(delete("reused")), {"Idempotency_Key": '"reused"'})):
        refused(gateway.ask(other[0], other[1], other[2], **other[3]), 422, "idempotency-key-reused")
    assert (seq_of(gateway), gateway.get("/documents/reused").json()) == (seq, [1, 2])


def test_requests_of_one_key_at_once_are_one(gateway):
    for number, field in enumerate((None, "TAG", "*")):
        name = f"at-once-{number}"
        tag = gateway.put(f"/documents/{name}", []).tag()
        fields = {"If_Match": tag if field == "TAG" else field} if field else {}
        method, path, body, fields = add(name, 1, Idempotency_Key=f'"{name}"', **fields)
        with concurrent.futures.ThreadPoolExecutor(8) as pool:
            answers = list(pool.map(lambda _: told(gateway.ask(method, path, body, **fields)), range(16)))
        assert answers == [answers[0]] * 16 and answers[0][0] == 200
        assert gateway.get(path).json() == [1]


@pytest.mark.parametrize("key", ["", "a", '"', '""', '"a', '"a"b"', '"\\a"', '"\u00e4"', '"a", "b"', '"a"b',
                                 '"' + 201 * "x" + '"'])
def test_a_key_that_is_none_is_refused(gateway, key):
    fields = {"Idempotency_Key": key.encode().decode("latin-1")}
    refused(gateway.put("/documents/bad-key", 1, **fields), 400, "idempotency-key")
    # It means nothing if nothing is changed.
    assert gateway.get("/documents/bad-key", **fields).status == 404


def test_keys_are_texts(gateway):
    for number, key in enumerate(('"' + 200 * "x" + '"', '"a \\"b\\\\"', '"~ !"')):
        path = f"/documents/text-{number}"
        answers = [told(gateway.put(path, 1, Idempotency_Key=each)) for each in (key, f" {key} ")]
        assert answers == [answers[0]] * 2 and answers[0][0] == 201


def test_a_refused_request_leaves_no_key(gateway):
    gateway.put("/documents/refused", {"n": 0})
    ops = [{"op": "test", "path": "/n", "value": 1}, {"op": "replace", "path": "/n", "value": 2}]
    fields = {"Idempotency_Key": '"refused"'}
    refused(gateway.patch("refused", ops, **fields), 409, "patch-test", 34)
    refused(gateway.put("/documents/refused", 1, If_Match='"0"', **fields), 412, "revision", 24)
    refused(gateway.ask("POST", "/transactions", changes({"cmd": "delete"}), **fields), 400, "command", 14)
    gateway.put("/documents/refused", {"n": 1})
    assert [gateway.patch("refused", ops, **fields).status for _ in range(2)] == [200, 200]
    assert gateway.get("/documents/refused").json() == {"n": 2}


def test_a_large_document_is_made_once(gateway):
    text = "x" * 1_048_000
    for key, status in (('"large"', 201), ('"large"', 201), ('"larger"', 200)):
        assert gateway.put("/documents/large", text, Idempotency_Key=key).status == status
    refused(gateway.put("/documents/large", text + 400 * "x", Idempotency_Key='"long"'), 413, "line-too-long", 10)
    assert gateway.put("/documents/large", text + 400 * "x").status == 200


def test_followers_are_sent_the_changes_alone(gateway):
    seq = seq_of(gateway)
    gateway.put("/documents/sent", 1, Idempotency_Key='"sent"')
    both = changes(patched("sent", [{"op": "replace", "path": "", "value": 2}]), delete("sent"))
    gateway.ask("POST", "/transactions", both, Idempotency_Key='"sent 2"')
    with Events(gateway, f"/changes?from={seq}") as events:
        found = [without_history(events.next()[1]) for _ in range(3)]
    assert found[0] == {"change": create("sent", 1), "seq": seq + 1}
    assert found[1:] == [{"change": change, "first": seq + 2, "last": seq + 3, "seq": number}
                         for number, change in enumerate(both["changes"], seq + 2)]


# Marks of the client.

def test_marks_are_set_and_read(gateway):
    assert gateway.get("/marks/m").json() == {"mark": None}
    first = {**changes(create("marked", 1)), "mark": {"key": "m", "value": "a"}, "if_mark": None}
    seq = gateway.ask("POST", "/transactions", first).json()["seq"]
    assert gateway.get("/marks/m").json() == {"mark": "a", "seq": seq}
    # The mark is judged before the document.
    answer = refused(gateway.ask("POST", "/transactions", first), 409, "mark", 25)
    assert (answer["mark"], answer["seq"], "change" in answer) == ("a", seq, False)
    second = {**changes(delete("marked")), "mark": {"key": "m", "value": "b"}, "if_mark": "a"}
    assert gateway.ask("POST", "/transactions", second).json() == {"seq": seq + 1}
    third = {**second, "mark": {"key": "none", "value": "b"}}
    absent = refused(gateway.ask("POST", "/transactions", third), 409, "mark", 25)
    assert absent["mark"] is None and "seq" not in absent
    refused(gateway.get("/marks/a%20b"), 400, "name", 15)
    refused(gateway.ask("POST", "/transactions", first, Idempotency_Key='"both"'), 400, "idempotency-key")
    refused(gateway.ask("POST", "/transactions", {**first, "mark": 1}), 400, "command", 14)
    told_of = gateway.get("/openapi.json").json()["paths"]["/transactions"]["post"]["requestBody"]["content"]
    jsonschema = pytest.importorskip("jsonschema")
    jsonschema.validate(first, told_of["application/json"]["schema"])


def test_the_description_has_the_key(gateway):
    told_of = gateway.get("/openapi.json").json()["paths"]
    found = {(path, method) for path, item in told_of.items() for method, each in item.items() if method != "parameters"
             and any(part["name"] == "Idempotency-Key" for part in each.get("parameters", []))}
    assert found == {("/documents/{name}", "put"), ("/documents/{name}", "patch"), ("/documents/{name}", "delete"),
                     ("/schemas/{name}", "put"), ("/transactions", "post")}
    part, = [each for each in told_of["/transactions"]["post"]["parameters"] if each["name"] == "Idempotency-Key"]
    for key, is_one in (('"a"', True), ('"a \\"b\\\\"', True), ('""', False), ("a", False), ('"a"b"', False)):
        assert bool(re.search(part["schema"]["pattern"], key)) == is_one, key


# What stays.

def test_keys_are_kept_over_a_kill_a_snapshot_and_a_growth(place):
    place.format(512, version=3)
    asked = add("d", 1, Idempotency_Key='"kept"')

    def ask(gateway):
        return told(gateway.ask(asked[0], asked[1], asked[2], **asked[3]))
    with Gateway(place, "--socket", place.path("socket")) as gateway:
        assert gateway.put("/documents/d", []).status == 201
        first = ask(gateway)
        gateway.kill()
    wait_until_free(place.file)
    with Gateway(place, "--socket", place.path("socket")) as gateway:
        assert ask(gateway) == first
        with Store.connect(place.path("socket")) as store:
            store.snapshot()
            assert ask(gateway) == first
            store.grow(1024)
        assert ask(gateway) == first
        assert gateway.get("/documents/d").json() == [1]
        gateway.kill()
    wait_until_free(place.file)
    with Gateway(place) as gateway:
        assert ask(gateway) == first


def test_the_newest_1024_keys_are_known(place):
    place.format(8192, version=3)
    with Gateway(place) as gateway:
        assert gateway.put("/documents/d", 0, Idempotency_Key='"0"').status == 201
        with concurrent.futures.ThreadPoolExecutor(16) as pool:
            answers = pool.map(lambda number: gateway.put("/documents/e", number, Idempotency_Key=f'"k{number}"'),
                               range(1023))
            assert sum(answer.status in (200, 201) for answer in answers) == 1023
        assert gateway.put("/documents/d", 0, Idempotency_Key='"0"').json() == {"seq": 1}
        assert gateway.put("/documents/e", 1, Idempotency_Key='"one more"').status == 200
        again = gateway.put("/documents/d", 0, Idempotency_Key='"0"')
        assert (again.status, again.json()["seq"]) == (200, 1026)


def test_a_store_of_format_2_has_no_keys(place):
    place.format()
    with Gateway(place) as gateway:
        assert gateway.put("/documents/d", []).status == 201
        asks = [("PUT", "/documents/d", [1], {}), ("PUT", "/documents/e", [1], {}), add("d", 1),
                ("DELETE", "/documents/d", None, {"If_Match": '"1"'}), ("PUT", "/schemas/d", True, {}),
                ("POST", "/transactions", changes(delete("d")), {})]
        for method, path, body, fields in asks:
            answer = gateway.ask(method, path, body, Idempotency_Key='"k"', **fields)
            assert "jpstore upgrade" in refused(answer, 501, "idempotency-key-unsupported")["detail"]
        assert (seq_of(gateway), gateway.get("/documents/d").json()) == (1, [])
        assert gateway.get("/marks/k").json() == {"mark": None}
