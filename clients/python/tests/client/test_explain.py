"""Why a document is refused: the place and the keyword of each fault, by the library `jsonschema`."""
import json
import sys

import pytest
from jpstore import Fault, Invalid, JpstoreError, Store, create, explain, patch
from serving import RealHub
from support import raised

pytest.importorskip("jsonschema")
pytest.importorskip("jsonpatch")

SCHEMA = {
    "$defs": {"count": {"type": "integer", "minimum": 0, "maximum": 100}},
    "properties": {"bolts": {"$ref": "#/$defs/count"}, "tags": {"items": {"maxLength": 3}}, "a/b": {"const": 1}},
    "required": ["bolts"],
}


def places(faults):
    return [(fault.place, fault.keyword) for fault in faults]


def test_each_fault_has_its_place_and_its_keyword(place):
    with place.made() as store:
        refused = raised(Invalid, store.create, "d", {"bolts": 101, "tags": ["red", "green"], "a/b": 2}, SCHEMA)
        assert places(refused.why()) == [
            ("/a~1b", "/properties/a~1b/const"), ("/bolts", "/$defs/count/maximum"),
            ("/tags/1", "/properties/tags/items/maxLength")]
        assert str(refused.why()[1]) == (
            "at `/bolts`: 101 is greater than the maximum of 100 (schema `/$defs/count/maximum`)")
        assert places(raised(Invalid, store.create, "d", {}, SCHEMA).why()) == [("", "/required")]
        assert places(raised(Invalid, store.create, "d", 1, False).why()) == [("", "")]


def test_a_patch_and_a_new_schema_are_explained(place):
    with place.made() as store:
        store.create("d", {"bolts": 1, "tags": []}, SCHEMA)
        wrong = [{"op": "add", "path": "/tags/-", "value": "long"}]
        refused = raised(Invalid, store.patch, "d", wrong)
        assert places(refused.why()) == [("/tags/0", "/properties/tags/items/maxLength")]
        refused = raised(Invalid, store.set_schema, "d", {"properties": {"bolts": {"minimum": 5}}})
        assert places(refused.why()) == [("/bolts", "/properties/bolts/minimum")]
        outcomes = store.group([patch("d", wrong), create("e", -1, SCHEMA["$defs"]["count"])], check=False)
        assert [places(refused.why()) for refused in outcomes] == [
            [("/tags/0", "/properties/tags/items/maxLength")], [("", "/minimum")]]
        assert store.get("d") == {"bolts": 1, "tags": []}


def test_clients_of_a_hub_and_the_shell_say_why(place):
    place.format()
    place.text("schema.json", '{"maximum": 5}')
    with RealHub(place) as hub, Store.connect(hub.path) as store:
        refused = raised(Invalid, store.create, "d", 6, {"maximum": 5})
        assert places(refused.why()) == [("", "/maximum")]
        ended = place.run("socket", given=b"new d schema.json 6\n", status=1)
        assert ended.stderr.decode().splitlines() == [
            "line 1: create d: 45 invalid: the document, as the change would leave it, is not valid under its schema",
            "  why: the document: 6 is greater than the maximum of 5 (schema `/maximum`)",
            "  what to do: " + refused.advice]


def test_a_reason_outlives_the_store(place):
    with pytest.raises(Invalid) as caught:
        with place.made() as store:
            store.create("d", 1, {"maximum": 5})
            store.patch("d", [{"op": "replace", "path": "", "value": 6}])
    assert places(caught.value.why()) == [("", "/maximum")]
    told = place.run("set", "store", "d", "", "6", "--whole", status=5).stderr.decode()
    assert "  why: the document: 6 is greater than the maximum of 5 (schema `/maximum`)\n" in told
    told = json.loads(place.run("set", "store", "d", "", "6", "--whole", "--json", status=5).stderr)
    assert told["why"] == "the document: 6 is greater than the maximum of 5 (schema `/maximum`)"


def test_a_reason_is_told_after_the_store_was_closed(place):
    with place.made() as store:
        store.create("d", 1, {"maximum": 5})
        six = patch("d", [{"op": "replace", "path": "", "value": 6}])
        refused = [raised(Invalid, store.patch, "d", six["ops"]), raised(Invalid, store.group, [six])]
        outcome, = store.group([six], check=False)
        store.patch("d", [{"op": "replace", "path": "", "value": 2}])
    assert [places(each.why()) for each in refused] == [[("", "/maximum")]] * 2
    assert [fault.message for fault in outcome.why()] == [
        "the document was not read while it could be: the store is closed"]


def test_without_the_library_it_says_how_to_get_it(place, monkeypatch):
    monkeypatch.setitem(sys.modules, "jsonschema", None)
    with place.made() as store:
        refused = raised(Invalid, store.create, "d", 6, {"maximum": 5})
        assert "pip install jsonschema jsonpatch" in str(raised(JpstoreError, refused.why))


def test_a_patch_that_the_library_cannot_do_is_told(place):
    with place.made() as store:
        store.create("d", 1, {"maximum": 5})
        for whole in ({"op": "add", "value": 6}, {"op": "copy", "from": "", "value": 0}):
            refused, = store.group([patch("d", [{**whole, "path": ""}, {"op": "replace", "path": "", "value": 7}])],
                                   check=False)
            assert "jsonpatch cannot make the document" in str(raised(JpstoreError, refused.why))


def test_a_verdict_that_differs_is_told(place):
    with place.made() as store:
        store.create("d", 1, {"maximum": 5})
        refused, = store.group([patch("d", [{"op": "replace", "path": "", "value": 6}])], check=False)
        # The document gets another schema before the question why.
        store.set_schema("d", True)
        fault, = refused.why()
        assert "jsonschema finds no fault" in fault.message
        store.delete("d")
        store.create("d", [])
        refused.command["ops"] = [{"op": "remove", "path": "/0"}]
        assert "was changed meanwhile" in str(raised(JpstoreError, refused.why))


def test_a_document_is_explained_by_itself():
    assert explain({"a": 1}, {"required": ["a"]}) == []
    assert "cannot judge" in str(raised(JpstoreError, explain, 1, {"$ref": "#/nowhere"}))
    assert explain([], {"type": "object"}) == [Fault("", "/type", "[] is not of type 'object'")]


def test_references_are_followed_as_the_store_does():
    for schema, keyword in (
            ({"items": {"$ref": "#/properties/"}, "properties": {"": {"maximum": 0}}}, "/properties//maximum"),
            ({"items": {"$ref": "#/%24defs/a~1%/not"}, "$defs": {"a/%": {"not": {"maximum": 0}}}},
             "/$defs/a~1%/not/maximum"),
            ({"$id": "http://x/y", "items": {"$ref": "http://x/y#/then"}, "then": {"maximum": 0}}, "/then/maximum"),
            ({"items": {"$ref": "#%61"}, "$defs": {"b": {"$anchor": "a", "maximum": 0}}}, "/$defs/b/maximum")):
        assert explain([1], schema) == [Fault("/0", keyword, "1 is greater than the maximum of 0")]
