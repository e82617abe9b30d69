"""Schemas of earlier drafts, and in several documents, as ones that the store reads and that say the same."""
import glob
import json
import os
import random

import pytest
from jpstore import Schema, Unsendable, explain
from jpstore.wire.values import text_of

jsonschema = pytest.importorskip("jsonschema")

_SUITE = "/usr/share/json-schema-test-suite"
_DRAFTS = {name: f"http://json-schema.org/draft-0{name}/schema#" for name in (3, 4, 6, 7)}
_VALIDATORS = {3: jsonschema.Draft3Validator, 4: jsonschema.Draft4Validator, 6: jsonschema.Draft6Validator,
               7: jsonschema.Draft7Validator, 2019: jsonschema.Draft201909Validator,
               2020: jsonschema.Draft202012Validator}
_2020 = jsonschema.Draft202012Validator

# Schemas by draft, and what says the same in 2020-12, by the drafts' own lists of changes.
_TRANSLATED = [
    (4, {"id": "http://a/b", "definitions": {"n": {"type": "integer"}},
         "properties": {"a": {"$ref": "#/definitions/n"}}},
     {"$id": "http://a/b", "properties": {"a": {"$ref": "#/$defs/n"}}, "$defs": {"n": {"type": "integer"}}}),
    (4, {"minimum": 1, "exclusiveMinimum": True, "maximum": 5, "exclusiveMaximum": False},
     {"exclusiveMinimum": 1, "maximum": 5}),
    (7, {"items": [{"type": "integer"}, {}], "additionalItems": {"type": "null"}},
     {"prefixItems": [{"type": "integer"}, {}], "items": {"type": "null"}}),
    (7, {"items": {"type": "integer"}, "additionalItems": False}, {"items": {"type": "integer"}}),
    (7, {"dependencies": {"a": ["b"], "b": {"required": ["c"]}}},
     {"dependentRequired": {"a": ["b"]},
      "allOf": [{"if": {"type": "object", "required": ["b"]}, "then": {"required": ["c"]}}]}),
    (2019, {"dependentSchemas": {"a": {"maxProperties": 1}}},
     {"allOf": [{"if": {"type": "object", "required": ["a"]}, "then": {"maxProperties": 1}}]}),
    (7, {"properties": {"a": {"$ref": "#/properties/b", "maxLength": 1}, "b": {"type": "string"}}},
     {"properties": {"a": {"$ref": "#/$defs/b"}, "b": {"type": "string"}}, "$defs": {"b": {"type": "string"}}}),
    (7, {"properties": {"a": {"$ref": "#x"}}, "definitions": {"n": {"$id": "#x", "type": "null"}}},
     {"properties": {"a": {"$ref": "#/$defs/n"}}, "$defs": {"n": {"type": "null"}}}),
    (2020, {"properties": {"a": {"$ref": "#x"}}, "$defs": {"n": {"$anchor": "x", "type": "null"}}},
     {"properties": {"a": {"$ref": "#/$defs/n"}}, "$defs": {"n": {"type": "null"}}}),
    (7, {"definitions": {"a b": {"$ref": "#"}}, "properties": {"a": {"$ref": "#/definitions/a%20b"}}},
     {"properties": {"a": {"$ref": "#/$defs/a_b"}}, "$defs": {"a_b": {"$ref": "#"}}}),
    (4, {"if": {"type": "null"}, "then": False, "const": 3}, {}),
    (3, {"properties": {"a": {"required": True, "divisibleBy": 2}}, "extends": {"minProperties": 1}},
     {"properties": {"a": {"multipleOf": 2}}, "required": ["a"], "allOf": [{}]}),
    (3, {"type": ["integer", {"maxLength": 1}], "disallow": ["null"]},
     {"anyOf": [{"type": "integer"}, {"maxLength": 1}], "not": {"anyOf": [{"type": "null"}]}}),
    (7, {"minimum": 0.5, "maximum": 2.5, "multipleOf": 0.5}, {"minimum": 1, "maximum": 2, "multipleOf": 1}),
    (7, {"exclusiveMinimum": -0.5, "exclusiveMaximum": 4.0, "minLength": 2.0},
     {"minimum": 0, "exclusiveMaximum": 4, "minLength": 2}),
    (7, {"enum": [1, 1.5, "a"], "default": 0.5}, {"enum": [1, "a"]}),
    (7, {"const": 0.5}, {"enum": []}), (7, {"maximum": 1e300}, {}),
    (2020, {"properties": {"a": {}}, "unevaluatedProperties": False},
     {"properties": {"a": {}}, "additionalProperties": False}),
    (2020, {"prefixItems": [{}], "unevaluatedItems": {"type": "null"}},
     {"prefixItems": [{}], "items": {"type": "null"}}),
    (2019, {"properties": {"a": {"$recursiveRef": "#"}}, "additionalProperties": False},
     {"properties": {"a": {"$ref": "#"}}, "additionalProperties": False}),
    (2020, {"$dynamicAnchor": "x", "items": {"$dynamicRef": "#x"}}, {"items": {"$ref": "#"}}),
    (7, {"allOf": [], "required": ["a", "a"]}, {"required": ["a"]}),
    (2020, {"$ref": "#/$defs/a", "$dynamicRef": "#/$defs/b", "$defs": {"a": {"minimum": 1}, "b": {"maximum": 2}}},
     {"$ref": "#/$defs/a", "allOf": [{"$ref": "#/$defs/b"}], "$defs": {"a": {"minimum": 1}, "b": {"maximum": 2}}}),
]

# Keywords that the library judges wrongly in some versions: it raises TypeError, or goes astray in recursion.
_MISJUDGED = {"unevaluatedItems", "$recursiveRef"}


def _declared(draft, schema):
    uri = _DRAFTS.get(draft) or f"https://json-schema.org/draft/{'2019-09' if draft == 2019 else '2020-12'}/schema"
    return {"$schema": uri, **schema}


def _some_value(chance, depth=2):
    kinds = ["number", "number", "text", "plain", "list", "object", "object"][:None if depth else 4]
    kind = chance.choice(kinds)
    if kind == "number":
        return chance.randint(-3, 7)
    if kind == "text":
        return chance.choice(["", "a", "ab", "abc"])
    if kind == "plain":
        return chance.choice([None, True, False])
    if kind == "list":
        return [_some_value(chance, depth - 1) for _ in range(chance.randint(0, 3))]
    return {name: _some_value(chance, depth - 1) for name in chance.sample("abc", chance.randint(0, 3))}


# What is otherwise in profile 3, which reads references to any place.
_TRANSLATED_TO_3 = [
    (4, {"id": "http://a/b", "definitions": {"n": {"type": "integer"}},
         "properties": {"a": {"$ref": "b#/definitions/n"}, "b": {"$ref": "http://a/b#/properties/a"}}},
     {"$id": "http://a/b", "$defs": {"n": {"type": "integer"}},
      "properties": {"a": {"$ref": "#/$defs/n"}, "b": {"$ref": "http://a/b#/properties/a"}}}),
    (7, {"properties": {"a": {"$ref": "#/properties/b"}, "b": {"type": "string"}}},
     {"properties": {"a": {"$ref": "#/properties/b"}, "b": {"type": "string"}}}),
    (7, {"items": [{"type": "null"}], "properties": {"a": {"$ref": "#/items/0"}}},
     {"prefixItems": [{"type": "null"}], "properties": {"a": {"$ref": "#/prefixItems/0"}}}),
    (7, {"properties": {"a": {"$ref": "#x"}}, "definitions": {"n": {"$id": "#x", "type": "null"}}},
     {"properties": {"a": {"$ref": "#/$defs/n"}}, "$defs": {"n": {"type": "null"}}}),
    (7, {"definitions": {"a b": {"$ref": "#"}}, "properties": {"a": {"$ref": "#/definitions/a%20b"}}},
     {"$defs": {"a b": {"$ref": "#"}}, "properties": {"a": {"$ref": "#/$defs/a%20b"}}}),
    (7, {"properties": {"a": {"definitions": {"n": {"type": "null"}},
                              "not": {"$ref": "#/properties/a/definitions/n"}}}},
     {"properties": {"a": {"$defs": {"n": {"type": "null"}}, "not": {"$ref": "#/properties/a/$defs/n"}}}}),
    (2020, {"properties": {"a": {"$ref": "#x"}}, "$defs": {"n": {"$anchor": "x", "type": "null"}}},
     {"properties": {"a": {"$ref": "#x"}}, "$defs": {"n": {"$anchor": "x", "type": "null"}}}),
    (2019, {"properties": {"a": {"$ref": "#x:y"}}, "$defs": {"n": {"$anchor": "x:y", "type": "null"}}},
     {"properties": {"a": {"$ref": "#/$defs/n"}}, "$defs": {"n": {"type": "null"}}}),
    (2020, {"properties": {"a": {"$ref": "#x"}, "b": {"$ref": "n#x"}},
            "$defs": {"m": {"$anchor": "x", "type": "null"}, "n": {"$id": "n", "$anchor": "x", "type": "integer"}}},
     {"properties": {"a": {"$ref": "#x"}, "b": {"$ref": "#/$defs/n"}},
      "$defs": {"m": {"$anchor": "x", "type": "null"}, "n": {"type": "integer"}}}),
    (2020, {"properties": {"a": {"$ref": "#/components/n"}, "b": {"$ref": "#/components/n/items"}},
            "components": {"n": {"items": {"type": "null"}}}},
     {"properties": {"a": {"$ref": "#/$defs/n"}, "b": {"$ref": "#/$defs/n/items"}},
      "components": {"n": {"items": {"type": "null"}}}, "$defs": {"n": {"items": {"type": "null"}}}}),
    (2020, {"properties": {"a": {"$ref": "#/properties/b"}, "b": False, "c": {"$ref": "#/x"}}, "x": False},
     {"properties": {"a": {"$ref": "#/properties/b"}, "b": False, "c": {"$ref": "#/$defs/x"}}, "x": False,
      "$defs": {"x": False}}),
    (2020, {"patternProperties": {r"^\d/~$": {"type": "null"}},
            "properties": {"a": {"$ref": "#/patternProperties/%5E%5Cd~1~0$"}}},
     {"patternProperties": {"^[0-9]/~$": {"type": "null"}},
      "properties": {"a": {"$ref": "#/patternProperties/%5E%5B0-9%5D~1~0$"}}}),
    (2020, {"$dynamicAnchor": "x", "items": {"$dynamicRef": "#x"}}, {"items": {"$ref": "#"}}),
    (2020, {"$dynamicAnchor": "x", "$anchor": "y", "items": {"$ref": "#y"}}, {"$anchor": "y", "items": {"$ref": "#y"}}),
]


@pytest.mark.parametrize("draft, schema, wanted", _TRANSLATED_TO_3)
def test_references_to_any_place_are_kept_in_profile_3(draft, schema, wanted):
    adapted = Schema.adapt(_declared(draft, schema), profile=3)
    made = {word: value for word, value in adapted.schema.items() if word != "$schema"}
    assert (made, adapted.left, adapted.is_read) == (wanted, [], True)
    # What was made is kept as it is.
    assert Schema.adapt(adapted.schema, profile=3).schema == adapted.schema


def test_a_schema_of_profile_3_says_the_same():
    for draft, schema, _ in [*_TRANSLATED, *_TRANSLATED_TO_3]:
        if _MISJUDGED & set(json.dumps(schema).split('"')):
            continue
        adapted = Schema.adapt(_declared(draft, schema), profile=3)
        assert adapted.left == []
        before, after, chance = _VALIDATORS[draft](_declared(draft, schema)), _2020(adapted.schema), random.Random(7)
        for value in (_some_value(chance) for _ in range(300)):
            assert before.is_valid(value) == after.is_valid(value), (schema, value)


@pytest.mark.parametrize("draft, schema, wanted", _TRANSLATED)
def test_a_schema_says_the_same_in_2020_12(place, draft, schema, wanted):
    adapted = Schema.adapt(_declared(draft, schema), profile=2)
    made = {word: value for word, value in adapted.schema.items() if word != "$schema"}
    assert (made, adapted.left, adapted.is_read) == (wanted, [], True)
    # What an earlier validator and one of 2020-12 say of documents is the same.
    before, after, chance = _VALIDATORS[draft](_declared(draft, schema)), _2020(adapted.schema), random.Random(7)
    for _ in range(0 if _MISJUDGED & set(json.dumps(schema).split('"')) else 300):
        value = _some_value(chance)
        assert before.is_valid(value) == after.is_valid(value), value
    with place.made() as store:
        store.create("d", {}, True)
        for value in (_some_value(chance) for _ in range(40)):
            store.put("d", value, True)
            accepted = not isinstance(store.group([{"cmd": "schema", "name": "d", "schema": adapted.schema}],
                                                  check=False)[0], Exception)
            assert accepted == after.is_valid(value), value


def test_what_is_not_the_same_is_told():
    schema = _declared(7, {"properties": {"a": {"$ref": "#", "maxLength": 1}, "b": {"minimum": 0.5}}, "nullable": True})
    assert list(map(str, Schema.adapt(schema).changes)) == [
        "at `/properties/a`: `maxLength` beside `$ref` had no effect in the draft, and is left out",
        "at `/properties/b/minimum`: the bound 0.5 is `minimum` 1 for whole numbers",
        "at `/nullable`: `nullable` without a `type` had no effect, and is left out"]


def test_what_the_store_does_not_read_is_left_and_told():
    schema = _declared(7, {"properties": {"a": {"pattern": "^a"}, "b": {"$ref": "http://nowhere/b.json"}},
                           "patternProperties": {"^x": {}}, "additionalProperties": False})
    adapted = Schema.adapt(schema, profile=2)
    assert [(fault.number, fault.place) for fault in adapted.left] == [
        (41, "/patternProperties"), (41, "/properties/a/pattern"), (42, "/properties/b/$ref")]
    dropped = Schema.adapt(schema, drop=["pattern", "patternProperties"], profile=2)
    assert [fault.place for fault in dropped.left] == ["/properties/b/$ref"]
    # Without its patterns, `additionalProperties` would refuse what these allow.
    assert dropped.schema["$comment"] == (
        "left out for jpstore: additionalProperties (1), pattern (1), patternProperties (1)")
    assert [change.place for change in dropped.changes] == [
        "/properties/a/pattern", "/patternProperties", "/additionalProperties"]
    assert schema["properties"]["a"] == {"pattern": "^a"}


def test_what_references_lead_to_is_bundled():
    files = {"http://x/b.json": {"definitions": {"n": {"$ref": "c.json"}}},
             "http://x/c.json": {"$schema": _DRAFTS[4], "minimum": 1, "exclusiveMinimum": True,
                                 "anyOf": [{"$ref": "#/definitions/c"}], "definitions": {"c": {"type": "integer"}}}}
    asked = []
    adapted = Schema.adapt({"$id": "http://x/a.json", "properties": {"a": {"$ref": "b.json#/definitions/n"}}},
                           read=lambda uri: asked.append(uri) or files.get(uri), profile=2)
    assert adapted.schema == {
        "$id": "http://x/a.json", "properties": {"a": {"$ref": "#/$defs/n"}},
        "$defs": {"n": {"$ref": "#/$defs/c"}, "c_2": {"type": "integer"},
                  "c": {"exclusiveMinimum": 1, "anyOf": [{"$ref": "#/$defs/c_2"}]}}}
    assert (adapted.left, asked) == ([], ["http://x/b.json", "http://x/c.json"])


def test_a_schema_is_adapted_for_format_3_if_not_told_otherwise():
    schema = {"properties": {"a": {"pattern": r"^\d$"}}}
    assert Schema.adapt(schema).schema["properties"] == {"a": {"pattern": "^[0-9]$"}}
    assert Schema.faults(schema) == Schema.faults(schema, profile=3) != Schema.faults(schema, profile=2)


def test_names_that_are_none_are_told():
    for schema, place in (({"required": [{}]}, "/required"), ({"dependencies": {"a": [1, []]}}, "/dependentRequired")):
        assert [(fault.number, fault.place) for fault in Schema.adapt(schema).left] == [(40, place)]


def test_a_schema_that_is_too_long_is_told():
    schema = {"description": "x" * 262144}
    assert [fault.number for fault in Schema.adapt(schema).left] == [44]
    assert Schema.faults({"pattern": "("})[0].place == "/pattern" and Schema.faults({"minimum": 1}) == []


def _remote(uri):
    path = os.path.join(_SUITE, "remotes", uri.partition("localhost:1234/")[2])
    if not os.path.isfile(path):
        return None
    with open(path, encoding="utf-8") as opened:
        return json.load(opened)


@pytest.mark.skipif(not os.path.isdir(_SUITE), reason="Debian's json-schema-test-suite is not installed")
@pytest.mark.parametrize("profile", [2, 3])
@pytest.mark.parametrize("draft", [3, 4, 6, 7])
def test_the_suite_of_the_drafts_agrees(draft, profile):
    read = 0
    for file in sorted(glob.glob(f"{_SUITE}/tests/draft{draft}/*.json")):
        with open(file, encoding="utf-8") as opened:
            cases = json.load(opened)
        for case in cases:
            schema = case["schema"]
            declared = _declared(draft, schema) if isinstance(schema, dict) else schema
            adapted = Schema.adapt(declared, read=_remote, profile=profile)
            if not adapted.is_read:
                continue
            read += 1
            for test in case["tests"]:
                try:
                    text_of(test["data"])
                except Unsendable:
                    continue
                # It knows the patterns of the store, and takes its time.
                valid = (not explain(test["data"], adapted.schema, 1) if "pattern" in json.dumps(adapted.schema)
                         else _2020(adapted.schema).is_valid(test["data"]))
                assert valid == test["valid"], (file, case, test)
    assert read > 50
