"""What the client says of a refused command: which member, which keyword, which character, and what helps."""
import json
import os
import random
import re
import subprocess

import pytest
from jpstore import Malformed, Refused, TooLarge, create, format_file, patch
from jpstore.errors import refusal_of
from jpstore.faults import detail_of, fault_of_query, faults_of_schema
from support import raised

_OLD = "http://json-schema.org/draft-07/schema#"

# Schemas that the store refuses: the number, the place, and what is said there.
_SCHEMAS = [
    ({"type": "text"}, 40, "/type", "`type` is \"text\", and must be one of null, boolean"),
    ({"properties": {"a/b": {"minLength": "3"}}}, 40, "/properties/a~1b/minLength", "must be a whole number from 0"),
    ({"required": ["a", "a"]}, 40, "/required", "must be a list of different names"),
    ({"items": {"required": True}}, 40, "/items/required", "it lists the names, beside `properties`"),
    ({"items": [{}]}, 40, "/items", "a list of schemas is `prefixItems` in 2020-12"),
    ({"exclusiveMinimum": True}, 40, "/exclusiveMinimum", "it is the bound itself, in place of `minimum`"),
    ({"allOf": [{}, 5]}, 40, "/allOf/1", "5 is no schema: it is an object, true or false"),
    ({"multipleOf": 0}, 40, "/multipleOf", "must be a whole number from 1"),
    ({"properties": {"a": {"pattern": "^a"}}}, 41, "/properties/a/pattern", "`pattern` needs a store of format 3"),
    ({"$defs": {"a": {"patternProperties": {}}}}, 41, "/$defs/a/patternProperties", "in format 2 `properties` has the"),
    ({"items": {"$id": "x"}}, 41, "/items/$id", "`$id` is for the root only"),
    ({"$schema": _OLD}, 41, "/$schema", "`python3 -m jpstore schema adapt` translates earlier drafts"),
    ({"properties": {"a": {"$ref": "#/definitions/b"}}}, 42, "/properties/a/$ref", "put that schema under `$defs`"),
    ({"$ref": "#/definitions/b", "$defs": {"b": {}}}, 42, "/$ref", "write `#/$defs/b`"),
    ({"$ref": "#/$defs/adress", "$defs": {"address": {}}}, 42, "/$ref", "perhaps `#/$defs/address` is meant"),
    ({"$ref": "other.json"}, 42, "/$ref", "as `python3 -m jpstore schema adapt` does with files"),
    ({"$defs": {"a": {"allOf": [{"$ref": "#/$defs/a"}]}}}, 43, "/$defs/a", "leads back to it for the same value"),
]

# Queries that it refuses: the number, the character, counted from 1, and what is said there.
_QUERIES = [
    ("stock", 50, 1, "a query begins with `$`"),
    ("$.a ", 50, 4, "ends with a blank"),
    ("$.stock-min", 50, 8, "a segment begins with `.` or `[`"),
    ("$.2a", 50, 3, "after a dot comes a name"),
    ("$[a]", 50, 3, "in brackets is a name in quotes"),
    ("$['a", 50, 3, "has no end"),
    ("$[1", 50, 4, "`,` or `]` is missing here"),
    ("$[01]", 50, 3, "no leading zeros"),
    ("$[?@.a = 1]", 50, 8, "one `=` compares nothing: write `==`"),
    ("$[?@.a == b]", 50, 11, "a text is in quotes"),
    ("$[?@.* == 1]", 50, 4, "only a query that leads to one value can be compared"),
    ("$[?size(@) > 1]", 50, 4, "no function is called `size`: there are length, count"),
    ("$[?length(@.a)]", 50, 4, "a value by itself tests nothing"),
    ("$[?count(1) > 1]", 50, 10, "`count` needs a query"),
    ("$[?!@.a == 1]", 50, 5, "is in parentheses"),
    ("$[?match(@.a, 'b.*')]", 51, 4, "`match` is not supported"),
    ("$[?@.a > 1.5]", 51, 10, "`1.5` is not a 64-bit whole number"),
]

# Commands that are none: what is said of them.
_COMMANDS = [
    ({"cmd": "get", "name": "d"}, "`get` lacks `path`; it has `cmd`, `name`, `path`"),
    ({"cmd": "get", "name": "d", "pth": ""}, "`get` has no member `pth`: perhaps `path` is meant"),
    ({"cmd": "get", "name": 5, "path": ""}, "`name` of `get` is 5, and must be a text"),
    ({"cmd": "gte", "name": "d"}, "`cmd` is \"gte\", and no such command exists: perhaps \"get\" is meant"),
    ({"name": "d"}, "it lacks `cmd`"),
    ({"cmd": "patch", "name": "d", "ops": [], "if_rev": -1}, "`if_rev` of `patch` is -1, and must be a whole number"),
    ({"cmd": "create", "name": "d", "doc": 1}, "`create` lacks `schema`"),
    ({"cmd": "pump", "max": 0}, "must be a whole number from 1 to 1,000,000"),
    ({"cmd": "transaction", "changes": []}, "`changes` is a list of 0, and must be a list of 1 to 1,024 changes"),
    ({"cmd": "transaction", "changes": [{"cmd": "delete", "name": "d"}, {"cmd": "delete"}]},
     "change 1, counted from 0: `delete` lacks `name`"),
    ({"cmd": "transaction", "changes": [{"cmd": "get", "name": "d"}]}, "no such change exists; it is one of create"),
    ({"cmd": "transaction", "changes": [[]]}, "change 0, counted from 0: a command is an object, and this is []"),
]


def answered(place, lines):
    """What the program answers to these commands, over a store in memory."""
    given = "".join(json.dumps(line) + "\n" for line in lines).encode()
    words = [place.program, "mem", "--sectors", "65536"]
    ended = subprocess.run(words, input=given, stdout=subprocess.PIPE, check=True)
    return [json.loads(line) for line in ended.stdout.splitlines()]


def test_the_keyword_of_a_schema_is_told(place):
    with place.made() as store:
        for schema, number, where, said in _SCHEMAS:
            refused = raised(Malformed, store.create, "d", 1, schema)
            assert refused.number == number
            assert refused.detail.startswith(f"at `{where}`: ") and said in refused.detail, refused.detail
            assert str(refused) == f"create d: {number} {refused.name}: {refused.detail}"
            assert [fault.place for fault in faults_of_schema(schema) if fault.number == number][0] == where


def test_the_character_of_a_query_is_told(place):
    with place.made() as store:
        store.create("d", {})
        for query, number, character, said in _QUERIES:
            refused = raised(Malformed, store.query, "d", query)
            assert refused.number == number
            assert re.match(rf"at character {character} \(", refused.detail) and said in refused.detail, refused.detail


def test_the_member_of_a_command_is_told(place):
    for (command, said), reply in zip(_COMMANDS, answered(place, [command for command, _ in _COMMANDS])):
        assert reply["number"] == 14
        refused = refusal_of(reply, command)
        assert said in refused.detail and str(refused).endswith(refused.detail), refused.detail
    assert detail_of(14, {"cmd": "list"}) == ""


def deep_at(place):
    """What is said of a place that is too deep: its begin and its end."""
    return f"level 65 begins at `{place[:60]}` .. `{place[-60:]}`"


def test_the_place_of_what_is_too_deep_is_told(place):
    with place.made() as store:
        deep = json.loads("[" * 65 + "]" * 65)
        refused = raised(TooLarge, store.create, "d", {"a/b": [1, deep]})
        assert (refused.number, refused.detail) == (13, deep_at("/doc/a~1b/1" + "/0" * 62))
        store.create("d", {"a": 1})
        refused = raised(TooLarge, store.patch, "d", [
            {"op": "test", "path": "/a", "value": 1}, {"op": "add", "path": "/a", "value": deep[0]}])
        assert (refused.number, refused.detail) == (13, deep_at("/ops/1/value" + "/0" * 63))


def test_the_character_of_a_name_is_told(place):
    with place.made() as store:
        for name, said in (("team/service", "`team/service` has '/' as its character 5"), ("", "the name is empty"),
                           ("\u00e4", "has '\u00e4' as its character 1"), ("a" * 65, "the name has 65 characters")):
            refused = raised(Malformed, store.create, name, 1)
            assert refused.number == 15 and said in str(refused)


def test_the_place_in_a_transaction_is_told(place):
    with place.made() as store:
        changes = [create("a", 1), create("b", 1, {"pattern": "x"})]
        refused = raised(Refused, store.transaction, changes)
        assert (refused.change, refused.detail[:14]) == (1, "at `/pattern`:")
        refused = raised(Refused, store.transaction, [{**patch("a", []), "ifrev": 1}])
        assert "`patch` has no member `ifrev`: perhaps `if_rev` is meant" in str(refused)


# What is made of a valid query or schema by a few wrong letters or members.
_VALID = ["$.a['b'][0]", "$[-1:2:3, 'x']", "$[?@.a==1]", "$[?(@.a<2&&@.b>=-1)||!@.c]", "$..[*]", "$[?length(@.a)>1]",
          "$[?count(@.*)==2]", "$[?value(@..a)=='x']", "$[?match(@.a,'a.*')]", "$[ 'a' , 0 , ?@ ]", "$[?@==1.5e3]",
          "$[?@=='\\u00e4\\n']", "$.\u00e4b [1 : 2]", '$["a\\"b"]', "$[?length(value(@.a))==-0]"]
_LETTERS = "$@.[]'\"*?:,()!=<>&|01-abtrue \t\\\u00e9"
_VALUES = {
    "type": ["string", "text", ["null", "array"], ["null", "null"]], "enum": [[1], {}], "multipleOf": [2, 0],
    "maxItems": [3, -1], "uniqueItems": [True, 1], "required": [["a"], ["a", "a"], "a"], "pattern": ["a"],
    "dependentRequired": [{"a": ["b"]}, {"a": "b"}], "$ref": ["#", "#/$defs/a", "#/$defs/c", "x", 1], "$id": ["x"],
    "$schema": ["https://json-schema.org/draft/2020-12/schema", _OLD], "title": [1], "definitions": [1],
}
_HOLDERS = {
    **dict.fromkeys(("additionalProperties", "items", "not", "if", "then", "contains"), lambda part: part()),
    **dict.fromkeys(("allOf", "oneOf", "prefixItems"), lambda part: [part(), part()]),
    **dict.fromkeys(("properties", "$defs"), lambda part: {"a": part(), "b": part()}),
}


def _wrong_query(chance):
    letters = list(chance.choice(_VALID))
    for _ in range(chance.randint(0, 3)):
        place = chance.randrange(len(letters))
        letters[place:place + chance.randint(0, 1)] = chance.choice(_LETTERS) * chance.randint(0, 1) or "."
    return "".join(letters)


def _some_schema(chance, depth, values=_VALUES, holders=_HOLDERS):
    if depth == 0 or chance.random() < 0.2:
        return chance.choice([True, False, {}, {}, {}, 1])
    schema = {word: chance.choice(values[word]) for word in chance.sample(sorted(values), chance.randint(0, 1))}
    for word in chance.sample(sorted(holders), chance.randint(0, 2)):
        schema[word] = holders[word](lambda: _some_schema(chance, depth - 1, values, holders))
    return schema


def test_the_store_and_the_client_agree_on_queries(place):
    chance = random.Random(74)
    queries = [_wrong_query(chance) for _ in range(3000)]
    lines = [create("d", {}), *({"cmd": "query", "name": "d", "path": query} for query in queries)]
    numbers = [reply.get("number") for reply in answered(place, lines)[1:]]
    assert set(numbers) == {None, 50, 51}
    for query, number in zip(queries, numbers):
        fault = fault_of_query(query)
        assert (fault and fault.number) == number, query


def test_the_store_and_the_client_agree_on_schemas(place):
    chance = random.Random(74)
    schemas = [_some_schema(chance, 3) for _ in range(1000)]
    replies = answered(place, [create(f"d{number}", 1, schema) for number, schema in enumerate(schemas)])
    numbers = [None if reply.get("number") == 45 else reply.get("number") for reply in replies]
    assert set(numbers) == {None, 40, 41, 42, 43}
    for schema, number in zip(schemas, numbers):
        found = {fault.number for fault in faults_of_schema(schema)}
        assert number in found if number else not found, schema


# What profile 3 has beside that, and what some patterns are by the documentation of Rust's crate.
_VALUES_IN_3 = {
    **_VALUES,
    "pattern": ["a", "(", "a{2,1}", r"[\w&&[^_]]", r"\d{2}", r"(?=a)", "[a", r"\p{L}", "a" * 4097, "(?i)a", r"\q"],
    "unevaluatedItems": [True], "$anchor": ["a", "b", "1", 1],
    "$ref": [*_VALUES["$ref"], "", "#/items", "#/allOf/1", "#/properties/a/not", "#/oneOf/01", "#/%24defs/b",
             "x#/items", r"#/patternProperties/%5E\d%2B$", "#/definitions", "#/not/%ff", "#/$defs/~0",
             "#a", "#%62", "x#a"],
}
_HOLDERS_IN_3 = {**_HOLDERS, "dependentSchemas": lambda part: {"a": part(), "b": part()},
                 "patternProperties": lambda part: {"a": part(), r"^\d+$": part()}}


def test_the_store_and_the_client_agree_on_schemas_of_profile_3(place):
    chance, file = random.Random(73), os.path.join(place.folder, "third")
    schemas = [_some_schema(chance, 3, _VALUES_IN_3, _HOLDERS_IN_3) for _ in range(1000)]
    format_file(file, 65536, place.program, version=3)
    lines = [create(f"d{number}", 1, schema) for number, schema in enumerate(schemas)]
    given = "".join(json.dumps(line) + "\n" for line in lines).encode()
    ended = subprocess.run([place.program, "serve", file], input=given, stdout=subprocess.PIPE, check=True)
    replies = [json.loads(line) for line in ended.stdout.splitlines()]
    numbers = [None if reply.get("number") == 45 else reply.get("number") for reply in replies]
    assert set(numbers) == {None, 40, 41, 42, 43, 44}
    for schema, number in zip(schemas, numbers):
        found = {fault.number for fault in faults_of_schema(schema, 3)}
        assert number in found if number else not found, schema


@pytest.mark.time_limit(20)
def test_a_hostile_command_is_looked_at_in_little_time_and_memory():
    long, name = "n" * 100000, "$" + "[?" + "(" * 500
    many = {"properties": {long: {"properties": {f"p{number}": {"type": 1} for number in range(10000)}}}}
    assert len(str(next(faults_of_schema(many)))) < 500
    assert detail_of(40, create("d", 1, many))
    assert fault_of_query(name) is None or fault_of_query(name).number == 50
    loop = {"$defs": {f"d{number}": {"$ref": f"#/$defs/d{(number + 1) % 5000}"} for number in range(5000)}}
    assert [fault.number for fault in faults_of_schema(loop)] == [43]
    pointers = {"allOf": [{"$ref": f"#/allOf/{(number + 1) % 5000}"} for number in range(5000)]}
    assert [fault.number for fault in faults_of_schema(pointers, 3)] == [43]
    fault, = faults_of_schema({"items": {"$ref": "#" + "/not" * 50000}, "not": {}}, 3)
    assert (fault.number, len(fault.message) < 500) == (42, True)
    anchors = {"allOf": [{"$anchor": "a", "$ref": f"#b{number}"} for number in range(5000)]}
    assert {fault.number for fault in faults_of_schema(anchors, 3)} == {40, 42}
    assert {fault.number for fault in faults_of_schema(anchors)} == {41, 42}
    assert len(detail_of(43, create("d", 1, loop))) < 1000
